// Oclgrind stops the kernel at work-item 5, in group 2: it has no such instruction.
kernel void stopped(global int *words)
{
    const int g = get_global_id(0);
    words[g] = 1;
    if (g == 5)
        __sync_synchronize();
    words[g] = 2;
}
