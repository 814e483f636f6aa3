// More than a trace has room for.
kernel void large(global int *words)
{
    words[get_global_id(0)] = 1;
}
