// Each work-item executes a fence, and the last one writes after the end of the buffer. Neither is recorded.
kernel void left_out(global int *words)
{
    const int g = get_global_id(0);
    words[g] = 1;
    mem_fence(CLK_GLOBAL_MEM_FENCE);
    if (g == 3)
        words[g + 1] = 2;
}
