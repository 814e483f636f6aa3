// Each work-item reads what another one has written before a wait for a copy, which is no barrier. WRONG leaves the barrier out.
kernel void waits(global const int *input, global int *output)
{
    local int tile[8], turned[8];
    const int l = get_local_id(0), first = get_group_id(0) * 8;
    event_t copied = async_work_group_copy(tile, input + first, 8, 0);
    turned[7 - l] = l;
    wait_group_events(1, &copied);
#ifndef WRONG
    barrier(CLK_LOCAL_MEM_FENCE);
#endif
    output[first + l] = turned[l] + tile[7 - l];
}
