// Each work-group has its tile copied for it. WAIT 0 reads the tile before the copy is waited for, WAIT 2 a second one.
kernel void copy_tiles(global const int *input, global int *output)
{
    local int tile[8], other[8];
    const int l = get_local_id(0), first = get_group_id(0) * 8;
    event_t copied = async_work_group_copy(tile, input + first, 8, 0);
#if WAIT == 2
    copied = async_work_group_copy(other, input + first, 8, copied);
#endif
#if WAIT == 1
    wait_group_events(1, &copied);
#endif
    output[first + l] = WAIT == 2 ? other[7 - l] : tile[7 - l];
#if WAIT != 1
    wait_group_events(1, &copied);
#endif
}
