// Each work-group sums its tile. MISTAKE says what is wrong: 1 the barrier after the load is missing, 2 it has no flag, 3 the
// barriers of the loop are in its branch, and else nothing.
#if MISTAKE == 1
#define LOADED
#elif MISTAKE == 2
#define LOADED barrier(0)
#else
#define LOADED barrier(CLK_LOCAL_MEM_FENCE)
#endif

kernel void sum_tiles(global const int *input, global int *sums, global uchar *marks)
{
    local int tile[16];
    const int l = get_local_id(0);
    tile[l] = input[get_global_id(0)];
    LOADED;
    for (int width = 8; width > 0; width /= 2) {
        if (l < width) {
            tile[l] += tile[l + width];
#if MISTAKE == 3
            barrier(CLK_LOCAL_MEM_FENCE);
#endif
        }
#if MISTAKE != 3
        barrier(CLK_LOCAL_MEM_FENCE);
#endif
    }
    marks[get_global_id(0)] = 1;
    if (l == 0)
        sums[get_group_id(0)] = tile[0];
}
