// Each of two work-items puts a number into its own word, and then one into that of the next: by one function, called twice.
void put(local int *tile, int at, int value)
{
    tile[at] = value;
}
void put_next(local int *tile, int l)
{
    put(tile, l + 1, 2);
}
kernel void calls(global int *output)
{
    local int tile[3];
    const int l = get_local_id(0);
    put(tile, l, 1);
    put_next(tile, l);
    barrier(CLK_LOCAL_MEM_FENCE);
    output[l] = tile[l + 1];
}
