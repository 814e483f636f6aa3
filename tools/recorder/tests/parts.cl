// Accesses of parts of words. Neighbouring bytes and shorts are written by neighbouring work-items, which is no race; in group
// (1, 1) of 3 x 2 both work-items write the byte after them, and all groups write the last short.
kernel void parts(global uchar *bytes, global ushort *shorts, global int *words)
{
    const int at = get_global_id(0) + get_global_size(0) * get_global_id(1), all = get_global_size(0) * get_global_size(1);
    bytes[at] = 1;
    shorts[at] = 2;
    words[at] = 3;
    if (get_group_id(0) == 1 && get_group_id(1) == 1)
        bytes[all] = 4;
    if (get_local_id(0) == 0)
        shorts[all] = 5;
}
