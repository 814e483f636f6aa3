int at(global int *words, int index)
{
    return words[index];
}
kernel void outside(global int *words)
{
    local int tile[2];
    const int g = get_global_id(0);
    int found = g == 0 ? at(words, -2) : 0;
    if (g > 0)
        found += vload4(0, words + g).x;
    if (g == 1)
        found += atomic_inc(&tile[3]);
    words[g] = found;
}
