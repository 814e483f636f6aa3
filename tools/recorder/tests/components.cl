// Of each two work-items one writes two components of a vector, the other one reads the others: with WRONG, one that is written.
kernel void components(global int4 *both, global int *out)
{
    const int g = get_global_id(0);
    if (g & 1)
#ifdef WRONG
        out[g] = both[g / 2].y;
#else
        out[g] = both[g / 2].zw.x + both[g / 2].w;
#endif
    else
        both[g / 2].xy = (int2)(g, g);
}
