// Reads a table in constant memory, by a load and by vload.
kernel void constants(constant int *table, global int *out)
{
    out[get_global_id(0)] = table[0] + vload2(0, table).y;
}
