// Each work-group writes its part, and the last that counts itself sums the parts (OpenCL 2.0). ORDER is the order of the count:
// memory_order_acq_rel hands the parts over, memory_order_relaxed does not, and memory_order_release does where the last group
// acquires by a load of its own (ACQUIRES). SCOPE is the scope of the count.
#ifndef SCOPE
#define SCOPE memory_scope_device
#endif
kernel void sum_all(global int *parts, global atomic_int *count, global int *sum)
{
    const int groups = get_num_groups(0);
    parts[get_group_id(0)] = get_group_id(0) + 1;
    if (atomic_fetch_add_explicit(count, 1, ORDER, SCOPE) != groups - 1)
        return;
#ifdef ACQUIRES
    atomic_load_explicit(count, memory_order_acquire, memory_scope_device);
#endif
    for (int at = 0; at < groups; at++)
        *sum += parts[at];
}
