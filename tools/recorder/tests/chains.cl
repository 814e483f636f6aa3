// Items of many groups count three words, by additions and by exchanges that fail where another item came between (OpenCL 2.0).
// `seen` has the counts that they read: a count says which operation wrote it.
#define OPERATIONS 20
kernel void chains(global atomic_int *words, global int *seen)
{
    int last[3] = {0, 0, 0};
    for (int at = 0; at < OPERATIONS; at++) {
        const int word = (get_local_id(0) + at) % 3;
        int read = last[word];
        bool is_done = true;
        if (at % 2 == 0)
            read = atomic_fetch_add_explicit(&words[word], 1, memory_order_acq_rel, memory_scope_device);
        else
            is_done = atomic_compare_exchange_strong_explicit(&words[word], &read, read + 1, memory_order_acq_rel, memory_order_acquire,
                                                              memory_scope_device);
        last[word] = read + is_done;
        seen[get_global_id(0) * OPERATIONS + at] = read;
    }
}
