// Each work-group counts under a lock. ORDER is the order in which it lets the lock go.
kernel void flag_lock(global atomic_flag *lock, global int *counter)
{
    while (atomic_flag_test_and_set_explicit(lock, memory_order_acquire, memory_scope_device))
        ;
    *counter += 1;
    atomic_flag_clear_explicit(lock, ORDER, memory_scope_device);
}
