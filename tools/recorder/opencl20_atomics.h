// The atomics of OpenCL C 2.0 for Oclgrind 21.10, which executes those of 1.2 alone. Each is a function that stays a
// call, so the recorder sees its arguments of order and scope; its body is the 1.2 atomic of the same effect.
// `gpurace-record` gives it to the compiler, and it does something where a program is built as of OpenCL C 2.0 or later.
// Pointers to global and local int and uint; no generic address space.
#if !defined(GPURACE_OPENCL20_ATOMICS_H) && defined(__OPENCL_C_VERSION__) && __OPENCL_C_VERSION__ >= 200
#define GPURACE_OPENCL20_ATOMICS_H

// weak, since the compiler else drops order and scope, which no body uses
#define GPURACE_OPERATION __attribute__((overloadable, noinline, weak))

#define GPURACE_CHANGE(OP, AS, AT, T)                                                       \
  GPURACE_OPERATION T gpurace_atomic_##OP(volatile AS AT *p, T v, int order, int scope) { \
    return atomic_##OP((volatile AS T *)p, v);                                              \
  }
#define GPURACE_ATOMICS(AS, AT, T)                                                    \
  GPURACE_OPERATION T gpurace_atomic_load(volatile AS AT *p, int order, int scope) {  \
    return atomic_or((volatile AS T *)p, (T)0);                                         \
  }                                                                                     \
  GPURACE_OPERATION void gpurace_atomic_store(volatile AS AT *p, T v, int order, int scope) { \
    atomic_xchg((volatile AS T *)p, v);                                                 \
  }                                                                                     \
  GPURACE_OPERATION bool gpurace_atomic_compare(volatile AS AT *p, private T *expected, T v, int order, int failure, int scope) { \
    T wanted = *expected;                                                               \
    *expected = atomic_cmpxchg((volatile AS T *)p, wanted, v);                          \
    return *expected == wanted;                                                         \
  }                                                                                     \
  GPURACE_CHANGE(xchg, AS, AT, T)                                                       \
  GPURACE_CHANGE(add, AS, AT, T)                                                        \
  GPURACE_CHANGE(sub, AS, AT, T)                                                        \
  GPURACE_CHANGE(or, AS, AT, T)                                                         \
  GPURACE_CHANGE(and, AS, AT, T)                                                        \
  GPURACE_CHANGE(xor, AS, AT, T)                                                        \
  GPURACE_CHANGE(min, AS, AT, T)                                                        \
  GPURACE_CHANGE(max, AS, AT, T)

GPURACE_ATOMICS(global, atomic_int, int)
GPURACE_ATOMICS(global, atomic_uint, uint)
GPURACE_ATOMICS(local, atomic_int, int)
GPURACE_ATOMICS(local, atomic_uint, uint)

#define GPURACE_DEFAULT memory_order_seq_cst, memory_scope_device

#define atomic_load_explicit(p, o, s) gpurace_atomic_load(p, o, s)
#define atomic_load(p) gpurace_atomic_load(p, GPURACE_DEFAULT)
#define atomic_store_explicit(p, v, o, s) gpurace_atomic_store(p, v, o, s)
#define atomic_store(p, v) gpurace_atomic_store(p, v, GPURACE_DEFAULT)
#define atomic_exchange_explicit(p, v, o, s) gpurace_atomic_xchg(p, v, o, s)
#define atomic_exchange(p, v) gpurace_atomic_xchg(p, v, GPURACE_DEFAULT)
#define atomic_fetch_add_explicit(p, v, o, s) gpurace_atomic_add(p, v, o, s)
#define atomic_fetch_add(p, v) gpurace_atomic_add(p, v, GPURACE_DEFAULT)
#define atomic_fetch_sub_explicit(p, v, o, s) gpurace_atomic_sub(p, v, o, s)
#define atomic_fetch_sub(p, v) gpurace_atomic_sub(p, v, GPURACE_DEFAULT)
#define atomic_fetch_or_explicit(p, v, o, s) gpurace_atomic_or(p, v, o, s)
#define atomic_fetch_or(p, v) gpurace_atomic_or(p, v, GPURACE_DEFAULT)
#define atomic_fetch_and_explicit(p, v, o, s) gpurace_atomic_and(p, v, o, s)
#define atomic_fetch_and(p, v) gpurace_atomic_and(p, v, GPURACE_DEFAULT)
#define atomic_fetch_xor_explicit(p, v, o, s) gpurace_atomic_xor(p, v, o, s)
#define atomic_fetch_xor(p, v) gpurace_atomic_xor(p, v, GPURACE_DEFAULT)
#define atomic_fetch_min_explicit(p, v, o, s) gpurace_atomic_min(p, v, o, s)
#define atomic_fetch_min(p, v) gpurace_atomic_min(p, v, GPURACE_DEFAULT)
#define atomic_fetch_max_explicit(p, v, o, s) gpurace_atomic_max(p, v, o, s)
#define atomic_fetch_max(p, v) gpurace_atomic_max(p, v, GPURACE_DEFAULT)
#define atomic_compare_exchange_strong_explicit(p, e, d, o, f, s) gpurace_atomic_compare(p, e, d, o, f, s)
#define atomic_compare_exchange_strong(p, e, d) gpurace_atomic_compare(p, e, d, memory_order_seq_cst, GPURACE_DEFAULT)
#define atomic_compare_exchange_weak_explicit(p, e, d, o, f, s) gpurace_atomic_compare(p, e, d, o, f, s)
#define atomic_compare_exchange_weak(p, e, d) atomic_compare_exchange_strong(p, e, d)
#define atomic_flag_test_and_set_explicit(p, o, s) (gpurace_atomic_xchg(p, 1, o, s) != 0)
#define atomic_flag_test_and_set(p) atomic_flag_test_and_set_explicit(p, GPURACE_DEFAULT)
#define atomic_flag_clear_explicit(p, o, s) gpurace_atomic_store(p, 0, o, s)
#define atomic_flag_clear(p) atomic_flag_clear_explicit(p, GPURACE_DEFAULT)

// the scope of a barrier, and the order and scope of a fence, say nothing to a trace
#define GPURACE_FIRST(flags, ...) flags
#define work_group_barrier(...) barrier(GPURACE_FIRST(__VA_ARGS__, 0))
#define atomic_work_item_fence(flags, order, scope) mem_fence(flags)

#endif
