/* Stands in for ThreadSanitizer's library: code that was compiled with -fsanitize=thread calls it at each access of
 * memory and at the begin of each function. Atomic accesses are made as they were written, or more strongly ordered. */
#include "hold.h"
#include <stddef.h>
#include <string.h>

#define HERE ((uintptr_t)__builtin_return_address(0))
#define ORDERED __ATOMIC_SEQ_CST

void __tsan_init(void) {}
void __tsan_func_entry(void *caller) {
    function_begins(HERE);
    hold((uintptr_t)caller, BEFORE, ATOMIC);
}
void __tsan_func_exit(void) {}
void __tsan_ignore_thread_begin(void) {}
void __tsan_ignore_thread_end(void) {}
void __tsan_vptr_update(void **at, void *value) { (void)at, (void)value; }
void __tsan_vptr_read(void **at) { (void)at; }
void __tsan_read_range(void *at, size_t size) { (void)at, (void)size; }
void __tsan_write_range(void *at, size_t size) { (void)at, (void)size; }
void *__tsan_memcpy(void *to, const void *from, size_t size) { return memcpy(to, from, size); }
void *__tsan_memmove(void *to, const void *from, size_t size) { return memmove(to, from, size); }
void *__tsan_memset(void *to, int byte, size_t size) { return memset(to, byte, size); }

/* Called before the access. */
#define ACCESS(name) \
    void __tsan_##name(void *at) { \
        (void)at; \
        hold(HERE, BEFORE, PLAIN); \
    }
#define SIZE(bytes) \
    ACCESS(read##bytes) \
    ACCESS(write##bytes) \
    ACCESS(read_write##bytes) \
    ACCESS(unaligned_read##bytes) \
    ACCESS(unaligned_write##bytes) \
    ACCESS(unaligned_read_write##bytes) \
    ACCESS(volatile_read##bytes) \
    ACCESS(volatile_write##bytes) \
    ACCESS(unaligned_volatile_read##bytes) \
    ACCESS(unaligned_volatile_write##bytes)
SIZE(1)
SIZE(2)
SIZE(4) SIZE(8) SIZE(16)

    void __tsan_atomic_thread_fence(int order) {
    (void)order;
    hold(HERE, BEFORE, ATOMIC);
    __atomic_thread_fence(ORDERED);
}
void __tsan_atomic_signal_fence(int order) {
    (void)order;
    __atomic_signal_fence(ORDERED);
}

#define MODIFY(bits, type, name) \
    type __tsan_atomic##bits##_##name(volatile type *at, type value, int order) { \
        (void)order; \
        hold(HERE, BEFORE, ATOMIC); \
        type before = __atomic_##name(at, value, ORDERED); \
        hold(HERE, AFTER, ATOMIC); \
        return before; \
    }
#define COMPARE(bits, type, strength) \
    int __tsan_atomic##bits##_compare_exchange_##strength(volatile type *at, type *expected, type value, int order, \
                                                          int failed) { \
        (void)order, (void)failed; \
        hold(HERE, BEFORE, ATOMIC); \
        int is_done = __atomic_compare_exchange_n(at, expected, value, 0, ORDERED, ORDERED); \
        hold(HERE, AFTER, ATOMIC); \
        return is_done; \
    }
#define ATOMICS(bits, type) \
    type __tsan_atomic##bits##_load(const volatile type *at, int order) { \
        (void)order; \
        hold(HERE, BEFORE, ATOMIC); \
        type value = __atomic_load_n(at, ORDERED); \
        hold(HERE, AFTER, ATOMIC); \
        return value; \
    } \
    void __tsan_atomic##bits##_store(volatile type *at, type value, int order) { \
        hold(HERE, BEFORE, ATOMIC); \
        if (order == __ATOMIC_RELAXED || order == __ATOMIC_RELEASE) __atomic_store_n(at, value, __ATOMIC_RELEASE); \
        else __atomic_store_n(at, value, ORDERED); \
        hold(HERE, AFTER, ATOMIC); \
    } \
    type __tsan_atomic##bits##_exchange(volatile type *at, type value, int order) { \
        (void)order; \
        hold(HERE, BEFORE, ATOMIC); \
        type before = __atomic_exchange_n(at, value, ORDERED); \
        hold(HERE, AFTER, ATOMIC); \
        return before; \
    } \
    MODIFY(bits, type, fetch_add) \
    MODIFY(bits, type, fetch_sub) \
    MODIFY(bits, type, fetch_and) \
    MODIFY(bits, type, fetch_or) \
    MODIFY(bits, type, fetch_xor) \
    MODIFY(bits, type, fetch_nand) \
    COMPARE(bits, type, strong) \
    COMPARE(bits, type, weak) \
    type __tsan_atomic##bits##_compare_exchange_val(volatile type *at, type expected, type value, int order, \
                                                    int failed) { \
        (void)order, (void)failed; \
        hold(HERE, BEFORE, ATOMIC); \
        __atomic_compare_exchange_n(at, &expected, value, 0, ORDERED, ORDERED); \
        hold(HERE, AFTER, ATOMIC); \
        return expected; \
    }
ATOMICS(8, uint8_t) ATOMICS(16, uint16_t) ATOMICS(32, uint32_t) ATOMICS(64, uint64_t)
