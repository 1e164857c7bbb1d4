// There is one thread. None can be made (EAGAIN), so the program does the parts of its work one after
// another, as it does natively where the system gives it no thread.
#include "host.h"

#define TRY_AGAIN 11

i32 pthread_create(void *thread, void *attributes, void *function, void *given) { return TRY_AGAIN; }
i32 pthread_attr_init(void *attributes) { return 0; }
i32 pthread_attr_setguardsize(void *attributes, u64 bytes) { return 0; }
i32 pthread_attr_setstacksize(void *attributes, u64 bytes) { return 0; }
i32 pthread_attr_destroy(void *attributes) { return 0; }
u64 pthread_self(void) { return 1; }
i32 pthread_detach(u64 thread) { return 0; }
i32 pthread_join(u64 thread, void *result) { __builtin_trap(); }
i32 sched_yield(void) { return 0; }

// A futex. With one thread nobody wakes anyone, and a wait returns at once (EAGAIN), which its callers allow.
void rattle_set_errno(i32 code);
i64 syscall(i64 number, void *address, i64 operation, i64 value, void *timeout, ...) {
    rattle_set_errno(TRY_AGAIN);
    return -1;
}
