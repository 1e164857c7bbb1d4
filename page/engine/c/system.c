// Words, input, outputs and the end of the run, by the functions of the host; and the entry that the host
// calls.
#include "host.h"

#define INPUT_OUTPUT_ERROR 5

static i32 error;

i32 rattle_errno(void) { return error; }
void rattle_set_errno(i32 code) { error = code; }

i64 rattle_arg(u64 i, u8 *buffer, u64 length) { return host_arg(i, buffer, length); }

u64 rattle_arg_count(void) {
    u8 none[1];
    u64 count = 0;
    while (host_arg(count, none, 0) != -1) count++;
    return count;
}

// There is no environment.
i64 rattle_env(const u8 *name, u8 *buffer, u64 length) { return -1; }
i64 rattle_env_at(u64 i, u8 *buffer, u64 length) { return -1; }

static i64 number_or_error(i64 bytes) {
    if (bytes >= 0) return bytes;
    error = INPUT_OUTPUT_ERROR;
    return -1;
}

i64 read(i32 file, u8 *buffer, u64 length) { return number_or_error(host_read(file, buffer, length)); }
i64 write(i32 file, const u8 *buffer, u64 length) { return number_or_error(host_write(file, buffer, length)); }
i64 __write(i32 file, const u8 *buffer, u64 length) { return write(file, buffer, length); }

void _exit(i32 status) { host_exit(status); }
void abort(void) { __builtin_trap(); }

i32 __xpg_strerror_r(i32 code, u8 *buffer, u64 length) {
    if (length) buffer[0] = 0;
    return 0;
}

u64 __sysv_signal(i32 number, u64 handler) { return 0; }

// Lowered for x86-64, the module asks as it starts whether the processor has what that code needs. This code
// is wasm64's.
const void *__x86_get_cpuid_feature_leaf(i32 leaf) {
    static u8 has_all[64];
    for (int i = 0; i < 64; i++) has_all[i] = 255;
    return has_all;
}

i32 main_of_program(void);

__attribute__((export_name("run"))) i32 run(void) { return main_of_program(); }
