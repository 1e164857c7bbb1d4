// The names that the files of this folder share: sizes of numbers, and the four functions that the module's
// host gives. Nothing proves the code of this folder: it stands where the C library and the toolchain's own C
// stand natively.
#pragma once
typedef unsigned char u8;
typedef int i32;
typedef long i64;
typedef unsigned long u64;
typedef unsigned __int128 u128;
typedef __int128 i128;

#define HOST(name) __attribute__((import_module("host"), import_name(#name)))
// The i-th word, written to the buffer: its length, -1 where there is none, -2 where it is longer than the
// buffer.
HOST(arg) i64 host_arg(u64 i, u8 *buffer, u64 length);
// As many bytes of the input as there are and have room: their number, 0 at its end.
HOST(read) i64 host_read(i32 file, u8 *buffer, u64 length);
// Takes bytes for output (1) or error output (2): their number.
HOST(write) i64 host_write(i32 file, const u8 *buffer, u64 length);
HOST(exit) _Noreturn void host_exit(i32 status);

void *malloc(u64 bytes);
void *realloc(void *block, u64 bytes);
void free(void *block);
