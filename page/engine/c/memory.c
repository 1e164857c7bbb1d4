// The heap: blocks in classes of four steps for each power of two, cut from the end of the module's memory. A
// freed block goes to the list of its class and is given out again; none goes back to the browser before the
// module ends.
#include "host.h"

#define PAGE ((u64)1 << 16)
#define LARGEST ((u64)1 << 40)
// Before each block stands its class, and room up to the alignment.
#define HEAD ((u64)16)

extern u8 __heap_base;
// Where the next block is cut, and where the memory ends.
static u64 top, end;
// The first freed block of each class; the next one's address stands in the block.
static u8 *freed[256];

static u64 size_of(u64 class) {
    u64 power = (u64)1 << (class >> 2);
    return power + (class & 3) * (power >> 2);
}

// The least class whose blocks have so many bytes.
static u64 class_of(u64 bytes) {
    if (bytes < 16) bytes = 16;
    u64 class = (u64)(63 - __builtin_clzl(bytes)) << 2;
    while (size_of(class) < bytes) class++;
    return class;
}

// What a block of a class takes with its head.
static u64 room_of(u64 class) { return (size_of(class) + HEAD + 15) & ~(u64)15; }

static u64 *head_of(void *block) { return (u64 *)((u8 *)block - HEAD); }

// Lengthens the memory so that a block of so many bytes has room at its end: an eighth at a time where the
// browser gives that.
static int lengthened(u64 bytes) {
    u64 least = (top + bytes - end + PAGE - 1) / PAGE, eighth = end / PAGE / 8, pages = least;
    if (eighth > least && __builtin_wasm_memory_grow(0, eighth) != (u64)-1) pages = eighth;
    else if (__builtin_wasm_memory_grow(0, least) == (u64)-1) return 0;
    end += pages * PAGE;
    return 1;
}

// Bytes cut from the end of what is used, or 0.
static u8 *cut(u64 bytes) {
    if (!top) {
        top = ((u64)&__heap_base + 15) & ~(u64)15;
        end = __builtin_wasm_memory_size(0) * PAGE;
    }
    if (top + bytes > end && !lengthened(bytes)) return 0;
    u8 *found = (u8 *)top;
    top += bytes;
    return found;
}

void *malloc(u64 bytes) {
    if (bytes > LARGEST) return 0;
    u64 class = class_of(bytes);
    u8 *block = freed[class];
    if (block) {
        freed[class] = *(u8 **)block;
        return block;
    }
    u8 *head = cut(room_of(class));
    if (!head) return 0;
    *(u64 *)head = class;
    return head + HEAD;
}

void free(void *block) {
    if (!block) return;
    u64 class = *head_of(block);
    *(u8 **)block = freed[class];
    freed[class] = block;
}

// The last block of all grows where it stands.
static int grown_in_place(void *block, u64 bytes) {
    u64 class = *head_of(block), wanted = class_of(bytes);
    if ((u64)head_of(block) + room_of(class) != top) return 0;
    if (!cut(room_of(wanted) - room_of(class))) return 0;
    *head_of(block) = wanted;
    return 1;
}

void *realloc(void *block, u64 bytes) {
    if (!block) return malloc(bytes);
    if (bytes > LARGEST) return 0;
    u64 had = size_of(*head_of(block));
    if (bytes <= had && bytes >= had / 2) return block;
    if (bytes > had && grown_in_place(block, bytes)) return block;
    void *moved = malloc(bytes);
    if (!moved) return 0;
    __builtin_memcpy(moved, block, bytes < had ? bytes : had);
    free(block);
    return moved;
}

// What the program asks for: a block, and whether there is one.
struct tried {
    u64 is_there;
    void *block;
};
static u8 nothing[16];

static struct tried tried_with(void *block) {
    struct tried answer = {block != 0, block ? block : nothing};
    return answer;
}

// (No type of the program wants more than 16 bytes of alignment, which each block has.)
struct tried rattle_alloc(u64 bytes, u64 alignment) {
    if (alignment > 16) __builtin_trap();
    return tried_with(malloc(bytes ? bytes : alignment));
}

struct tried rattle_realloc(void *block, u64 kept, u64 bytes, u64 alignment) {
    (void)kept;
    if (alignment > 16) __builtin_trap();
    return tried_with(realloc(block, bytes ? bytes : alignment));
}

void rattle_dealloc(void *block) { free(block); }
