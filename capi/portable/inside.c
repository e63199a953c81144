/* What the module has beside the library: its heap, and room that the host of the module may ask for. It imports nothing and needs no C library.
 * Compiled for wasm64, freestanding, by the compiler that made the library. */
typedef __UINT64_TYPE__ u64;
typedef __SIZE_TYPE__ size_t;
typedef __UINT8_TYPE__ u8;

/* The heap is blocks side by side from __heap_base to `end`, each behind a head of 16 bytes. Free blocks that follow one another are joined when one of
 * them is looked at. */
typedef struct head {
    u64 size; /* of the block and its head: a multiple of 16, at least 32 */
    u64 is_used;
} head;

enum { HEAD = sizeof(head), LEAST = 32 };
static const u64 MOST = (u64)1 << 31;

extern u8 __heap_base;
static u64 end;  /* 0 before the first block is taken */
static u64 hint; /* no block below it is free */

static head *at(u64 place) { return (head *)place; }

/* The size of a block that holds n bytes. */
static u64 block_of(u64 n) {
    u64 size = (n + HEAD + 15) & ~(u64)15;
    return size < LEAST ? LEAST : size;
}

static u64 memory_end(void) { return (u64)__builtin_wasm_memory_size(0) << 16; }

/* Joins a block with the free ones that follow it. */
static void join(u64 place) {
    for (u64 next = place + at(place)->size; next < end && !at(next)->is_used; next = place + at(place)->size) at(place)->size += at(next)->size;
}

static void is_free_from(u64 place) {
    if (place < hint) hint = place;
}

/* Cuts what a block has beyond this size off it, as a free block. */
static void cut(u64 place, u64 size) {
    u64 left = at(place)->size - size;
    if (left < LEAST) return;
    at(place)->size = size;
    at(place + size)->size = left, at(place + size)->is_used = 0;
    is_free_from(place + size);
}

/* A free block of at least `size` bytes behind the last one; 0: the memory doesn't grow. */
static int grow(u64 size) {
    u64 last = end, there = memory_end();
    if (there - end < size) {
        u64 pages = (size - (there - end) + 0xffff) >> 16;
        /* (the size tells, not the answer: binaryen 108 makes the -1 of a memory that doesn't grow 0xffffffff) */
        if (pages > 0xffff) return 0;
        __builtin_wasm_memory_grow(0, pages);
        if (memory_end() < there + (pages << 16)) return 0;
    }
    end = memory_end();
    at(last)->size = end - last, at(last)->is_used = 0;
    is_free_from(last);
    return 1;
}

/* The first free block of at least `size` bytes, or 0; `tail` gets the size of a free block at the end. */
static u64 first_fit(u64 size, u64 *tail) {
    *tail = 0;
    for (u64 place = hint; place < end; place += at(place)->size) {
        if (at(place)->is_used) continue;
        join(place);
        if (at(place)->size >= size) return place;
        if (place + at(place)->size == end) *tail = at(place)->size;
    }
    return 0;
}

static void *take(u64 n) {
    u64 tail, size = block_of(n);
    if (n > MOST) return 0;
    if (!end) end = hint = ((u64)&__heap_base + 15) & ~(u64)15;
    u64 place = first_fit(size, &tail);
    if (!place) {
        if (!grow(size - tail)) return 0;
        place = first_fit(size, &tail);
    }
    cut(place, size);
    at(place)->is_used = 1;
    if (hint == place) hint = place + at(place)->size;
    return (void *)(place + HEAD);
}

static void give(void *bytes) {
    u64 place = (u64)bytes - HEAD;
    at(place)->is_used = 0;
    join(place);
    is_free_from(place);
}

/* The three functions that the library asks for memory. */
struct tried {
    u64 ok; /* 0 or 1 */
    void *at;
};

static struct tried answer(void *bytes, size_t align) {
    struct tried tried = {bytes != 0, bytes ? bytes : (void *)align};
    return tried;
}

struct tried rattle_alloc(size_t size, size_t align) { return answer(align > HEAD ? 0 : take(size), align); }

struct tried rattle_realloc(void *bytes, size_t kept, size_t size, size_t align) {
    u64 place = (u64)bytes - HEAD;
    if (align > HEAD || size > MOST) return answer(0, align);
    join(place);
    is_free_from(place); /* (the hint may have been a block that is joined now) */
    if (at(place)->size >= block_of(size)) {
        cut(place, block_of(size));
        return answer(bytes, align);
    }
    void *to = take(size);
    if (!to) return answer(0, align);
    __builtin_memcpy(to, bytes, kept < size ? kept : size);
    give(bytes);
    return answer(to, align);
}

void rattle_dealloc(void *bytes) { give(bytes); }

/* Room for what the host hands to a call, or gets from it; 0: no memory. */
__attribute__((export_name("room"))) void *room(size_t n) { return take(n); }
__attribute__((export_name("room_back"))) void room_back(void *bytes) { give(bytes); }
