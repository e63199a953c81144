/* What the code of wasm2c stands on, in place of its own runtime: one memory, no table, no floats, no call of a host. C99. */
#include <stdint.h>
#include <stdlib.h>
#include <string.h>

/* Called where the module would trap: an access outside its memory, which is how a stack that is too small ends. */
#ifndef Y1541_STOPS
#define Y1541_STOPS() abort()
#endif
/* Where the memory of a module comes from. A program may define its own three. */
#ifndef Y1541_MALLOC
#define Y1541_MALLOC malloc
#define Y1541_REALLOC realloc
#define Y1541_FREE free
#endif

typedef uint8_t u8;
typedef int8_t s8;
typedef uint16_t u16;
typedef int16_t s16;
typedef uint32_t u32;
typedef int32_t s32;
typedef uint64_t u64;
typedef int64_t s64;

typedef struct wasm_rt_memory_t {
    u8 *data;
    u32 pages, max_pages, size;
} wasm_rt_memory_t;

static int y1541_beyond(void) { Y1541_STOPS(); return 0; }

#ifdef Y1541_UNCHECKED
#define IN_RANGE(mem, at, n) ((void)0)
#else
#define IN_RANGE(mem, at, n) ((void)((u64)(at) + (u64)(n) <= (mem)->size || y1541_beyond()))
#endif
#define UNREACHABLE ((void)y1541_beyond())
#define FUNC_PROLOGUE
#define FUNC_EPILOGUE

#if defined(__BYTE_ORDER__) && __BYTE_ORDER__ == __ORDER_BIG_ENDIAN__
#define TURNED(type, v) do { u8 t_[8]; memcpy(t_, &(v), sizeof(type)); for (size_t i_ = 0; i_ < sizeof(type); i_++) ((u8 *)&(v))[i_] = t_[sizeof(type) - 1 - i_]; } while (0)
#else
#define TURNED(type, v) ((void)0)
#endif
#define LOADS(name, kept, as, result) \
    static inline result name(const wasm_rt_memory_t *mem, u64 at) { kept v; IN_RANGE(mem, at, sizeof(kept)); memcpy(&v, mem->data + (size_t)at, sizeof v); TURNED(kept, v); return (result)(as)v; }
#define STORES(name, kept, given) \
    static inline void name(wasm_rt_memory_t *mem, u64 at, given value) { kept v = (kept)value; IN_RANGE(mem, at, sizeof(kept)); TURNED(kept, v); memcpy(mem->data + (size_t)at, &v, sizeof v); }

LOADS(i32_load, u32, u32, u32)
LOADS(i64_load, u64, u64, u64)
LOADS(i32_load8_s, s8, s32, u32)
LOADS(i64_load8_s, s8, s64, u64)
LOADS(i32_load8_u, u8, u32, u32)
LOADS(i64_load8_u, u8, u64, u64)
LOADS(i32_load16_s, s16, s32, u32)
LOADS(i64_load16_s, s16, s64, u64)
LOADS(i32_load16_u, u16, u32, u32)
LOADS(i64_load16_u, u16, u64, u64)
LOADS(i64_load32_s, s32, s64, u64)
LOADS(i64_load32_u, u32, u64, u64)
STORES(i32_store, u32, u32)
STORES(i64_store, u64, u64)
STORES(i32_store8, u8, u32)
STORES(i32_store16, u16, u32)
STORES(i64_store8, u8, u64)
STORES(i64_store16, u16, u64)
STORES(i64_store32, u32, u64)

static inline void memory_fill(wasm_rt_memory_t *mem, u32 at, u32 by, u32 n) { IN_RANGE(mem, at, n); memset(mem->data + at, (int)(by & 255), n); }

static inline void memory_copy(wasm_rt_memory_t *to, const wasm_rt_memory_t *from, u32 at, u32 source, u32 n) {
    IN_RANGE(to, at, n);
    IN_RANGE(from, source, n);
    memmove(to->data + at, from->data + source, n);
}

#define LOAD_DATA(mem, at, from, n) do { IN_RANGE(&(mem), at, n); memcpy((mem).data + (at), from, n); } while (0)

static inline u32 y1541_clz(u64 v, u32 bits) { u32 n = 0; while (n < bits && !(v >> (bits - 1 - n) & 1)) n++; return n; }
#ifdef __GNUC__
#define I32_CLZ(x) ((x) ? (u32)__builtin_clzl((unsigned long)(u32)(x)) - (u32)(sizeof(long) - 4) * 8 : 32u)
#define I64_CLZ(x) ((x) ? (u64)__builtin_clzll(x) : 64u)
#else
#define I32_CLZ(x) y1541_clz(x, 32)
#define I64_CLZ(x) (u64)y1541_clz(x, 64)
#endif
#define DIV_U(x, y) ((void)((y) || y1541_beyond()), (x) / (y))
#define REM_U(x, y) ((void)((y) || y1541_beyond()), (x) % (y))
#define I32_ROTL(x, y) ((u32)(x) << ((y) & 31) | (u32)(x) >> ((32 - ((y) & 31)) & 31))
#define I64_ROTL(x, y) ((u64)(x) << ((y) & 63) | (u64)(x) >> ((64 - ((y) & 63)) & 63))
#define I32_ROTR(x, y) I32_ROTL(x, 32 - ((y) & 31))
#define I64_ROTR(x, y) I64_ROTL(x, 64 - ((y) & 63))

/* A page has 64 kB. The first pages are taken by the wrapper, which can answer that there is no memory. */
static u32 wasm_rt_grow_memory(wasm_rt_memory_t *mem, u32 more) {
    u32 was = mem->pages, n = was + more;
    if (more > 0x1000 || n > mem->max_pages) return (u32)-1;
    u8 *data = Y1541_REALLOC(mem->data, (size_t)n << 16);
    if (!data) return (u32)-1;
    memset(data + mem->size, 0, (size_t)more << 16);
    mem->data = data, mem->pages = n, mem->size = n << 16;
    return was;
}
