/* What the proved code calls of its surroundings in a page: memory, and four helpers of the compiler.
 *
 * Blocks are powers of two, of which 16 bytes in front hold the power; for each power there is a list of the free ones. WebAssembly's
 * memory only grows, and each run of the page has a memory of its own, so nothing is ever given back to the browser.
 */
typedef unsigned char u8;
typedef unsigned long long u64;
typedef __UINTPTR_TYPE__ address;

/* What an allocation answers: whether there was memory, and where. */
typedef struct {
    u64 ok, at;
} Tried;

#define PAGE 65536ULL
#define HEAD 16ULL
#define LEAST 5   /* blocks of 32 bytes */
#define MOST 31   /* and of 2 GiB */
#define WORD(p) (*(u64 *)(address)(p))

extern u8 __heap_base;
static u64 top, end, free_of[MOST + 1];

/* More memory at the end, or 0. */
static int grown(u64 size)
{
    u64 pages = (size + PAGE - 1) / PAGE + 16;
    if (__builtin_wasm_memory_grow(0, pages) == (address)-1)
        return 0;
    end += pages * PAGE;
    return 1;
}

/* The place of n bytes, or 0. */
static u64 taken(u64 n)
{
    int power = LEAST;
    if (n > (1ULL << MOST) - HEAD)
        return 0;
    while ((1ULL << power) < n + HEAD)
        power++;
    u64 size = 1ULL << power, block = free_of[power];
    if (block) {
        free_of[power] = WORD(block + HEAD);
        return block + HEAD;
    }
    if (!top) {
        top = ((address)&__heap_base + 31) & ~31ULL;
        end = (u64)__builtin_wasm_memory_size(0) * PAGE;
    }
    if (end - top < size && !grown(size - (end - top)))
        return 0;
    block = top;
    top += size;
    WORD(block) = power;
    return block + HEAD;
}

static Tried tried(u64 at)
{
    return (Tried){at != 0, at ? at : HEAD};
}

Tried rattle_alloc(u64 size, u64 align)
{
    return tried(taken(size ? size : align));
}

void rattle_dealloc(void *at)
{
    u64 block = (address)at - HEAD, power = WORD(block);
    WORD(block + HEAD) = free_of[power];
    free_of[power] = block;
}

Tried rattle_realloc(u8 *at, u64 kept, u64 size, u64 align)
{
    size = size ? size : align;
    if (size + HEAD <= 1ULL << WORD((address)at - HEAD))
        return tried((address)at);
    u64 moved = taken(size);
    if (moved) {
        for (u64 i = 0; i < kept && i < size; i++)
            ((u8 *)(address)moved)[i] = at[i];
        rattle_dealloc(at);
    }
    return tried(moved);
}

/* For the page: the place of n bytes, or 0. */
__attribute__((export_name("room"))) u64 room(u64 n)
{
    return taken(n);
}

/* ---- what x86-64 has as an instruction, and WebAssembly has not */

typedef u8 Bytes __attribute__((vector_size(16)));

Bytes isp_shuffled(Bytes from, Bytes by)
{
    Bytes to;
    for (int i = 0; i < 16; i++)
        to[i] = by[i] & 0x80 ? 0 : from[by[i] & 15];
    return to;
}

typedef union {
    __int128 whole;
    struct {
        u64 low, high;
    } part;
} Wide;

__int128 __ashlti3(__int128 number, int by)
{
    Wide from = {.whole = number}, to = {.part = {0, 0}};
    if (by >= 64) {
        to.part.high = from.part.low << (by - 64);
    } else {
        to.part.low = from.part.low << by;
        to.part.high = from.part.high << by | (by ? from.part.low >> (64 - by) : 0);
    }
    return to.whole;
}

__int128 __lshrti3(__int128 number, int by)
{
    Wide from = {.whole = number}, to = {.part = {0, 0}};
    if (by >= 64) {
        to.part.low = from.part.high >> (by - 64);
    } else {
        to.part.high = from.part.high >> by;
        to.part.low = from.part.low >> by | (by ? from.part.high << (64 - by) : 0);
    }
    return to.whole;
}

__int128 __multi3(__int128 one, __int128 other)
{
    Wide a = {.whole = one}, b = {.whole = other}, to;
    u64 half = 0xffffffff;
    u64 low = (a.part.low & half) * (b.part.low & half);
    u64 left = (a.part.low >> 32) * (b.part.low & half) + (low >> 32);
    u64 right = (a.part.low & half) * (b.part.low >> 32) + (left & half);
    to.part.low = (low & half) | right << 32;
    to.part.high = (a.part.low >> 32) * (b.part.low >> 32) + (left >> 32) + (right >> 32) + a.part.high * b.part.low + a.part.low * b.part.high;
    return to.whole;
}
