/* isp's machine in C: what the lines of a C file mean that isp_native writes.
 *
 * The first part is what a caller of an exported function needs. The second part, behind ISP_GANG, has a macro for each
 * line of docs/MACHINE.md, by the name of its word in capitals, of vectors with V in front, and with the operands in the
 * order of that page. A word with F in front is a free line: it may write lanes that its mask has not, since nobody reads
 * them again. SKIP() stands for a line that writes what nobody reads. C11 with the vector extensions that gcc and clang share.
 *
 * Nothing of this file is proved. It is tested against what programs mean (tools/native-test).
 */
#ifndef ISP_MACHINE_H
#define ISP_MACHINE_H

#include <stdbool.h>
#include <stddef.h>
#include <stdint.h>

/* How a call of an exported function comes back: it ended; it trapped; memory was refused, to a local array or by
 * `write`; or, with ISP_STEPS alone, it has taken as many steps as it may. */
enum isp_end { ISP_ENDED, ISP_TRAPPED, ISP_NO_MEMORY, ISP_NO_STEPS };

/* Why it trapped: a zero divisor, an index outside its array, an assert that failed, a call at depth 256. */
enum isp_kind { ISP_DIVIDE, ISP_INDEX, ISP_ASSERT, ISP_DEPTH };

/* A place in the source, in bytes: from start up to end. */
struct isp_place {
    uint32_t start, end;
};

/* What a run is handed, and how it trapped. Each thread has its own; all zero, it writes nothing. */
struct isp_run {
    /* takes what is written, with `to`, and says whether it had the memory; where it is NULL nothing is written */
    bool (*write)(void *to, const char *bytes, size_t count);
    void *to;
    /* how it trapped: why, where, and in which instance of the gang */
    enum isp_kind kind;
    struct isp_place place;
    uint32_t instance;
    /* with ISP_STEPS alone: the steps taken, and how many it may take */
    uint64_t steps, most_steps;
};

#endif

#if defined ISP_GANG && !defined ISP_LINES
#define ISP_LINES

#include <stdlib.h>
#include <string.h>

/* a line is a call where the compiler does not optimize, and with -DISP_CALLS (see the end) */
#if !defined ISP_CALLS && !defined __OPTIMIZE__
#define ISP_CALLS 1
#endif

/* What the processor has beside C's operators; -DISP_PLAIN does without. ISP_GATHERS is how many elements of 4 bytes it gathers at once, ISP_MASKED that it stores
 * the lanes of a mask alone, and ISP_BIT_MASKS that a mask is a number with a bit a lane: gcc 12 makes slower code of those, and clang 14 with few lanes. */
#if !defined ISP_PLAIN && defined __AVX512F__ && defined __AVX512BW__ && defined __AVX512VL__ && defined __AVX512DQ__
#include <immintrin.h>
#define ISP_MASKED 1
#define ISP_GATHERS (ISP_GANG < 16 ? ISP_GANG : 16)
#if defined __clang__ && ISP_GANG >= 16
#define ISP_BIT_MASKS 1
#endif
#elif !defined ISP_PLAIN && defined __AVX2__
#include <immintrin.h>
#define ISP_GATHERS (ISP_GANG < 8 ? ISP_GANG : 8)
#endif

/* labels that nothing names, and vectors that are passed within a file */
#pragma GCC diagnostic ignored "-Wunused-label"
#pragma GCC diagnostic ignored "-Wpsabi"

#if ISP_GANG == 4
#define ISP_NUMBERS 0, 1, 2, 3
#elif ISP_GANG == 8
#define ISP_NUMBERS 0, 1, 2, 3, 4, 5, 6, 7
#elif ISP_GANG == 16
#define ISP_NUMBERS 0, 1, 2, 3, 4, 5, 6, 7, 8, 9, 10, 11, 12, 13, 14, 15
#elif ISP_GANG == 32
#define ISP_NUMBERS 0, 1, 2, 3, 4, 5, 6, 7, 8, 9, 10, 11, 12, 13, 14, 15, \
    16, 17, 18, 19, 20, 21, 22, 23, 24, 25, 26, 27, 28, 29, 30, 31
#else
#error "a gang has 4, 8, 16 or 32 instances"
#endif

/* ---- registers */

/* A scalar is a value of C's type, a vector has one a lane, and of bool a char that is 0 or 1. A mask has -1 in the lanes
 * that it has and 0 in the others, or it is a number with a bit a lane. */
#define ISP_VECTOR(t) __attribute__((vector_size(sizeof(t) * ISP_GANG))) t

typedef ISP_VECTOR(char) ispm_v_bool;
typedef ISP_VECTOR(int8_t) ispm_v_int8_t;
typedef ISP_VECTOR(uint8_t) ispm_v_uint8_t;
typedef ISP_VECTOR(int16_t) ispm_v_int16_t;
typedef ISP_VECTOR(uint16_t) ispm_v_uint16_t;
typedef ISP_VECTOR(int32_t) ispm_v_int32_t;
typedef ISP_VECTOR(uint32_t) ispm_v_uint32_t;
typedef ISP_VECTOR(int64_t) ispm_v_int64_t;
typedef ISP_VECTOR(uint64_t) ispm_v_uint64_t;
#ifndef ISP_BIT_MASKS
typedef ispm_v_int8_t ispm_mask;
#elif ISP_GANG == 32
typedef uint32_t ispm_mask;
#else
typedef uint16_t ispm_mask;
#endif

/* An array is a pointer and a count. The count of an array of which each lane has its own has a type of its own; there
 * the elements of one number lie side by side, one a lane. */
struct ispm_own {
    uint64_t count;
};

#define ISP_UNUSED __attribute__((unused))
#define ISP_INLINE static inline __attribute__((always_inline, unused))
#define ISP_TYPE(x) __typeof__(x)
#define ISP_EACH(p) for (int p = 0; p < ISP_GANG; p++)

/* the bits of a scalar, and whether its type is signed */
#define ISP_BITS(x) (8 * sizeof(x))
#define ISP_SIGNED(x) ((ISP_TYPE(x))-1 < (ISP_TYPE(x))1)

/* a vector of one value */
#define ISP_ALL(v, x) ((v){0} + (__typeof__((v){0}[0]))(x))

/* the bits of a lane of a vector, and the unsigned type of its width, in which all arithmetic is */
#define ISP_LANE_BITS(x) (8 * sizeof(x) / ISP_GANG)
#define ISP_U(x) \
    __typeof__(_Generic((x), \
        ispm_v_bool: (ispm_v_uint8_t){0}, \
        ispm_v_int8_t: (ispm_v_uint8_t){0}, \
        ispm_v_uint8_t: (ispm_v_uint8_t){0}, \
        ispm_v_int16_t: (ispm_v_uint16_t){0}, \
        ispm_v_uint16_t: (ispm_v_uint16_t){0}, \
        ispm_v_int32_t: (ispm_v_uint32_t){0}, \
        ispm_v_uint32_t: (ispm_v_uint32_t){0}, \
        ispm_v_int64_t: (ispm_v_uint64_t){0}, \
        ispm_v_uint64_t: (ispm_v_uint64_t){0}))

/* ---- masks */

#ifdef ISP_MASKED
/* a bit for each byte that is -1, of bytes that are 0 or -1 */
ISP_INLINE uint32_t ispm_bits(ispm_v_int8_t x)
{
#if ISP_GANG == 32
    return _mm256_movepi8_mask((__m256i)x);
#elif ISP_GANG == 16
    return _mm_movepi8_mask((__m128i)x);
#else
    union {
        __m128i all;
        ispm_v_int8_t lanes;
    } bytes = {_mm_setzero_si128()};
    bytes.lanes = x;
    return _mm_movepi8_mask(bytes.all);
#endif
}
#endif

#ifdef ISP_BIT_MASKS

#define ISP_FULL ((ispm_mask)(((uint64_t)1 << ISP_GANG) - 1))
#define ISP_ANY(k) ((k) != 0)
#define ISP_EVERY(k) ((k) == ISP_FULL)
#define ISP_LOWEST(k) ((k) ? __builtin_ctz(k) : 0)
#define ISP_LONE(n) ((ispm_mask)((uint64_t)1 << (n)))
#define ISP_FIRST(n) ((ispm_mask)(((uint64_t)1 << (n)) - 1))
#define ISP_HAS(k, p) ((k) >> (p) & 1)

/* the lanes of a mask as bytes that are 0 or -1, and the mask of lanes that are 0 or -1 */
ISP_INLINE ispm_v_int8_t ispm_lanes(ispm_mask k)
{
#if ISP_GANG == 32
    return (ispm_v_int8_t)_mm256_movm_epi8(k);
#else
    return (ispm_v_int8_t)_mm_movm_epi8(k);
#endif
}

#define ISP_LANES(k) ispm_lanes(k)
#define ISP_MASK_OF(x) ((ispm_mask)ispm_bits(__builtin_convertvector(x, ispm_v_int8_t)))
#define ISP_AS_BITS(k) (k)

#else

#define ISP_FULL (~(ispm_mask){0})

/* its bytes, eight in a word */
#define ISP_WORDS ((ISP_GANG + 7) / 8)
#define ISP_AS_WORDS(words, k) \
    uint64_t words[ISP_WORDS] = {0}; \
    memcpy(words, &(const ispm_mask[1]){k}, sizeof(ispm_mask))

/* some, and all, of its lanes are on */
#define ISP_ANY(k) \
    __extension__({ \
        ISP_AS_WORDS(ispm_word, k); \
        uint64_t ispm_some = 0; \
        for (int ispm_w = 0; ispm_w < ISP_WORDS; ispm_w++) \
            ispm_some |= ispm_word[ispm_w]; \
        ispm_some != 0; \
    })
#define ISP_EVERY(k) (!ISP_ANY(~(k)))

/* the number of its lowest lane, or 0 */
#if __BYTE_ORDER__ == __ORDER_LITTLE_ENDIAN__
#define ISP_LOWEST(k) \
    __extension__({ \
        ISP_AS_WORDS(ispm_word, k); \
        int ispm_low = 0; \
        for (int ispm_w = ISP_WORDS - 1; ispm_w >= 0; ispm_w--) \
            if (ispm_word[ispm_w]) \
                ispm_low = 8 * ispm_w + __builtin_ctzll(ispm_word[ispm_w]) / 8; \
        ispm_low; \
    })
#else
#define ISP_LOWEST(k) \
    __extension__({ \
        int ispm_low = 0; \
        while (ispm_low < ISP_GANG && !(k)[ispm_low]) \
            ispm_low++; \
        ispm_low == ISP_GANG ? 0 : ispm_low; \
    })
#endif

/* the lane of a number alone, and the first lanes, so many */
#define ISP_LONE(n) ((ispm_mask){ISP_NUMBERS} == ISP_ALL(ispm_mask, n))
#define ISP_FIRST(n) ((ispm_mask){ISP_NUMBERS} < ISP_ALL(ispm_mask, n))

/* it has the lane of a number */
#define ISP_HAS(k, p) ((k)[p])

/* the lanes of a mask as bytes that are 0 or -1, and the mask of lanes that are 0 or -1 */
#define ISP_LANES(k) (k)
#define ISP_MASK_OF(x) __builtin_convertvector(x, ispm_mask)
#define ISP_AS_BITS(k) ispm_bits(k)

#endif

/* lanes of 0 or -1 as wide as those of a vector, from bytes and from a mask */
#define ISP_WIDENED(x, lanes) ((ISP_TYPE(x))__builtin_convertvector(lanes, __typeof__((x) == (x))))
#define ISP_WIDE(x, k) ISP_WIDENED(x, ISP_LANES(k))

/* the lanes of a mask, and 0 in the others */
#define ISP_ON(x, k) ((x) & ISP_WIDE(x, k))

/* A free line is that of the word without F, where ispm_free is 1. */
enum { ispm_free = 0 };
#define ISP_FREE(line) \
    do { \
        enum { ispm_free = 1 }; \
        line; \
    } while (0)

/* writes the lanes of a mask, and keeps the others; a free line writes all */
#define ISP_BLEND(d, x, k) \
    do { \
        const ISP_TYPE(d) ispm_new = (ISP_TYPE(d))(x), ispm_wide = ispm_free ? ~(ISP_TYPE(d)){0} : ISP_WIDE(d, k); \
        (d) = (ispm_new & ispm_wide) | ((d) & ~ispm_wide); \
    } while (0)
#define ISP_PUT(d, x, k) \
    do { \
        ISP_BLEND(d, x, k); \
        ISP_NOT_SMALL(d); \
    } while (0)

/* ---- small indices: beside each vector v stands v_low, of int32, and v_small, which says that each lane of v is that of v_low. What converts to int64 keeps both,
 * or as a free line makes it so anew; any other line that writes v ends it. So an index that was made of 32 bits is used in 32 bits, and the compiler drops what nothing
 * uses. */

#if defined ISP_CALLS && ISP_CALLS
#define ISP_SMALL_KEPT(v, known)
#define ISP_NOT_SMALL(d) (void)0
#define ISP_SMALL_TOO(d, x, k) (void)0
#define ISP_IF_SMALL(a, i, then)
#else
#define ISP_SMALL_KEPT(v, known) \
    ispm_v_int32_t v##_low ISP_UNUSED = {0}; \
    bool v##_small ISP_UNUSED = known;
#define ISP_NOT_SMALL(d) d##_small = false
#define ISP_FITS(x) \
    _Generic((x), \
        ispm_v_uint32_t: false, \
        ispm_v_int64_t: false, \
        ispm_v_uint64_t: false, \
        default: true)
#define ISP_SMALL_TOO(d, x, k) \
    do { \
        if (ISP_FITS(x) && _Generic((d), ispm_v_int64_t: true, default: false)) { \
            ISP_BLEND(d##_low, __builtin_convertvector(x, ispm_v_int32_t), k); \
            d##_small |= ispm_free; \
        } else \
            ISP_NOT_SMALL(d); \
    } while (0)
#define ISP_LOW(v) v##_low
#define ISP_IF_SMALL(a, i, then) \
    if (!ISP_IS_OWN(a) && i##_small) \
        then; \
    else
#endif

/* truths of lanes that are 0 or -1 */
#define ISP_TRUTHS(x) (__builtin_convertvector(x, ispm_v_bool) & 1)

/* ---- traps, calls and output */

static __attribute__((noinline, cold, unused)) enum isp_end ispm_trapped(struct isp_run *run, enum isp_kind kind, struct isp_place place, int instance)
{
    run->kind = kind;
    run->place = place;
    run->instance = (uint32_t)instance;
    return ISP_TRAPPED;
}

#define ISP_TRAP(kind, q, instance) return ispm_trapped(run, kind, q, instance)

#ifdef ISP_STEPS
#define ISP_ONE_STEP \
    if (run->steps == run->most_steps) \
        return ISP_NO_STEPS; \
    else \
        run->steps++;
#else
#define ISP_ONE_STEP
#endif
#define ISP_STEP ISP_ONE_STEP

static ISP_UNUSED bool ispm_write(struct isp_run *run, const char *bytes, size_t count)
{
    return !run->write || run->write(run->to, bytes, count);
}

/* writes a value where there are 21 bytes, and says how many it took */
static ISP_UNUSED size_t ispm_print_unsigned(char *to, uint64_t x)
{
    char digits[20];
    size_t n = 0;
    do
        digits[n++] = (char)('0' + x % 10);
    while (x /= 10);
    for (size_t i = 0; i < n; i++)
        to[i] = digits[n - 1 - i];
    return n;
}

static ISP_UNUSED size_t ispm_print_signed(char *to, int64_t x)
{
    if (x >= 0)
        return ispm_print_unsigned(to, (uint64_t)x);
    *to = '-';
    return 1 + ispm_print_unsigned(to + 1, 0 - (uint64_t)x);
}

static ISP_UNUSED size_t ispm_print_bool(char *to, char x)
{
    memcpy(to, x ? "true" : "false", 5);
    return x ? 4 : 5;
}

#define ISP_PRINT(to, x) \
    _Generic((x), bool: ispm_print_bool, char: ispm_print_bool, uint64_t: ispm_print_unsigned, default: ispm_print_signed)(to, x)

ISP_INLINE void ispm_drop(void **memory)
{
    free(*memory);
}

/* ---- arrays */

ISP_INLINE uint64_t ispm_shared_count(uint64_t n)
{
    return n;
}

ISP_INLINE uint64_t ispm_own_count(struct ispm_own n)
{
    return n.count;
}

#define ISP_IS_OWN(a) _Generic((a##_n), uint64_t: 0, struct ispm_own: 1)
#define ISP_COUNT(a) _Generic((a##_n), uint64_t: ispm_shared_count, struct ispm_own: ispm_own_count)(a##_n)

/* an element as a lane finds it */
#define ISP_AT(a, e, p) ((a)[ISP_IS_OWN(a) ? (uint64_t)(e) * ISP_GANG + (uint64_t)(p) : (uint64_t)(e)])

/* traps at the lowest lane whose index is outside, a negative one being above all as an unsigned number */
#define ISP_INSIDE(v, i, n, k, q) \
    do { \
        const ispm_mask ispm_out = ISP_MASK_OF((v)(i) >= ISP_ALL(v, n)) & (k); \
        if (ISP_ANY(ispm_out)) \
            ISP_TRAP(ISP_INDEX, q, ISP_LOWEST(ispm_out)); \
    } while (0)

/* Of indices of 32 bits, 2^31 is above each one that is not negative. */
#define ISP_HALF ((uint64_t)1 << 31)
#define ISP_SMALL_COUNT(a) (uint32_t)(ISP_COUNT(a) < ISP_HALF ? ISP_COUNT(a) : ISP_HALF)

/* all elements of a run are inside */
ISP_INLINE bool ispm_run_inside(uint64_t i, uint64_t n)
{
    return n >= ISP_GANG && i <= n - ISP_GANG;
}

/* All lanes are on, and their indices count on from that of lane 0 and are inside. Most that do not count on differ in the last lane already: where a comparison of all lanes
 * costs more, that is looked at first. */
ISP_INLINE bool ispm_in_a_row(const ispm_v_int32_t *i, uint32_t n, const ispm_mask *k)
{
    const uint32_t first = (uint32_t)(*i)[0];
#ifndef ISP_MASKED
    if ((uint32_t)(*i)[ISP_GANG - 1] - first != ISP_GANG - 1)
        return false;
#endif
    const ispm_mask in_a_row = ISP_MASK_OF((ispm_v_uint32_t)*i - ISP_ALL(ispm_v_uint32_t, first) == (ispm_v_uint32_t){ISP_NUMBERS}) & *k;
    return ISP_EVERY(in_a_row) && ispm_run_inside(first, n);
}

#ifdef ISP_GATHERS

/* as many lanes of int32 as are gathered at once, and so many of those */
#if ISP_GATHERS == 16
typedef __m512i ispm_part;
#elif ISP_GATHERS == 8
typedef __m256i ispm_part;
#else
typedef __m128i ispm_part;
#endif
#define ISP_PARTS (ISP_GANG / ISP_GATHERS)
union ispm_parts {
    ispm_v_int32_t whole;
    ispm_part part[ISP_PARTS];
};

/* the words of 4 bytes that begin `i * scale` bytes behind an address, of the lanes of part c that are on; of the others nothing is read */
#if defined ISP_MASKED && ISP_GATHERS == 16
#define ISP_PART_WORDS(scale, a, i, k, c) _mm512_mask_i32gather_epi32(_mm512_setzero_si512(), (__mmask16)(ISP_AS_BITS(k) >> 16 * (c)), i, a, scale)
#elif defined ISP_MASKED && ISP_GATHERS == 8
#define ISP_PART_WORDS(scale, a, i, k, c) _mm256_mmask_i32gather_epi32(_mm256_setzero_si256(), (__mmask8)ISP_AS_BITS(k), i, a, scale)
#elif defined ISP_MASKED
#define ISP_PART_WORDS(scale, a, i, k, c) _mm_mmask_i32gather_epi32(_mm_setzero_si128(), (__mmask8)ISP_AS_BITS(k), i, a, scale)
#elif ISP_GATHERS == 8
#define ISP_PART_MASK(k, c) _mm256_cvtepi8_epi32(_mm_loadl_epi64((const __m128i *)((const char *)&k + 8 * (c))))
#define ISP_PART_WORDS(scale, a, i, k, c) _mm256_mask_i32gather_epi32(_mm256_setzero_si256(), a, i, ISP_PART_MASK(k, c), scale)
#else
#define ISP_PART_WORDS(scale, a, i, k, c) _mm_mask_i32gather_epi32(_mm_setzero_si128(), a, i, (__m128i)ISP_WIDE((ispm_v_int32_t){0}, k), scale)
#endif

#define ISP_WORDS_AT(scale) \
    ISP_INLINE ispm_v_int32_t ispm_words_##scale(const void *a, const ispm_v_int32_t *i, const ispm_mask *k) \
    { \
        const union ispm_parts at = {*i}; \
        union ispm_parts words; \
        for (int c = 0; c < ISP_PARTS; c++) \
            words.part[c] = ISP_PART_WORDS(scale, a, at.part[c], *k, c); \
        return words.whole; \
    }
ISP_WORDS_AT(1)
ISP_WORDS_AT(2)
ISP_WORDS_AT(4)

/* The elements of 1, 2 or 4 bytes at indices that are inside, of the lanes that are on, with any bits above. A word that would end past the array begins where the
 * array's last one does, so n elements have 4 bytes at least. */
ISP_INLINE ispm_v_int32_t ispm_elements(const void *a, size_t size, uint32_t n, const ispm_v_int32_t *i, const ispm_mask *k)
{
    if (size == 4)
        return ispm_words_4(a, i, k);
    const ispm_v_int32_t last = ISP_ALL(ispm_v_int32_t, n - 4 / size), before = *i < last;
    const ispm_v_int32_t at = (*i & before) | (last & ~before);
    const ispm_v_uint32_t behind = ((ispm_v_uint32_t)*i - (ispm_v_uint32_t)at) & ISP_ALL(ispm_v_uint32_t, 4 / size - 1);
    const ispm_v_uint32_t words = (ispm_v_uint32_t)(size == 2 ? ispm_words_2(a, &at, k) : ispm_words_1(a, &at, k));
    return (ispm_v_int32_t)(words >> behind * ISP_ALL(ispm_v_uint32_t, 8 * size));
}
#define ISP_HAS_WORDS(a) (sizeof *(a) <= 4 && ISP_COUNT(a) * sizeof *(a) >= 4)

#else

#define ISP_HAS_WORDS(a) false
#define ispm_elements(a, size, n, i, k) (*(i))

#endif

/* Writes the lanes of a mask to elements that stand in a row, and nothing of the other elements: they may be another thread's. */
#ifdef ISP_MASKED
#define ISP_STORED(size, part, store) \
    ISP_INLINE void ispm_store_##size(char *to, const char *from, uint32_t k) \
    { \
        for (int c = 0; c * sizeof(part) < ISP_GANG * size; c++) { \
            part lanes = {0}; \
            memcpy(&lanes, from + c * sizeof lanes, sizeof lanes < ISP_GANG * size ? sizeof lanes : ISP_GANG * size); \
            store(to + c * sizeof lanes, (k >> c * (sizeof lanes / size)), lanes); \
        } \
    }
#if ISP_GANG == 4
ISP_STORED(1, __m128i, _mm_mask_storeu_epi8)
ISP_STORED(2, __m128i, _mm_mask_storeu_epi16)
ISP_STORED(4, __m128i, _mm_mask_storeu_epi32)
ISP_STORED(8, __m256i, _mm256_mask_storeu_epi64)
#elif ISP_GANG == 8
ISP_STORED(1, __m128i, _mm_mask_storeu_epi8)
ISP_STORED(2, __m128i, _mm_mask_storeu_epi16)
ISP_STORED(4, __m256i, _mm256_mask_storeu_epi32)
ISP_STORED(8, __m512i, _mm512_mask_storeu_epi64)
#elif ISP_GANG == 16
ISP_STORED(1, __m128i, _mm_mask_storeu_epi8)
ISP_STORED(2, __m256i, _mm256_mask_storeu_epi16)
ISP_STORED(4, __m512i, _mm512_mask_storeu_epi32)
ISP_STORED(8, __m512i, _mm512_mask_storeu_epi64)
#else
ISP_STORED(1, __m256i, _mm256_mask_storeu_epi8)
ISP_STORED(2, __m512i, _mm512_mask_storeu_epi16)
ISP_STORED(4, __m512i, _mm512_mask_storeu_epi32)
ISP_STORED(8, __m512i, _mm512_mask_storeu_epi64)
#endif
#define ISP_STORE_LANES(to, y, k) \
    do { \
        if (sizeof *(to) == 1) \
            ispm_store_1((char *)(to), (const char *)&y, ISP_AS_BITS(k)); \
        else if (sizeof *(to) == 2) \
            ispm_store_2((char *)(to), (const char *)&y, ISP_AS_BITS(k)); \
        else if (sizeof *(to) == 4) \
            ispm_store_4((char *)(to), (const char *)&y, ISP_AS_BITS(k)); \
        else \
            ispm_store_8((char *)(to), (const char *)&y, ISP_AS_BITS(k)); \
    } while (0)
#else
/* what a lane that is off would write goes to a place of its own: whether it is on is data then, and not a branch that the processor foresees wrongly */
#define ISP_STORE_LANES(to, y, k) \
    ISP_EACH(ispm_p) \
    { \
        ISP_TYPE((to)[0]) ispm_spare; \
        *(ISP_HAS(k, ispm_p) ? (to) + ispm_p : &ispm_spare) = (y)[ispm_p]; \
    }
#endif

/* ==== the file: places, texts, functions and registers */

#define PLACE(q, s, e) static const struct isp_place q ISP_UNUSED = {s, e};
#define TEXT(t, x) static const char t[] ISP_UNUSED = x;

/* Clang 14 hands a vector over by value where a function of the file is given a pointer to it, and then caller and callee can differ in the registers that they take for
 * 64 bytes of it: a recursion gets wrong values. It leaves the pointers of a function that is marked as used. */
#ifdef __clang__
#define ISP_KERNEL static __attribute__((used))
#else
#define ISP_KERNEL static ISP_UNUSED
#endif
#define FUNC(f) ISP_KERNEL enum isp_end f(struct isp_run *run ISP_UNUSED, uint32_t depth ISP_UNUSED, void *result ISP_UNUSED, const ispm_mask *m0_given ISP_UNUSED
#define SFUNC(f, t) ISP_KERNEL enum isp_end f(struct isp_run *run ISP_UNUSED, uint32_t depth ISP_UNUSED, t *result, const ispm_mask *m0_given ISP_UNUSED
#define VFUNC(f, t) ISP_KERNEL enum isp_end f(struct isp_run *run ISP_UNUSED, uint32_t depth ISP_UNUSED, ispm_v_##t *result, const ispm_mask *m0_given ISP_UNUSED
#define SPAR(t, s) , t s ISP_UNUSED
#define VPAR(t, v) , const ispm_v_##t *v##_given ISP_UNUSED
#define APAR(t, a) , t *a ISP_UNUSED, uint64_t a##_n ISP_UNUSED
#define DECLARED );
#define BEGIN ) {
#define STAKE(t, s)
#define VTAKE(t, v) \
    ispm_v_##t v ISP_UNUSED = *v##_given; \
    ISP_SMALL_KEPT(v, false)
#define ATAKE(t, a)
#define START m0 = *m0_given;
#define END }

#define SCALAR(t, s) t s ISP_UNUSED = 0;
#define VECTOR(t, v) \
    ispm_v_##t v ISP_UNUSED = {0}; \
    ISP_SMALL_KEPT(v, true)
#define MASK(m) ispm_mask m ISP_UNUSED = {0};
#define ISP_LOCAL(t, a, n) \
    void *a##_memory __attribute__((cleanup(ispm_drop))) = calloc(n, sizeof(t)); \
    t *const a ISP_UNUSED = a##_memory; \
    if (!a) \
        return ISP_NO_MEMORY;
#define UARRAY(t, a, n) ISP_LOCAL(t, a, n) const uint64_t a##_n ISP_UNUSED = n;
#define PARRAY(t, a, n) ISP_LOCAL(t, a, (size_t)n * ISP_GANG) const struct ispm_own a##_n ISP_UNUSED = {n};

/* ==== scalars: where a line can do without a block it has none, since at the end of a block gcc 12 goes through all labels of the function */

#define ISP_SET(d, x) ISP_STEP (d) = (ISP_TYPE(d))(x)
#define ISP_AMOUNT(d, y) ((uint64_t)(y) & (ISP_BITS(d) - 1))
#define ISP_NEGATIVE(x) ((x) < (ISP_TYPE(x))1 && (x) != 0)

#define CONST(d, n) ISP_SET(d, n)
#define COPY(d, x) ISP_SET(d, x)
#define CONV(d, x) ISP_SET(d, x)
#define ADD(d, x, y) ISP_SET(d, (uint64_t)(x) + (uint64_t)(y))
#define SUB(d, x, y) ISP_SET(d, (uint64_t)(x) - (uint64_t)(y))
#define MUL(d, x, y) ISP_SET(d, (uint64_t)(x) * (uint64_t)(y))
#define AND(d, x, y) ISP_SET(d, (x) & (y))
#define OR(d, x, y) ISP_SET(d, (x) | (y))
#define XOR(d, x, y) ISP_SET(d, (x) ^ (y))
#define SHL(d, x, y) ISP_SET(d, (uint64_t)(x) << ISP_AMOUNT(d, y))
#define SHR(d, x, y) ISP_SET(d, (x) >> ISP_AMOUNT(d, y))
#define MIN(d, x, y) ISP_SET(d, (x) < (y) ? (x) : (y))
#define MAX(d, x, y) ISP_SET(d, (x) > (y) ? (x) : (y))
#define NEG(d, x) ISP_SET(d, 0 - (uint64_t)(x))
#define INV(d, x) ISP_SET(d, ~(x))
#define ABS(d, x) ISP_SET(d, ISP_NEGATIVE(x) ? 0 - (uint64_t)(x) : (uint64_t)(x))
#define LNOT(d, x) ISP_SET(d, !(x))
#define EQ(d, x, y) ISP_SET(d, (x) == (y))
#define NE(d, x, y) ISP_SET(d, (x) != (y))
#define LT(d, x, y) ISP_SET(d, (x) < (y))
#define LE(d, x, y) ISP_SET(d, (x) <= (y))
#define GT(d, x, y) ISP_SET(d, (x) > (y))
#define GE(d, x, y) ISP_SET(d, (x) >= (y))
#define SEL(d, c, x, y) ISP_SET(d, (c) ? (x) : (y))

/* the quotient by -1 is the negative, which alone may pass the type */
#define ISP_MINUS_ONE(y) (ISP_SIGNED(y) && (ISP_TYPE(y))~(y) == 0)
#define ISP_QUOTIENT(x, y) (ISP_MINUS_ONE(y) ? (ISP_TYPE(x))(0 - (uint64_t)(x)) : (ISP_TYPE(x))((x) / (y)))
#define ISP_REMAINDER(x, y) (ISP_MINUS_ONE(y) ? (ISP_TYPE(x))0 : (ISP_TYPE(x))((x) % (y)))
#define ISP_SDIVIDE(d, x, y, k, q) \
    ISP_STEP if ((y) == 0) \
        ISP_TRAP(ISP_DIVIDE, q, ISP_LOWEST(k)); \
    (d) = x
#define DIV(d, x, y, k, q) ISP_SDIVIDE(d, ISP_QUOTIENT(x, y), y, k, q)
#define REM(d, x, y, k, q) ISP_SDIVIDE(d, ISP_REMAINDER(x, y), y, k, q)

/* ==== vectors, lane by lane */

#define ISP_VSET(d, x, k) ISP_STEP ISP_PUT(d, x, k)
#define ISP_VAMOUNT(x, y) ((ISP_U(x))(y) & (ISP_U(x))ISP_ALL(ISP_TYPE(x), ISP_LANE_BITS(x) - 1))
#define ISP_ZERO(x) ((ISP_TYPE(x)){0})
/* by lanes that are 0 or -1, one of two */
#define ISP_CHOSEN(c, x, y) (((x) & (ISP_TYPE(x))(c)) | ((y) & ~(ISP_TYPE(x))(c)))

#define VCOPY(d, x, k) ISP_VSET(d, x, k)
#define VCONV(d, x, k) \
    ISP_STEP do { \
        ISP_BLEND(d, _Generic((d), ispm_v_bool: ISP_TRUTHS((x) != ISP_ZERO(x)), default: __builtin_convertvector(x, ISP_TYPE(d))), k); \
        ISP_SMALL_TOO(d, x, k); \
    } while (0)
#define VADD(d, x, y, k) ISP_VSET(d, (ISP_U(d))(x) + (ISP_U(d))(y), k)
#define VSUB(d, x, y, k) ISP_VSET(d, (ISP_U(d))(x) - (ISP_U(d))(y), k)
#define VMUL(d, x, y, k) ISP_VSET(d, (ISP_U(d))(x) * (ISP_U(d))(y), k)
#define VAND(d, x, y, k) ISP_VSET(d, (x) & (y), k)
#define VOR(d, x, y, k) ISP_VSET(d, (x) | (y), k)
#define VXOR(d, x, y, k) ISP_VSET(d, (x) ^ (y), k)
#define VSHL(d, x, y, k) ISP_VSET(d, (ISP_U(d))(x) << ISP_VAMOUNT(d, y), k)
#define VSHR(d, x, y, k) ISP_VSET(d, (x) >> (ISP_TYPE(x))ISP_VAMOUNT(d, y), k)
#define VMIN(d, x, y, k) ISP_VSET(d, ISP_CHOSEN((x) < (y), x, y), k)
#define VMAX(d, x, y, k) ISP_VSET(d, ISP_CHOSEN((x) > (y), x, y), k)
#define VNEG(d, x, k) ISP_VSET(d, (ISP_U(d)){0} - (ISP_U(d))(x), k)
#define VINV(d, x, k) ISP_VSET(d, ~(x), k)
#define VABS(d, x, k) ISP_VSET(d, ISP_CHOSEN((x) < ISP_ZERO(x), (ISP_U(d)){0} - (ISP_U(d))(x), (ISP_U(d))(x)), k)
#define VLNOT(d, x, k) ISP_VSET(d, ISP_TRUTHS((x) == ISP_ZERO(x)), k)
#define VEQ(d, x, y, k) ISP_VSET(d, ISP_TRUTHS((x) == (y)), k)
#define VNE(d, x, y, k) ISP_VSET(d, ISP_TRUTHS((x) != (y)), k)
#define VLT(d, x, y, k) ISP_VSET(d, ISP_TRUTHS((x) < (y)), k)
#define VLE(d, x, y, k) ISP_VSET(d, ISP_TRUTHS((x) <= (y)), k)
#define VGT(d, x, y, k) ISP_VSET(d, ISP_TRUTHS((x) > (y)), k)
#define VGE(d, x, y, k) ISP_VSET(d, ISP_TRUTHS((x) >= (y)), k)
#define VSEL(d, c, x, y, k) ISP_VSET(d, ISP_CHOSEN(ISP_WIDENED(x, (c) != ISP_ZERO(c)), x, y), k)
#define SPLAT(d, x, k) ISP_VSET(d, ISP_ALL(ISP_TYPE(d), x), k)
#define INDEX(d, k) ISP_VSET(d, ((ispm_v_int32_t){ISP_NUMBERS}), k)

/* each lane of a mask by itself: what lane ispm_p gets */
#define ISP_BY_LANE(d, x, k) \
    do { \
        ISP_TYPE(d) ispm_each = {0}; \
        ISP_EACH(ispm_p) \
            if (ISP_HAS(k, ispm_p)) \
                ispm_each[ispm_p] = x; \
        ISP_PUT(d, ispm_each, k); \
    } while (0)
/* lanes divide by 1 where the divisor is 0, so that they are off, or -1: by that the quotient is the negative */
#define ISP_MINUS_ONES(y) (((y) == ~ISP_ZERO(y)) & (ISP_ZERO(y) > ~ISP_ZERO(y)))
#define ISP_VQUOTIENT(x, y, safe) ISP_CHOSEN(ISP_MINUS_ONES(y), (ISP_U(x)){0} - (ISP_U(x))(x), (ISP_U(x))((x) / safe))
#define ISP_VREMAINDER(x, y, safe) ((x) % safe)
#define ISP_VDIVIDE(d, x, y, k, q, result) \
    ISP_STEP do { \
        const ispm_mask ispm_out = ISP_MASK_OF((y) == ISP_ZERO(y)) & (k); \
        if (ISP_ANY(ispm_out)) \
            ISP_TRAP(ISP_DIVIDE, q, ISP_LOWEST(ispm_out)); \
        const ISP_TYPE(y) ispm_safe = ISP_CHOSEN(((y) == ISP_ZERO(y)) | ISP_MINUS_ONES(y), ISP_ALL(ISP_TYPE(y), 1), y); \
        ISP_PUT(d, result(x, y, ispm_safe), k); \
    } while (0)
#define VDIV(d, x, y, k, q) ISP_VDIVIDE(d, x, y, k, q, ISP_VQUOTIENT)
#define VREM(d, x, y, k, q) ISP_VDIVIDE(d, x, y, k, q, ISP_VREMAINDER)

/* ==== masks */

#define MCOPY(d, x) ISP_SET(d, x)
#define MAND(d, x, y) ISP_SET(d, (x) & (y))
#define MOR(d, x, y) ISP_SET(d, (x) | (y))
#define MANDN(d, x, y) ISP_SET(d, (x) & ~(y))
#define MFULL(d) ISP_SET(d, ISP_FULL)
#define MNONE(d) ISP_SET(d, (ispm_mask){0})
/* truths are 0 or 1 a lane: their negatives are a mask. (As a comparison, gcc 12 fails to compile it at times.) */
#ifdef ISP_BIT_MASKS
#define MTEST(d, x, y) ISP_SET(d, ISP_MASK_OF(((x) & ISP_WIDE(x, y)) != ISP_ZERO(x)))
#else
#define MTEST(d, x, y) ISP_SET(d, -(ispm_mask)(x) & (y))
#endif
#define MLOW(d, x) ISP_SET(d, ISP_LONE(ISP_LOWEST(x)) & (x))
#define MFIRST(d, x) ISP_SET(d, ISP_LOWEST(x))
/* the lanes p with x + p below y as whole numbers: those below y - x, which has no sign and fits where x is below y */
#define ISP_ABOVE(x, y) ((x) < (y) ? (uint64_t)(y) - (uint64_t)(x) : 0)
#define MRANGE(d, x, y) ISP_SET(d, ISP_FIRST(ISP_ABOVE(x, y) < ISP_GANG ? ISP_ABOVE(x, y) : ISP_GANG))

/* ==== jumps */

#define JMP(l) ISP_STEP goto l
#define ISP_JUMP(c, l) \
    ISP_STEP if (c) \
        goto l
#define JZ(x, l) ISP_JUMP(!(x), l)
#define JNZ(x, l) ISP_JUMP(x, l)
#define JOFF(x, l) ISP_JUMP(!ISP_ANY(x), l)
#define JON(x, l) ISP_JUMP(ISP_ANY(x), l)
#define JALL(x, l) ISP_JUMP(ISP_EVERY(x), l)

/* ==== arrays */

#define ISP_ELEMENT(a, i, k, q) \
    if ((uint64_t)(i) >= ISP_COUNT(a)) \
    ISP_TRAP(ISP_INDEX, q, ISP_LOWEST(k))
#define LOAD(d, a, i, k, q) \
    ISP_STEP ISP_ELEMENT(a, i, k, q); \
    (d) = (a)[i]
#define STORE(a, i, y, k, q) \
    ISP_STEP ISP_ELEMENT(a, i, k, q); \
    (a)[i] = (y)

/* where the index was made of 32 bits, by those */
#define ISP_GATHER_SMALL(d, a, i, k, q) \
    do { \
        const uint32_t ispm_n = ISP_SMALL_COUNT(a); \
        ISP_TYPE(d) ispm_each = {0}; \
        if (ispm_in_a_row(&(i), ispm_n, &(k))) { \
            memcpy(&ispm_each, (a) + (i)[0], sizeof ispm_each); \
            ISP_PUT(d, ispm_each, ISP_FULL); \
        } else { \
            ISP_INSIDE(ispm_v_uint32_t, i, ispm_n, k, q); \
            if (ISP_HAS_WORDS(a)) \
                ispm_each = __builtin_convertvector(ispm_elements(a, sizeof *(a), ispm_n, &(i), &(k)), ISP_TYPE(d)); \
            else if (ISP_ANY(k)) { \
                const ispm_v_int32_t ispm_i = ISP_ON(i, k); \
                ISP_EACH(ispm_p) \
                    ispm_each[ispm_p] = (a)[ispm_i[ispm_p]]; \
            } \
            ISP_PUT(d, ispm_each, k); \
        } \
    } while (0)
/* a lane that is off reads what is at 0; where one is on and inside, that is there */
#define GATHER(d, a, i, k, q) \
    ISP_STEP do { \
        ISP_IF_SMALL(a, i, ISP_GATHER_SMALL(d, a, ISP_LOW(i), k, q)) \
        { \
            ISP_INSIDE(ispm_v_uint64_t, i, ISP_COUNT(a), k, q); \
            if (ISP_ANY(k)) { \
                const ispm_v_int64_t ispm_i = ISP_ON(i, k); \
                ISP_TYPE(d) ispm_each = {0}; \
                ISP_EACH(ispm_p) \
                    ispm_each[ispm_p] = ISP_AT(a, ispm_i[ispm_p], ispm_p); \
                ISP_PUT(d, ispm_each, k); \
            } \
        } \
    } while (0)
/* the lanes from the lowest on, so that of two at one place the higher wins */
#define ISP_SCATTER_SMALL(a, i, y, k, q) \
    do { \
        const uint32_t ispm_n = ISP_SMALL_COUNT(a); \
        if (ispm_in_a_row(&(i), ispm_n, &(k))) { \
            const ISP_TYPE(y) ispm_each = (y); \
            memcpy((a) + (i)[0], &ispm_each, sizeof ispm_each); \
        } else { \
            ISP_INSIDE(ispm_v_uint32_t, i, ispm_n, k, q); \
            ISP_EACH(ispm_p) \
                if (ISP_HAS(k, ispm_p)) \
                    (a)[(i)[ispm_p]] = (y)[ispm_p]; \
        } \
    } while (0)
#define SCATTER(a, i, y, k, q) \
    ISP_STEP do { \
        ISP_IF_SMALL(a, i, ISP_SCATTER_SMALL(a, ISP_LOW(i), y, k, q)) \
        { \
            ISP_INSIDE(ispm_v_uint64_t, i, ISP_COUNT(a), k, q); \
            ISP_EACH(ispm_p) \
                if (ISP_HAS(k, ispm_p)) \
                    ISP_AT(a, (i)[ispm_p], ispm_p) = (y)[ispm_p]; \
        } \
    } while (0)

/* as unsigned numbers i + p is outside just where it is as whole numbers */
#define ISP_RUN(a, i, k, q) \
    ISP_EACH(ispm_p) \
        if (ISP_HAS(k, ispm_p) && (uint64_t)(i) + (uint64_t)ispm_p >= ISP_COUNT(a)) \
            ISP_TRAP(ISP_INDEX, q, ispm_p)
#define VLOAD(d, a, i, k, q) \
    ISP_STEP do { \
        if (ispm_run_inside((uint64_t)(i), ISP_COUNT(a))) { \
            ISP_TYPE(d) ispm_each; \
            memcpy(&ispm_each, (a) + (i), sizeof ispm_each); \
            ISP_PUT(d, ispm_each, k); \
        } else { \
            ISP_RUN(a, i, k, q); \
            ISP_BY_LANE(d, (a)[(uint64_t)(i) + (uint64_t)ispm_p], k); \
        } \
    } while (0)
#define VSTORE(a, i, y, k, q) \
    ISP_STEP do { \
        const ISP_TYPE(y) ispm_each = (y); \
        if (!ispm_run_inside((uint64_t)(i), ISP_COUNT(a))) { \
            ISP_RUN(a, i, k, q); \
            ISP_EACH(ispm_p) \
                if (ISP_HAS(k, ispm_p)) \
                    (a)[(uint64_t)(i) + (uint64_t)ispm_p] = ispm_each[ispm_p]; \
        } else if (ISP_EVERY(k)) \
            memcpy((a) + (i), &ispm_each, sizeof ispm_each); \
        else \
            ISP_STORE_LANES((a) + (i), ispm_each, k); \
    } while (0)

/* the lanes of the mask, the lowest first, and elements from i on */
#define ISP_PACKED(a, i, k, q, x) \
    do { \
        uint64_t ispm_e = (uint64_t)(i); \
        ISP_EACH(ispm_p) \
            if (ISP_HAS(k, ispm_p) && ispm_e++ >= ISP_COUNT(a)) \
                ISP_TRAP(ISP_INDEX, q, ispm_p); \
        ispm_e = (uint64_t)(i); \
        ISP_EACH(ispm_p) \
            if (ISP_HAS(k, ispm_p)) { \
                x; \
                ispm_e++; \
            } \
        ispm_members = ispm_e - (uint64_t)(i); \
    } while (0)
#define PLOAD(d, a, i, y, k, q) \
    ISP_STEP do { \
        uint64_t ispm_members; \
        ISP_TYPE(y) ispm_each = {0}; \
        ISP_PACKED(a, i, k, q, ispm_each[ispm_p] = (a)[ispm_e]); \
        ISP_PUT(y, ispm_each, k); \
        (d) = (int32_t)ispm_members; \
    } while (0)
#define PSTORE(d, a, i, y, k, q) \
    ISP_STEP do { \
        uint64_t ispm_members; \
        ISP_PACKED(a, i, k, q, (a)[ispm_e] = (y)[ispm_p]); \
        (d) = (int32_t)ispm_members; \
    } while (0)

#define CLEAR(a, k) \
    ISP_STEP do { \
        if (!ISP_IS_OWN(a)) \
            memset(a, 0, ISP_COUNT(a) * sizeof *(a)); \
        else \
            for (uint64_t ispm_e = 0; ispm_e < ISP_COUNT(a); ispm_e++) \
                ISP_EACH(ispm_p) \
                    if (ISP_HAS(k, ispm_p)) \
                        ISP_AT(a, ispm_e, ispm_p) = 0; \
    } while (0)

/* ==== across lanes: a lane that is off has no value, and reads as 0 */

/* what is made of the lanes of a mask, one after the other: `first`, and then at each lane `more` */
#define ISP_FOLD(d, t, first, more, k) \
    ISP_STEP do { \
        t ispm_sum = first; \
        bool ispm_none = true; \
        ISP_EACH(ispm_p) \
            if (ISP_HAS(k, ispm_p)) { \
                more; \
                ispm_none = false; \
            } \
        (void)ispm_none; \
        (d) = (ISP_TYPE(d))ispm_sum; \
    } while (0)
#define RADD(d, x, k) ISP_FOLD(d, uint64_t, 0, ispm_sum += (uint64_t)(x)[ispm_p], k)
#define RMIN(d, x, k) ISP_FOLD(d, ISP_TYPE(d), 0, if (ispm_none || (x)[ispm_p] < ispm_sum) ispm_sum = (x)[ispm_p], k)
#define RMAX(d, x, k) ISP_FOLD(d, ISP_TYPE(d), 0, if (ispm_none || (x)[ispm_p] > ispm_sum) ispm_sum = (x)[ispm_p], k)
#define REQU(d, x, k) ISP_FOLD(d, bool, true, ispm_sum &= (x)[ispm_p] == (x)[ISP_LOWEST(k)], k)
#define RANY(d, x, k) ISP_FOLD(d, bool, false, ispm_sum |= (x)[ispm_p] != 0, k)
#define RALL(d, x, k) ISP_FOLD(d, bool, true, ispm_sum &= (x)[ispm_p] != 0, k)

/* each lane gets what the lower ones give */
#define ISP_SCAN(d, first, more, k) \
    ISP_STEP do { \
        ISP_TYPE(d) ispm_each = {0}; \
        uint64_t ispm_sum = first; \
        ISP_EACH(ispm_p) \
            if (ISP_HAS(k, ispm_p)) { \
                ispm_each[ispm_p] = (__typeof__((d)[0]))ispm_sum; \
                more; \
            } \
        ISP_PUT(d, ispm_each, k); \
    } while (0)
#define SADD(d, x, k) ISP_SCAN(d, 0, ispm_sum += (uint64_t)(x)[ispm_p], k)
#define SAND(d, x, k) ISP_SCAN(d, ~(uint64_t)0, ispm_sum &= (uint64_t)(x)[ispm_p], k)
#define SOR(d, x, k) ISP_SCAN(d, 0, ispm_sum |= (uint64_t)(x)[ispm_p], k)

/* the number of a lane, modulo the number of lanes */
#define ISP_LANE(i) ((uint32_t)(i) & (ISP_GANG - 1))

#define ISP_MOVED(d, x, y, k) \
    ISP_STEP do { \
        const ISP_TYPE(x) ispm_x = ISP_ON(x, k); \
        ISP_BY_LANE(d, y, k); \
    } while (0)
#define BCAST(d, x, i, k) ISP_MOVED(d, x, ispm_x[ISP_LANE(i)], k)
#define ROT(d, x, i, k) ISP_MOVED(d, x, ispm_x[ISP_LANE((uint32_t)ispm_p + (uint32_t)(i))], k)
#define SHF(d, x, i, k) ISP_MOVED(d, x, ispm_p + (int64_t)(i) >= 0 && ispm_p + (int64_t)(i) < ISP_GANG ? ispm_x[ISP_LANE((uint32_t)ispm_p + (uint32_t)(i))] : 0, k)
#define SHUF(d, x, i, k) ISP_MOVED(d, x, ispm_x[ISP_LANE((i)[ispm_p])], k)
#define SHUF2(d, x, y, i, k) \
    ISP_STEP do { \
        const ISP_TYPE(x) ispm_x = ISP_ON(x, k), ispm_y = ISP_ON(y, k); \
        ISP_BY_LANE(d, ((uint32_t)(i)[ispm_p] & ISP_GANG ? ispm_y[ISP_LANE((i)[ispm_p])] : ispm_x[ISP_LANE((i)[ispm_p])]), k); \
    } while (0)
#define EXTR(d, x, i, k) ISP_SET(d, ISP_HAS(k, ISP_LANE(i)) ? (x)[ISP_LANE(i)] : 0)
#define INS(d, x, i, y, k) \
    ISP_STEP do { \
        ISP_TYPE(x) ispm_x = (x); \
        ispm_x[ISP_LANE(i)] = (y); \
        ISP_PUT(d, ispm_x, k); \
    } while (0)

/* ==== free lines of vectors, and one that is left out; it counts as a step */

#define FVCOPY(...) ISP_FREE(VCOPY(__VA_ARGS__))
#define FVCONV(...) ISP_FREE(VCONV(__VA_ARGS__))
#define FVADD(...) ISP_FREE(VADD(__VA_ARGS__))
#define FVSUB(...) ISP_FREE(VSUB(__VA_ARGS__))
#define FVMUL(...) ISP_FREE(VMUL(__VA_ARGS__))
#define FVAND(...) ISP_FREE(VAND(__VA_ARGS__))
#define FVOR(...) ISP_FREE(VOR(__VA_ARGS__))
#define FVXOR(...) ISP_FREE(VXOR(__VA_ARGS__))
#define FVSHL(...) ISP_FREE(VSHL(__VA_ARGS__))
#define FVSHR(...) ISP_FREE(VSHR(__VA_ARGS__))
#define FVMIN(...) ISP_FREE(VMIN(__VA_ARGS__))
#define FVMAX(...) ISP_FREE(VMAX(__VA_ARGS__))
#define FVNEG(...) ISP_FREE(VNEG(__VA_ARGS__))
#define FVINV(...) ISP_FREE(VINV(__VA_ARGS__))
#define FVABS(...) ISP_FREE(VABS(__VA_ARGS__))
#define FVLNOT(...) ISP_FREE(VLNOT(__VA_ARGS__))
#define FVEQ(...) ISP_FREE(VEQ(__VA_ARGS__))
#define FVNE(...) ISP_FREE(VNE(__VA_ARGS__))
#define FVLT(...) ISP_FREE(VLT(__VA_ARGS__))
#define FVLE(...) ISP_FREE(VLE(__VA_ARGS__))
#define FVGT(...) ISP_FREE(VGT(__VA_ARGS__))
#define FVGE(...) ISP_FREE(VGE(__VA_ARGS__))
#define FVSEL(...) ISP_FREE(VSEL(__VA_ARGS__))
#define FSPLAT(...) ISP_FREE(SPLAT(__VA_ARGS__))
#define FINDEX(...) ISP_FREE(INDEX(__VA_ARGS__))
#define FVDIV(...) ISP_FREE(VDIV(__VA_ARGS__))
#define FVREM(...) ISP_FREE(VREM(__VA_ARGS__))
#define FGATHER(...) ISP_FREE(GATHER(__VA_ARGS__))
#define FVLOAD(...) ISP_FREE(VLOAD(__VA_ARGS__))
#define FPLOAD(...) ISP_FREE(PLOAD(__VA_ARGS__))
#define FSADD(...) ISP_FREE(SADD(__VA_ARGS__))
#define FSAND(...) ISP_FREE(SAND(__VA_ARGS__))
#define FSOR(...) ISP_FREE(SOR(__VA_ARGS__))
#define FBCAST(...) ISP_FREE(BCAST(__VA_ARGS__))
#define FROT(...) ISP_FREE(ROT(__VA_ARGS__))
#define FSHF(...) ISP_FREE(SHF(__VA_ARGS__))
#define FSHUF(...) ISP_FREE(SHUF(__VA_ARGS__))
#define FSHUF2(...) ISP_FREE(SHUF2(__VA_ARGS__))
#define FINS(...) ISP_FREE(INS(__VA_ARGS__))

#define SKIP() ISP_STEP (void)0

/* ==== output, assert, calls and returns */

#define ISP_SAY(bytes, count) \
    if (!ispm_write(run, bytes, count)) \
    return ISP_NO_MEMORY
#define SAY(t) ISP_STEP ISP_SAY(t, sizeof(t) - 1)
#define PRS(x) \
    ISP_STEP do { \
        char ispm_text[21]; \
        const size_t ispm_count = ISP_PRINT(ispm_text, x); \
        ISP_SAY(ispm_text, ispm_count); \
    } while (0)
#define PRV(x, k) \
    ISP_STEP do { \
        char ispm_text[22 * ISP_GANG + 2]; \
        size_t ispm_count = 0; \
        ISP_EACH(ispm_p) \
        { \
            ispm_text[ispm_count++] = ispm_p ? ',' : '['; \
            if (ISP_HAS(k, ispm_p)) \
                ispm_count += ISP_PRINT(ispm_text + ispm_count, (x)[ispm_p]); \
            else \
                ispm_text[ispm_count++] = '_'; \
        } \
        ispm_text[ispm_count++] = ']'; \
        ISP_SAY(ispm_text, ispm_count); \
    } while (0)
#define FAIL(x, q) \
    ISP_STEP if (ISP_ANY(x)) \
    ISP_TRAP(ISP_ASSERT, q, ISP_LOWEST(x))

/* what is passed: a scalar, the lanes of a vector that call, an array */
#define S(x) x
#define V(x) (const ISP_TYPE(x)[1]){ISP_ON(x, ispm_k)}
#define A(x) x, x##_n

#define ISP_CALL(f, d, k, q, ...) \
    const ispm_mask ispm_k = (k); \
    if (depth >= 256) \
        ISP_TRAP(ISP_DEPTH, q, ISP_LOWEST(ispm_k)); \
    const enum isp_end ispm_e = f(run, depth + 1, d, &ispm_k, ##__VA_ARGS__); \
    if (ispm_e != ISP_ENDED) \
    return ispm_e
#define CALL(f, k, q, ...) \
    ISP_STEP { \
        ISP_CALL(f, NULL, k, q, ##__VA_ARGS__); \
    }
#define SCALL(f, d, k, q, ...) \
    ISP_STEP { \
        ISP_TYPE(d) ispm_d = 0; \
        ISP_CALL(f, &ispm_d, k, q, ##__VA_ARGS__); \
        (d) = ispm_d; \
    }
#define VCALL(f, d, k, q, ...) \
    ISP_STEP { \
        ISP_TYPE(d) ispm_d = {0}; \
        ISP_CALL(f, &ispm_d, k, q, ##__VA_ARGS__); \
        ISP_PUT(d, ispm_d, ispm_k); \
    }

/* what a run begins with */
#define ISP_ENTRY(result) run, 1, result, (const ispm_mask[1]){ISP_FULL}

#define LEAVE() ISP_STEP return ISP_ENDED
#define RET(x) \
    ISP_STEP do { \
        *result = (x); \
        return ISP_ENDED; \
    } while (0)

/* ==== short lines, where the compiler does not optimize, and with -DISP_CALLS: each is a call of one of the macros above */

#if defined ISP_CALLS && ISP_CALLS
#include "isp_calls.h"
#endif

#endif
