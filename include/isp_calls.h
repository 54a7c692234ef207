/* The lines of isp_machine.h as calls, for long kernels: a line is some twenty words in place of hundreds.
 *
 * The first part makes a function of each line of vectors. Its body is the macro of isp_machine.h of that name, once for each type, so what a line does is
 * said there alone. The second part gives the macro a new body, a call of the function, for the code below. isp_machine.h includes this file, with
 * -DISP_CALLS and where the compiler does not optimize.
 */
#ifndef ISP_CALLS_H
#define ISP_CALLS_H

/* ==== types: each has a number, which stands beside a register */

enum {
    ispm_of_bool,
    ispm_of_int8_t,
    ispm_of_uint8_t,
    ispm_of_int16_t,
    ispm_of_uint16_t,
    ispm_of_int32_t,
    ispm_of_uint32_t,
    ispm_of_int64_t,
    ispm_of_uint64_t
};

/* `make` for each type, which comes last */
#define ISP_PACKED_TYPES(make, ...) make(__VA_ARGS__, int32_t) make(__VA_ARGS__, uint32_t)
#define ISP_WHOLE_TYPES(make, ...) \
    make(__VA_ARGS__, int8_t) make(__VA_ARGS__, uint8_t) make(__VA_ARGS__, int16_t) make(__VA_ARGS__, uint16_t) \
    make(__VA_ARGS__, int32_t) make(__VA_ARGS__, uint32_t) make(__VA_ARGS__, int64_t) make(__VA_ARGS__, uint64_t)
#define ISP_ALL_TYPES(make, ...) make(__VA_ARGS__, bool) ISP_WHOLE_TYPES(make, __VA_ARGS__)

/* ==== functions: vectors and masks come by their addresses, scalars as 64 bits. Steps are counted where the line stands. */

#undef ISP_STEP
#define ISP_STEP

/* without optimization nothing is made inline, and of what is unused gcc leaves out only what might be */
#ifdef __OPTIMIZE__
#define ISP_FUNCTION static __attribute__((noinline, unused))
#else
#define ISP_FUNCTION static inline __attribute__((unused))
#endif

/* ---- masks */

ISP_FUNCTION bool ispm_any(const ispm_mask *k)
{
    return ISP_ANY(*k);
}

ISP_FUNCTION bool ispm_every(const ispm_mask *k)
{
    return ISP_EVERY(*k);
}

ISP_FUNCTION int ispm_lowest(const ispm_mask *k)
{
    return ISP_LOWEST(*k);
}

ISP_FUNCTION void ispm_MLOW(ispm_mask *d, const ispm_mask *x)
{
    MLOW(*d, *x);
}

ISP_FUNCTION void ispm_MRANGE(ispm_mask *d, int64_t x, int64_t y)
{
    MRANGE(*d, x, y);
}

/* ---- vectors, lane by lane */

#define ISP_CASE_ONE(W, t) \
    case ispm_of_##t: \
        W(*(ispm_v_##t *)d, *(ispm_v_##t *)x, *k); \
        break;
#define ISP_ONE(W, types) \
    ISP_FUNCTION void ispm_##W(int type, void *d, void *x, const ispm_mask *k) \
    { \
        switch (type) { types(ISP_CASE_ONE, W) } \
    }
ISP_ONE(VCOPY, ISP_ALL_TYPES)
ISP_ONE(VNEG, ISP_WHOLE_TYPES)
ISP_ONE(VINV, ISP_WHOLE_TYPES)
ISP_ONE(VABS, ISP_WHOLE_TYPES)
ISP_ONE(SADD, ISP_WHOLE_TYPES)
ISP_ONE(SAND, ISP_WHOLE_TYPES)
ISP_ONE(SOR, ISP_WHOLE_TYPES)

#define ISP_CASE_TWO(W, t) \
    case ispm_of_##t: \
        W(*(ispm_v_##t *)d, *(ispm_v_##t *)x, *(ispm_v_##t *)y, *k); \
        break;
#define ISP_TWO(W, types) \
    ISP_FUNCTION void ispm_##W(int type, void *d, void *x, void *y, const ispm_mask *k) \
    { \
        switch (type) { types(ISP_CASE_TWO, W) } \
    }
ISP_TWO(VADD, ISP_WHOLE_TYPES)
ISP_TWO(VSUB, ISP_WHOLE_TYPES)
ISP_TWO(VMUL, ISP_WHOLE_TYPES)
ISP_TWO(VAND, ISP_WHOLE_TYPES)
ISP_TWO(VOR, ISP_WHOLE_TYPES)
ISP_TWO(VXOR, ISP_WHOLE_TYPES)
ISP_TWO(VSHL, ISP_WHOLE_TYPES)
ISP_TWO(VSHR, ISP_WHOLE_TYPES)
ISP_TWO(VMIN, ISP_WHOLE_TYPES)
ISP_TWO(VMAX, ISP_WHOLE_TYPES)

/* the type is that of what is compared */
#define ISP_CASE_COMPARED(W, t) \
    case ispm_of_##t: \
        W(*d, *(ispm_v_##t *)x, *(ispm_v_##t *)y, *k); \
        break;
#define ISP_COMPARED(W) \
    ISP_FUNCTION void ispm_##W(int type, ispm_v_bool *d, void *x, void *y, const ispm_mask *k) \
    { \
        switch (type) { ISP_ALL_TYPES(ISP_CASE_COMPARED, W) } \
    }
ISP_COMPARED(VEQ)
ISP_COMPARED(VNE)
ISP_COMPARED(VLT)
ISP_COMPARED(VLE)
ISP_COMPARED(VGT)
ISP_COMPARED(VGE)

#define ISP_CASE_VSEL(W, t) \
    case ispm_of_##t: \
        W(*(ispm_v_##t *)d, *c, *(ispm_v_##t *)x, *(ispm_v_##t *)y, *k); \
        break;
ISP_FUNCTION void ispm_VSEL(int type, void *d, ispm_v_bool *c, void *x, void *y, const ispm_mask *k)
{
    switch (type) { ISP_ALL_TYPES(ISP_CASE_VSEL, VSEL) }
}

#define ISP_CASE_SPLAT(W, t) \
    case ispm_of_##t: \
        W(*(ispm_v_##t *)d, (t)x, *k); \
        break;
ISP_FUNCTION void ispm_SPLAT(int type, void *d, uint64_t x, const ispm_mask *k)
{
    switch (type) { ISP_ALL_TYPES(ISP_CASE_SPLAT, SPLAT) }
}

ISP_FUNCTION void ispm_VLNOT(ispm_v_bool *d, ispm_v_bool *x, const ispm_mask *k)
{
    VLNOT(*d, *x, *k);
}

ISP_FUNCTION void ispm_INDEX(ispm_v_int32_t *d, const ispm_mask *k)
{
    INDEX(*d, *k);
}

/* to a type, from each */
#define ISP_CASE_VCONV(to, t) \
    case ispm_of_##t: \
        VCONV(*d, *(ispm_v_##t *)x, *k); \
        break;
#define ISP_CONVERTED(to) \
    ISP_FUNCTION void ispm_VCONV_##to(ispm_v_##to *d, int type, void *x, const ispm_mask *k) \
    { \
        switch (type) { ISP_ALL_TYPES(ISP_CASE_VCONV, to) } \
    }
ISP_CONVERTED(bool)
ISP_CONVERTED(int8_t)
ISP_CONVERTED(uint8_t)
ISP_CONVERTED(int16_t)
ISP_CONVERTED(uint16_t)
ISP_CONVERTED(int32_t)
ISP_CONVERTED(uint32_t)
ISP_CONVERTED(int64_t)
ISP_CONVERTED(uint64_t)

/* ---- what may trap: how it ended */

#define ISP_CASE_DIVIDED(W, t) \
    case ispm_of_##t: \
        W(*(ispm_v_##t *)d, *(ispm_v_##t *)x, *(ispm_v_##t *)y, *k, *q); \
        break;
#define ISP_DIVIDED(W) \
    ISP_FUNCTION enum isp_end ispm_##W(int type, struct isp_run *run, void *d, void *x, void *y, const ispm_mask *k, const struct isp_place *q) \
    { \
        switch (type) { ISP_WHOLE_TYPES(ISP_CASE_DIVIDED, W) } \
        return ISP_ENDED; \
    }
ISP_DIVIDED(VDIV)
ISP_DIVIDED(VREM)

/* an array that lanes share, and one of which each lane has its own */
typedef uint64_t ispm_count_shared;
typedef struct ispm_own ispm_count_own;

#define ISP_CASE_GATHER(W, t) \
    case ispm_of_##t: { \
        t *const a = at; \
        W(*(ispm_v_##t *)d, a, *i, *k, *q); \
        break; \
    }
#define ISP_GATHERED(sharing) \
    ISP_FUNCTION enum isp_end ispm_GATHER_##sharing( \
        int type, struct isp_run *run, void *d, void *at, ispm_count_##sharing a_n, ispm_v_int64_t *i, const ispm_mask *k, const struct isp_place *q) \
    { \
        switch (type) { ISP_ALL_TYPES(ISP_CASE_GATHER, GATHER) } \
        return ISP_ENDED; \
    }
ISP_GATHERED(shared)
ISP_GATHERED(own)

#define ISP_CASE_SCATTER(W, t) \
    case ispm_of_##t: { \
        t *const a = at; \
        W(a, *i, *(ispm_v_##t *)y, *k, *q); \
        break; \
    }
#define ISP_SCATTERED(sharing) \
    ISP_FUNCTION enum isp_end ispm_SCATTER_##sharing( \
        int type, struct isp_run *run, void *at, ispm_count_##sharing a_n, ispm_v_int64_t *i, void *y, const ispm_mask *k, const struct isp_place *q) \
    { \
        switch (type) { ISP_ALL_TYPES(ISP_CASE_SCATTER, SCATTER) } \
        return ISP_ENDED; \
    }
ISP_SCATTERED(shared)
ISP_SCATTERED(own)

#define ISP_CASE_VLOAD(W, t) \
    case ispm_of_##t: { \
        t *const a = at; \
        W(*(ispm_v_##t *)d, a, i, *k, *q); \
        break; \
    }
ISP_FUNCTION enum isp_end ispm_VLOAD(
    int type, struct isp_run *run, void *d, void *at, uint64_t a_n, int64_t i, const ispm_mask *k, const struct isp_place *q)
{
    switch (type) { ISP_ALL_TYPES(ISP_CASE_VLOAD, VLOAD) }
    return ISP_ENDED;
}

#define ISP_CASE_VSTORE(W, t) \
    case ispm_of_##t: { \
        t *const a = at; \
        W(a, i, *(ispm_v_##t *)y, *k, *q); \
        break; \
    }
ISP_FUNCTION enum isp_end ispm_VSTORE(
    int type, struct isp_run *run, void *at, uint64_t a_n, int64_t i, void *y, const ispm_mask *k, const struct isp_place *q)
{
    switch (type) { ISP_ALL_TYPES(ISP_CASE_VSTORE, VSTORE) }
    return ISP_ENDED;
}

#define ISP_CASE_PACKED(W, t) \
    case ispm_of_##t: { \
        t *const a = at; \
        W(*d, a, i, *(ispm_v_##t *)y, *k, *q); \
        break; \
    }
#define ISP_PACKED_CALL(W) \
    ISP_FUNCTION enum isp_end ispm_##W( \
        int type, struct isp_run *run, int32_t *d, void *at, uint64_t a_n, int64_t i, void *y, const ispm_mask *k, const struct isp_place *q) \
    { \
        switch (type) { ISP_PACKED_TYPES(ISP_CASE_PACKED, W) } \
        return ISP_ENDED; \
    }
ISP_PACKED_CALL(PLOAD)
ISP_PACKED_CALL(PSTORE)

/* ---- across lanes */

#define ISP_CASE_REDUCED(W, result, t) \
    case ispm_of_##t: \
        W(*(result *)d, *(ispm_v_##t *)x, *k); \
        break;
ISP_FUNCTION void ispm_RADD(int type, void *d, void *x, const ispm_mask *k)
{
    switch (type) {
        ISP_CASE_REDUCED(RADD, int16_t, int8_t)
        ISP_CASE_REDUCED(RADD, uint16_t, uint8_t)
        ISP_CASE_REDUCED(RADD, int32_t, int16_t)
        ISP_CASE_REDUCED(RADD, uint32_t, uint16_t)
        ISP_CASE_REDUCED(RADD, int64_t, int32_t)
        ISP_CASE_REDUCED(RADD, uint64_t, uint32_t)
        ISP_CASE_REDUCED(RADD, int64_t, int64_t)
        ISP_CASE_REDUCED(RADD, uint64_t, uint64_t)
    }
}

#define ISP_CASE_LEAST(W, t) ISP_CASE_REDUCED(W, t, t)
#define ISP_LEAST(W) \
    ISP_FUNCTION void ispm_##W(int type, void *d, void *x, const ispm_mask *k) \
    { \
        switch (type) { ISP_WHOLE_TYPES(ISP_CASE_LEAST, W) } \
    }
ISP_LEAST(RMIN)
ISP_LEAST(RMAX)

ISP_FUNCTION void ispm_REQU(int type, bool *d, void *x, const ispm_mask *k)
{
    switch (type) { ISP_WHOLE_TYPES(ISP_CASE_REDUCED, REQU, bool) }
}

ISP_FUNCTION void ispm_RANY(bool *d, ispm_v_bool *x, const ispm_mask *k)
{
    RANY(*d, *x, *k);
}

ISP_FUNCTION void ispm_RALL(bool *d, ispm_v_bool *x, const ispm_mask *k)
{
    RALL(*d, *x, *k);
}

#define ISP_CASE_EXCHANGED(W, t) \
    case ispm_of_##t: \
        W(*(ispm_v_##t *)d, *(ispm_v_##t *)x, i, *k); \
        break;
#define ISP_EXCHANGED(W) \
    ISP_FUNCTION void ispm_##W(int type, void *d, void *x, int32_t i, const ispm_mask *k) \
    { \
        switch (type) { ISP_WHOLE_TYPES(ISP_CASE_EXCHANGED, W) } \
    }
ISP_EXCHANGED(BCAST)
ISP_EXCHANGED(ROT)
ISP_EXCHANGED(SHF)

#define ISP_CASE_SHUF(W, t) \
    case ispm_of_##t: \
        W(*(ispm_v_##t *)d, *(ispm_v_##t *)x, *i, *k); \
        break;
ISP_FUNCTION void ispm_SHUF(int type, void *d, void *x, ispm_v_int32_t *i, const ispm_mask *k)
{
    switch (type) { ISP_WHOLE_TYPES(ISP_CASE_SHUF, SHUF) }
}

#define ISP_CASE_SHUF2(W, t) \
    case ispm_of_##t: \
        W(*(ispm_v_##t *)d, *(ispm_v_##t *)x, *(ispm_v_##t *)y, *i, *k); \
        break;
ISP_FUNCTION void ispm_SHUF2(int type, void *d, void *x, void *y, ispm_v_int32_t *i, const ispm_mask *k)
{
    switch (type) { ISP_WHOLE_TYPES(ISP_CASE_SHUF2, SHUF2) }
}

#define ISP_CASE_EXTR(W, t) \
    case ispm_of_##t: \
        W(*(t *)d, *(ispm_v_##t *)x, i, *k); \
        break;
ISP_FUNCTION void ispm_EXTR(int type, void *d, void *x, int32_t i, const ispm_mask *k)
{
    switch (type) { ISP_WHOLE_TYPES(ISP_CASE_EXTR, EXTR) }
}

#define ISP_CASE_INS(W, t) \
    case ispm_of_##t: \
        W(*(ispm_v_##t *)d, *(ispm_v_##t *)x, i, (t)y, *k); \
        break;
ISP_FUNCTION void ispm_INS(int type, void *d, void *x, int32_t i, uint64_t y, const ispm_mask *k)
{
    switch (type) { ISP_WHOLE_TYPES(ISP_CASE_INS, INS) }
}

/* ---- output, and what is passed */

#define ISP_CASE_PRV(W, t) \
    case ispm_of_##t: \
        W(*(ispm_v_##t *)x, *k); \
        break;
ISP_FUNCTION enum isp_end ispm_PRV(int type, struct isp_run *run, void *x, const ispm_mask *k)
{
    switch (type) { ISP_ALL_TYPES(ISP_CASE_PRV, PRV) }
    return ISP_ENDED;
}

/* the lanes of a vector that call, in a place for it */
#define ISP_CASE_ON(W, t) \
    case ispm_of_##t: \
        *(ispm_v_##t *)d = W(*(ispm_v_##t *)x, *k); \
        break;
ISP_FUNCTION void *ispm_passed(int type, void *d, void *x, const ispm_mask *k)
{
    switch (type) { ISP_ALL_TYPES(ISP_CASE_ON, ISP_ON) }
    return d;
}

/* ==== lines as calls. What is not given anew is short as it is, or by what is. */

#undef ISP_STEP
#define ISP_STEP ISP_ONE_STEP

/* a function of the code is little more than calls, and is not optimized: of a long one gcc would analyze the pointers longer than all the rest takes */
#ifdef __OPTIMIZE__
#undef ISP_KERNEL
#ifdef __clang__
#define ISP_KERNEL static ISP_UNUSED __attribute__((optnone, noinline))
#else
#define ISP_KERNEL static ISP_UNUSED __attribute__((optimize("O0")))
#endif
#endif

/* the number of a vector's type beside it */
#undef VTAKE
#undef VECTOR
#define VTAKE(t, v) \
    ispm_v_##t v ISP_UNUSED = *v##_given; \
    enum { v##_type = ispm_of_##t };
#define VECTOR(t, v) \
    ispm_v_##t v ISP_UNUSED = {0}; \
    enum { v##_type = ispm_of_##t };

#undef ISP_ANY
#undef ISP_EVERY
#undef ISP_LOWEST
#undef ISP_PUT
#define ISP_ANY(k) ispm_any(&k)
#define ISP_EVERY(k) ispm_every(&k)
#define ISP_LOWEST(k) ispm_lowest(&k)
#define ISP_PUT(d, x, k) ispm_VCOPY(d##_type, &d, &x, &k)

/* a free line keeps its lanes too: a call takes longer than that */
#undef ISP_FREE
#define ISP_FREE(line) line

/* a call that may trap */
#define ISP_OR_TRAP(call) \
    ISP_STEP if (call != ISP_ENDED) \
    return ISP_TRAPPED

/* ---- masks */

#undef MLOW
#undef MRANGE
#define MLOW(d, x) ISP_STEP ispm_MLOW(&d, &x)
#define MRANGE(d, x, y) ISP_STEP ispm_MRANGE(&d, x, y)

/* ---- vectors, lane by lane */

#undef VCOPY
#undef VNEG
#undef VINV
#undef VABS
#undef VLNOT
#define VCOPY(d, x, k) ISP_STEP ispm_VCOPY(d##_type, &d, &x, &k)
#define VNEG(d, x, k) ISP_STEP ispm_VNEG(d##_type, &d, &x, &k)
#define VINV(d, x, k) ISP_STEP ispm_VINV(d##_type, &d, &x, &k)
#define VABS(d, x, k) ISP_STEP ispm_VABS(d##_type, &d, &x, &k)
#define VLNOT(d, x, k) ISP_STEP ispm_VLNOT(&d, &x, &k)

#undef VADD
#undef VSUB
#undef VMUL
#undef VAND
#undef VOR
#undef VXOR
#undef VSHL
#undef VSHR
#undef VMIN
#undef VMAX
#define VADD(d, x, y, k) ISP_STEP ispm_VADD(d##_type, &d, &x, &y, &k)
#define VSUB(d, x, y, k) ISP_STEP ispm_VSUB(d##_type, &d, &x, &y, &k)
#define VMUL(d, x, y, k) ISP_STEP ispm_VMUL(d##_type, &d, &x, &y, &k)
#define VAND(d, x, y, k) ISP_STEP ispm_VAND(d##_type, &d, &x, &y, &k)
#define VOR(d, x, y, k) ISP_STEP ispm_VOR(d##_type, &d, &x, &y, &k)
#define VXOR(d, x, y, k) ISP_STEP ispm_VXOR(d##_type, &d, &x, &y, &k)
#define VSHL(d, x, y, k) ISP_STEP ispm_VSHL(d##_type, &d, &x, &y, &k)
#define VSHR(d, x, y, k) ISP_STEP ispm_VSHR(d##_type, &d, &x, &y, &k)
#define VMIN(d, x, y, k) ISP_STEP ispm_VMIN(d##_type, &d, &x, &y, &k)
#define VMAX(d, x, y, k) ISP_STEP ispm_VMAX(d##_type, &d, &x, &y, &k)

#undef VEQ
#undef VNE
#undef VLT
#undef VLE
#undef VGT
#undef VGE
#define VEQ(d, x, y, k) ISP_STEP ispm_VEQ(x##_type, &d, &x, &y, &k)
#define VNE(d, x, y, k) ISP_STEP ispm_VNE(x##_type, &d, &x, &y, &k)
#define VLT(d, x, y, k) ISP_STEP ispm_VLT(x##_type, &d, &x, &y, &k)
#define VLE(d, x, y, k) ISP_STEP ispm_VLE(x##_type, &d, &x, &y, &k)
#define VGT(d, x, y, k) ISP_STEP ispm_VGT(x##_type, &d, &x, &y, &k)
#define VGE(d, x, y, k) ISP_STEP ispm_VGE(x##_type, &d, &x, &y, &k)

#undef VSEL
#undef SPLAT
#undef INDEX
#undef VCONV
#undef VDIV
#undef VREM
#define VSEL(d, c, x, y, k) ISP_STEP ispm_VSEL(d##_type, &d, &c, &x, &y, &k)
#define SPLAT(d, x, k) ISP_STEP ispm_SPLAT(d##_type, &d, (uint64_t)x, &k)
#define INDEX(d, k) ISP_STEP ispm_INDEX(&d, &k)
#define VCONV(d, x, k) \
    ISP_STEP _Generic(d, \
        ispm_v_bool: ispm_VCONV_bool, \
        ispm_v_int8_t: ispm_VCONV_int8_t, \
        ispm_v_uint8_t: ispm_VCONV_uint8_t, \
        ispm_v_int16_t: ispm_VCONV_int16_t, \
        ispm_v_uint16_t: ispm_VCONV_uint16_t, \
        ispm_v_int32_t: ispm_VCONV_int32_t, \
        ispm_v_uint32_t: ispm_VCONV_uint32_t, \
        ispm_v_int64_t: ispm_VCONV_int64_t, \
        ispm_v_uint64_t: ispm_VCONV_uint64_t)(&d, x##_type, &x, &k)
#define VDIV(d, x, y, k, q) ISP_OR_TRAP(ispm_VDIV(d##_type, run, &d, &x, &y, &k, &q))
#define VREM(d, x, y, k, q) ISP_OR_TRAP(ispm_VREM(d##_type, run, &d, &x, &y, &k, &q))

/* ---- arrays */

#define ISP_SHARING(W, a) _Generic(a##_n, uint64_t: ispm_##W##_shared, struct ispm_own: ispm_##W##_own)
#undef GATHER
#undef SCATTER
#undef VLOAD
#undef VSTORE
#undef PLOAD
#undef PSTORE
#define GATHER(d, a, i, k, q) ISP_OR_TRAP(ISP_SHARING(GATHER, a)(d##_type, run, &d, a, a##_n, &i, &k, &q))
#define SCATTER(a, i, y, k, q) ISP_OR_TRAP(ISP_SHARING(SCATTER, a)(y##_type, run, a, a##_n, &i, &y, &k, &q))
#define VLOAD(d, a, i, k, q) ISP_OR_TRAP(ispm_VLOAD(d##_type, run, &d, a, a##_n, i, &k, &q))
#define VSTORE(a, i, y, k, q) ISP_OR_TRAP(ispm_VSTORE(y##_type, run, a, a##_n, i, &y, &k, &q))
#define PLOAD(d, a, i, y, k, q) ISP_OR_TRAP(ispm_PLOAD(y##_type, run, &d, a, a##_n, i, &y, &k, &q))
#define PSTORE(d, a, i, y, k, q) ISP_OR_TRAP(ispm_PSTORE(y##_type, run, &d, a, a##_n, i, &y, &k, &q))

/* ---- across lanes */

#undef RADD
#undef RMIN
#undef RMAX
#undef REQU
#undef RANY
#undef RALL
#define RADD(d, x, k) ISP_STEP ispm_RADD(x##_type, &d, &x, &k)
#define RMIN(d, x, k) ISP_STEP ispm_RMIN(x##_type, &d, &x, &k)
#define RMAX(d, x, k) ISP_STEP ispm_RMAX(x##_type, &d, &x, &k)
#define REQU(d, x, k) ISP_STEP ispm_REQU(x##_type, &d, &x, &k)
#define RANY(d, x, k) ISP_STEP ispm_RANY(&d, &x, &k)
#define RALL(d, x, k) ISP_STEP ispm_RALL(&d, &x, &k)

#undef SADD
#undef SAND
#undef SOR
#undef BCAST
#undef ROT
#undef SHF
#undef SHUF
#undef SHUF2
#undef EXTR
#undef INS
#define SADD(d, x, k) ISP_STEP ispm_SADD(d##_type, &d, &x, &k)
#define SAND(d, x, k) ISP_STEP ispm_SAND(d##_type, &d, &x, &k)
#define SOR(d, x, k) ISP_STEP ispm_SOR(d##_type, &d, &x, &k)
#define BCAST(d, x, i, k) ISP_STEP ispm_BCAST(d##_type, &d, &x, i, &k)
#define ROT(d, x, i, k) ISP_STEP ispm_ROT(d##_type, &d, &x, i, &k)
#define SHF(d, x, i, k) ISP_STEP ispm_SHF(d##_type, &d, &x, i, &k)
#define SHUF(d, x, i, k) ISP_STEP ispm_SHUF(d##_type, &d, &x, &i, &k)
#define SHUF2(d, x, y, i, k) ISP_STEP ispm_SHUF2(d##_type, &d, &x, &y, &i, &k)
#define EXTR(d, x, i, k) ISP_STEP ispm_EXTR(x##_type, &d, &x, i, &k)
#define INS(d, x, i, y, k) ISP_STEP ispm_INS(d##_type, &d, &x, i, (uint64_t)y, &k)

/* ---- output, and what is passed */

#undef PRV
#undef V
#define PRV(x, k) \
    ISP_STEP if (ispm_PRV(x##_type, run, &x, &k) != ISP_ENDED) \
    return ISP_NO_MEMORY
#define V(x) ispm_passed(x##_type, &(ISP_TYPE(x)){0}, &x, &ispm_k)

#endif
