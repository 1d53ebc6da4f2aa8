/*
 * Numbers are written alike in every floating-point environment: in each rounding mode, where subnormal floats are taken
 * for 0 or become 0, and where a floating-point exception would end the process. Only T of a float that has no integer
 * depends on it. The expected bytes are those that Python's struct and int.to_bytes give.
 */
#include "digribbon.h"
#include <fenv.h>
#include <pmmintrin.h>
#include <stdbool.h>
#include <stdio.h>
#include <stdlib.h>

enum { INTEGER = 1, FLOAT = 2 };

typedef struct {
    const char *option;
    uint8_t tag;      /* INTEGER or FLOAT */
    uint64_t value;   /* its 64 bits */
    uint64_t refusal; /* 0: none */
    uint64_t record;  /* the record, big-endian */
} Case;

#define LEAST UINT64_C(0x0000000000000001)    /* 5e-324 */
#define NEGATIVE UINT64_C(0x8000000000000000) /* the sign of a float */

static const Case cases[] = {
    /* rounded to f64: exact, ties to the even neighbour, and the ends of the range */
    {"d", INTEGER, 9007199254740991, 0, 0x433FFFFFFFFFFFFF},
    {"d", INTEGER, 9007199254740993, 0, 0x4340000000000000},
    {"d", INTEGER, -UINT64_C(9007199254740993), 0, 0xC340000000000000},
    {"d", INTEGER, 9007199254740995, 0, 0x4340000000000002},
    {"d", INTEGER, INT64_MAX, 0, 0x43E0000000000000},
    {"d", INTEGER, NEGATIVE, 0, 0xC3E0000000000000},
    {"n", INTEGER, 0, 0, 0},
    /* and then to f32 */
    {"f", INTEGER, 1152921573326323713, 0, 0x5D800000},
    {"f", INTEGER, -UINT64_C(1152921573326323713), 0, 0xDD800000},
    {"f", INTEGER, 16777217, 0, 0x4B800000},
    {"f", INTEGER, 16777219, 0, 0x4B800002},
    {"f", FLOAT, 0x37A16C262777579C, 0, 0x000116C2}, /* 1e-40 */
    {"f", FLOAT, LEAST, 0, 0},
    /* a float's integer: none of a subnormal one, of 0.5 and of 2^63 */
    {"i4", FLOAT, LEAST, 12, 0},
    {"i4", FLOAT, NEGATIVE | LEAST, 12, 0},
    {"i4", FLOAT, 0x3FE0000000000000, 12, 0},
    {"I8", FLOAT, 0x43E0000000000000, 12, 0},
    {"j", FLOAT, LEAST, 0, LEAST},
    {"J", FLOAT, NEGATIVE | LEAST, 0, NEGATIVE | LEAST},
    {"d", FLOAT, LEAST, 0, LEAST},
    {"i8", FLOAT, 0xC3E0000000000000, 0, NEGATIVE},
    {"i8", FLOAT, 0x433FFFFFFFFFFFFF, 0, 9007199254740991},
    {"i8", FLOAT, NEGATIVE, 0, 0},
    {"T", FLOAT, 0x43DFFFFFFFFFFFFF, 0, 0x7FFFFFFFFFFFFC00},
};

static unsigned passed;

/* The environment that the call runs in is set just around it. */
static uint64_t pack(const Case *c, int rounding, unsigned csr, uint8_t record[8], uint64_t answer[1])
{
    uint8_t format[4] = {'>', (uint8_t)c->option[0], (uint8_t)c->option[1]};
    uint8_t list[11] = {c->tag, 0, 8};
    for (int i = 0; i < 8; i++)
        list[3 + i] = (uint8_t)(c->value >> (56 - 8 * i));
    unsigned before = _mm_getcsr();
    fesetround(rounding);
    _mm_setcsr((_mm_getcsr() & _MM_ROUND_MASK) | csr);
    uint64_t refusal = digribbon_pack(format, c->option[1] ? 3 : 2, list, sizeof list, record, 8, answer);
    _mm_setcsr(before);
    fesetround(FE_TONEAREST);
    return refusal;
}

static bool holds(const Case *c, int rounding, unsigned csr)
{
    uint8_t record[8];
    uint64_t answer[1] = {0};
    uint64_t refusal = pack(c, rounding, csr, record, answer);
    uint64_t written = 0;
    for (uint64_t i = 0; i < answer[0]; i++)
        written = written << 8 | record[i];
    return refusal == c->refusal && written == c->record;
}

int main(void)
{
    static const int roundings[] = {FE_TONEAREST, FE_UPWARD, FE_DOWNWARD, FE_TOWARDZERO};
    static const unsigned others[] = {
        _MM_MASK_MASK,
        _MM_MASK_MASK | _MM_DENORMALS_ZERO_ON,
        _MM_MASK_MASK | _MM_FLUSH_ZERO_ON,
        _MM_MASK_MASK | _MM_DENORMALS_ZERO_ON | _MM_FLUSH_ZERO_ON,
        0, /* no exception is masked */
    };
    for (size_t r = 0; r < sizeof roundings / sizeof *roundings; r++)
        for (size_t o = 0; o < sizeof others / sizeof *others; o++)
            for (size_t i = 0; i < sizeof cases / sizeof *cases; i++) {
                const Case *c = &cases[i];
                if (!holds(c, roundings[r], others[o])) {
                    fprintf(stderr, "environment.c: FAILED: %s of %016llx, rounding %d, MXCSR %04x\n", c->option,
                            (unsigned long long)c->value, roundings[r], others[o]);
                    exit(1);
                }
                passed++;
            }
    printf("%u checks passed in C, in 20 floating-point environments\n", passed);
    return 0;
}
