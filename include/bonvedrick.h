/*
 * bonvedrick.h: exact cyclotomic polynomials, ready to be used as filter stages.
 *
 *   F(n)  the cyclotomic polynomial: the product of F(d) over all divisors d of n is z^n - 1.
 *   I(n)  the inverse one: F(n) times I(n) is z^n - 1.
 *
 * for n from 1 to 65535, and cascades, which are products of up to eight F(n); with whole 64-bit coefficients, lowest
 * degree first: coeffs[i] belongs to z^i. And stored: a record is a polynomial in bytes, a half record is one that
 * leaves out the half that the other tells, and a shelf is records one after another; of a damaged one the good records
 * are rescued. And plotted: the response of any coefficients at a point of the complex plane, in double. And counted: a
 * census tells which heights the F(n) of a range of n have.
 *
 * Link with libbonvedrick.a (`tools/made bonvedrick` writes target/staticlib/libbonvedrick.a, for x86-64).
 *
 * WHAT HOLDS FOR EVERY FUNCTION
 *
 *   Any number may be passed for any number, and for a double any double, infinite or not a number: nothing is asked
 *   beforehand. Each call answers a struct whose `code` is BV_DONE (0), and then everything that was asked for is
 *   there; or it is one of the refusals below, and then every other field is 0, but for the `degree`, the `byte`, the
 *   `shelf` and the `start` where the function's table tells them. Where several refusals apply, the first in the order
 *   told at the function is given.
 *
 *   A slice is a pointer and the number of its elements (not of its bytes). The number may be 0, and then the pointer
 *   may be NULL: an empty slice. Otherwise the pointer must be aligned, as C has it, and point to that many elements,
 *   of any contents, that nobody else writes during the call and, where the pointer is not const, nobody else reads: so
 *   no two slices of one call may overlap, unless both are const. This is all that is asked, and no callee in C could
 *   test it.
 *
 *   An element past the part that a function says it writes is never changed, and what a function says is untouched is
 *   not written at all or stands again as it was when the call returns.
 *
 *   No memory is allocated, no file or clock is looked at, nothing is kept between calls, there is no setting up: the
 *   answer and the contents of the slices follow from the arguments alone. Calls from several threads at once are fine,
 *   each on its own slices. Every call ends.
 *
 *   bv_response, which alone works with doubles, takes the floating-point environment to be the one that a C program
 *   starts with: rounding to nearest, subnormal numbers kept, no traps. Nothing tests that, and where it was changed,
 *   by fesetround or by x86's flush-to-zero and denormals-are-zero, other numbers come out. As C's own arithmetic does,
 *   it may raise the flags of that environment.
 *
 * The answers and the contents are proved of the library's code, for every input (the contracts in
 * crates/bonvedrick/src/lib.rt).
 */
#ifndef BONVEDRICK_H
#define BONVEDRICK_H

#include <stddef.h>
#include <stdint.h>

#ifdef __cplusplus
extern "C" {
#endif

/*
 * The version of this header and of the archive made from the same sources. MAJOR moves where something that is told
 * here goes or changes: a name, an answer, a refusal of a function. MINOR moves where a function comes, with its codes.
 * PATCH moves for everything else.
 */
#define BV_VERSION_MAJOR 1
#define BV_VERSION_MINOR 7
#define BV_VERSION_PATCH 0

/* The two kinds of polynomial. */
#define BV_F UINT64_C(1) /* F(n), of degree phi(n): how many numbers from 1 to n share no factor above 1 with n */
#define BV_I UINT64_C(2) /* I(n), of degree n - phi(n) */

/* The largest index, and the largest size of a step; and the largest degree of a cascade. */
#define BV_MOST UINT64_C(65535)

/* The most indices of a cascade. */
#define BV_MOST_FACTORS 8

/* The largest index of a census, and the entries that it works in. */
#define BV_CENSUS_MOST UINT64_C(4095)
#define BV_CENSUS_ENTRIES 4096

/* The two shelves of bv_lookup, as it tells them. */
#define BV_OWN UINT64_C(1)   /* one's own, looked at first */
#define BV_HOUSE UINT64_C(2) /* that of the house */

/*
 * No limit: for the height limit h and for the working limit w.
 *
 * A working limit is for the registers of a chip. No step may then make a value larger in magnitude than w: a value of
 * w or -w is fine. For registers of b bits with sign pass 2^(b-1) - 1: 32767 for 16 bits, 524287 for 20, 8388607 for
 * 24. What is delivered under one working limit is delivered under every larger one, with the same answer and the same
 * contents.
 */
#define BV_NO_LIMIT INT64_MAX

/*
 * The codes: done, or the refusal. A coefficient that is delivered or read lies from -(2^63 - 1) to 2^63 - 1: each one
 * can be negated.
 */
#define BV_DONE UINT64_C(0)            /* all that was asked for is there */
#define BV_REFUSED_KIND UINT64_C(1)    /* kind is not 1 or 2 */
#define BV_REFUSED_INDEX UINT64_C(2)   /* n is 0 or above 65535; bv_partial: also where n has no odd prime factor */
#define BV_REFUSED_LIMIT UINT64_C(3)   /* the height limit h or the working limit w is below 1 */
#define BV_REFUSED_SHORT UINT64_C(4)   /* the slice to be filled is too short; bv_cascade, bv_second: or the scratch;
                                          bv_rescue: one of its two, or the scratch;
                                          bv_census: the slice to work in */
#define BV_REFUSED_OVER UINT64_C(5)    /* a step would pass w in magnitude; writing: a coefficient is -2^63;
                                          bv_cascade: a product of first factors is out of range;
                                          bv_second: never */
#define BV_REFUSED_TALL UINT64_C(6)    /* a coefficient is larger in magnitude than h */
#define BV_REFUSED_STEP UINT64_C(7)    /* size is 0 or above 65535; bv_partial: there are fewer than j divisors */
#define BV_REFUSED_CUT UINT64_C(8)     /* reading: the record ends early */
#define BV_REFUSED_MARK UINT64_C(9)    /* reading: the first two bytes are not those of such a record */
#define BV_REFUSED_WIDTH UINT64_C(11)  /* reading: the coefficients are not in the width that writing would choose */
#define BV_REFUSED_RKIND UINT64_C(12)  /* reading: the header's kind, at byte 2, is not 1 or 2 */
#define BV_REFUSED_RWIDTH UINT64_C(13) /* reading: the header's width, at byte 3, is not 1, 2, 4 or 8 */
#define BV_REFUSED_RINDEX UINT64_C(14) /* reading: the header's n, at byte 4, is 0 */
#define BV_REFUSED_RCOUNT UINT64_C(15) /* writing: count is not degree + 1; reading: nor is the header's, at byte 6 */
#define BV_REFUSED_LIST UINT64_C(16)   /* bv_cascade: no index, more than 8, or a total degree above 65535 */
#define BV_REFUSED_ABSENT UINT64_C(17) /* bv_lookup: neither shelf has such a record */
#define BV_REFUSED_UNEVEN UINT64_C(18) /* half records: the halves of the polynomial don't match (see bv_write_half) */
#define BV_REFUSED_POINT UINT64_C(19)  /* bv_response: a part of the point is not from -1 to 1, or is not a number */
#define BV_REFUSED_COARSE UINT64_C(20) /* bv_response: a coefficient is larger in magnitude than 2^53 */
#define BV_REFUSED_RANGE UINT64_C(21)  /* bv_census: a is 0, or above b, or b is above 4095 */
#define BV_REFUSED_ROWS UINT64_C(22)   /* bv_census: there are more heights than the slice has rows for */
/* 'writing' is bv_write and bv_write_half; 'reading' is bv_read, bv_read_half, bv_to_half and bv_to_whole, and
   bv_lookup and bv_browse for a record that they meet. 10 was given where any field of a header was wrong; it is given
   no more. */

/* The name of a code, as after BV_ or BV_REFUSED_: "DONE", "KIND", ..; "?" for any other number, 10 too. */
static inline const char *bv_name(uint64_t code) {
    switch (code) {
    case BV_DONE: return "DONE";
    case BV_REFUSED_KIND: return "KIND";
    case BV_REFUSED_INDEX: return "INDEX";
    case BV_REFUSED_LIMIT: return "LIMIT";
    case BV_REFUSED_SHORT: return "SHORT";
    case BV_REFUSED_OVER: return "OVER";
    case BV_REFUSED_TALL: return "TALL";
    case BV_REFUSED_STEP: return "STEP";
    case BV_REFUSED_CUT: return "CUT";
    case BV_REFUSED_MARK: return "MARK";
    case BV_REFUSED_WIDTH: return "WIDTH";
    case BV_REFUSED_RKIND: return "RKIND";
    case BV_REFUSED_RWIDTH: return "RWIDTH";
    case BV_REFUSED_RINDEX: return "RINDEX";
    case BV_REFUSED_RCOUNT: return "RCOUNT";
    case BV_REFUSED_LIST: return "LIST";
    case BV_REFUSED_ABSENT: return "ABSENT";
    case BV_REFUSED_UNEVEN: return "UNEVEN";
    case BV_REFUSED_POINT: return "POINT";
    case BV_REFUSED_COARSE: return "COARSE";
    case BV_REFUSED_RANGE: return "RANGE";
    case BV_REFUSED_ROWS: return "ROWS";
    default: return "?";
    }
}

/*
 * Every field of every answer is 64 bits, in this order. All are whole numbers, of which the gain alone has a sign, as
 * coefficients have; but that bv_value has two doubles (IEEE's binary64).
 */

typedef struct bv_answer {
    uint64_t code;
    uint64_t degree;    /* of the polynomial: degree + 1 entries are needed, and filled */
    uint64_t additions; /* the count of its steps: for each, the entries of the kept half from its size on; of a
                           cascade, and by bv_second, 0 */
    uint64_t height;    /* the largest magnitude among its coefficients */
    uint64_t peak;      /* the lowest degree at which that magnitude occurs */
    int64_t gain;       /* the sum of its coefficients */
} bv_answer;

typedef struct bv_stop {
    uint64_t code;
    uint64_t degree;    /* D, the last place of the kept half: D + 1 entries are needed, and filled */
    uint64_t additions; /* the count of the j steps, likewise */
    uint64_t due;       /* how many divisors are still to come */
} bv_stop;

typedef struct bv_step {
    uint64_t code;
    uint64_t count; /* how many additions or subtractions it took: len - size, or 0 where size >= len */
} bv_step;

typedef struct bv_written {
    uint64_t code;
    uint64_t degree; /* of the polynomial: count is degree + 1 */
    uint64_t used;   /* the bytes of the record */
    uint64_t byte;   /* where a field is wrong, the byte at which it starts: 6 with BV_REFUSED_RCOUNT, else 0 */
} bv_written;

typedef struct bv_record {
    uint64_t code;
    uint64_t degree; /* of the polynomial: degree + 1 entries are needed, and filled */
    uint64_t used;   /* the bytes of the record: the next one, if any, starts there */
    uint64_t kind;   /* of the record: 1 or 2 */
    uint64_t n;      /* of the record: 1 to 65535 */
    uint64_t byte;   /* where a field is wrong, the byte of the record at which it starts: 2, 3, 4 or 6; else 0 */
} bv_record;

typedef struct bv_found {
    uint64_t code;
    uint64_t byte;   /* where a record on the way doesn't read, the byte of its shelf at which it starts; else 0 */
    uint64_t shelf;  /* and which shelf that is: BV_OWN or BV_HOUSE; else 0 */
    uint64_t from;   /* the shelf that has the record: BV_OWN or BV_HOUSE */
    uint64_t start;  /* the byte of that shelf at which the record starts */
    uint64_t length; /* the bytes of the record */
} bv_found;

typedef struct bv_browsed {
    uint64_t code;
    uint64_t start;  /* the byte of the shelf at which this stands */
    uint64_t length; /* the bytes of the record: what comes next stands at start + length; 0 at the end of the shelf */
    uint64_t kind;   /* of the record: 1 or 2 */
    uint64_t n;      /* of the record: 1 to 65535 */
    uint64_t degree; /* of its polynomial: it has degree + 1 coefficients */
} bv_browsed;

typedef struct bv_converted {
    uint64_t code;
    uint64_t degree;  /* of the record's polynomial: degree + 1 coefficients */
    uint64_t read;    /* the bytes of the record that was read: the next one, if any, starts there */
    uint64_t written; /* the bytes of the record that was written */
    uint64_t byte;    /* where a field is wrong, the byte of the record at which it starts: 2, 3, 4 or 6; else 0 */
} bv_converted;

typedef struct bv_rescued {
    uint64_t code;
    uint64_t kept;      /* the bytes of all records that are kept */
    uint64_t stretches; /* how many stretches are skipped: the list has two numbers for each */
} bv_rescued;

typedef struct bv_counted {
    uint64_t code;
    uint64_t rows;      /* how many heights there are: the slice has three numbers for each */
    uint64_t additions; /* those of all the polynomials, as bv_polynomial tells them, added up */
} bv_counted;

/* A point of the complex plane: it is passed, not pointed to. */
typedef struct bv_point {
    double real;
    double imag;
} bv_point;

typedef struct bv_value {
    uint64_t code;
    double real;
    double imag;
} bv_value;

/*
 * The polynomial of a kind and an index n, unless a step on the way would make a value larger in magnitude than w, or a
 * coefficient is larger in magnitude than h (pass BV_NO_LIMIT for no limit, to each). 65536 entries have room for every
 * polynomial.
 *
 *   code               given where                                degree told   buf
 *   BV_DONE            nothing below applies                      yes           entries 0 to degree: the polynomial
 *   BV_REFUSED_KIND    kind is not 1 or 2                         0             untouched
 *   BV_REFUSED_INDEX   n is 0 or above 65535                      0             untouched
 *   BV_REFUSED_LIMIT   h is below 1, or w is                      0             untouched
 *   BV_REFUSED_SHORT   len is below degree + 1                    yes           untouched
 *   BV_REFUSED_OVER    a step on the way would pass w             yes           entries 0 to degree: 0
 *                      (proved: never with BV_NO_LIMIT)
 *   BV_REFUSED_TALL    the height is above h                      yes           entries 0 to degree: 0
 *
 * The order is that of the table. On refusal additions, height, peak and gain are 0. So a call with len 0, a good kind,
 * a good n and good limits asks how many entries are needed: it answers BV_REFUSED_SHORT and the degree.
 *
 * The steps are those that bv_partial tells of, for all divisors; the values they make are far larger than the
 * coefficients at some indices: I(15015) has height 11 and needs w = 1113164. An index that is 1 or a power of two
 * takes no step. Found by running them: every F is delivered with w = 16383, so in registers of 15 bits; every I with w
 * = 16777215, of 25 bits. Proved: every F and every I is, with any w from 2^59 - 1 on. docs/OVER.md has both by the
 * number of odd primes.
 */
bv_answer bv_polynomial(uint64_t kind, uint64_t n, int64_t h, int64_t w, int64_t *buf, size_t len);

/*
 * The polynomial half-built, to watch it grow. Let r be the product of the distinct odd primes of n, and D half the
 * degree for r, rounded down. The lower half of the polynomial of r, entries 0 to D, starts as 1, 0, 0, .. for F and as
 * -1, 0, 0, .. for I. Then each divisor d of r with d < r takes its turn, in ascending order, with one step of size d:
 * for F a comb where r/d is a product of an even number of primes and an accumulate where of an odd number; for I the
 * other way round. This shows what stands there, the kept half, after the first j of these divisors; j = 0 shows the
 * start, and after all of them it is the lower half of the polynomial of r.
 *
 *   code               given where                                degree told   buf
 *   BV_DONE            nothing below applies                      D             entries 0 to D: the kept half
 *   BV_REFUSED_KIND    kind is not 1 or 2                         0             untouched
 *   BV_REFUSED_INDEX   n is 0, above 65535, 1 or a power of two   0             untouched
 *   BV_REFUSED_STEP    j is above the number of these divisors    0             untouched
 *   BV_REFUSED_LIMIT   w is below 1                               0             untouched
 *   BV_REFUSED_SHORT   len is below D + 1                         D             untouched
 *   BV_REFUSED_OVER    one of the j steps would make a value      D             entries 0 to D: 0
 *                      larger in magnitude than w (proved:
 *                      never with BV_NO_LIMIT, at any j)
 *
 * The order is that of the table. On refusal additions and due are 0. What later steps would make counts for nothing,
 * so the least j that is BV_REFUSED_OVER tells which step a register is too small for.
 */
bv_stop bv_partial(uint64_t kind, uint64_t n, uint64_t j, int64_t w, int64_t *buf, size_t len);

/*
 * One step on any slice. A comb of size d multiplies by 1 - z^d: each entry i from d on becomes the old entry i minus
 * the old entry i - d. An accumulate divides by it: each entry i from d on becomes the old entry i plus the new entry
 * i - d. Entries below d stay as they are. A comb and an accumulate of one size undo each other, where neither is
 * refused.
 *
 *   code               given where                                               buf
 *   BV_DONE            nothing below applies                                     the step is taken
 *   BV_REFUSED_STEP    size is 0 or above 65535                                  untouched
 *   BV_REFUSED_LIMIT   w is below 1                                              untouched
 *   BV_REFUSED_OVER    a new value, at a place from d on, would be larger in     untouched
 *                      magnitude than w
 *
 * The order is that of the table. On refusal count is 0. Old entries, and those below d, may be anything: larger than
 * w, -2^63 too. A size from 1 to 65535 that is not below len changes nothing and, unless it is BV_REFUSED_LIMIT, is
 * BV_DONE with count 0.
 */
bv_step bv_comb(uint64_t size, int64_t w, int64_t *buf, size_t len);
bv_step bv_accumulate(uint64_t size, int64_t w, int64_t *buf, size_t len);

/*
 * Writes a record: C9 50; the kind in 1 byte; the width in 1 byte; n in 2 bytes; the number of coefficients in 4 bytes;
 * then each coefficient in width bytes, two's complement; all little-endian. The width is the least b of 1, 2, 4 and 8
 * for which no coefficient is larger in magnitude than 2^(8b-1) - 1: so -127 takes 1 byte and -128 takes 2. The record
 * has 10 + count * width bytes. The coefficients may be any numbers but -2^63: the record tells what was stored and
 * doesn't vouch for them. F(6) is C9 50 01 01 06 00 03 00 00 00 01 FF 01.
 *
 *   code                given where                                degree told   byte   bytes
 *   BV_DONE             nothing below applies                      yes           0      bytes 0 to used - 1: the record
 *   BV_REFUSED_KIND     kind is not 1 or 2                         0             0      untouched
 *   BV_REFUSED_INDEX    n is 0 or above 65535                      0             0      untouched
 *   BV_REFUSED_RCOUNT   count is not degree + 1                    0             6      untouched
 *   BV_REFUSED_OVER     a coefficient is -2^63                     yes           0      untouched
 *   BV_REFUSED_SHORT    len is below the size of the record        yes           0      untouched
 *
 * The order is that of the table. On refusal used is 0. coeffs is only read.
 */
bv_written bv_write(uint64_t kind, uint64_t n, const int64_t *coeffs, size_t count, uint8_t *bytes, size_t len);

/*
 * Reads the record that the bytes start with; what follows it is not looked at. Here `count` is the number of entries
 * lent. Any bytes get their answer.
 *
 *   code                given where                                     degree told   byte   coeffs
 *   BV_DONE             nothing below applies                           yes           0      entries 0 to degree: the
 *                                                                                            coefficients
 *   BV_REFUSED_CUT      len is below 10                                 0             0      untouched
 *   BV_REFUSED_MARK     the first two bytes are not C9 50               0             0      untouched
 *   BV_REFUSED_RKIND    the kind is not 1 or 2                          0             2      untouched
 *   BV_REFUSED_RWIDTH   the width is not 1, 2, 4 or 8                   0             3      untouched
 *   BV_REFUSED_RINDEX   n is 0                                          0             4      untouched
 *   BV_REFUSED_RCOUNT   the number of coefficients is not the degree    0             6      untouched
 *                       of that kind at that n, plus 1
 *   BV_REFUSED_CUT      len is below the size of the record             0             0      untouched
 *   BV_REFUSED_SHORT    count is below the number of coefficients       yes           0      untouched
 *   BV_REFUSED_WIDTH    the width is not the one that bv_write would    0             0      untouched
 *                       choose, or a coefficient is -2^63
 *
 * The order is that of the table. On refusal used, kind and n are 0. bytes is only read. BV_REFUSED_WIDTH is given for
 * too large a width, and for -128 in 1 byte, -2^15 in 2 and -2^31 in 4: two's complement has room for these, but
 * bv_write chooses the next width.
 */
bv_record bv_read(const uint8_t *bytes, size_t len, int64_t *coeffs, size_t count);

/*
 * Finds the record of a kind and an index n in two shelves, one's own first and then that of the house, and tells where
 * it stands: the bytes from `start` on, `length` of them, of the shelf `from`. They are handed out where they are, with
 * no copy; bv_read reads them.
 *
 * A shelf is walked from its first byte, record after record, to its end. The walk stops at the first record of that
 * kind and n, and what follows it is not looked at; so where there are several, the first counts. It also stops at a
 * record that doesn't read: one that bv_read, given the rest of the shelf and entries enough (so never with
 * BV_REFUSED_SHORT), refuses. The house's shelf is walked only where the own one came to its end.
 *
 *   code                given where                                             byte        shelf      from, start,
 *                                                                                                      length
 *   BV_DONE             nothing below applies                                   0           0          the record's
 *   BV_REFUSED_KIND     kind is not 1 or 2                                      0           0          0
 *   BV_REFUSED_INDEX    n is 0 or above 65535                                   0           0          0
 *   that of bv_read     a record of the own shelf doesn't read, and no record   its start   BV_OWN     0
 *                       before it is of that kind and n
 *   that of bv_read     the own shelf came to its end, and the same is so of    its start   BV_HOUSE   0
 *                       a record of the house's
 *   BV_REFUSED_ABSENT   both shelves came to their ends                         0           0          0
 *
 * The order is that of the table. `byte` is where the record starts, counted from the first byte of its shelf, whatever
 * is wrong with it; bv_read of the shelf from there on tells the field. The record that is found reads well, as each
 * one before it does: every coefficient on the way is looked at, and the time goes with the bytes walked. Nothing
 * vouches for the coefficients (see bv_write). Both shelves are only read, and may be one and the same.
 */
bv_found bv_lookup(uint64_t kind, uint64_t n, const uint8_t *own, size_t own_len, const uint8_t *house,
                   size_t house_len);

/*
 * What stands at byte `at` of a shelf: a record, one that doesn't read, or the end.
 *
 *   code              given where                                              start   length, kind, n, degree
 *   BV_DONE           at is below len, and a record that reads starts there    at      the record's
 *   BV_DONE           at is len or more: the end                               len     0
 *   that of bv_read   at is below len, and bv_read, given the shelf from       at      0
 *                     there on and entries enough (so never with
 *                     BV_REFUSED_SHORT), refuses it
 *
 * So code BV_DONE with length 0 is the end, and what comes next stands at start + length: at the end, and at a record
 * that doesn't read, that is the place itself. To go through a shelf:
 *
 *   for (bv_browsed b = bv_browse(shelf, len, 0); b.code == BV_DONE && b.length > 0;
 *        b = bv_browse(shelf, len, b.start + b.length))
 *
 * `at` may be any number. Bytes in the midst of a record may themselves read as one: begin at 0, or where a record
 * ends. The shelf is only read.
 */
bv_browsed bv_browse(const uint8_t *shelf, size_t len, uint64_t at);

/*
 * Writes a half record. Half of each polynomial repeats the other: the coefficient at degree - i is the one at i,
 * negated for F(1) and for I(n) with n > 1, and as it is for F(n) with n > 1 and for I(1). Coefficients of which that
 * is so for each i from 0 to degree are said to have halves that match. So where the other half is negated and there is
 * a middle coefficient, at degree / 2, it has to be 0.
 *
 * A half record is C9 51; the header of bv_write's record, whose number of coefficients is that of the whole
 * polynomial; then only the first half of them, the middle one included: (degree + 2) / 2 of them, rounded down, in
 * width bytes each, two's complement. The width is the least that takes these, as for bv_write, and so the least for
 * all. The half record has 10 + (degree + 2) / 2 * width bytes. Here too the coefficients may be any numbers but
 * -2^63, where their halves match. F(6) is C9 51 01 01 06 00 03 00 00 00 01 FF, and I(6) is C9 51 02 01 06 00 05 00 00
 * 00 FF FF 00.
 *
 *   code                given where                                degree told   byte   bytes
 *   BV_DONE             nothing below applies                      yes           0      bytes 0 to used - 1: the half
 *                                                                                       record
 *   BV_REFUSED_KIND     kind is not 1 or 2                         0             0      untouched
 *   BV_REFUSED_INDEX    n is 0 or above 65535                      0             0      untouched
 *   BV_REFUSED_RCOUNT   count is not degree + 1                    0             6      untouched
 *   BV_REFUSED_OVER     a coefficient is -2^63                     yes           0      untouched
 *   BV_REFUSED_UNEVEN   the halves of coeffs don't match           0             0      untouched
 *   BV_REFUSED_SHORT    len is below the size of the half record   yes           0      untouched
 *
 * The order is that of the table. On refusal used is 0. coeffs is the whole polynomial, and only read.
 */
bv_written bv_write_half(uint64_t kind, uint64_t n, const int64_t *coeffs, size_t count, uint8_t *bytes, size_t len);

/*
 * Reads the half record that the bytes start with, and rebuilds the whole polynomial; what follows it is not looked at.
 * Here `count` is the number of entries lent. Any bytes get their answer.
 *
 *   code                given where                                     degree told   byte   coeffs
 *   BV_DONE             nothing below applies                           yes           0      entries 0 to degree: the
 *                                                                                            coefficients, all of them
 *   BV_REFUSED_CUT      len is below 10                                 0             0      untouched
 *   BV_REFUSED_MARK     the first two bytes are not C9 51               0             0      untouched
 *   BV_REFUSED_RKIND    the kind is not 1 or 2                          0             2      untouched
 *   BV_REFUSED_RWIDTH   the width is not 1, 2, 4 or 8                   0             3      untouched
 *   BV_REFUSED_RINDEX   n is 0                                          0             4      untouched
 *   BV_REFUSED_RCOUNT   the number of coefficients is not the degree    0             6      untouched
 *                       of that kind at that n, plus 1
 *   BV_REFUSED_CUT      len is below the size of the half record        0             0      untouched
 *   BV_REFUSED_SHORT    count is below the number of coefficients of    yes           0      untouched
 *                       the whole polynomial
 *   BV_REFUSED_WIDTH    the width is not the one that bv_write_half     0             0      untouched
 *                       would choose, or a coefficient is -2^63
 *   BV_REFUSED_UNEVEN   the other half is negated, and there is a       0             0      untouched
 *                       middle coefficient that is not 0
 *
 * The order is that of the table. On refusal used, kind and n are 0. bytes is only read. bv_read gives BV_REFUSED_MARK
 * for a half record, as bv_lookup and bv_browse do, and this one for a record of bv_write: the mark tells which it is.
 */
bv_record bv_read_half(const uint8_t *bytes, size_t len, int64_t *coeffs, size_t count);

/*
 * Converts the record that the bytes start with: bv_to_half one of bv_write to the half record of the same polynomial,
 * bv_to_whole a half record to the record. What follows it is not looked at. Each undoes the other: what one has
 * written the other turns into the very bytes that were read.
 *
 *   code                given where                                     degree told   byte   out
 *   BV_DONE             nothing below applies                           yes           0      bytes 0 to written - 1:
 *                                                                                            the other record
 *   BV_REFUSED_CUT      len is below 10                                 0             0      untouched
 *   BV_REFUSED_MARK     the first two bytes are not C9 50;              0             0      untouched
 *                       bv_to_whole: not C9 51
 *   BV_REFUSED_RKIND    the kind is not 1 or 2                          0             2      untouched
 *   BV_REFUSED_RWIDTH   the width is not 1, 2, 4 or 8                   0             3      untouched
 *   BV_REFUSED_RINDEX   n is 0                                          0             4      untouched
 *   BV_REFUSED_RCOUNT   the number of coefficients is not the degree    0             6      untouched
 *                       of that kind at that n, plus 1
 *   BV_REFUSED_CUT      len is below the size of the record             0             0      untouched
 *   BV_REFUSED_WIDTH    the width is not the one that writing would     0             0      untouched
 *                       choose, or a coefficient is -2^63
 *   BV_REFUSED_UNEVEN   the halves of its coefficients don't match;     0             0      untouched
 *                       bv_to_whole: the other half is negated, and
 *                       there is a middle one that is not 0
 *   BV_REFUSED_SHORT    room is below the size of the other record      yes           0      untouched
 *
 * The order is that of the table: the room is looked at last. On refusal read and written are 0. bytes is only read,
 * and out is another slice: nothing is converted in place. The half record is never longer than the record, so a room
 * of len is always enough for bv_to_half; for bv_to_whole twice as many are.
 */
bv_converted bv_to_half(const uint8_t *bytes, size_t len, uint8_t *out, size_t room);
bv_converted bv_to_whole(const uint8_t *bytes, size_t len, uint8_t *out, size_t room);

/*
 * Rescues the good records of a damaged shelf. A record is kept where bv_read, given the shelf from there on and
 * entries enough, reads it, and its coefficients are those that bv_polynomial delivers for its kind and n with no
 * limit: so bytes that only look like a record are not kept, nor is one whose coefficients have changed. The search
 * starts at the first byte of the shelf. Where a record is kept it goes on right behind it, and anywhere else with the
 * next byte. The bytes before the first kept record, between two and after the last are one skipped stretch each, if
 * there are any. So kept and skipped bytes together make up the shelf, in order. Half records are skipped.
 *
 *   code               given where                                     out                         list        coeffs
 *   BV_DONE            nothing below applies                           bytes 0 to kept - 1: the    see below   all 0
 *                                                                      kept records, in order
 *   BV_REFUSED_SHORT   room is below kept, or slots is below           untouched                   untouched   all 0
 *                      2 * stretches, or a record that was tried and
 *                      reads has more coefficients than `entries`
 *
 * On BV_DONE the first 2 * stretches numbers of the list are, for each stretch in order, the byte of the shelf at which
 * it starts and its length. On refusal kept and stretches are 0; no degree is told. coeffs is a slice to work in: the
 * whole of it is 0 afterwards, however long it is. A record is tried at each byte of a skipped stretch and at the start
 * of each kept record, and it reads if bv_read, given entries enough, reads it, be the coefficients the right ones or
 * not. One that doesn't read is skipped, whatever there is room for: so is one of too large a width.
 *
 * With room >= len, slots >= len + 1 and entries >= 65536 nothing is ever refused. (2 * (len / 11 + 1) slots do too: a
 * stretch and the record behind it have more than 11 bytes.) Then the shelf is gone through once, and else twice: to
 * find out whether there is room enough, and to write. What was kept is kept whole when it is rescued again. The shelf
 * is only read.
 */
bv_rescued bv_rescue(const uint8_t *shelf, size_t len, uint8_t *out, size_t room, uint64_t *list, size_t slots,
                     int64_t *coeffs, size_t entries);

/*
 * A cascade: the product of F(n) over a list of indices, in which an index may come again. That is a filter made of
 * several stages, one after the other: F(2) F(4) F(8) = 1 + z + .. + z^7 is a decimator by 8. Its degree, the total
 * degree, is the sum of the degrees of its factors; no coefficient may be larger in magnitude than h.
 *
 *   code               given where                                degree told   buf                      scratch
 *   BV_DONE            nothing below applies                      yes           entries 0 to degree:     all 0
 *                                                                               the product
 *   BV_REFUSED_LIST    count is 0 or above 8                      0             untouched                untouched
 *   BV_REFUSED_INDEX   an index is 0 or above 65535               0             untouched                untouched
 *   BV_REFUSED_LIST    the total degree is above 65535            0             untouched                untouched
 *   BV_REFUSED_LIMIT   h is below 1                               0             untouched                untouched
 *   BV_REFUSED_SHORT   len is below degree + 1, or room below     yes           untouched                untouched
 *                      the largest degree of a factor + 1
 *   BV_REFUSED_OVER    the product of the first one, two, .. or   yes           entries 0 to degree: 0   all 0
 *                      all factors has a coefficient or a gain
 *                      above 2^63 - 1 in magnitude
 *   BV_REFUSED_TALL    the height is above h                      yes           entries 0 to degree: 0   all 0
 *
 * The order is that of the table. additions is always 0; on refusal height, peak and gain are 0 too. indices is only
 * read. The scratch is a second slice to work in: where the table says all 0, the whole of it is, however long it is.
 * 65536 entries in each have room for every cascade.
 *
 * The order of the list makes no difference to what is delivered, but it may to whether it is: 13099 five times and
 * then 1 is BV_REFUSED_OVER, since the first five are, and 1 first is delivered. Only those products count: a sum on
 * the way to a coefficient may be as large as it likes. With a scratch that is long enough a cascade of one index is
 * that of bv_polynomial with BV_F and BV_NO_LIMIT as w, but for additions.
 */
bv_answer bv_cascade(const uint64_t *indices, size_t count, int64_t h, int64_t *buf, size_t len, int64_t *scratch,
                     size_t room);

/*
 * The polynomial of a kind at n from another road, for reviewers: with p the largest odd prime of n and m the product
 * of its other odd primes, F(mp) is F(m), with z^p for z, times I(m), divided by z^m - 1, and I(mp) is I(m), with z^p
 * for z, times F(m); each is made so in its turn. No comb and no accumulate is taken, so additions is always 0.
 *
 *   code               given where                                degree told   buf                      scratch
 *   BV_DONE            nothing below applies                      yes           entries 0 to degree:     all 0
 *                                                                               the polynomial
 *   BV_REFUSED_KIND    kind is not 1 or 2                         0             untouched                untouched
 *   BV_REFUSED_INDEX   n is 0 or above 65535                      0             untouched                untouched
 *   BV_REFUSED_LIMIT   h is below 1                               0             untouched                untouched
 *   BV_REFUSED_SHORT   len is below degree + 1, or room below     yes           untouched                untouched
 *                      2 n + 16
 *   BV_REFUSED_OVER    a polynomial on that road, or a product    yes           entries 0 to degree: 0   all 0
 *                      before its division, has a coefficient
 *                      above 2^63 - 1 in magnitude: never
 *   BV_REFUSED_TALL    the height is above h                      yes           entries 0 to degree: 0   all 0
 *
 * The order is that of the table; on refusal height, peak and gain are 0. The scratch is a second slice to work in:
 * where the table says all 0, the whole of it is, however long it is; 131086 entries have room for every n. It is
 * proved that with a scratch that is long enough everything but additions, the entries too, is what bv_polynomial gives
 * with BV_NO_LIMIT as w, and that BV_REFUSED_OVER is never given.
 */
bv_answer bv_second(uint64_t kind, uint64_t n, int64_t h, int64_t *buf, size_t len, int64_t *scratch, size_t room);

/*
 * The response at a point: the value there of the polynomial that has these coefficients, made here or not. With x and
 * y for at.real and at.imag it starts from real = 0 and imag = 0, goes through the coefficients c from the highest
 * degree down, the last entry first, and makes at each
 *
 *   new real = (real * x - imag * y) + c
 *   new imag = real * y + imag * x
 *
 * both of the old real and imag. Each of the seven operations is rounded once, to the nearest double, half way to the
 * even one; c is exact. The answer is what this sequence gives, bit by bit, with its signs of zero and its infinities:
 * no product is fused with a sum, and nothing is reordered. Only the bits of a not-a-number (which one it is) are open.
 *
 *   code                given where                                                  real, imag
 *   BV_DONE             nothing below applies                                        the value
 *   BV_REFUSED_POINT    a part of the point is not from -1 to 1, or is not a number  0
 *   BV_REFUSED_COARSE   a coefficient is larger in magnitude than 2^53               0
 *
 * The order is that of the table. -1, 1, -0 and subnormal parts are good, and so are coefficients of 2^53 and -2^53. No
 * coefficient at all gives 0 and 0, at a good point. coeffs is only read.
 *
 * At 1, -1, i and -i the answer compares equal to the whole number that the value is, where the magnitudes of the
 * coefficients add up to at most 2^53: at 1 that is their sum, the gain, and F(1) at 1, F(2) at -1 and F(4) at i and -i
 * are 0. A frequency f at a rate of samples is the point cos(2 pi f / rate), sin(2 pi f / rate), and the magnitude of
 * the value there, hypot(real, imag), is how much of it comes through. Infinities, and not-a-numbers after them, arise
 * only at points outside the unit circle, as 1 + i is, and from well above a thousand coefficients.
 */
bv_value bv_response(const int64_t *coeffs, size_t count, bv_point at);

/*
 * A census of heights: which heights F(n) has for n from a to b, and how many n have each. A row is three numbers: a
 * height, the smallest n from a to b whose F(n) has it, and how many of them have it. There is a row for each height
 * that occurs, in ascending order. The height is that of bv_polynomial with no limit.
 *
 *   code               given where                                   rows                         work
 *   BV_DONE            nothing below applies                         numbers 0 to 3 * rows - 1:   entries 0 to 4095: 0
 *                                                                    the rows
 *   BV_REFUSED_RANGE   a is 0, or above b, or b is above 4095        untouched                    untouched
 *   BV_REFUSED_SHORT   entries is below 4096                         untouched                    untouched
 *   BV_REFUSED_ROWS    slots is below 3 times the heights there are  untouched                    entries 0 to 4095: 0
 *
 * The order is that of the table. `slots` is how many numbers `rows` has, so three a row. On refusal the rows told are
 * 0, and so are the additions. work is a slice to work in, of which no more than 4096 entries are used, however long it
 * is. From 1 to 104 there is one row, 1 1 104; a census of one index, a = b, has one row too, and its additions are
 * those of bv_polynomial. Found by running it: from 1 to 4095 there are seven heights, 1 to 7, so 21 slots do for every
 * census. No step is ever refused: it is proved that no F needs values above 2^63 - 1.
 */
bv_counted bv_census(uint64_t a, uint64_t b, uint64_t *rows, size_t slots, int64_t *work, size_t entries);

#ifdef __cplusplus
}
#endif

#endif
