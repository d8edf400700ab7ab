/*
 * Damselbuckle: a polynomial engine modulo a prime whose every function is proved.
 *
 * Five functions: a run of operations on a geobucket, a reduction (normal form) of one polynomial by
 * others, polynomials written to blocks of bytes and read back, and the listing of a script. They are
 * in the static library libdamselbuckle.a, which `rt lib` in crates/damselbuckle proves and makes. Its
 * code is for x86-64, where size_t has 64 bits.
 *
 * Lent memory. Each array is a pointer and, right after it, its length in elements. The functions
 * allocate nothing, keep no pointer and have no state: calls in several threads at once are fine, so
 * long as what one call may write is not used by another. What the caller must ensure:
 *   - a pointer is aligned for its type and points to at least as many elements as its length says,
 *     all of them set to something; it is not NULL, not even where the length is 0;
 *   - an array that is not const, and the tally, can be written, and overlap no other argument of the
 *     call. A refusal at the opening changes nothing, but it writes back the counts that the tally had.
 * Beyond that the functions ask nothing: any numbers and any lengths get an answer.
 *
 * Stack. 100,000 bytes are enough for a run, a reduction and the block store. For a listing 400,000 are
 * enough, and 360,000 are too few.
 *
 * Terms. A polynomial is an array of words (monomials) and an array of coefficients of the same length,
 * 1 to p - 1 each; its terms fall strictly in the order; no terms are the polynomial zero. A word has
 * the degree, the sum of the exponents times their weights, in bits 48 to 63, and six fields of eight
 * bits below it, each with an exponent from 0 to 127. Orders 1 and 2 have x1 in bits 40 to 47, x2 in bits
 * 32 to 39, and so on down; order 3 has x1 in bits 0 to 7, x2 in bits 8 to 15, and so on up. Fields of
 * variables past the n-th are 0.
 *
 * Weights. Each variable has a weight, 1 to 16; those of variables past the n-th are 1. Always six are
 * lent, that of x1 first; DAMSELBUCKLE_ONES has six times 1. Order 1 compares without the degree, which
 * stands in its words as well.
 */
#ifndef DAMSELBUCKLE_H
#define DAMSELBUCKLE_H

#include <stddef.h>
#include <stdint.h>

#ifdef __cplusplus
extern "C" {
#endif

/* ---- Limits, each once */

/* The largest prime, and the most variables. */
#define DAMSELBUCKLE_LARGEST_PRIME 2147483647
#define DAMSELBUCKLE_MOST_VARIABLES 6

/* The weights that a call is lent, and the largest weight. */
#define DAMSELBUCKLE_WEIGHTS 6
#define DAMSELBUCKLE_LARGEST_WEIGHT 16

/* Places of the bucket space and of the work space, for words and for coefficients. */
#define DAMSELBUCKLE_BUCKET_PLACES 5460
#define DAMSELBUCKLE_WORK_PLACES 8192

/* The most terms that the buckets hold, and that are written to blocks. */
#define DAMSELBUCKLE_MOST_TERMS 4096

/* The most operations of a run, and the largest step limit of a reduction. */
#define DAMSELBUCKLE_MOST_OPERATIONS 16777216
#define DAMSELBUCKLE_MOST_STEPS UINT64_C(8796093022208)

/* A step limit that is always enough, for n up to 6: 128 to the sixth, the number of monomials. A reduction
 * never removes more leads than there are monomials in n variables, 128 to the power n; so with this limit,
 * or a larger one that is allowed, it is never stopped by 13. */
#define DAMSELBUCKLE_SUFFICIENT_STEPS UINT64_C(4398046511104)

/* The bytes of a block, and the most blocks of a polynomial. */
#define DAMSELBUCKLE_BLOCK_BYTES 512
#define DAMSELBUCKLE_MOST_BLOCKS 100

/* The most bytes of a script, and the bytes that a listing must be lent. */
#define DAMSELBUCKLE_SCRIPT_BYTES 16384
#define DAMSELBUCKLE_LISTING_BYTES 65536

/* ---- Orders */

#define DAMSELBUCKLE_LP 1 /* lexicographic */
#define DAMSELBUCKLE_DP_LEX 2 /* Dp: by weighted degree, then lexicographic */
#define DAMSELBUCKLE_DP_REV 3 /* dp: by weighted degree, then reverse lexicographic */

/* ---- Weights of 1 */

static const uint32_t DAMSELBUCKLE_ONES[DAMSELBUCKLE_WEIGHTS] = {1, 1, 1, 1, 1, 1};

/* ---- Operations of a run, each the first number of a pair */

#define DAMSELBUCKLE_ADD 1 /* adds polynomial k; the second number is k, from 0 */
#define DAMSELBUCKLE_LEAD 2 /* takes the lead, the largest term held; the second number is 0 */
#define DAMSELBUCKLE_SUM 3 /* gives the full sum, and nothing is held after it; the second number is 0 */

/*
 * ---- Refusals
 *
 * 0 is none. A refusal at the opening leaves all lent memory as it came, the tally too. One that stops a
 * run or a reduction on its way leaves what was given out so far in the output, as many places as the
 * answer says, the terms still held in the bucket space, the work space all 0, and the tally says what
 * was done. A run is stopped before the refused operation. A reduction is stopped before the lead is
 * removed: it stays in the buckets, like terms added up.
 *
 * Such a call can go on. The terms that it holds are read off the bucket space: bucket i, 1 to 6, has 4^i
 * places from place (4^i - 4)/3 on, and its terms come before its places of coefficient 0. A run that adds
 * the six buckets and gives the full sum makes one polynomial of them. A run goes on by adding that one
 * first; a reduction goes on by reducing it by the same divisors, and the remainders follow one another.
 * example.c does so.
 *
 * The opening checks go in the order 1, 2, 3, 24, 8, 9, then for each polynomial in turn the first place
 * with 4 or 5, then 6, and at last 7.
 *
 * 24 is judged over the weights that are lent, whatever their number; where none is wrong and there are not
 * six, 8 is given.
 *
 * The shape (8): there are six weights; words and coefficients, of the input and of the output, have equal
 * lengths; the spaces have the sizes above; the starts begin with 0, do not fall and end with the number
 * of words; operations are whole pairs, and not too many; the step limit is not too large; a reduction has
 * a polynomial 0.
 *
 * Room (10): a lead or a term of the remainder needs one free output place, a full sum one more than the
 * terms held, the block store all of its places, a listing DAMSELBUCKLE_LISTING_BYTES bytes.
 *
 * Too many terms (11): those held and those to add together; in a reduction the lead that is divided is
 * not counted. Where polynomial 0 of a reduction has too many by itself, no lead is removed, and the
 * spaces and the tally are all 0.
 *
 * Below, `write` and `read` are those of blocks; `print` is what a listing's text says, `refused R at K`,
 * while its call answers 0.
 */

/* made from refusals.txt by make_refusals: begin */
/* What each call gives
 * run: 1, 2, 3, 4, 5, 6, 8, 9, 10, 11, 24
 * reduce: 1, 2, 3, 4, 5, 6, 7, 8, 10, 11, 12, 13, 24
 * write: 1, 2, 3, 4, 5, 6, 8, 10, 11, 24
 * read: 1, 2, 3, 4, 5, 6, 8, 10, 14, 15, 16, 24
 * print: 1, 3, 4, 5, 6, 17, 24
 * listing: 10 */
/* p is not a prime from 2 to 2,147,483,647. After it: all as it came. */
#define DAMSELBUCKLE_NOT_PRIME 1
/* the order is not 1, 2 or 3. After it: all as it came. */
#define DAMSELBUCKLE_BAD_ORDER 2
/* the number n of variables is not 1 to 6. After it: all as it came. */
#define DAMSELBUCKLE_BAD_VARIABLES 3
/* a coefficient is 0, or not below p. After it: all as it came. */
#define DAMSELBUCKLE_BAD_COEFFICIENT 4
/* a word is not of the layout: an exponent over 127, a wrong degree, or a variable past the n-th.
 * After it: all as it came. */
#define DAMSELBUCKLE_BAD_LAYOUT 5
/* the terms of a polynomial do not fall strictly in the order. After it: all as it came. */
#define DAMSELBUCKLE_NOT_FALLING 6
/* a divisor is zero. After it: all as it came. */
#define DAMSELBUCKLE_ZERO_DIVISOR 7
/* lengths, sizes, starts, number of weights or operations, or step limit are wrong, or a reduction
 * has no polynomial 0. After it: all as it came. */
#define DAMSELBUCKLE_BAD_SHAPE 8
/* an operation is unknown, names a polynomial that is not there, or has a second number that is not
 * 0. After it: all as it came. */
#define DAMSELBUCKLE_BAD_OPERATION 9
/* there is too little room for the output. After it: stopped in run and reduce, else all as it came. */
#define DAMSELBUCKLE_NO_OUTPUT 10
/* over 4,096 terms would be held, or are to be written. After it: stopped in run and reduce, else
 * all as it came. */
#define DAMSELBUCKLE_TOO_MANY_TERMS 11
/* a product has an exponent over 127. After it: stopped. */
#define DAMSELBUCKLE_EXPONENT_OVER 12
/* the step limit is reached, and a lead is left; with a limit of 4,398,046,511,104 or more this
 * never happens. After it: stopped. */
#define DAMSELBUCKLE_STEP_LIMIT 13
/* the bytes are not 1 to 100 whole blocks. After it: all as it came. */
#define DAMSELBUCKLE_NOT_BLOCKS 14
/* the check of a block is wrong. After it: all as it came. */
#define DAMSELBUCKLE_BAD_CHECK 15
/* a block's numbers or filler are not what writing would put there. After it: all as it came. */
#define DAMSELBUCKLE_BAD_BLOCK 16
/* the script is not of the form. After it: the listing `refused 17 at 0`. */
#define DAMSELBUCKLE_BAD_SCRIPT 17
/* a weight is not 1 to 16, or is that of a variable past the n-th and not 1. After it: all as it
 * came. */
#define DAMSELBUCKLE_BAD_WEIGHT 24
/* The text of a refusal, as above; that of 0 is `none`, and that of a number that no call gives `unknown`. */
static inline const char *damselbuckle_refusal_text(uint64_t refusal)
{
    switch (refusal) {
    case 0:
        return "none";
    case DAMSELBUCKLE_NOT_PRIME:
        return "p is not a prime from 2 to 2,147,483,647";
    case DAMSELBUCKLE_BAD_ORDER:
        return "the order is not 1, 2 or 3";
    case DAMSELBUCKLE_BAD_VARIABLES:
        return "the number n of variables is not 1 to 6";
    case DAMSELBUCKLE_BAD_COEFFICIENT:
        return "a coefficient is 0, or not below p";
    case DAMSELBUCKLE_BAD_LAYOUT:
        return "a word is not of the layout: an exponent over 127, a wrong degree, or a variable past the n-th";
    case DAMSELBUCKLE_NOT_FALLING:
        return "the terms of a polynomial do not fall strictly in the order";
    case DAMSELBUCKLE_ZERO_DIVISOR:
        return "a divisor is zero";
    case DAMSELBUCKLE_BAD_SHAPE:
        return "lengths, sizes, starts, number of weights or operations, or step limit are wrong, or a reduction has no polynomial 0";
    case DAMSELBUCKLE_BAD_OPERATION:
        return "an operation is unknown, names a polynomial that is not there, or has a second number that is not 0";
    case DAMSELBUCKLE_NO_OUTPUT:
        return "there is too little room for the output";
    case DAMSELBUCKLE_TOO_MANY_TERMS:
        return "over 4,096 terms would be held, or are to be written";
    case DAMSELBUCKLE_EXPONENT_OVER:
        return "a product has an exponent over 127";
    case DAMSELBUCKLE_STEP_LIMIT:
        return "the step limit is reached, and a lead is left; with a limit of 4,398,046,511,104 or more this never happens";
    case DAMSELBUCKLE_NOT_BLOCKS:
        return "the bytes are not 1 to 100 whole blocks";
    case DAMSELBUCKLE_BAD_CHECK:
        return "the check of a block is wrong";
    case DAMSELBUCKLE_BAD_BLOCK:
        return "a block's numbers or filler are not what writing would put there";
    case DAMSELBUCKLE_BAD_SCRIPT:
        return "the script is not of the form";
    case DAMSELBUCKLE_BAD_WEIGHT:
        return "a weight is not 1 to 16, or is that of a variable past the n-th and not 1";
    default:
        return "unknown";
    }
}
/* made from refusals.txt by make_refusals: end */

/* ---- What the functions answer and set */

/* The counts of a run or a reduction. They are set, not added to. */
typedef struct damselbuckle_tally {
    uint64_t comparisons; /* comparisons of monomials; at most 6*N*M for N terms brought in */
    uint64_t brought; /* N: terms of the additions that were accepted */
    uint64_t given; /* terms given out that are not zero; in a reduction those of the remainder */
    uint64_t held; /* terms in the bucket space at return */
} damselbuckle_tally;

typedef struct damselbuckle_run_answer {
    uint64_t refusal; /* 0, or one that run gives */
    uint64_t finished; /* operations done; where refused, before it */
    uint64_t places; /* output places written; where refused, before it */
} damselbuckle_run_answer;

typedef struct damselbuckle_reduction_answer {
    uint64_t refusal; /* 0, or one that reduce gives */
    uint64_t leads; /* leads removed; where refused, before it */
    uint64_t terms; /* terms of the remainder that are in the output; where refused, before it */
} damselbuckle_reduction_answer;

typedef struct damselbuckle_write_answer {
    uint64_t refusal; /* 0, or one that write gives */
    uint64_t finished; /* always 0 */
    uint64_t blocks; /* blocks written; where refused, 0 */
} damselbuckle_write_answer;

typedef struct damselbuckle_read_answer {
    uint64_t refusal; /* 0, or one that read gives; where it is not 0, all numbers below are */
    uint64_t finished; /* always 0 */
    uint64_t p; /* the prime */
    uint64_t order; /* the order's number */
    uint64_t n; /* the number of variables */
    uint64_t weights; /* the weights less 1: of x1 in bits 0 to 3, of x2 in bits 4 to 7, and so on up */
    uint64_t terms; /* terms read */
} damselbuckle_read_answer;

typedef struct damselbuckle_listing_answer {
    uint64_t refusal; /* 0, or one that listing gives */
    uint64_t finished; /* always 0 */
    uint64_t length; /* bytes of the listing; where refused, 0 */
} damselbuckle_listing_answer;

/* ---- The functions */

/*
 * Does operations, in turn, on a geobucket that starts empty.
 *
 * A lead goes to the next output place; for zero, word 0 and coefficient 0. A full sum goes to the next
 * places, followed by one such zero place. What the spaces held before is not read. Past the opening
 * checks the bucket space has at return the terms still held, bucket i from place (4^i - 4)/3 on, and 0
 * elsewhere; the work space is all 0; output past the places written is as it was.
 */
damselbuckle_run_answer damselbuckle_run(
    damselbuckle_tally *tally, /* the counts; a refusal at the opening writes back those that came */
    uint32_t p, /* a prime, at most DAMSELBUCKLE_LARGEST_PRIME */
    uint32_t order, /* 1, 2 or 3 */
    uint32_t n, /* the number of variables, 1 to DAMSELBUCKLE_MOST_VARIABLES */
    const uint32_t *weights, size_t weights_len, /* the weights, x1's first: DAMSELBUCKLE_WEIGHTS */
    const uint64_t *words, size_t words_len, /* the words of all polynomials, one after the other */
    const uint32_t *coefs, size_t coefs_len, /* their coefficients; as many */
    const size_t *starts, size_t starts_len, /* polynomial k runs from start k to before start k + 1 */
    const size_t *ops, size_t ops_len, /* the operations: two numbers each */
    uint64_t *bw, size_t bw_len, /* bucket space, words: DAMSELBUCKLE_BUCKET_PLACES */
    uint32_t *bc, size_t bc_len, /* bucket space, coefficients; as many */
    uint64_t *ww, size_t ww_len, /* work space, words: DAMSELBUCKLE_WORK_PLACES */
    uint32_t *wc, size_t wc_len, /* work space, coefficients; as many */
    uint64_t *ow, size_t ow_len, /* output, words */
    uint32_t *oc, size_t oc_len); /* output, coefficients; as many */

/*
 * Reduces polynomial 0 by the others, the divisors: in each step the lead is divided by the first
 * divisor whose lead divides it, or goes to the remainder. The remainder is zero, with terms = 0 in the
 * answer, exactly where the division algorithm's is. In a step 13 is judged first; then 12 and 11, where
 * a divisor fits, or else 10.
 *
 * The remainder goes to the first output places, with no zero place after it. Spaces and output are
 * left as by a run.
 *
 * With the same setting and divisors, and all reductions finished, the remainder of f + g is that of f
 * plus that of g, whatever limits and outputs the calls had. docs/INTEGRATION.md, "After an edit", has
 * what this says of somebody who changes one term.
 */
damselbuckle_reduction_answer damselbuckle_reduce(
    damselbuckle_tally *tally, /* the counts; a refusal at the opening writes back those that came */
    uint32_t p, /* a prime, at most DAMSELBUCKLE_LARGEST_PRIME */
    uint32_t order, /* 1, 2 or 3 */
    uint32_t n, /* the number of variables, 1 to DAMSELBUCKLE_MOST_VARIABLES */
    const uint32_t *weights, size_t weights_len, /* the weights, x1's first: DAMSELBUCKLE_WEIGHTS */
    const uint64_t *words, size_t words_len, /* the words of all polynomials, one after the other */
    const uint32_t *coefs, size_t coefs_len, /* their coefficients; as many */
    const size_t *starts, size_t starts_len, /* polynomial k runs from start k to before start k + 1 */
    uint64_t limit, /* the most leads to remove, at most DAMSELBUCKLE_MOST_STEPS; the constant
                       DAMSELBUCKLE_SUFFICIENT_STEPS is always enough */
    uint64_t *bw, size_t bw_len, /* bucket space, words: DAMSELBUCKLE_BUCKET_PLACES */
    uint32_t *bc, size_t bc_len, /* bucket space, coefficients; as many */
    uint64_t *ww, size_t ww_len, /* work space, words: DAMSELBUCKLE_WORK_PLACES */
    uint32_t *wc, size_t wc_len, /* work space, coefficients; as many */
    uint64_t *ow, size_t ow_len, /* output, words: the remainder */
    uint32_t *oc, size_t oc_len); /* output, coefficients; as many */

/*
 * Writes a polynomial to blocks, 41 terms to a block; zero is one block. Bytes past the
 * blocks are as they were. Refusals are judged in the order 1 to 3, 24, 8, 4 to 6, 11, 10.
 */
damselbuckle_write_answer damselbuckle_write_blocks(
    uint32_t p, /* a prime, at most DAMSELBUCKLE_LARGEST_PRIME */
    uint32_t order, /* 1, 2 or 3 */
    uint32_t n, /* the number of variables, 1 to DAMSELBUCKLE_MOST_VARIABLES */
    const uint32_t *weights, size_t weights_len, /* the weights, x1's first: DAMSELBUCKLE_WEIGHTS */
    const uint64_t *words, size_t words_len, /* the polynomial's words, at most DAMSELBUCKLE_MOST_TERMS */
    const uint32_t *coefs, size_t coefs_len, /* its coefficients; as many */
    uint8_t *bytes, size_t bytes_len); /* where the blocks go; room for DAMSELBUCKLE_MOST_BLOCKS is always enough */

/*
 * Reads the polynomial that blocks hold. Accepted are exactly the bytes that writing a polynomial makes.
 * Places past its terms are as they were. Refusals are judged in the order 8, 14, 15 for all blocks, 16,
 * 1 to 3, 24, 4 to 6, 10.
 */
damselbuckle_read_answer damselbuckle_read_blocks(
    const uint8_t *bytes, size_t bytes_len, /* the blocks, and nothing after them */
    uint64_t *words, size_t words_len, /* where the words go; DAMSELBUCKLE_MOST_TERMS are always enough */
    uint32_t *coefs, size_t coefs_len); /* where the coefficients go; as many */

/*
 * Writes the listing of a script, as the program bucketlist prints it. A script that is refused has a
 * listing too, the line `refused R at K`. Mind the stack, as above.
 */
damselbuckle_listing_answer damselbuckle_listing(
    const uint8_t *script, size_t script_len, /* the script, any bytes */
    uint8_t *out, size_t out_len); /* where the listing goes: at least DAMSELBUCKLE_LISTING_BYTES */

#ifdef __cplusplus
}
#endif

#endif
