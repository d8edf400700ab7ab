/*
 * The library called from C: two reductions, one that is stopped and goes on, a run, blocks written and
 * read back, with weights of 1 and with others, and a listing. `library/example` builds and runs it.
 */
#include "damselbuckle.h"

#include <stdio.h>
#include <string.h>

#define P 32003
#define MINUS_1 (P - 1)
#define PLACES 100
#define BUCKETS 6

/* What every run and every reduction is lent. */
static uint64_t bucket_words[DAMSELBUCKLE_BUCKET_PLACES], work_words[DAMSELBUCKLE_WORK_PLACES];
static uint32_t bucket_coefs[DAMSELBUCKLE_BUCKET_PLACES], work_coefs[DAMSELBUCKLE_WORK_PLACES];
static uint64_t out_words[PLACES];
static uint32_t out_coefs[PLACES];
static damselbuckle_tally tally;

/* The word of x1^a * x2^b in the order dp. */
static uint64_t word(uint64_t a, uint64_t b)
{
    return (a + b) << 48 | b << 8 | a;
}

/* Prints words of dp in two variables, with coefficients from -(P - 1)/2 up. */
static void print(const char *name, const uint64_t *words, const uint32_t *coefs, size_t count)
{
    size_t i;
    printf("%s", name);
    if (count == 0)
        printf(" zero");
    for (i = 0; i < count; i++) {
        long coef = coefs[i] > P / 2 ? (long)coefs[i] - P : (long)coefs[i];
        printf(" %+ld*x1^%d*x2^%d", coef, (int)(words[i] & 255), (int)(words[i] >> 8 & 255));
    }
    printf("\n");
}

/* Prints a refusal, with what was finished before it. */
static void refused(const char *name, uint64_t refusal, uint64_t finished)
{
    printf("%s: refused %d after %d: %s\n", name, (int)refusal, (int)finished, damselbuckle_refusal_text(refusal));
}

/* Reduces a polynomial of at most PLACES terms by the joint equation x1^2 + x2^2 - 1. */
static damselbuckle_reduction_answer by_joint(
    const uint64_t *condition, const uint32_t *condition_coefs, size_t count, uint64_t limit)
{
    uint64_t words[PLACES + 3];
    uint32_t coefs[PLACES + 3];
    size_t starts[3];

    memcpy(words, condition, count * sizeof *words);
    memcpy(coefs, condition_coefs, count * sizeof *coefs);
    words[count] = word(2, 0);
    words[count + 1] = word(0, 2);
    words[count + 2] = word(0, 0);
    coefs[count] = 1;
    coefs[count + 1] = 1;
    coefs[count + 2] = MINUS_1;
    starts[0] = 0;
    starts[1] = count;
    starts[2] = count + 3;
    return damselbuckle_reduce(
        &tally, P, DAMSELBUCKLE_DP_REV, 2, DAMSELBUCKLE_ONES, DAMSELBUCKLE_WEIGHTS,
        words, count + 3, coefs, count + 3, starts, 3, limit,
        bucket_words, DAMSELBUCKLE_BUCKET_PLACES, bucket_coefs, DAMSELBUCKLE_BUCKET_PLACES,
        work_words, DAMSELBUCKLE_WORK_PLACES, work_coefs, DAMSELBUCKLE_WORK_PLACES,
        out_words, PLACES, out_coefs, PLACES);
}

/* Reduces the closing condition of an arm, and says what follows. */
static void arm(const char *name, const uint64_t *condition, const uint32_t *coefs, size_t count)
{
    damselbuckle_reduction_answer answer = by_joint(condition, coefs, count, 1000);

    if (answer.refusal != 0) {
        refused(name, answer.refusal, answer.leads);
        return;
    }
    printf("%s: %s\n", name, answer.terms == 0 ? "the arm closes" : "closing is not shown");
    print(answer.terms == 0 ? "  remainder" : "  what is left is", out_words, out_coefs, answer.terms);
    printf("  %d leads, %d comparisons for %d terms\n", (int)answer.leads, (int)tally.comparisons, (int)tally.brought);
}

/*
 * Puts the terms that a stopped call holds one after the other, a polynomial for each bucket: bucket i has
 * 4^i places of the bucket space, from place (4^i - 4)/3 on, and its terms come before its places of
 * coefficient 0. Words and coefficients have room for DAMSELBUCKLE_MOST_TERMS, which is always enough.
 */
static void read_held(uint64_t *words, uint32_t *coefs, size_t starts[BUCKETS + 1])
{
    size_t i, place, first, capacity = 1, terms = 0;

    starts[0] = 0;
    for (i = 1; i <= BUCKETS; i++) {
        capacity *= 4;
        first = (capacity - 4) / 3;
        for (place = first; place < first + capacity && bucket_coefs[place] != 0; place++) {
            words[terms] = bucket_words[place];
            coefs[terms] = bucket_coefs[place];
            terms++;
        }
        starts[i] = terms;
    }
}

/*
 * Adds up the terms that a stopped call holds, and answers how many are left: the first of the output,
 * without the zero place that follows. The output must have room for one more than the terms held, and what
 * the stopped call gave out there is lost.
 */
static size_t add_held(void)
{
    static uint64_t words[DAMSELBUCKLE_MOST_TERMS];
    static uint32_t coefs[DAMSELBUCKLE_MOST_TERMS];
    const size_t operations[] = {
        DAMSELBUCKLE_ADD, 0, DAMSELBUCKLE_ADD, 1, DAMSELBUCKLE_ADD, 2, DAMSELBUCKLE_ADD, 3,
        DAMSELBUCKLE_ADD, 4, DAMSELBUCKLE_ADD, 5, DAMSELBUCKLE_SUM, 0};
    size_t starts[BUCKETS + 1];
    damselbuckle_run_answer answer;

    read_held(words, coefs, starts);
    answer = damselbuckle_run(
        &tally, P, DAMSELBUCKLE_DP_REV, 2, DAMSELBUCKLE_ONES, DAMSELBUCKLE_WEIGHTS,
        words, starts[BUCKETS], coefs, starts[BUCKETS], starts, BUCKETS + 1,
        operations, sizeof operations / sizeof *operations,
        bucket_words, DAMSELBUCKLE_BUCKET_PLACES, bucket_coefs, DAMSELBUCKLE_BUCKET_PLACES,
        work_words, DAMSELBUCKLE_WORK_PLACES, work_coefs, DAMSELBUCKLE_WORK_PLACES,
        out_words, PLACES, out_coefs, PLACES);
    return answer.places - 1;
}

/*
 * A reduction that its step limit stops goes on from what it holds, and comes to the same remainder: that of
 * x1^2*x2^2 + x2^4 + x1^2*x2 + x1*x2 + x2^2 + 1. After three leads x2^2 is held in two buckets.
 */
static void go_on(void)
{
    const uint32_t coefs[6] = {1, 1, 1, 1, 1, 1};
    uint64_t condition[6], held_words[PLACES];
    uint32_t held_coefs[PLACES];
    size_t held;
    damselbuckle_reduction_answer answer;

    condition[0] = word(2, 2);
    condition[1] = word(0, 4);
    condition[2] = word(2, 1);
    condition[3] = word(1, 1);
    condition[4] = word(0, 2);
    condition[5] = word(0, 0);
    answer = by_joint(condition, coefs, 6, 3);
    refused("third arm", answer.refusal, answer.leads);
    print("  remainder so far", out_words, out_coefs, answer.terms);
    held = add_held();
    print("  held", out_words, out_coefs, held);
    memcpy(held_words, out_words, held * sizeof *held_words);
    memcpy(held_coefs, out_coefs, held * sizeof *held_coefs);
    answer = by_joint(held_words, held_coefs, held, 1000);
    print("  the rest of the remainder", out_words, out_coefs, answer.terms);
    answer = by_joint(condition, coefs, 6, 1000);
    print("  all of it at once", out_words, out_coefs, answer.terms);
}

/* Adds x1 - x2 twice, takes the lead and gives the rest. Then asks for a polynomial that is not there. */
static void run(void)
{
    uint64_t words[2];
    const uint32_t coefs[2] = {1, MINUS_1};
    const size_t starts[2] = {0, 2};
    const size_t operations[] = {DAMSELBUCKLE_ADD, 0, DAMSELBUCKLE_ADD, 0, DAMSELBUCKLE_LEAD, 0, DAMSELBUCKLE_SUM, 0};
    const size_t wrong[] = {DAMSELBUCKLE_ADD, 1};
    damselbuckle_run_answer answer;

    words[0] = word(1, 0);
    words[1] = word(0, 1);
    answer = damselbuckle_run(
        &tally, P, DAMSELBUCKLE_DP_REV, 2, DAMSELBUCKLE_ONES, DAMSELBUCKLE_WEIGHTS,
        words, 2, coefs, 2, starts, 2, operations, 8,
        bucket_words, DAMSELBUCKLE_BUCKET_PLACES, bucket_coefs, DAMSELBUCKLE_BUCKET_PLACES,
        work_words, DAMSELBUCKLE_WORK_PLACES, work_coefs, DAMSELBUCKLE_WORK_PLACES,
        out_words, PLACES, out_coefs, PLACES);
    printf("run: refusal %d, %d operations, %d places\n", (int)answer.refusal, (int)answer.finished, (int)answer.places);
    print("  lead", out_words, out_coefs, 1);
    print("  sum", out_words + 1, out_coefs + 1, answer.places - 2); /* without its zero place */
    answer = damselbuckle_run(
        &tally, P, DAMSELBUCKLE_DP_REV, 2, DAMSELBUCKLE_ONES, DAMSELBUCKLE_WEIGHTS,
        words, 2, coefs, 2, starts, 2, wrong, 2,
        bucket_words, DAMSELBUCKLE_BUCKET_PLACES, bucket_coefs, DAMSELBUCKLE_BUCKET_PLACES,
        work_words, DAMSELBUCKLE_WORK_PLACES, work_coefs, DAMSELBUCKLE_WORK_PLACES,
        out_words, PLACES, out_coefs, PLACES);
    refused("wrong run", answer.refusal, answer.finished);
    printf("  the tally still has %d terms brought in\n", (int)tally.brought);
}

/* Writes x1 - x2 to a block, reads it back, and reads it once more with a byte changed. */
static void blocks(void)
{
    static uint8_t bytes[DAMSELBUCKLE_BLOCK_BYTES];
    uint64_t words[2];
    const uint32_t coefs[2] = {1, MINUS_1};
    damselbuckle_write_answer written;
    damselbuckle_read_answer read;

    words[0] = word(1, 0);
    words[1] = word(0, 1);
    written = damselbuckle_write_blocks(
        P, DAMSELBUCKLE_DP_REV, 2, DAMSELBUCKLE_ONES, DAMSELBUCKLE_WEIGHTS, words, 2, coefs, 2, bytes, sizeof bytes);
    printf("written: refusal %d, %d block\n", (int)written.refusal, (int)written.blocks);
    read = damselbuckle_read_blocks(bytes, sizeof bytes, out_words, PLACES, out_coefs, PLACES);
    printf("read: refusal %d, p %d, order %d, n %d\n", (int)read.refusal, (int)read.p, (int)read.order, (int)read.n);
    print("  polynomial", out_words, out_coefs, read.terms);
    bytes[20] ^= 1;
    read = damselbuckle_read_blocks(bytes, sizeof bytes, out_words, PLACES, out_coefs, PLACES);
    refused("read with a byte changed", read.refusal, read.finished);
}

/*
 * With a weight of 2 for x2 the degree of x2 is 2, and x2 is larger than x1. Writes x2 + x1 to a block and
 * reads it back; with weights of 1 its first word has a wrong degree.
 */
static void slide(void)
{
    static uint8_t bytes[DAMSELBUCKLE_BLOCK_BYTES];
    const uint32_t weights[DAMSELBUCKLE_WEIGHTS] = {1, 2, 1, 1, 1, 1};
    const uint64_t words[2] = {UINT64_C(2) << 48 | 1 << 8, UINT64_C(1) << 48 | 1};
    const uint32_t coefs[2] = {1, 1};
    damselbuckle_write_answer written;
    damselbuckle_read_answer read;

    written = damselbuckle_write_blocks(
        P, DAMSELBUCKLE_DP_REV, 2, weights, DAMSELBUCKLE_WEIGHTS, words, 2, coefs, 2, bytes, sizeof bytes);
    printf("weighted: refusal %d, %d block\n", (int)written.refusal, (int)written.blocks);
    read = damselbuckle_read_blocks(bytes, sizeof bytes, out_words, PLACES, out_coefs, PLACES);
    printf("  weights %d and %d\n", (int)(read.weights & 15) + 1, (int)(read.weights >> 4 & 15) + 1);
    print("  polynomial", out_words, out_coefs, read.terms);
    written = damselbuckle_write_blocks(
        P, DAMSELBUCKLE_DP_REV, 2, DAMSELBUCKLE_ONES, DAMSELBUCKLE_WEIGHTS, words, 2, coefs, 2, bytes, sizeof bytes);
    refused("  with weights of 1", written.refusal, written.finished);
}

static void listing(void)
{
    static uint8_t out[DAMSELBUCKLE_LISTING_BYTES];
    const char *script = "prime 7\norder dp\nvars 2\nadd 3:2.0 1:1.1 1:0.2 1:1.0 1:0.1\nadd 4:2.0\nlead\nsum\n";
    damselbuckle_listing_answer answer = damselbuckle_listing((const uint8_t *)script, strlen(script), out, sizeof out);

    printf("listing: refusal %d, %d bytes\n", (int)answer.refusal, (int)answer.length);
    fwrite(out, 1, answer.length, stdout);
}

int main(void)
{
    /* x1^2*x2 + x2^3 - x2, and the same without its last term */
    const uint64_t condition[3] = {UINT64_C(3) << 48 | 1 << 8 | 2, UINT64_C(3) << 48 | 3 << 8, UINT64_C(1) << 48 | 1 << 8};
    const uint32_t coefs[3] = {1, 1, MINUS_1};

    arm("first arm", condition, coefs, 3);
    arm("second arm", condition, coefs, 2);
    go_on();
    run();
    blocks();
    slide();
    listing();
    return 0;
}
