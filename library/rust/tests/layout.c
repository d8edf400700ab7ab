/*
 * Prints the size of every struct of the header, where each of its fields lies, what each function
 * answers to a small call, and the text of each refusal; tests/header.rs makes the same lines from the
 * declarations in Rust.
 */
#include "damselbuckle.h"

#include <stdio.h>

#define BUCKETS DAMSELBUCKLE_BUCKET_PLACES
#define WORK DAMSELBUCKLE_WORK_PLACES
#define SIZE(s) printf(#s " %zu\n", sizeof(s))
#define FIELD(s, f) printf("  " #f " %zu %zu\n", offsetof(s, f), sizeof(((s *)0)->f))
#define VALUE(a, f) printf(" %llu", (unsigned long long)(a).f)

static uint64_t bw[DAMSELBUCKLE_BUCKET_PLACES], ww[DAMSELBUCKLE_WORK_PLACES], ow[9];
static uint32_t bc[DAMSELBUCKLE_BUCKET_PLACES], wc[DAMSELBUCKLE_WORK_PLACES], oc[9];
static uint8_t bytes[DAMSELBUCKLE_BLOCK_BYTES], out[DAMSELBUCKLE_LISTING_BYTES];

static void layouts(void)
{
    SIZE(damselbuckle_tally);
    FIELD(damselbuckle_tally, comparisons);
    FIELD(damselbuckle_tally, brought);
    FIELD(damselbuckle_tally, given);
    FIELD(damselbuckle_tally, held);
    SIZE(damselbuckle_run_answer);
    FIELD(damselbuckle_run_answer, refusal);
    FIELD(damselbuckle_run_answer, finished);
    FIELD(damselbuckle_run_answer, places);
    SIZE(damselbuckle_reduction_answer);
    FIELD(damselbuckle_reduction_answer, refusal);
    FIELD(damselbuckle_reduction_answer, leads);
    FIELD(damselbuckle_reduction_answer, terms);
    SIZE(damselbuckle_write_answer);
    FIELD(damselbuckle_write_answer, refusal);
    FIELD(damselbuckle_write_answer, finished);
    FIELD(damselbuckle_write_answer, blocks);
    SIZE(damselbuckle_read_answer);
    FIELD(damselbuckle_read_answer, refusal);
    FIELD(damselbuckle_read_answer, finished);
    FIELD(damselbuckle_read_answer, p);
    FIELD(damselbuckle_read_answer, order);
    FIELD(damselbuckle_read_answer, n);
    FIELD(damselbuckle_read_answer, weights);
    FIELD(damselbuckle_read_answer, terms);
    SIZE(damselbuckle_listing_answer);
    FIELD(damselbuckle_listing_answer, refusal);
    FIELD(damselbuckle_listing_answer, finished);
    FIELD(damselbuckle_listing_answer, length);
}

/* x1 + 1 modulo 5 under lp, and x1, with a weight of 3 */
static const uint32_t weights[6] = {3, 1, 1, 1, 1, 1};
static const uint64_t words[3] = {UINT64_C(3) << 48 | UINT64_C(1) << 40, 0, UINT64_C(3) << 48 | UINT64_C(1) << 40};
static const uint32_t coefs[3] = {1, 1, 1};
static const size_t starts[3] = {0, 2, 3};
static const size_t ops[6] = {1, 0, 1, 1, 3, 0};
static const uint8_t script[] = "prime 5\n";

static void calls(void)
{
    damselbuckle_tally tally = {0, 0, 0, 0};
    damselbuckle_run_answer ran = damselbuckle_run(&tally, 5, 1, 1, weights, 6, words, 3, coefs, 3, starts, 3, ops, 6, bw, BUCKETS, bc, BUCKETS, ww, WORK, wc, WORK, ow, 9, oc, 9);
    damselbuckle_reduction_answer reduced;
    damselbuckle_write_answer written;
    damselbuckle_read_answer read;
    damselbuckle_listing_answer listed;

    printf("run");
    VALUE(ran, refusal);
    VALUE(ran, finished);
    VALUE(ran, places);
    VALUE(tally, comparisons);
    VALUE(tally, brought);
    VALUE(tally, given);
    VALUE(tally, held);
    reduced = damselbuckle_reduce(&tally, 5, 1, 1, weights, 6, words, 3, coefs, 3, starts, 3, 7, bw, BUCKETS, bc, BUCKETS, ww, WORK, wc, WORK, ow, 9, oc, 9);
    printf("\nreduce");
    VALUE(reduced, refusal);
    VALUE(reduced, leads);
    VALUE(reduced, terms);
    VALUE(tally, comparisons);
    VALUE(tally, brought);
    VALUE(tally, given);
    VALUE(tally, held);
    written = damselbuckle_write_blocks(5, 1, 1, weights, 6, words, 2, coefs, 2, bytes, sizeof bytes);
    printf("\nwrite_blocks");
    VALUE(written, refusal);
    VALUE(written, finished);
    VALUE(written, blocks);
    read = damselbuckle_read_blocks(bytes, sizeof bytes, ow, 9, oc, 9);
    printf("\nread_blocks");
    VALUE(read, refusal);
    VALUE(read, finished);
    VALUE(read, p);
    VALUE(read, order);
    VALUE(read, n);
    VALUE(read, weights);
    VALUE(read, terms);
    listed = damselbuckle_listing(script, sizeof script - 1, out, sizeof out);
    printf("\nlisting");
    VALUE(listed, refusal);
    VALUE(listed, finished);
    VALUE(listed, length);
    printf("\n");
}

static void texts(void)
{
    uint64_t refusal;

    for (refusal = 0; refusal < 100; refusal++)
        printf("%d %s\n", (int)refusal, damselbuckle_refusal_text(refusal));
}

int main(void)
{
    layouts();
    calls();
    texts();
    return 0;
}
