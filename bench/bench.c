/* Times the proved library in one run: triple DEA against OpenSSL's des-ede3, a block and setting up keys; clocking a line against three calls of
   single DEA; and runs over the line, whose times come as arguments (a mode's name and tenths of a nanosecond a unit), against OpenSSL's modes.
   Whole jobs are timed by jobs.c. */
#include "exports.h"
#include "timing.h"
#include <openssl/evp.h>
#include <stdlib.h>
#include <string.h>

enum { BLOCKS = 1 << 17, SETUPS = 20000 };

static const uint8_t KEYS[24] = {0x01, 0x23, 0x45, 0x67, 0x89, 0xAB, 0xCD, 0xEF, 0x23, 0x45, 0x67, 0x89,
                                 0xAB, 0xCD, 0xEF, 0x01, 0x45, 0x67, 0x89, 0xAB, 0xCD, 0xEF, 0x01, 0x23};
static int chained;
static uint64_t blocks[BLOCKS];
static uint8_t bytes[8 * BLOCKS + 8];

struct task {
    int inverse;
    size_t blocks;
};

static const struct task FORWARD = {0, BLOCKS}, INVERSE = {1, BLOCKS}, ONE_BLOCK = {0, 1};

static void ours(const void *with)
{
    const struct task *task = with;
    uint8_t keys[24];
    memcpy(keys, KEYS, sizeof keys);
    hervodig_blocks(keys, sizeof keys, (uint8_t)task->inverse, blocks, task->blocks);
}

static void theirs(const void *with)
{
    const struct task *task = with;
    int len = 0;
    EVP_CIPHER_CTX *ctx = EVP_CIPHER_CTX_new();
    EVP_CipherInit_ex(ctx, chained ? EVP_des_ede3_cbc() : EVP_des_ede3_ecb(), NULL, KEYS, KEYS, !task->inverse);
    EVP_CIPHER_CTX_set_padding(ctx, 0);
    EVP_CipherUpdate(ctx, bytes, &len, bytes, (int)(8 * task->blocks));
    EVP_CIPHER_CTX_free(ctx);
}

static volatile uint64_t gathered;

static void line(const void *with)
{
    const struct task *task = with;
    uint8_t keys[24];
    memcpy(keys, KEYS, sizeof keys);
    gathered = hervodig_line(keys, sizeof keys, task->blocks);
}

static void three_calls(const void *with)
{
    const struct task *task = with;
    uint8_t keys[24];
    memcpy(keys, KEYS, sizeof keys);
    gathered = hervodig_three_calls(keys, sizeof keys, task->blocks);
}

/* The least time of one call, in seconds, over several rounds of so many calls. */
static double least(void (*call)(const void *), const struct task *task, int calls)
{
    double best = round_of(call, task, calls);
    for (int round = 1; round < ROUNDS; round++) {
        double took = round_of(call, task, calls);
        if (took < best)
            best = took;
    }
    return best;
}

/* Seconds a block. */
static double each(void (*call)(const void *), const struct task *task)
{
    return least(call, task, 1) / (double)task->blocks;
}

int main(int argc, char **argv)
{
    compare("a block enciphered", each(ours, &FORWARD), "OpenSSL", each(theirs, &FORWARD));
    compare("a block deciphered", each(ours, &INVERSE), "OpenSSL", each(theirs, &INVERSE));
    compare("keys set up, and one block", least(ours, &ONE_BLOCK, SETUPS), "OpenSSL", least(theirs, &ONE_BLOCK, SETUPS));
    compare("a cycle of the line", each(line, &FORWARD), "three calls of DEA", each(three_calls, &FORWARD));
    for (int i = 1; i + 1 < argc; i += 2) {
        char what[64];
        chained = strcmp(argv[i], "TECB") != 0;
        snprintf(what, sizeof what, "a unit of a run, %s", argv[i]);
        compare(what, 1e-10 * atof(argv[i + 1]), chained ? "OpenSSL, chained" : "OpenSSL", each(theirs, &FORWARD));
    }
    return 0;
}
