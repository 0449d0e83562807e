/* Triple DEA of the proved library against OpenSSL's, over random bundles and blocks, both ways, and the refusals of loading. */
#include "exports.h"
#include <openssl/evp.h>
#include <stdio.h>
#include <string.h>

enum { BUNDLES = 2000, BLOCKS = 16 };

static uint64_t state = 0x9E3779B97F4A7C15u;

static uint64_t next_random(void)
{
    state ^= state << 13;
    state ^= state >> 7;
    state ^= state << 17;
    return state;
}

static void store(uint8_t *bytes, uint64_t block)
{
    for (int i = 0; i < 8; i++)
        bytes[i] = (uint8_t)(block >> (56 - 8 * i));
}

static uint64_t load(const uint8_t *bytes)
{
    uint64_t block = 0;
    for (int i = 0; i < 8; i++)
        block = block << 8 | bytes[i];
    return block;
}

static void random_keys(uint8_t keys[24])
{
    for (int i = 0; i < 3; i++)
        store(keys + 8 * i, next_random());
    for (int i = 0; i < 24; i++)
        keys[i] ^= (uint8_t)!__builtin_parity(keys[i]);
}

static int by_openssl(const uint8_t keys[24], int inverse, uint64_t blocks[BLOCKS])
{
    uint8_t in[8 * BLOCKS], out[8 * BLOCKS + 8];
    int len = 0;
    for (int i = 0; i < BLOCKS; i++)
        store(in + 8 * i, blocks[i]);
    EVP_CIPHER_CTX *ctx = EVP_CIPHER_CTX_new();
    int ok = ctx && EVP_CipherInit_ex(ctx, EVP_des_ede3_ecb(), NULL, keys, NULL, !inverse)
        && EVP_CIPHER_CTX_set_padding(ctx, 0) && EVP_CipherUpdate(ctx, out, &len, in, (int)sizeof in) && len == (int)sizeof in;
    EVP_CIPHER_CTX_free(ctx);
    for (int i = 0; i < BLOCKS; i++)
        blocks[i] = load(out + 8 * i);
    return ok;
}

static int all_zero(const uint8_t *bytes, size_t len)
{
    for (size_t i = 0; i < len; i++)
        if (bytes[i])
            return 0;
    return 1;
}

static int compare_bundle(int inverse)
{
    uint8_t keys[24], lent[24];
    uint64_t ours[BLOCKS], theirs[BLOCKS];
    random_keys(keys);
    memcpy(lent, keys, sizeof keys);
    for (int i = 0; i < BLOCKS; i++)
        ours[i] = theirs[i] = next_random();
    return hervodig_blocks(lent, sizeof lent, (uint8_t)inverse, ours, BLOCKS) == 0 && all_zero(lent, sizeof lent)
        && by_openssl(keys, inverse, theirs) && memcmp(ours, theirs, sizeof ours) == 0;
}

/* A refused load leaves the block and zeroes the keys. */
static int refused(uint8_t *keys, size_t len, uint8_t number)
{
    uint64_t block = 42;
    return hervodig_blocks(keys, len, 0, &block, 1) == number && block == 42 && all_zero(keys, len);
}

int main(void)
{
    int right = 0;
    for (int i = 0; i < BUNDLES; i++)
        right += compare_bundle(i % 2);
    printf("openssl: %d of %d bundles agree over %d blocks each, both ways\n", right, (int)BUNDLES, (int)BLOCKS);

    uint8_t keys[25];
    int refusals = 0;
    memset(keys, 1, sizeof keys);
    refusals += refused(keys, 25, 1);
    memset(keys, 1, sizeof keys);
    refusals += refused(keys, 0, 1);
    memset(keys, 1, sizeof keys);
    keys[23] = 0;
    refusals += refused(keys, 24, 2);
    memset(keys, 1, sizeof keys);
    refusals += refused(keys, 24, 3);
    printf("openssl: %d of 4 refusals as they must be\n", refusals);
    return right == BUNDLES && refusals == 4 ? 0 : 1;
}
