/* Times whole jobs of 32 KiB through the C function against OpenSSL's triple DES, and Botan's where it is there, in one run.

   Each call does all that one message needs, on every side: it sets up the keys, takes the initial value, and works the data. The job is laid out
   beforehand. OpenSSL and Botan have neither interleaved nor pipelined modes; these are compared with the mode that they are made from, over as many
   units. In units of one bit a job has 32,768 bytes and OpenSSL 4,096, with the same 32,768 units in them. What both have must be the same before it is
   timed. */
#include "timing.h"
#include <openssl/evp.h>
#include <stdlib.h>
#include <string.h>
#include <tdea.h>
#ifdef HAVE_BOTAN
#include <botan/ffi.h>
#endif

enum { DATA = TDEA_MAX_DATA };

static const uint8_t KEYS[24] = {0x01, 0x23, 0x45, 0x67, 0x89, 0xAB, 0xCD, 0xEF, 0x23, 0x45, 0x67, 0x89,
                                 0xAB, 0xCD, 0xEF, 0x01, 0x45, 0x67, 0x89, 0xAB, 0xCD, 0xEF, 0x01, 0x23};
static const uint8_t VALUES[24] = {0x12, 0x34, 0x56, 0x78, 0x90, 0xAB, 0xCD, 0xEF, 0x67, 0x89, 0xAB, 0xCD,
                                   0xE6, 0x01, 0x23, 0x44, 0xBC, 0xDF, 0x01, 0x23, 0x3B, 0x56, 0x78, 0x99};

struct mode {
    const char *name;
    int width;
    size_t values;
    const EVP_CIPHER *(*openssl)(void);
    const char *openssl_name;
    const char *botan_name; /* NULL where it has none */
};

/* By code, from 1 on. The codebook is Botan's block cipher itself. */
static const struct mode MODES[] = {
    {"TECB", 64, 0, EVP_des_ede3_ecb, "ecb", "TripleDES"},
    {"TCBC", 64, 8, EVP_des_ede3_cbc, "cbc", "TripleDES/CBC/NoPadding"},
    {"TCBC-I", 64, 24, EVP_des_ede3_cbc, "cbc", "TripleDES/CBC/NoPadding"},
    {"TCFB", 64, 8, EVP_des_ede3_cfb64, "cfb", "TripleDES/CFB"},
    {"TCFB", 8, 8, EVP_des_ede3_cfb8, "cfb8", "TripleDES/CFB(8)"},
    {"TCFB", 1, 8, EVP_des_ede3_cfb1, "cfb1", NULL},
    {"TCFB-P", 64, 24, EVP_des_ede3_cfb64, "cfb", "TripleDES/CFB"},
    {"TCFB-P", 8, 24, EVP_des_ede3_cfb8, "cfb8", "TripleDES/CFB(8)"},
    {"TCFB-P", 1, 24, EVP_des_ede3_cfb1, "cfb1", NULL},
    {"TOFB", 64, 8, EVP_des_ede3_ofb, "ofb", "OFB(TripleDES)"},
    {"TOFB-I", 64, 24, EVP_des_ede3_ofb, "ofb", "OFB(TripleDES)"},
};

enum { CODES = sizeof MODES / sizeof MODES[0] };

static uint8_t job[TDEA_MAX_JOB], out[DATA], data[DATA];
static uint8_t packed[DATA], turned[DATA + 8];
static size_t job_len, packed_len;

struct task {
    const struct mode *mode;
    int inverse;
};

static int has_three_values(const struct mode *mode)
{
    return mode->values == 24;
}

static size_t append(size_t at, uint8_t tag, const uint8_t *bytes, size_t len)
{
    job[at] = tag;
    job[at + 1] = (uint8_t)(len >> 8);
    job[at + 2] = (uint8_t)len;
    memcpy(job + at + 3, bytes, len);
    return at + 3 + len;
}

/* Lays out the job, and the same units as OpenSSL and Botan take them. */
static void prepare(const struct task *task)
{
    uint8_t code = (uint8_t)(task->mode - MODES + 1), direction = task->inverse ? TDEA_DECIPHER : TDEA_ENCIPHER;
    for (size_t i = 0; i < DATA; i++)
        data[i] = (uint8_t)(task->mode->width == 1 ? i * i / 7 & 1 : i * 167 + i / 256);
    job_len = append(0, TDEA_KEYS, KEYS, sizeof KEYS);
    job_len = append(job_len, TDEA_CODE, &code, 1);
    job_len = append(job_len, TDEA_DIRECTION, &direction, 1);
    job_len = append(job_len, TDEA_INITIAL_VALUES, VALUES, task->mode->values);
    job_len = append(job_len, TDEA_DATA, data, DATA);
    if (task->mode->width > 1) {
        packed_len = DATA;
        memcpy(packed, data, DATA);
        return;
    }
    packed_len = DATA / 8;
    memset(packed, 0, packed_len);
    for (size_t i = 0; i < DATA; i++)
        packed[i / 8] |= (uint8_t)(data[i] << (7 - i % 8));
}

static void must(int worked, const char *what)
{
    if (!worked) {
        fprintf(stderr, "jobs: %s\n", what);
        exit(1);
    }
}

static void ours(const void *unused)
{
    (void)unused;
    must(tdea_run(job, job_len, out, DATA) == DATA, "a job was refused");
}

static void by_openssl(const void *with)
{
    const struct task *task = with;
    int len = 0;
    EVP_CIPHER_CTX *ctx = EVP_CIPHER_CTX_new();
    must(ctx && EVP_CipherInit_ex(ctx, task->mode->openssl(), NULL, KEYS, VALUES, !task->inverse) && EVP_CIPHER_CTX_set_padding(ctx, 0)
             && EVP_CipherUpdate(ctx, turned, &len, packed, (int)packed_len) && len == (int)packed_len,
         "OpenSSL does not do it");
    EVP_CIPHER_CTX_free(ctx);
}

/* Whether what came out of the job is what the others made of the same units. */
static int same(const struct mode *mode)
{
    if (mode->width > 1)
        return memcmp(out, turned, DATA) == 0;
    for (size_t i = 0; i < DATA; i++)
        if (out[i] != (turned[i / 8] >> (7 - i % 8) & 1))
            return 0;
    return 1;
}

/* The least time of each over several rounds. They take turns, so that a busy spell of the machine meets both. */
static void race(const struct task *task, const char *what, void (*other)(const void *), const char *name)
{
    double mine = 1e9, theirs = 1e9;
    char with[64];
    for (int round = 0; round < ROUNDS; round++) {
        double took = round_of(ours, NULL, 1);
        mine = took < mine ? took : mine;
        took = round_of(other, task, 1);
        theirs = took < theirs ? took : theirs;
    }
    snprintf(with, sizeof with, "%s, %s%s", name, task->mode->openssl_name, has_three_values(task->mode) ? ", one chain" : "");
    compare(what, mine, with, theirs);
}

#ifdef HAVE_BOTAN
static int codebook_by_botan(int inverse)
{
    botan_block_cipher_t cipher;
    if (botan_block_cipher_init(&cipher, "TripleDES") != 0)
        return 0;
    int worked = botan_block_cipher_set_key(cipher, KEYS, sizeof KEYS) == 0
        && (inverse ? botan_block_cipher_decrypt_blocks(cipher, packed, turned, packed_len / 8)
                    : botan_block_cipher_encrypt_blocks(cipher, packed, turned, packed_len / 8))
            == 0;
    botan_block_cipher_destroy(cipher);
    return worked;
}

static int mode_by_botan(const char *name, int inverse)
{
    botan_cipher_t cipher;
    size_t written = 0, taken = 0;
    if (botan_cipher_init(&cipher, name, inverse ? BOTAN_CIPHER_INIT_FLAG_DECRYPT : BOTAN_CIPHER_INIT_FLAG_ENCRYPT) != 0)
        return 0;
    int worked = botan_cipher_set_key(cipher, KEYS, sizeof KEYS) == 0 && botan_cipher_start(cipher, VALUES, 8) == 0
        && botan_cipher_update(cipher, BOTAN_CIPHER_UPDATE_FLAG_FINAL, turned, sizeof turned, &written, packed, packed_len, &taken) == 0
        && written == packed_len;
    botan_cipher_destroy(cipher);
    return worked;
}

static int botan_worked;

static void by_botan(const void *with)
{
    const struct task *task = with;
    botan_worked = task->mode->values == 0 ? codebook_by_botan(task->inverse) : mode_by_botan(task->mode->botan_name, task->inverse);
}

static void against_botan(const struct task *task, const char *what)
{
    if (!task->mode->botan_name)
        return;
    by_botan(task);
    if (!botan_worked) {
        printf("skipped: %s against Botan: it does not do %s\n", what, task->mode->botan_name);
        return;
    }
    must(has_three_values(task->mode) || same(task->mode), "Botan gives something else");
    race(task, what, by_botan, "Botan");
}
#else
static void against_botan(const struct task *task, const char *what)
{
    (void)task, (void)what;
}
#endif

static void time_job(const struct task *task)
{
    char what[64];
    prepare(task);
    ours(NULL);
    by_openssl(task);
    must(has_three_values(task->mode) || same(task->mode), "OpenSSL gives something else");
    snprintf(what, sizeof what, "a job, %s of %d, %s", task->mode->name, task->mode->width, task->inverse ? "deciphered" : "enciphered");
    race(task, what, by_openssl, "OpenSSL");
    against_botan(task, what);
}

int main(void)
{
    puts("whole jobs of 32 KiB, keys set up in each call on every side; 'one chain' is the mode from which an interleaved or pipelined one is made");
    for (int code = 0; code < CODES; code++)
        for (int inverse = 0; inverse < 2; inverse++)
            time_job(&(struct task){&MODES[code], inverse});
    return 0;
}
