/* The function touches nothing beside its job and its output. Each lies flush with the end of its pages, then with their start; the pages beside them
   fault at a touch, and the job's own at a write. The library is compiled without a sanitizer, so that one in here would not see what it touches. */
#include <tdea.h>

#include <stdio.h>
#include <stdlib.h>
#include <string.h>
#include <sys/mman.h>
#include <unistd.h>

enum side { START, END };

struct fenced {
    uint8_t *pages;
    size_t len;
};

static size_t page;

static struct fenced fence(size_t len)
{
    struct fenced f = {NULL, (len + page - 1) / page * page};
    f.pages = mmap(NULL, f.len + 2 * page, PROT_NONE, MAP_PRIVATE | MAP_ANONYMOUS, -1, 0);
    if (f.pages == MAP_FAILED || mprotect(f.pages + page, f.len, PROT_READ | PROT_WRITE) != 0) {
        perror("edges");
        exit(2);
    }
    return f;
}

/* Where a block of this length lies, flush with one side. */
static uint8_t *flush(struct fenced f, enum side side, size_t len)
{
    return f.pages + page + (side == END ? f.len - len : 0);
}

static struct fenced jobs, outs;
static unsigned long calls;

static int64_t run(const uint8_t *job, size_t job_len, size_t out_len, enum side side)
{
    uint8_t *lent = flush(jobs, side, job_len);
    memcpy(lent, job, job_len);
    mprotect(jobs.pages + page, jobs.len, PROT_READ);
    int64_t answer = tdea_run(lent, job_len, flush(outs, side, out_len), out_len);
    mprotect(jobs.pages + page, jobs.len, PROT_READ | PROT_WRITE);
    calls++;
    return answer;
}

/* A sound job of so many bytes of data; answers its length. */
static size_t lay_out(uint8_t *job, size_t keys, uint8_t code, uint8_t direction, size_t data)
{
    static const uint8_t ODD[] = {0x01, 0x23, 0x45, 0x67, 0x89, 0xAB, 0xCD, 0xEF};
    static const uint8_t VALUES[] = {0, 0, 8, 24, 8, 8, 8, 24, 24, 24, 8, 24};
    const size_t lens[] = {keys, 1, 1, VALUES[code], data};
    uint8_t *to = job;
    for (uint8_t tag = 1; tag <= 5; tag++) {
        size_t len = lens[tag - 1];
        *to++ = tag;
        *to++ = (uint8_t)(len >> 8);
        *to++ = (uint8_t)len;
        for (size_t i = 0; i < len; i++)
            *to++ = tag == 1 ? ODD[(i + i / 8) % 8] : tag == 2 ? code : tag == 3 ? direction : (uint8_t)(i & 1);
    }
    return (size_t)(to - job);
}

static uint8_t job[TDEA_MAX_JOB];

/* A job, with as much output as it needs and with less, and its prefixes: as many as are short enough to try. */
static int one(size_t keys, uint8_t code, uint8_t direction, size_t data, enum side side)
{
    size_t len = lay_out(job, keys, code, direction, data);
    int right = run(job, len, data, side) == (int64_t)data;
    if (data > 0)
        right = right && run(job, len, data - 1, side) == -TDEA_OUTPUT_LENGTH;
    for (size_t cut = 0; cut < len && cut < 100; cut++)
        right = right && run(job, cut, data, side) == -TDEA_FIELD_TRUNCATED;
    if (!right)
        printf("edges: %zu key bytes, code %d, direction %d, %zu bytes: another answer than expected\n", keys, code, direction, data);
    return right;
}

static int all(enum side side)
{
    static const size_t DATA[] = {0, 8, 16, 24, 56, TDEA_MAX_DATA};
    int right = 1;
    for (size_t keys = 8; keys <= 24; keys += 16)
        for (uint8_t code = 1; code <= 11; code++)
            for (uint8_t direction = 1; direction <= 2; direction++)
                for (size_t i = 0; i < sizeof DATA / sizeof DATA[0]; i++)
                    right &= one(keys, code, direction, DATA[i], side);
    return right;
}

int main(void)
{
    page = (size_t)sysconf(_SC_PAGESIZE);
    jobs = fence(TDEA_MAX_JOB);
    outs = fence(TDEA_MAX_DATA);
    int right = all(START) & all(END);
    if (right)
        printf("edges: %lu calls touched nothing beside their job and output\n", calls);
    return right ? EXIT_SUCCESS : EXIT_FAILURE;
}
