/* A panel that enciphers a record, deciphers it again, and handles refusals.

     make lib
     cc examples/panel.c $(PKG_CONFIG_PATH=build/lib/pkgconfig pkg-config --cflags --libs tdea) -o panel */
#include <tdea.h>

#include <stdio.h>
#include <stdlib.h>
#include <string.h>

/* A real panel takes its keys from where they are kept, and a new initial value for each record. */
static const uint8_t KEYS[24] = {0x01, 0x23, 0x45, 0x67, 0x89, 0xAB, 0xCD, 0xEF, 0x23, 0x45, 0x67, 0x89,
                                 0xAB, 0xCD, 0xEF, 0x01, 0x45, 0x67, 0x89, 0xAB, 0xCD, 0xEF, 0x01, 0x23};
static const uint8_t INITIAL_VALUE[8] = {0x12, 0x34, 0x56, 0x78, 0x90, 0xAB, 0xCD, 0xEF};
static const char RECORD[] = "PAY 00012750 FROM 40012 TO 51377";

enum { RECORD_LENGTH = sizeof RECORD - 1 };

static const char *const REFUSALS[] = {
    [TDEA_KEY_LENGTH] = "the keys are neither 8 nor 24 bytes",
    [TDEA_KEY_PARITY] = "a key byte has an even count of ones",
    [TDEA_SAME_KEYS] = "the three keys are the same",
    [TDEA_UNKNOWN_CODE] = "the code names no mode",
    [TDEA_INITIAL_VALUE_LENGTH] = "the initial values do not have the mode's length",
    [TDEA_OUTPUT_LENGTH] = "the output is shorter than the data",
    [TDEA_UNIT_WIDTH] = "a unit of one bit is neither 0 nor 1",
    [TDEA_UNIT_LIMIT] = "there are more units than the core takes",
    [TDEA_FIELD_TRUNCATED] = "the job ends too early",
    [TDEA_FIELD_TAG] = "a field has the wrong tag",
    [TDEA_TRAILING_BYTES] = "there are bytes behind the job",
    [TDEA_FIELD_LENGTH] = "the code or the direction is not one byte",
    [TDEA_UNKNOWN_DIRECTION] = "the direction is neither 1 nor 2",
    [TDEA_DATA_LENGTH] = "the data is too long",
    [TDEA_PARTIAL_UNIT] = "the data is not whole units",
};

static const char *refusal_text(int64_t number)
{
    int64_t count = (int64_t)(sizeof REFUSALS / sizeof REFUSALS[0]);
    return number > 0 && number < count && REFUSALS[number] ? REFUSALS[number] : "no known reason";
}

struct bytes {
    const uint8_t *at;
    size_t len;
};

struct request {
    struct bytes keys;
    enum tdea_mode mode;
    enum tdea_direction direction;
    struct bytes initial_values;
    struct bytes data;
};

static uint8_t *allocate(size_t len)
{
    uint8_t *block = malloc(len);
    if (block == NULL && len > 0) {
        fputs("panel: no memory\n", stderr);
        exit(EXIT_FAILURE);
    }
    return block;
}

/* Writes one field, and answers where the next one starts. */
static uint8_t *append(uint8_t *to, enum tdea_tag tag, struct bytes bytes)
{
    *to++ = (uint8_t)tag;
    *to++ = (uint8_t)(bytes.len >> 8);
    *to++ = (uint8_t)bytes.len;
    if (bytes.len > 0)
        memcpy(to, bytes.at, bytes.len);
    return to + bytes.len;
}

static uint8_t *lay_out(uint8_t *to, const struct request *request)
{
    uint8_t mode = (uint8_t)request->mode, direction = (uint8_t)request->direction;
    to = append(to, TDEA_KEYS, request->keys);
    to = append(to, TDEA_CODE, (struct bytes){&mode, 1});
    to = append(to, TDEA_DIRECTION, (struct bytes){&direction, 1});
    to = append(to, TDEA_INITIAL_VALUES, request->initial_values);
    return append(to, TDEA_DATA, request->data);
}

/* Through a volatile pointer, so that the compiler cannot leave it out. */
static void clear(uint8_t *bytes, size_t len)
{
    volatile uint8_t *byte = bytes;
    while (len-- > 0)
        *byte++ = 0;
}

/* Runs one request as a job: answers what tdea_run answers. */
static int64_t run(const struct request *request, uint8_t *out, size_t out_len)
{
    /* a field's length has two bytes, so longer data could not be laid out; keys and initial values are always short here */
    if (request->data.len > TDEA_MAX_DATA)
        return -TDEA_DATA_LENGTH;
    size_t len = 5 * 3 + request->keys.len + 1 + 1 + request->initial_values.len + request->data.len;
    uint8_t *job = allocate(len);
    lay_out(job, request);
    int64_t answer = tdea_run(job, len, out, out_len);
    clear(job, len);
    free(job);
    return answer;
}

static void print_hex(const char *what, const uint8_t *bytes, size_t len)
{
    printf("%-10s  ", what);
    for (size_t i = 0; i < len; i++)
        printf("%02X", (unsigned)bytes[i]);
    putchar('\n');
}

/* Enciphers the record and deciphers what came of it. True if it is the record again. */
static int there_and_back(struct request request)
{
    uint8_t *sent = allocate(RECORD_LENGTH), *received = allocate(RECORD_LENGTH);
    print_hex("record", request.data.at, request.data.len);
    int same = run(&request, sent, RECORD_LENGTH) == RECORD_LENGTH;
    if (same) {
        print_hex("enciphered", sent, RECORD_LENGTH);
        request.direction = TDEA_DECIPHER;
        request.data.at = sent;
        same = run(&request, received, RECORD_LENGTH) == RECORD_LENGTH;
    }
    if (same) {
        print_hex("deciphered", received, RECORD_LENGTH);
        same = memcmp(received, RECORD, RECORD_LENGTH) == 0;
    }
    free(sent);
    free(received);
    return same;
}

/* Runs a request that must be refused. True if it is, for this reason, and leaves the output as it was. */
static int refused(const struct request *request, size_t out_len, enum tdea_refusal reason)
{
    uint8_t *out = allocate(out_len);
    memset(out, 0xA5, out_len);
    int64_t answer = run(request, out, out_len);
    if (answer < 0)
        printf("refused %d: %s\n", (int)-answer, refusal_text(-answer));
    int as_expected = answer == -(int64_t)reason;
    for (size_t i = 0; i < out_len; i++)
        as_expected = as_expected && out[i] == 0xA5;
    free(out);
    return as_expected;
}

static int refusals(struct request request)
{
    uint8_t damaged[sizeof KEYS];
    memcpy(damaged, KEYS, sizeof damaged);
    damaged[5] ^= 1;

    struct request bad_key = request, part_of_a_unit = request;
    bad_key.keys.at = damaged;
    part_of_a_unit.data.len -= 3;
    int right = refused(&bad_key, RECORD_LENGTH, TDEA_KEY_PARITY);
    right &= refused(&part_of_a_unit, RECORD_LENGTH, TDEA_PARTIAL_UNIT);
    right &= refused(&request, RECORD_LENGTH - 1, TDEA_OUTPUT_LENGTH);
    return right;
}

/* A null pointer is right where the length is 0. */
static int nothing(struct request request)
{
    request.data = (struct bytes){NULL, 0};
    return run(&request, NULL, 0) == 0 && tdea_run(NULL, 0, NULL, 0) == -TDEA_FIELD_TRUNCATED;
}

int main(void)
{
    struct request request = {
        .keys = {KEYS, sizeof KEYS},
        .mode = TDEA_TCBC,
        .direction = TDEA_ENCIPHER,
        .initial_values = {INITIAL_VALUE, sizeof INITIAL_VALUE},
        .data = {(const uint8_t *)RECORD, RECORD_LENGTH},
    };
    int right = there_and_back(request);
    right &= refusals(request);
    right &= nothing(request);
    puts(right ? "all as expected" : "NOT as expected");
    return right ? EXIT_SUCCESS : EXIT_FAILURE;
}
