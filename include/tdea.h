/* Triple DEA for the panel: one function runs one job.

   A job is a list of bytes: five fields, one behind the other. A field is a tag in one byte, a length in two bytes, the high byte first, and so many
   bytes. All five stand there, in this order, and nothing behind them:

     tag  field            bytes
      1   keys             8 for single DEA, 24 for triple DEA (three keys, first to third); each byte with an odd count of ones, the three not all the same
      2   code             1: the mode, one of enum tdea_mode
      3   direction        1: one of enum tdea_direction
      4   initial values   0, 8 or 24, as the mode has it; eight bytes each, the high byte first
      5   data             0 to TDEA_MAX_DATA: units, as the mode has them

   A unit of 64 bits lies in eight bytes, the high byte first; a unit of 8 bits in one byte; a unit of one bit in one byte of its own, which is 0 or 1.

     code       mode     bits of a unit   bytes of initial values
      1         TECB     64                0
      2         TCBC     64                8
      3         TCBC-I   64               24
      4, 5, 6   TCFB     64, 8, 1          8
      7, 8, 9   TCFB-P   64, 8, 1         24
     10         TOFB     64                8
     11         TOFB-I   64               24

   The output has as many bytes as the data. Each job starts anew with its initial values. A job without data is sound, and gives nothing. */
#ifndef TDEA_H
#define TDEA_H

#include <stddef.h>
#include <stdint.h>

#ifdef __cplusplus
extern "C" {
#endif

/* The most bytes of data, and the most bytes that a job has which is not refused: its data and 65 bytes before it. */
#define TDEA_MAX_DATA 32768
#define TDEA_MAX_JOB (TDEA_MAX_DATA + 65)

enum tdea_tag { TDEA_KEYS = 1, TDEA_CODE = 2, TDEA_DIRECTION = 3, TDEA_INITIAL_VALUES = 4, TDEA_DATA = 5 };

enum tdea_mode {
    TDEA_TECB = 1,     /* codebook */
    TDEA_TCBC = 2,     /* chaining */
    TDEA_TCBC_I = 3,   /* chaining, interleaved */
    TDEA_TCFB_64 = 4,  /* cipher feedback */
    TDEA_TCFB_8 = 5,
    TDEA_TCFB_1 = 6,
    TDEA_TCFB_P_64 = 7, /* cipher feedback, pipelined */
    TDEA_TCFB_P_8 = 8,
    TDEA_TCFB_P_1 = 9,
    TDEA_TOFB = 10,    /* output feedback */
    TDEA_TOFB_I = 11   /* output feedback, interleaved */
};

enum tdea_direction { TDEA_ENCIPHER = 1, TDEA_DECIPHER = 2 };

/* Why a job is refused. The function answers minus one of these numbers. Where several reasons apply, the first in this order counts: 9 and 10 field by
   field, then 11, 1, 2, 3, 12, 4, 13, 5, 14, 15, 7, 6. */
enum tdea_refusal {
    TDEA_KEY_LENGTH = 1,           /* the keys are neither 8 nor 24 bytes */
    TDEA_KEY_PARITY = 2,           /* a key byte has an even count of ones */
    TDEA_SAME_KEYS = 3,            /* the three keys are the same */
    TDEA_UNKNOWN_CODE = 4,         /* the code is not 1 to 11 */
    TDEA_INITIAL_VALUE_LENGTH = 5, /* the initial values have another length than the mode's */
    TDEA_OUTPUT_LENGTH = 6,        /* the output is shorter than the data */
    TDEA_UNIT_WIDTH = 7,           /* a unit of one bit is neither 0 nor 1 */
    TDEA_UNIT_LIMIT = 8,           /* more units than the core takes; no job has so many, and this is never answered */
    TDEA_FIELD_TRUNCATED = 9,      /* the job ends inside a field, or before it */
    TDEA_FIELD_TAG = 10,           /* a field has another tag than the one due */
    TDEA_TRAILING_BYTES = 11,      /* there are bytes behind the last field */
    TDEA_FIELD_LENGTH = 12,        /* the code or the direction is not one byte */
    TDEA_UNKNOWN_DIRECTION = 13,   /* the direction is neither 1 nor 2 */
    TDEA_DATA_LENGTH = 14,         /* the data is longer than TDEA_MAX_DATA */
    TDEA_PARTIAL_UNIT = 15         /* the data is not whole units of 64 bits */
};

/* Runs the job that lies in the job_len bytes at job. Answers how many bytes it wrote to out: as many as the job has data, from out[0] on; the rest of
   out is left as it was. If the job is refused it answers minus the refusal's number, and all of out is as it was.

   job and out must be valid for their lengths, and must not overlap, so a job cannot be run in place. A null pointer is right only with a length of 0.
   There is no other condition: any bytes may stand in the job, and any length may be given.

   The function allocates nothing; on x86-64 a call was measured to need about 40 KB of stack. It keeps nothing from one call to the next, and does no input or output. Threads may call it at the same time, also with
   the same job, as long as each has an out of its own.

   The job holds keys, and the function leaves it as it is: whoever laid it out has to clear it. Nothing is promised of the time that a call takes, or of
   what it leaves in registers and on the stack. */
int64_t tdea_run(const uint8_t *job, size_t job_len, uint8_t *out, size_t out_len);

#ifdef __cplusplus
}
#endif

#endif
