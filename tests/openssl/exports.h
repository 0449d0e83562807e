/* What the static library test_exports offers to tests and measurements. */
#ifndef HERVODIG_TEST_EXPORTS_H
#define HERVODIG_TEST_EXPORTS_H
#include <stddef.h>
#include <stdint.h>

/* Turns every block under the bundle of 24 key bytes, which are zero afterwards: forward where inverse is 0, else inverse.
   Answers 0, or the number of the refusal, and then leaves the blocks. */
uint8_t hervodig_blocks(uint8_t *keys, size_t keys_len, uint8_t inverse, uint64_t *blocks, size_t blocks_len);

/* Clocks a line under the bundle so often with the numbers from 0 on, and answers what came out, gathered by exclusive or; and the same by
   three calls of single DEA for each number. 0 where the bundle is refused. The keys are zero afterwards. */
uint64_t hervodig_line(uint8_t *keys, size_t keys_len, uint64_t cycles);
uint64_t hervodig_three_calls(uint8_t *keys, size_t keys_len, uint64_t times);
#endif
