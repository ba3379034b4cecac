/* A RISC-V core at its pins, for C and C++. Link with libahead_c.a (made by: cd crates/ahead_c && rt lib).
 *
 * A core lives in AHEAD_CORE_WORDS words that the caller lends; several may be used side by side.
 *
 * Each clock is given AHEAD_IN_WORDS words:
 *   in[0], in[1]   1 and the word of code that answers the oldest address wanted; or 0 and any
 *   in[2], in[3]   1 and the answer to the oldest request; or 0 and any
 * What was wanted or requested in a clock is answered in the next one at the earliest, in order, code and
 * requests each for themselves; a read of data with what memory holds when it is answered, a device's with
 * any word, a write, when it is done, by any word.
 *
 * Each clock gives AHEAD_OUT_WORDS words:
 *   out[0], out[1]          1 and an address of code that is wanted; or 0
 *   out[2], out[3], out[4]  1 and an address to read; or 2, an address and a word to write; or 0
 *   out[5], out[6]          1 and how, if it has stopped (0 ecall, 1 no instruction, 2 a misaligned address); or 0
 *   out[7]                  how many instructions are done with this clock, at most 4
 *   out[8 + 3 n] ..         of the n-th of them, the oldest first: its address, the register that it writes, and
 *                           what; 0 and 0 where it writes none or x0
 * Words that nothing stands in may be anything. Addresses from 0x80000000 on are devices.
 */
#ifndef AHEAD_H
#define AHEAD_H

#include <stddef.h>
#include <stdint.h>

#define AHEAD_CORE_WORDS 65536
#define AHEAD_IN_WORDS 4
#define AHEAD_OUT_WORDS 20

/* What ahead_start answers. */
#define AHEAD_READY 0
#define AHEAD_FEW 1
/* What ahead_clock answers. */
#define AHEAD_DONE 0
#define AHEAD_NO_CORE 1
#define AHEAD_NO_PORTS 2

#ifdef __cplusplus
extern "C" {
#endif

/* Makes the words a core that begins at address, to which nothing has happened yet; AHEAD_FEW, and nothing written,
 * if there are fewer than AHEAD_CORE_WORDS. */
uint32_t ahead_start(uint32_t address, uint32_t *core, size_t core_words);

/* One clock. AHEAD_NO_CORE if the words are no core, AHEAD_NO_PORTS if there are not 4 words in and 20 out; nothing is
 * written then. */
uint32_t ahead_clock(uint32_t *core, size_t core_words, const uint32_t *in, size_t in_words, uint32_t *out, size_t out_words);

#ifdef __cplusplus
}
#endif

#endif
