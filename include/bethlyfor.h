/* The proved word calls of Bethlyfor, for C.
 *
 * Each works on the caller's own buffer. A word is 204 bytes: 188 bytes of a randomized packet and 16 check bytes.
 * Build the library with `rt lib` in crates/code_c, which writes crates/code_c/out/libcode_c.a, and link that one archive.
 * What each call answers and leaves in the buffer is proved for every buffer, whatever it holds.
 */
#ifndef BETHLYFOR_H
#define BETHLYFOR_H

#include <stddef.h>
#include <stdint.h>

#ifdef __cplusplus
extern "C" {
#endif

/* Refusals. After each the buffer holds what it held. */
#define BETHLYFOR_NO_WORD 11 /* no code word within eight bytes */
#define BETHLYFOR_NO_SYNC 12 /* the code word begins with neither 47h nor B8h */
#define BETHLYFOR_LENGTH 14  /* the buffer is not 204 bytes */

/* The word reader: corrects up to eight wrong bytes of a word and tries its first byte. Answers how many bytes were wrong, 0 to 8, with the
 * code word in the buffer; or 11, 12 or 14, tried in the order 14, 11, 12. 204 bytes that begin one to four bytes before or after a sent
 * word's first byte are always answered 11 or 12. */
uint32_t bethlyfor_mend(uint8_t *word, size_t len);

/* The corrector alone: as above, without the test of the first byte. Answers 0 to 8, 11 or 14. */
uint32_t bethlyfor_correct(uint8_t *word, size_t len);

/* Puts the 16 check bytes behind the first 188 bytes of the buffer. Answers 0, or 14. */
uint32_t bethlyfor_encode(uint8_t *word, size_t len);

#ifdef __cplusplus
}
#endif

#endif
