/* The proved train formation core, for C.
 *
 * Link with liblinkage.a (tools/build.sh lib linkage writes crates/linkage/out/liblinkage.a).
 *
 * Every call answers a status: 0 if it was carried out, else the number of the refusal, 1 to 24, as
 * docs/RULES.md lists them. The answer is written in either case, every field of it. A refused call
 * writes nothing else. Calls keep nothing, allocate nothing, and may run at the same time on
 * different buffers.
 *
 * What the caller owes: a pointer is never NULL, also where its length is 0; it points to as many
 * bytes as its length says; `out` and `answer` overlap nothing else that is handed over. Nothing
 * outside them is read or written. What the bytes hold is free: any content is carried out or refused.
 */
#ifndef YOLTSJER_H
#define YOLTSJER_H

#include <stddef.h>
#include <stdint.h>

#ifdef __cplusplus
extern "C" {
#endif

typedef struct yoltsjer_answer {
    uint64_t line;   /* of refusal 1: the line of the list, from 1; else 0 */
    uint64_t place;  /* of a refusal: the byte, line, entry or train number, from 1, or the length
                        needed (24); 0 where none is named, and where the call was carried out */
    uint64_t length; /* where the call was carried out: the bytes written, or to be written */
    uint64_t lines;  /* where a book was exported: the lines written; else 0 */
} yoltsjer_answer;

/* Checks a fleet list. `length` is that of its book, so that a buffer for it can be made.
 * Refusals: 1, 3, 4, 5, 11. */
uint32_t yoltsjer_check_list(const uint8_t *list, size_t list_len, yoltsjer_answer *answer);

/* Writes the book of a fleet list at the front of `out`. Refusals: 1, 3, 4, 5, 11, 24. */
uint32_t yoltsjer_import_list(const uint8_t *list, size_t list_len, uint8_t *out, size_t out_len,
                              yoltsjer_answer *answer);

/* Checks a book. `length` is that of its fleet list. Refusals: 2 to 11. */
uint32_t yoltsjer_check_book(const uint8_t *book, size_t book_len, yoltsjer_answer *answer);

/* Writes the fleet list of a book at the front of `out`. Refusals: 2 to 11, 24. */
uint32_t yoltsjer_export_book(const uint8_t *book, size_t book_len, uint8_t *out, size_t out_len,
                              yoltsjer_answer *answer);

/* The train directory and the operational train directory of one train, in one call: opens the book,
 * inaugurates the formation, makes the claim and confirms the list if they are given, and writes the
 * composition at the front of `out`. The first refusal met is the answer.
 *
 *   formation  17 bytes an entry, in train direction: 16 of identity, 1 of facing (1 direct, 2 inverse)
 *   claimed    the 16 bytes of the claimed consist's identity, or no byte for no claim; `vehicle` and
 *              `direction` are read only with a claim
 *   confirmed  16 bytes a name, from the head of the train, or no byte for no confirmed list
 *
 * A formation or a confirmed list that is no whole number of entries is refused with 7, and a claimed
 * identity that is neither 0 nor 16 bytes with 5, both with place 0. */
uint32_t yoltsjer_plan(const uint8_t *book, size_t book_len, uint32_t etb_counter,
                       const uint8_t *formation, size_t formation_len, const uint8_t *claimed,
                       size_t claimed_len, uint8_t vehicle, uint8_t direction,
                       const uint8_t *confirmed, size_t confirmed_len, uint8_t *out, size_t out_len,
                       yoltsjer_answer *answer);

#ifdef __cplusplus
}
#endif

#endif
