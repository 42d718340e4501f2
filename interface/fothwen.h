/* The proved planner for C and C++: link crates/export/out/libexport.a, which `rt lib` makes there. Contracts: crates/export/src/lib.rt.
 *
 * A list is a pointer and then its length in elements. For an empty list the pointer may be NULL and is never followed; any other points to
 * that many elements. A list that is written (no `const`) overlaps no other list of its call. Nothing else is asked of a caller: a call that
 * breaks a rule of documents 01 and 02 is refused by its number and place, and then nothing lent changes. No call keeps a pointer, uses the heap or
 * any state of its own, so calls may run at once on several threads. Give a thread 128 KiB of stack: docs/BENCHMARKS.md has what the deepest
 * search that is known took. */
#ifndef FOTHWEN_H
#define FOTHWEN_H

#include <stddef.h>
#include <stdint.h>

#ifdef __cplusplus
extern "C" {
#endif

/* MODE as a number. Any other is refused by 6 at place 1. */
enum { FOTHWEN_FIXED = 0, FOTHWEN_SHORTEST = 1 };

/* The word of a reply. */
enum { FOTHWEN_FOUND = 0, FOTHWEN_NONE = 1, FOTHWEN_STOPPED = 2, FOTHWEN_REFUSED = 3 };

/* What a call with a file is lent, in numbers, and bytes that hold every print. */
enum { FOTHWEN_FILE_TABLE = 444, FOTHWEN_FILE_SPARE = 12, FOTHWEN_LONGEST_PRINT = 4339 };

/* What planning comes to. The numbers that do not belong to the word are 0. */
typedef struct {
    uint64_t word;    /* FOTHWEN_FOUND, FOTHWEN_NONE, FOTHWEN_STOPPED or FOTHWEN_REFUSED */
    uint64_t minutes; /* of an answer: under FOTHWEN_SHORTEST and found, the shortest time */
    uint64_t tries;   /* of an answer */
    uint64_t length;  /* of an answer to a file: the bytes of its print */
    uint64_t number;  /* of a refusal: its number, 1 to 9 of document 01, 10 and 11 of document 02's K1 */
    uint64_t place;   /* of a refusal: the record at fault counted from 1, or 0 */
} fothwen_plan_reply;

/* What a spare lookup comes to. The numbers that do not belong to the word are 0. */
typedef struct {
    uint64_t word;   /* FOTHWEN_FOUND where an engine is named, FOTHWEN_NONE or FOTHWEN_REFUSED */
    uint64_t engine; /* the engine named, counted from 0 */
    uint64_t number; /* of a refusal: 8 no engine, 7 more than 12, 6 the amount */
    uint64_t place;  /* of a refusal: 0 */
} fothwen_lookup_reply;

/* The allocation on numbers. Engine i has watts[i] and fuels[i], delivery p energies[p] and limits[p]. Lent are a piece table of deliveries x
 * engines numbers, a row for each delivery, and a spare list of one number for each engine; other lengths are refused by 9. Found writes
 * both, the table 0 where nothing is drawn; none, stopped and refused keep them.
 *
 * quiet has three numbers for each span of minutes in which an engine stands still: the engine counted from 1, FROM and TO. Minutes count
 * from the plan's start, FROM included and TO excluded, 0 to 10,080; a span may lie beyond the plan's minutes. An engine has at most eight,
 * in any order and mixed with other engines'; two of them may touch but not overlap. An engine's capacity for T minutes counts those before
 * T that are in none of its spans. Without quiet hours the list is empty: NULL and 0.
 *
 * Refused by 3 (paired lists that differ in length, a quiet list whose length is no multiple of three), 8, 7, 9, then 6 over mode, minutes,
 * allowance, engines and deliveries; its place for 6 is 1 for mode, minutes and allowance, then counts engines and deliveries on; else 0. The
 * spans are checked last, one after the other: 6 for FROM or TO above 10,080, 10 for an engine that the plan does not have, 11 where FROM is
 * not below TO, where the span overlaps an earlier one of its engine or is its ninth; all at place 0. */
fothwen_plan_reply fothwen_allocate(
    uint64_t mode, uint64_t minutes, uint64_t allowance,
    const uint64_t *watts, size_t watts_length, const uint64_t *fuels, size_t fuels_length,
    const uint64_t *energies, size_t energies_length, const uint64_t *limits, size_t limits_length,
    const uint64_t *quiet, size_t quiet_length,
    uint64_t *table, size_t table_length, uint64_t *spare, size_t spare_length);

/* The call with a file of up to 32,768 bytes. Lent are a piece table of FOTHWEN_FILE_TABLE numbers, a spare list of FOTHWEN_FILE_SPARE and an
 * output; other lengths, or an output shorter than the print, are refused by 9. An answer writes its print at the front of the output and
 * keeps the bytes behind it; found also fills deliveries x engines numbers of the table and one of the spare list for each engine, from the
 * front, and keeps the others. A refusal prints nothing. */
fothwen_plan_reply fothwen_plan_file(
    const uint8_t *file, size_t file_length, uint64_t *table, size_t table_length,
    uint64_t *spare, size_t spare_length, uint8_t *output, size_t output_length);

/* Names some engine with that much to spare, or says that none has it. Which of several it names is open. The list has 1 to 12 numbers of any
 * size, the amount is 1 to 1,000,000,000. */
fothwen_lookup_reply fothwen_spare_lookup(const uint64_t *spare, size_t spare_length, uint64_t amount);

#ifdef __cplusplus
}
#endif

#endif
