/* The proved levelling book of third and fourth order, for C.
 *
 * Build the libraries at the root of the repository with `tools/build`, and link those of target/staticlib whose functions you call; each is named
 * below.
 *
 * A list is lent as a pointer and a length. The pointer is not NULL even where the length is 0; lists that are lent to one call do not overlap; a
 * number list is aligned as C aligns its type. Within that the functions take every input, allocate nothing and keep nothing between calls.
 * An answer of type uint8_t is document 01's number of the refusal (`level_refusal` and docs/REFUSALS.md), 0 for a call that is taken. */
#ifndef LEVELBOOK_H
#define LEVELBOOK_H

#include <stdbool.h>
#include <stddef.h>
#include <stdint.h>

#ifdef __cplusplus
extern "C" {
#endif

#define LEVEL_LONGEST_TEXT 65268u
#define LEVEL_REPORT_ROOM 65536u
#define LEVEL_CALL_NUMBERS 11u
#define LEVEL_FIGURES 270u
#define LEVEL_PROFILE_ROOM 1040u
#define LEVEL_MOST_WARNINGS 62u

/* The print unit: how many units of a printed height a millimetre has. */
#define LEVEL_MILLIMETRES 1
#define LEVEL_TENTHS 10

/* What is judged of a run that was shot again. */
#define LEVEL_NEW_RUN 1
#define LEVEL_MEAN 2
#define LEVEL_OPPOSITE_RUN 3

/* What a refusal number means, in UTF-8; NULL for a number that there is not. */
static inline const char *level_refusal(uint8_t number)
{
    switch (number) {
#define LEVEL_REFUSAL(number, meaning) \
    case number: \
        return meaning;
#include "refusals.def"
#undef LEVEL_REFUSAL
    default:
        return NULL;
    }
}

/* The report of a text book into the beginning of `report`, and its length in bytes into `*written`. What is wrong within the text is said in the
 * report. Refused with 9 if the text is above LEVEL_LONGEST_TEXT bytes, else with 10 if the buffer is below LEVEL_REPORT_ROOM; then neither
 * `report` nor `*written` is touched. Bytes beyond the report keep their values. Library fieldbook. */
uint8_t level_reduce(const uint8_t *text, size_t text_length, uint8_t *report, size_t report_length, size_t *written);

/* A section: its height difference Q in quarter mm, its distance R in half dm. */
struct level_leg {
    int64_t height;
    int64_t distance;
};

/* The adjusted heights, in the print unit `prints`, between two known heights (mm), one a section, into the first places of `heights`; further places
 * keep their values. Refused, in this order, with 11 for no or more than 64 sections, 13 for a height list shorter than the sections, 12 for an R
 * outside 1 to 1,200,000 or a Q outside +-2,500,000, 5 for a known height outside -999,999 to 8,999,999, 57 for another print unit; then `heights` is
 * untouched. Library adjust. */
uint8_t level_adjust(const struct level_leg *legs, size_t count, int64_t start, int64_t end, int64_t prints, int64_t *heights, size_t places);

/* A list of entries on a fresh book, LEVEL_CALL_NUMBERS numbers an entry. An entry's first number is its kind, the others are its call's arguments, and
 * those that the call does not have are not looked at:
 *   1 open: order, instrument, start number and height, print unit     5 drop section
 *     (1 or 10; 0 is refused with 57)
 *   2 station: K, u, l, m, r of the back staff, then fore              6 close line: number, height
 *   3 end run: number                                                  7 open spur: as 1, order 4 alone
 *   4 drop run                                                         8 close spur: number
 *   9 collimation: A1, B1, A2, B2 (sums of four readings), D1, D2 (distances), in mm
 *   10 constants, directly after 1 or 7: the measured ones of the staff 4,687, then of the staff 4,787, in tenths of a mm
 *   11 lift section: the last finished one
 * An entry of another kind is refused with 1, and so is a rest of 1 to 10 numbers at the end, which is one entry more; nothing else of them is looked
 * at, and the book stays as it is. The answer is how many entries there are. Each entry's number goes into its place of `numbers`, the figures of the
 * book that is left into `figures`, both as far as there are places. There are LEVEL_FIGURES figures: W, L, n, T and verdict, 0 while the line is not
 * closed; of the present run its stations, the sums of twice-heights, of sights and of d; the finished sections; then number, S, correction and height
 * of the start and each section, 0 where there is none. Heights are in the print unit, W and corrections in quarters of it, the sum of twice-heights in
 * half mm; after a 10 that was taken each but the heights is in units one tenth as large. Library runner. */
size_t level_run(const int64_t *calls, size_t count, uint8_t *numbers, size_t answers, int64_t *figures, size_t places);

/* A point of a profile: its distance from the start in half dm, and what was levelled up to it, not adjusted (start height plus running Q), in quarter
 * mm, with measured constants in fortieths of a mm, whatever the print unit. Both are whole numbers. */
struct level_pair {
    double distance;
    double height;
};

/* The profile of a text book's line, which is closed: a pair for the start and for each section, in order, 16 bytes each, distance first, lowest byte
 * first (a `struct level_pair` as it is in memory where the machine has that order), into the beginning of `pairs`, and how many bytes into `*written`.
 * Refused with 9 if the text is above LEVEL_LONGEST_TEXT bytes, else with 56 if the line is not closed or the buffer is shorter than all pairs;
 * LEVEL_PROFILE_ROOM is always enough. Then neither `pairs` nor `*written` is touched. Bytes beyond the pairs keep their values. Library levelbook. */
uint8_t level_profile(const uint8_t *text, size_t text_length, uint8_t *pairs, size_t pairs_length, size_t *written);

/* `to` minus `from`: of neighbours in a profile exactly the section's R and Q. Library levelbook. */
struct level_pair level_difference(struct level_pair from, struct level_pair to);

/* The warnings of drift of a text book's line, open or closed: the numbers, from 1 in line order, of the sections at which a window of `window`
 * sections begins in which all D have one sign and exceed a fifth of their limit. They go into the first places of `firsts`, as far as there are places
 * (LEVEL_MOST_WARNINGS is always enough), and how many there are into `*count`. Refused with 9 if the text is above LEVEL_LONGEST_TEXT bytes, else with
 * 51 for a window outside 3 to 10 or a fourth-order line that is not a spur; then neither `firsts` nor `*count` is touched. Further places keep their
 * values. Library levelbook. */
uint8_t level_drift(const uint8_t *text, size_t text_length, int64_t window, size_t *firsts, size_t places, size_t *count);

/* Judges a run that was shot again, `second`, against the old one in the same direction, `first`, both texts of STA lines without a heading, and the
 * opposite run, whose sums of twice-heights (half mm, in its own direction) and of sights (dm) are g and s. Order 3 is third order, 4 a spur;
 * instrument 3 DS3, 1 DS1 or DS05. Into `*judgement` goes LEVEL_NEW_RUN where the new run stands, LEVEL_MEAN where the mean of both does,
 * LEVEL_OPPOSITE_RUN where the opposite run is due. Refused with 3 for another order or instrument, else with 52 where a line of either text is not a
 * station that is taken, a text has no station or an odd number of them, g is outside +-1,250,000 or s outside 8 to 600,000; then `*judgement` is
 * untouched. Library levelbook. */
uint8_t level_judge(const uint8_t *first, size_t first_length, const uint8_t *second, size_t second_length, int64_t order, int64_t instrument, int64_t g,
                    int64_t s, uint8_t *judgement);

/* The whole number nearest to n / d, a tie going to the even one. A d outside 1 to 4 * 10^18 stands for the nearest one inside. Library rootcalls. */
int64_t level_round_half_even(int64_t n, int64_t d);

/* Whether a * x * x is at most b * l, exactly. Library rootcalls. */
bool level_root_within(uint16_t a, int64_t x, uint16_t b, int64_t l);

#ifdef __cplusplus
}
#endif

#endif
