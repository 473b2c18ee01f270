/*
 * Trevozhil: tables of one measuring cycle, judged, written and asked about, folded onto their smallest period, and
 * unfolded.
 *
 * Each function returns 0, or the number of a refusal. It always writes *a and *b. Of a refusal they are its two
 * figures:
 *
 *   no.  name   when                                                     *a, *b
 *   1    SHORT  the input ends inside a field's header or value          the field's offset, 0
 *   2    ORDER  a tag that is not due, or the input ends with a needed   the offset where it was due, 0
 *               field missing
 *   3    SIZE   a length that is not the tag's length                    the field's offset, 0
 *   4    RANGE  a number or set outside its range                        the field's offset, the wrong number's offset
 *   5    MANY   a 33rd operation                                         its offset, 0
 *   6    CLASH  two operations share a board and a mode, and hold it at  the lower and the higher operation number
 *               once
 *   7    RACE   two operations share a mode and overlap, and one writes  the lower and the higher operation number
 *               a cell that the other reads or writes
 *   8    ROOM   the output buffer is too short                           the bytes needed, 0
 *   9    ASK    a number asked for is outside its range                  the place of the first bad one, 0
 *   10   EARLY  an operation that does not run in every mode starts      the decider, the lowest such operation, or
 *               before the decider's end, or the decider itself does     the decider itself, which is tested first
 *               not run in every mode
 *
 * Of RANGE, *b is the offset of the first byte of the first wrong number, in the order of the layout. An operation
 * that ends after the table, or lasts 0 ticks, blames its duration; one that ends in time and would hold its boards past
 * the table's end, or whose field has room for a hold and has 0 there, blames its hold; a row of a reply that unfolds to
 * a start above 999 blames its start index. The offsets, by the tag of the field that is at *a:
 *
 *   tag, hexadecimal   its numbers
 *   01                 3 length
 *   02                 8 boards, 9 cells, 10 modes
 *   03                 14 first modes, 18 + 4 * m followers of mode m
 *   04, length 18      *a + 3 start, *a + 5 duration, *a + 7 boards, *a + 9 reads, *a + 13 writes, *a + 17 modes
 *   04, length 20      *a + 3 start, *a + 5 duration, *a + 7 hold, *a + 9 boards, *a + 11 reads, *a + 15 writes,
 *                      *a + 19 modes
 *   05                 *a + 3 decider
 *   11 (a reply)       3 period
 *   12 (a reply)       *a + 3 folded start, *a + 5 start index
 *
 * An operation holds its boards from its start until start + duration + hold, and uses its cells until start + duration:
 * a hold is how long its boards settle. Its field has 18 bytes, which means hold 0, or 20, with the hold behind the
 * duration; a table may have both. Races, values, EARLY and margins go by the duration.
 *
 * Where the function returns 0, *a is the number of bytes that it wrote, or what was asked for, or 0 where neither is
 * said below, and *b is 0.
 *
 * There is an answer to every input: the bytes and numbers may be anything. What the caller sees to: each pointer is
 * valid for as many elements as its length says, and is not null, even where that is 0; a and b are two places; and
 * what a function writes (*a, *b, *margin, out) meets nothing else that is handed to the same call. An input is not
 * changed. Nothing is kept from one call to the next, and there is no state, so that calls may run side by side.
 */
#ifndef TREVOZHIL_H
#define TREVOZHIL_H

#include <stddef.h>
#include <stdint.h>

#ifdef __cplusplus
extern "C" {
#endif

#define TREVOZHIL_SHORT 1
#define TREVOZHIL_ORDER 2
#define TREVOZHIL_SIZE 3
#define TREVOZHIL_RANGE 4
#define TREVOZHIL_MANY 5
#define TREVOZHIL_CLASH 6
#define TREVOZHIL_RACE 7
#define TREVOZHIL_ROOM 8
#define TREVOZHIL_ASK 9
#define TREVOZHIL_EARLY 10

/*
 * The longest table has this many bytes: each operation has a hold, and the last 4 bytes are the decider's field. No
 * answer depends on more than 3 behind it.
 */
#define TREVOZHIL_LONGEST_TABLE 886

/* The longest reply has this many bytes; a reply has 5 and 7 for each operation. */
#define TREVOZHIL_LONGEST_REPLY 229

/* The starts of the most operations have this many bytes; each has 2. */
#define TREVOZHIL_LONGEST_STARTS 64

/* No text has more bytes than this: 12 for the line of the period and 24 for each operation. */
#define TREVOZHIL_LONGEST_TEXT 780

/*
 * So many bytes of stack below the caller serve each function. That is measured, with this library as it is built for
 * x86-64, and not proved: its own functions take up to 12,016, the rest is for the C library's memcpy and memset and for
 * a loader that binds them at the first call. Signal handlers come on top.
 */
#define TREVOZHIL_STACK 16384

/*
 * Judges a table's bytes: the s_len bytes at s.
 * Answers 0 where the table is accepted, or a refusal from 1 to 7, or EARLY, which comes after RACE. Writes nothing but
 * *a and *b.
 */
uint32_t trevozhil_judge(const uint8_t *s, size_t s_len, uint64_t *a, uint64_t *b);

/*
 * Judges a table that is handed over as numbers, as if it was first written as bytes and then read: p is its length in
 * ticks; then the counts of boards, cells and modes; first, the set of first modes; follow, for each mode the set of
 * modes that may follow; ops, six numbers for each operation: start, duration, boards, reads, writes, modes. Bit m of a
 * set says whether m is a member. holds has two numbers for each operation, a mark and its hold: with mark 0 it has none,
 * its field has 18 bytes, and the number is ignored; with any other mark its field has 20 bytes, and hold 0 is RANGE.
 * mark says whether there is a decider: with mark 0 there is none, and the number decider is ignored; with any other
 * mark, decider is the number of the operation that decides the mode, counted from 0.
 * Answers 0 where the table is accepted, or a refusal from 1 to 7, or EARLY. A count of follower words that is not the
 * count of modes is SIZE, a number that is too large for its field RANGE, and an operation with numbers missing SHORT,
 * whatever the mark: one of the six, its mark or its hold, or one that has only these; each offset is the one that the
 * field, or the number, would have in the bytes. Here a start can be blamed, too: one above 65535. Writes nothing but *a
 * and *b.
 */
uint32_t trevozhil_judge_numbers(uint64_t p, uint64_t boards, uint64_t cells, uint64_t modes, uint64_t first,
                                 const uint64_t *follow, size_t follow_len, const uint64_t *ops, size_t ops_len,
                                 const uint64_t *holds, size_t holds_len, uint64_t mark, uint64_t decider, uint64_t *a,
                                 uint64_t *b);

/*
 * Writes the bytes of a table that is handed over as numbers, as above, to out, which has room for out_len bytes. An
 * operation's hold is written exactly where its mark is not 0, and the decider's field where mark is not 0.
 * Answers 0 where they are written, or a refusal from 1 to 8, or EARLY; ROOM comes last. Where it answers 0 the first
 * *a bytes of out are the table's, and the others are as they were. Where it refuses, every byte of out is as it was.
 */
uint32_t trevozhil_write(uint64_t p, uint64_t boards, uint64_t cells, uint64_t modes, uint64_t first,
                         const uint64_t *follow, size_t follow_len, const uint64_t *ops, size_t ops_len,
                         const uint64_t *holds, size_t holds_len, uint64_t mark, uint64_t decider, uint8_t *out,
                         size_t out_len, uint64_t *a, uint64_t *b);

/*
 * The period of a table: the smallest at which the next cycle may start, for every run of modes.
 * Answers 0 with the period in *a, or a refusal from 1 to 7, or EARLY.
 */
uint32_t trevozhil_period(const uint8_t *s, size_t s_len, uint64_t *a, uint64_t *b);

/*
 * The gap of a table, for cycles that an operator starts: the smallest number of ticks such that every sequence of
 * starts, each next one so many ticks later or more, is right in every run of modes. It is from 1 to the table's length,
 * and never below the period, which is for equal times from start to start; each longer gap serves too.
 * Answers 0 with the gap in *a, or a refusal from 1 to 7, or EARLY.
 */
uint32_t trevozhil_gap(const uint8_t *s, size_t s_len, uint64_t *a, uint64_t *b);

/*
 * Whether the boards of a table fit at the period q: in no run of modes do two running steps hold one board at once.
 * Answers 0 with 1 (they fit) or 0 (they do not) in *a, or a refusal from 1 to 7, or EARLY, or ASK where q is not from 1
 * to the table's length; ASK comes last.
 * A period is right exactly when trevozhil_boards_fit and trevozhil_values_arrive both say yes.
 */
uint32_t trevozhil_boards_fit(const uint8_t *s, size_t s_len, uint64_t q, uint64_t *a, uint64_t *b);

/*
 * Whether the values of a table arrive at the period q: in every run of modes each step reads the value that it would
 * have read with no overlap.
 * Answers 0 with 1 (they arrive) or 0 (they do not) in *a, or a refusal from 1 to 7, or EARLY, or ASK where q is not
 * from 1 to the table's length; ASK comes last.
 */
uint32_t trevozhil_values_arrive(const uint8_t *s, size_t s_len, uint64_t q, uint64_t *a, uint64_t *b);

/*
 * Folds a table onto its period, and writes the reply's bytes to out, which has room for out_len bytes: the period,
 * then for each operation in table order its folded start and its start index.
 * Answers 0 where they are written, or a refusal from 1 to 8, or EARLY; ROOM comes last. Where it answers 0 the first
 * *a bytes of out are the reply's, and the others are as they were. Where it refuses, every byte of out is as it was.
 */
uint32_t trevozhil_plan(const uint8_t *s, size_t s_len, uint8_t *out, size_t out_len, uint64_t *a, uint64_t *b);

/*
 * Unfolds a reply, the s_len bytes at s: writes the starts that its rows came from to out, 2 bytes each, the most
 * significant first, in the order of the rows.
 * Answers 0 where they are written, or a refusal from 1 to 5 of the reply's fields, or ROOM, which comes last. Where it
 * answers 0 the first *a bytes of out are the starts, and the others are as they were. Where it refuses, every byte of
 * out is as it was.
 */
uint32_t trevozhil_unfold(const uint8_t *s, size_t s_len, uint8_t *out, size_t out_len, uint64_t *a, uint64_t *b);

/*
 * The margin of operations i and j of a table at distance n and period q: n * q - (the end of i - the start of j).
 * It is what is left from the end of i to the start of j n cycles later: negative where i ends after that, 0 where it
 * ends exactly then.
 * Answers 0 with the margin in *margin, and 0 in *a and *b; or a refusal from 1 to 7, or EARLY; or ASK where i or j is no
 * operation of the table, n is not from 1 to 1000, or q is not from 1 to the table's length: the places 0 to 3 in this
 * order. ASK comes last. Where it refuses, *margin is as it was.
 */
uint32_t trevozhil_margin(const uint8_t *s, size_t s_len, uint64_t i, uint64_t j, uint64_t n, uint64_t q,
                          int32_t *margin, uint64_t *a, uint64_t *b);

/*
 * Writes to out, which has room for out_len bytes, the text that the program fold prints for a table's bytes: the line
 * `period q` and a line `op i start s fst f` for each operation, or the line `refused n a b`. Each line ends with a
 * line feed, and no byte 0 follows.
 * A refusal of the table is told inside the text: the function then answers 0, and the text is the line `refused n a b`
 * with the number and the two figures of that refusal. The only refusal that it answers is ROOM, which
 * TREVOZHIL_LONGEST_TEXT bytes rule out. Where it answers 0 the first *a bytes of out are the text, and the others are
 * as they were. Where it answers ROOM, every byte of out is as it was.
 */
uint32_t trevozhil_fold(const uint8_t *s, size_t s_len, uint8_t *out, size_t out_len, uint64_t *a, uint64_t *b);

#ifdef __cplusplus
}
#endif

#endif
