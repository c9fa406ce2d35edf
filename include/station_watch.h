/* The station watch engine for C and C++.
 *
 * Link with libstation_watch.a or libstation_watch.so; bin/library builds both into
 * target/lib (x86-64 Linux). They need nothing but the C library.
 *
 * docs/RULES.md explains rules and restates the scope document, which these functions
 * keep to. In short: a tick is one flag byte, flag k is its bit 2^k, and ticks are
 * numbered from 0. A sheet has 1 to 32 rules, each a body of bytes. A rule is decided for
 * each tick, at that step or some steps later; a tick for which it is decided to be false
 * is a violation and is reported.
 *
 * To watch a stream: sw_rule_place finds the body of a rule in a sheet, sw_figures says
 * how much memory it needs, sw_open opens it, sw_step takes a flag byte. sw_steps takes
 * many at once. sw_outcome evaluates a rule at one tick of a recording.
 *
 * To watch a stream by all rules of a sheet, as a set: sw_set_figures says how much memory
 * they need together, sw_set_open opens them, sw_set_step takes a flag byte for all of
 * them. sw_set_steps takes many.
 *
 * To keep when each flag was up, in a calendar beside the stream: sw_calendar_open,
 * sw_calendar_step and sw_calendar_steps do what sw_open, sw_step and sw_steps do, and keep
 * it. sw_calendar_clear and sw_calendar_fill make one of a recording, or beside a set.
 * sw_calendar_ups, sw_calendar_first, sw_calendar_last and sw_calendar_nearest answer
 * questions from its words alone.
 *
 * To check what another monitor claims: sw_check_report compares a list of violations with the
 * complete report of a rule over a recording, also of a rule that cannot be opened.
 * sw_complete_report writes this report.
 *
 * To write a sheet: sw_rule_from_text makes a rule's body from its text, sw_write_sheet a
 * sheet from bodies; sw_rule_to_text shows a body as text. Examples: examples/c.
 *
 * ANSWERS. Every function answers SW_OK (0) or the number of a refusal (1 to 27, below);
 * only sw_calendar_clear and sw_calendar_fill answer nothing, as they refuse nothing.
 * On a refusal nothing that was lent is changed: no buffer, no state, no record, and none
 * of the numbers that answers are written to.
 *
 * MEMORY. What is lent is a pointer and how many elements it points to. No pointer may
 * be NULL, also where the length is 0 (any other pointer of the type will do then). Each
 * pointer is aligned for its type. What is written may not overlap anything else that
 * the same call is lent, and nobody else writes to any of it during the call. Nothing is
 * kept after a call returns. No memory is allocated, and nothing is written but what is
 * named here. There is no other state, so threads may call the functions at once, each
 * on memory of its own.
 *
 * COST. Every call returns, and waits for nothing. As measured (docs/PERFORMANCE.md names
 * the machine): a call uses at most SW_MAX_STACK bytes of stack, also for a body or a text
 * that nests as deep as it can. A step of a small rule takes 0.1 to 2 microseconds, the dearest
 * one found 1.2 milliseconds; it grows with the positions that the rule looks at, about
 * 10 ns each, and never with the recording. A step of a set takes 1.2 to 1.8 times what single
 * steps of its rules take, and a batch of a set about what these take, so to replay a long
 * recording sw_steps rule by rule is faster. A question to a calendar looks at one word for
 * each 64 ticks of its range, at most once, and no further than to the tick that it finds;
 * sw_calendar_nearest first looks back to the last up, however far, then forward only as far as
 * would be nearer. sw_outcome takes about 15 ns for each position of a range; k nested ranges
 * up to infinity whose variables are all named take n^k for n ticks, which for k of 3 or 4 and
 * long recordings nobody can wait for. sw_check_report evaluates each tick of its recording once,
 * as sw_outcome does, and one of them a second time where the list is wrong. sw_complete_report
 * evaluates each tick once, or twice where its list has fewer entries than the recording has
 * ticks, and then puts the violations into order. */
#ifndef STATION_WATCH_H
#define STATION_WATCH_H

#include <stddef.h>
#include <stdint.h>

#ifdef __cplusplus
extern "C" {
#endif

/* ---- Version ----
 *
 * Since 0.8.0 ticks have 64 bits. Compile a program anew that was compiled with the header of
 * 0.7.0: report arrays are of uint64_t, no longer of uint32_t, and the fields of sw_running have
 * other types and places in its 32 bytes. CHANGELOG.md says what becomes of states, cells and
 * records that were stored. */

#define SW_VERSION_MAJOR 0
#define SW_VERSION_MINOR 8
#define SW_VERSION_PATCH 0
#define SW_VERSION "0.8.0"

/* ---- Refusals: the sentence that sw_sentence writes, and what to do ---- */

#define SW_OK 0

/* "sheet empty, not 1 to 32 rules, or its table of contents is cut short"
 * Check the file's length and its first byte. For sw_write_sheet: lend 1 to 32 lengths. */
#define SW_RULE_COUNT 1

/* "an entry of the sheet breaks the layout"
 * Bodies of 1 to 512 bytes lie end to end after the contents, and the last ends with the
 * sheet. For sw_write_sheet: each length is 1 to 512, and their sum is the bodies' size. */
#define SW_ENTRY_LAYOUT 2

/* "no such rule"
 * Rules are numbered from 0: ask for one below the sheet's first byte. */
#define SW_NO_SUCH_RULE 3

/* "the body ends too early"
 * Add the formula's missing bytes or parts, or correct the entry's length. */
#define SW_BODY_ENDS_EARLY 4

/* "unknown code or kind"
 * Codes are 01 to 05, kinds of a bound 0 to 2. */
#define SW_UNKNOWN_CODE 5

/* "a variable that is not bound here"
 * 0 is the tick, m + 1 the quantifier nested under m others; bounds see only outer ones. */
#define SW_UNBOUND_VARIABLE 6

/* "a flag above 7"
 * A byte has flags 0 to 7. */
#define SW_NO_SUCH_FLAG 7

/* "an offset outside -4,095 to 4,095"
 * Keep it within that; it is a signed 16-bit number, low byte first. */
#define SW_OFFSET_OUT_OF_RANGE 8

/* "a 65th formula or a 5th nested quantifier"
 * Split the rule. */
#define SW_BODY_TOO_LARGE 9

/* "bytes left over after the formula"
 * A body is one formula: join two by 03 or 04, or correct the entry's length. */
#define SW_BYTES_LEFT_OVER 10

/* "the delay is infinite"
 * Bound the range's end by the tick. sw_outcome, sw_check_report and sw_complete_report take
 * the rule as it is. */
#define SW_DELAY_INFINITE 11

/* "the delay is above 255"
 * Bound the range's end closer to the tick. */
#define SW_DELAY_ABOVE_LIMIT 12

/* "the history is infinite"
 * A range from position 0 can be watched live only inside one that is always empty.
 * sw_outcome, sw_check_report and sw_complete_report take it. */
#define SW_HISTORY_INFINITE 13

/* "the history is above 4,096"
 * Bound the range's start closer to the tick. */
#define SW_HISTORY_ABOVE_LIMIT 14

/* "more than 4,096 cells"
 * Narrow or unnest ranges, or split the rule. */
#define SW_CELLS_ABOVE_LIMIT 15

/* "the recording is too long, or the tick is not in it"
 * Lend a part of at most 65,535 bytes; its ticks are numbered from 0. sw_check_report and
 * sw_complete_report answer this only for a longer one. */
#define SW_NOT_IN_RECORDING 16

/* "the history has a wrong length"
 * To open: from the figure `history` (of a set, the largest) to 4,096 bytes. To step: as
 * many as were opened. */
#define SW_HISTORY_LENGTH 17

/* "the cell table is too short"
 * Lend four words for each of the figure `cells` (of a set, the sum), and every step the
 * same table. A set also: lend a record for each rule of the sheet. */
#define SW_CELL_TABLE_TOO_SHORT 18

/* "the report is too short"
 * Lend delay + 1 words; SW_MAX_REPORT are enough for every rule. sw_set_step: lend two for
 * each of the figure `pairs`; SW_MAX_SET_REPORT are enough for every sheet. */
#define SW_REPORT_TOO_SHORT 19

/* "tick numbers are used up"
 * The last tick that is taken is 4,611,686,018,427,387,903, which is 2^62 - 1; this comes for
 * every next tick above it. At 200 ticks a second there are ticks for over 700 million years,
 * so a stream that began at tick 0 does not meet it. Open the rule or the set anew. */
#define SW_TICKS_USED_UP 20

/* "state and cells were not left by one opening and its steps"
 * Open the rule anew, and hand on state and cells untouched. A set: open it anew, hand on
 * records and cells untouched, and lend every step the sheet that was opened. */
#define SW_STATE_NOT_OPENED 21

/* "the buffer is too short"
 * sw_write_sheet: lend 1 + 4 * count + the bodies' size bytes; SW_MAX_SHEET are always
 * enough. sw_sentence: lend SW_MAX_SENTENCE. sw_rule_from_text: lend SW_MAX_BODY, and
 * sw_rule_to_text SW_MAX_TEXT, which are always enough. sw_complete_report: lend an entry for
 * each tick of the recording, which are always enough. */
#define SW_BUFFER_TOO_SHORT 22

/* "a bound of kind 0 or 1 whose variable byte is not 0"
 * Position 0 and infinity name no variable: their second byte is 0. To count from a
 * variable, write kind 2. */
#define SW_VARIABLE_BYTE_NOT_ZERO 23

/* "an infinity with an offset"
 * Infinity has none: its third and fourth byte are 0. To count from position 0, write
 * kind 0; from a variable, kind 2. */
#define SW_OFFSET_ON_INFINITY 24

/* "the text is misspelt or above 4,096 bytes"
 * Write it as docs/RULES.md shows: one form, single blanks, names of 1 to 8 small letters,
 * nothing after it, not even a line end. station-watch compile says the column. */
#define SW_MISSPELT 25

/* "a name that is not bound here"
 * Name the tick or a range around this place; bounds see only names bound outside their
 * own range. */
#define SW_UNBOUND_NAME 26

/* "more than 4,096 cells in all rules"
 * Each rule of the sheet opens by itself, but not all together. Narrow or unnest ranges,
 * or split the sheet. */
#define SW_SET_CELLS_ABOVE_LIMIT 27

/* ---- Limits ---- */

/* A sheet: rules, bytes of a body, bytes of the whole. */
#define SW_MAX_RULES 32
#define SW_MAX_BODY 512
#define SW_MAX_SHEET 16513

/* A rule's text in bytes, as sw_rule_from_text takes it; and enough for any that
 * sw_rule_to_text writes. */
#define SW_MAX_TEXT 4096

/* A recording, in flag bytes. */
#define SW_MAX_RECORDING 65535

/* What a rule that opens can need. The figures: history bytes, delay in ticks, cells. */
#define SW_MAX_HISTORY 4096
#define SW_MAX_DELAY 255
#define SW_MAX_CELLS 4096

/* Words of a cell, and of a cell table, which have 32 bits each; report words for sw_step (a
 * tick each), and for sw_steps (a pair each), which have 64. */
#define SW_CELL_WORDS 4
#define SW_MAX_CELL_WORDS 16384
#define SW_MAX_REPORT 256
#define SW_MAX_BATCH_REPORT 512

/* The same of a set, whose rules have at most SW_MAX_CELLS cells together: report words, of 64
 * bits, for sw_set_step (a pair each), and for sw_set_steps (a triple each). */
#define SW_MAX_SET_REPORT 8192
#define SW_MAX_SET_BATCH_REPORT 12288

/* A sentence in bytes, its 0 byte included. */
#define SW_MAX_SENTENCE 128

/* Bytes of stack of any call, as measured, what it calls included. */
#define SW_MAX_STACK 49152

/* Bytes of a state: 512 for the rule's body, then four 64-bit numbers, low byte first:
 * the body's size at 512, the opened history's length at 520, the next tick at 528, the
 * live count at 536. A state is plain bytes: it may be copied, stored and moved. It
 * belongs to the cell table that its steps wrote, and to the figures that its rule had when
 * it was opened: where a later version of the library has others, open the rule anew
 * (CHANGELOG.md, 0.7.0).
 *
 * Every call looks at the state anew. It answers SW_STATE_NOT_OPENED where no opening
 * gives such a state: the opened length is above 4096, the body's size is above 512 or it
 * does not open, or its history figure is above the opened length. A next tick from
 * 4,611,686,018,427,387,904 on is no such case: it gets SW_TICKS_USED_UP, after all else.
 * Any other state or cell table that was not left by one opening and its steps is not
 * noticed. A step on it still ends and writes only what a step may: one history byte, the
 * needed cells, the report's first delay + 1 words, and next tick and live count in the
 * state. But what it reports means nothing. */
#define SW_STATE_BYTES 544

/* A running rule of a set, 32 bytes. The set of a sheet of n rules has n of these records,
 * that of rule i at place i; together they are its state. They are plain numbers, which may
 * be copied, stored and moved. They belong to the sheet that was opened, which is lent to
 * every step again, and to the cell table that its steps wrote. */
typedef struct {
    uint32_t start;  /* its body in the sheet: the position of the first byte, .. */
    uint32_t size;   /* .. and how many bytes */
    uint32_t first;  /* its own part of the cell table: how many cells are before it, .. */
    uint32_t cells;  /* .. and how many it has, of SW_CELL_WORDS words each */
    uint16_t delay;  /* its delay in ticks */
    uint16_t opened; /* the opened history's length, the same in all records */
    uint32_t live;   /* its live count: how many of its ticks are still open */
    uint64_t next;   /* the next tick, the same in all records */
} sw_running;

/* Every step looks at sheet and records anew. It answers SW_STATE_NOT_OPENED where no
 * opening of this sheet gives such records:
 *
 * - the sheet is empty, or its first byte n is not 1 to 32;
 * - the first record's opened length is above 4096;
 * - one of the first n records, as far as they are lent, does not lie in the sheet (start
 *   + size is above its length), or its body does not open, or its cells or its delay are
 *   not the body's figures, or the body's history figure is above the opened length, or
 *   its first cell is not where the cells of the record before it end, or its opened
 *   length or next tick is not that of the first record;
 * - these records have more than 4096 cells together.
 *
 * A next tick from 4,611,686,018,427,387,904 on is no such case where all of them have it: it
 * gets SW_TICKS_USED_UP, after all else. Further records are not looked at. Any other sheet,
 * records or cell table that were not left by one opening and its steps are not noticed. A step
 * on them still ends and writes only what a step may: one history byte, the needed cells, the
 * report's first 2 * (sum of all delay + 1) words, and next tick and live count of the first n
 * records. But what it reports means nothing. */

/* A calendar: words that keep at which ticks each flag was up. Eight words keep a run of 64
 * ticks. Run r of flag k is word 8r + k, and its bit worth 2^i is 1 where the flag was up at
 * tick 64r + i. So many words keep 64 * (words / 8) ticks, from tick 0 on, a byte for each;
 * later ticks are not kept, and the words of a last group under eight are never read or
 * written. They are plain numbers, which may be copied, stored and moved, and any words may
 * be asked.
 *
 * A calendar agrees with the stream where each step since the opening was lent all of its
 * words, as the last one left them: at each kept tick before the next one exactly those
 * flags are up that were up in its flag byte, and from the next tick on none is. Where a step
 * was taken without the words, its tick is not marked; sw_calendar_fill can do so. A step on a
 * state that was not left by an opening and its steps, where that is not noticed, may mark
 * another kept tick. */

/* A violation: a tick at which a rule is false, and the step that decided it. A list of them has
 * the layout of the pairs that sw_steps writes. */
typedef struct sw_violation {
    uint64_t tick;
    uint64_t step;
} sw_violation;

/* ---- Verdicts: what sw_outcome answers ---- */

#define SW_OPEN 0
#define SW_TRUE 1
#define SW_FALSE 2

/* ---- Differences: what sw_check_report answers ---- */

#define SW_REPORT_SAME 0
#define SW_REPORT_DIFFERS 1
#define SW_REPORT_ENDS 2

/* ---- No tick: what sw_calendar_first, _last and _nearest answer where none is up ---- */

#define SW_NO_TICK UINT64_MAX

/* ---- Functions ---- */

/* The sentence of a refusal, in ASCII. A number that is no refusal (SW_OK, 28 and more)
 * has the sentence "no such refusal".
 * Answers 0, or 22.
 * After 0, *written is the sentence's length, `out` begins with the sentence and a 0
 * byte, and the bytes after them are as they were. */
uint32_t sw_sentence(uint32_t refusal, uint8_t *out, size_t out_len, size_t *written);

/* Where the body of rule number `rule` lies in a sheet.
 * Answers 0, or 1, 2, 3.
 * After 0, *start is the position of the body's first byte in the sheet and *size how
 * many bytes it has: 1 to 512. */
uint32_t sw_rule_place(const uint8_t *sheet, size_t sheet_len, size_t rule,
                       size_t *start, size_t *size);

/* Writes the sheet of `count` bodies, which lie end to end in `bodies` and have these
 * lengths, at the start of `out`. It does not look inside the bodies.
 * Answers 0, or 1, 2, 22.
 * After 0, *written is the sheet's length, 1 + 4 * count + bodies_len; so many bytes of
 * `out` are the sheet, and those after them are as they were. */
uint32_t sw_write_sheet(const uint16_t *lengths, size_t count,
                        const uint8_t *bodies, size_t bodies_len,
                        uint8_t *out, size_t out_len, size_t *written);

/* The body of a rule that is typed in the notation of docs/RULES.md, in ASCII with nothing
 * before or after it:
 *
 *   monitor x : F              the rule; F is one of these:
 *   @x.3                       flag 3 at x
 *   ~F                         not F
 *   (F && G)                   F, then G
 *   (F /\ G)                   F beside G
 *   forall y in x-1..x+2 : F   for all positions y from x - 1 to x + 2, F
 *
 * Blanks stand as shown, and nowhere else. Names are 1 to 8 lower-case letters, but not
 * monitor, forall, in or infinity. A bound is 0, infinity or a name, and may have one
 * offset, + or - and 1 to 4 digits; a flag is one digit. A name is that of the innermost
 * range around it that binds it, or of the rule; a range's own bounds stand outside it.
 * A text of at most SW_MAX_TEXT bytes has at most one reading, and the body is that one's.
 * Answers 0, or 25, then 26, then the body's own (4 to 10, 23, 24), last 22: the whole text
 * is read before a name is looked up, and all names before the body's bytes are judged as
 * sw_figures judges them. Of the body's own these come: 7 for flags 8 and 9, 8 for offsets
 * of 4096 and more, 9, and 24 for an infinity with an offset other than 0.
 * After 0, *written is the body's length; so many bytes of `body` are the body, and those
 * after them are as they were. */
uint32_t sw_rule_from_text(const uint8_t *text, size_t text_len,
                           uint8_t *body, size_t body_len, size_t *written);

/* A body as such a text, with no 0 byte after it. The rule's own name is x, and ranges have
 * the names y, z, u and v, by how many are around them. An offset of 0 is not written, and
 * others have no 0 before them. sw_rule_from_text makes the same body of it.
 * Answers 0, or 4 to 10, 23, 24, 22.
 * After 0, *written is the text's length; so many bytes of `text` are the text, and those
 * after them are as they were. */
uint32_t sw_rule_to_text(const uint8_t *body, size_t body_len,
                         uint8_t *text, size_t text_len, size_t *written);

/* The figures of a rule's body: how many past flags it needs (history, at most 4096),
 * within how many ticks it is decided (delay, at most 255), and how many cells of four
 * words its steps need (cells, at most 4096, so that a uint16_t holds it). A range that is
 * always empty needs one cell, and what stands in it is not counted (docs/RULES.md).
 * Answers 0, or 4 to 15, 23, 24.
 * After 0 the three numbers are set. */
uint32_t sw_figures(const uint8_t *body, size_t body_len,
                    uint64_t *history, uint64_t *delay, uint64_t *cells);

/* The outcome of a body at a tick of a recording of up to 65,535 flag bytes, also for a
 * body that cannot be opened.
 * Answers 0, or 4 to 10, 23, 24, 16.
 * After 0, *verdict is SW_OPEN, SW_TRUE or SW_FALSE, and *step the step that decided it;
 * 0 where it is open. */
uint32_t sw_outcome(const uint8_t *body, size_t body_len,
                    const uint8_t *recording, size_t recording_len, size_t tick,
                    uint32_t *verdict, uint64_t *step);

/* Opens rule number `rule` of a sheet over a history, whose length is from the rule's
 * figure to 4096 bytes, and a cell table of at least four times its cells, which is only
 * measured: its content does not matter.
 * Answers 0, or 1 to 15, 23, 24, 17, 18.
 * After 0 every history byte is 0, and all 544 bytes of the state are set: the body with
 * 0 after it, its size, the history's length, next tick 0, 0 live. */
uint32_t sw_open(const uint8_t *sheet, size_t sheet_len, size_t rule,
                 uint8_t *history, size_t history_len,
                 const uint32_t *cells, size_t cells_len,
                 uint8_t state[SW_STATE_BYTES]);

/* Takes one flag byte at the state's next tick t. The history has the opened length, the
 * cell table the needed words as the last step left them, the report at least delay + 1
 * words.
 * Answers 0, or 21, 17, 18, 19, 20, in this order.
 * After 0, the first *reported words of the report are the ticks whose outcome is false
 * at step t, ascending, and the words after them are as they were. *live is how many
 * ticks up to t are still open. History byte t mod (history length) is the flag byte and
 * no other changed (none, where the length is 0). Cell table words after the needed ones
 * are as they were. In the state the next tick is t + 1 and the live count is *live; its
 * other bytes are as they were.
 * The last h flags, h being the history figure, must still be in the history, each at
 * byte tick mod (history length); the other history bytes may be overwritten between
 * steps. Where one of the last h was overwritten, steps still end and write only what
 * they may, but from then on what they report means nothing. */
uint32_t sw_step(uint8_t state[SW_STATE_BYTES], uint8_t flag,
                 uint8_t *history, size_t history_len,
                 uint32_t *cells, size_t cells_len,
                 uint64_t *report, size_t report_len,
                 size_t *reported, size_t *live);

/* Takes flag bytes one after another, each as sw_step does, and writes a pair of words,
 * tick and deciding step, for each tick that a step reports, end to end from the report's
 * start. It stops where the flags end; before a step for which fewer than 2 * (delay + 1)
 * report words are left, since so many a step can need; and before a step that would be
 * refused, which after the first can only be by 20.
 * Answers 0, or 21, 17, 18, 20, in this order: what sw_step would answer for the first of
 * these flags if its report were long enough. It asks this also where there are no flags.
 * It never answers 19: with a report of fewer than 2 * (delay + 1) words it answers 0 and
 * takes no flag.
 * After 0, *taken is how many flags were taken and *pairs how many pairs were written;
 * report words after the pairs are as they were. State, history and cell table are what
 * so many calls of sw_step leave, and *live is the state's live count.
 *
 * To take all flags, call it again with those that were not taken. This ends for every
 * rule with a report of SW_MAX_BATCH_REPORT words, and for a known rule with one of
 * 2 * (delay + 1): each call takes a flag or is refused. With a shorter report it would
 * go on for ever.
 *
 *     size_t done = 0;
 *     while (done < count) {
 *         size_t taken, pairs, live, i;
 *         uint32_t refusal = sw_steps(state, flags + done, count - done,
 *                                     history, history_len, cells, cells_len,
 *                                     report, SW_MAX_BATCH_REPORT,
 *                                     &taken, &pairs, &live);
 *         if (refusal != SW_OK)
 *             return refusal;
 *         for (i = 0; i < pairs; i++)
 *             violation(report[2 * i], report[2 * i + 1]);
 *         done += taken;
 *     } */
uint32_t sw_steps(uint8_t state[SW_STATE_BYTES],
                  const uint8_t *flags, size_t flags_len,
                  uint8_t *history, size_t history_len,
                  uint32_t *cells, size_t cells_len,
                  uint64_t *report, size_t report_len,
                  size_t *taken, size_t *pairs, size_t *live);

/* What all rules of a sheet need together: how many rules there are, and so records; the
 * largest of their history figures (at most 4096); the sum of their cells (at most 4096);
 * and the most pairs that a step can report, the sum of all delay + 1 (at most 4096).
 * Answers 0, or 1, 2, then the first that sw_figures answers for a rule, in rule order
 * (4 to 15, 23, 24), then 27.
 * After 0 the four numbers are set. */
uint32_t sw_set_figures(const uint8_t *sheet, size_t sheet_len,
                        size_t *rules, uint64_t *history, uint64_t *cells, uint64_t *pairs);

/* Opens all rules of a sheet over one history, whose length is from the figure of
 * sw_set_figures to 4096 bytes, and one cell table of at least four times its cells, which
 * is only measured: its content does not matter.
 * Answers 0, or those of sw_set_figures in their order, then 17, 18 (18 also for fewer
 * records than rules).
 * After 0 every history byte is 0, and the first n records are set, n being how many rules
 * the sheet has: where the rule's body lies, its own part of the cell table, which begins
 * where that of the rule before it ends, its delay, the history's length, next tick 0, 0
 * live. Further records are as they were. */
uint32_t sw_set_open(const uint8_t *sheet, size_t sheet_len,
                     sw_running *records, size_t records_len,
                     uint8_t *history, size_t history_len,
                     const uint32_t *cells, size_t cells_len);

/* Takes one flag byte for all rules of a set, at its next tick t. The sheet is the one that
 * was opened, the history has the opened length, the cell table the needed words as the
 * last step left them, the report at least 2 * (sum of all delay + 1) words.
 * Answers 0, or 21, 17, 18, 19, 20, in this order (18 also for fewer records than rules;
 * where no record is lent, no opened length is known and 17 does not come).
 * After 0, the first 2 * *pairs words of the report are pairs, the number of a rule and a
 * tick whose outcome by this rule is false at step t, ascending by rule and then by tick,
 * and the words after them are as they were. *live is how many ticks up to t are still
 * open, the sum over all rules. History byte t mod (history length) is the flag byte and no
 * other changed (none, where the length is 0). Cell table words after the needed ones are
 * as they were. In each of the first n records the next tick is t + 1 and the live count is
 * its rule's; their other numbers, and further records, are as they were.
 * Each rule reports what it reports when it is opened by itself and takes the same flags:
 * it has its own part of the cell table, which no other rule touches.
 * The last h flags, h being the largest history figure, must still be in the history, each
 * at byte tick mod (history length); the other history bytes may be overwritten between
 * steps. Where one of the last h was overwritten, steps still end and write only what they
 * may, but from then on what they report means nothing. */
uint32_t sw_set_step(const uint8_t *sheet, size_t sheet_len,
                     sw_running *records, size_t records_len, uint8_t flag,
                     uint8_t *history, size_t history_len,
                     uint32_t *cells, size_t cells_len,
                     uint64_t *report, size_t report_len,
                     size_t *pairs, size_t *live);

/* Takes flag bytes one after another, each as sw_set_step does, and writes a triple of
 * words, rule number, tick and deciding step, for each pair that a step reports, end to end
 * from the report's start: by step, then by rule, then by tick. It stops where the flags
 * end; before a step for which fewer than 3 * (sum of all delay + 1) report words are left,
 * since so many a step can need; and before a step that would be refused, which after the
 * first can only be by 20.
 * Answers 0, or 21, 17, 18, 20, in this order: what sw_set_step would answer for the first
 * of these flags if its report were long enough. It asks this also where there are no
 * flags. It never answers 19: with a report of fewer than 3 * (sum of all delay + 1) words
 * it answers 0 and takes no flag.
 * After 0, *taken is how many flags were taken and *triples how many triples were written;
 * report words after them are as they were. Records, history and cell table are what so
 * many calls of sw_set_step leave, and *live is the sum of the records' live counts.
 *
 * To take all flags, call it again with those that were not taken, as in the loop of
 * sw_steps. This ends for every sheet with a report of SW_MAX_SET_BATCH_REPORT words, and
 * for a known sheet with one of 3 * (sum of all delay + 1): each call takes a flag or is
 * refused. With a shorter report it would go on for ever. */
uint32_t sw_set_steps(const uint8_t *sheet, size_t sheet_len,
                      sw_running *records, size_t records_len,
                      const uint8_t *flags, size_t flags_len,
                      uint8_t *history, size_t history_len,
                      uint32_t *cells, size_t cells_len,
                      uint64_t *report, size_t report_len,
                      size_t *taken, size_t *triples, size_t *live);

/* Opens a rule as sw_open does, with the words of a calendar, of which there may be any
 * number.
 * Answers 0, or those of sw_open: 1 to 15, 23, 24, 17, 18.
 * After 0, all is as after sw_open, and the words are 0 but for a last group under eight,
 * which is as it was. */
uint32_t sw_calendar_open(const uint8_t *sheet, size_t sheet_len, size_t rule,
                          uint8_t *history, size_t history_len,
                          const uint32_t *cells, size_t cells_len,
                          uint64_t *words, size_t words_len,
                          uint8_t state[SW_STATE_BYTES]);

/* Takes one flag byte as sw_step does, at the state's next tick t, and marks t in the words
 * of a calendar.
 * Answers 0, or those of sw_step: 21, 17, 18, 19, 20, in this order. The number of words is
 * never refused.
 * After 0, all is as after sw_step. Where the words keep t, the bit of t is 1 in the word of
 * each flag that is up in the flag byte; every other bit is as it was. */
uint32_t sw_calendar_step(uint8_t state[SW_STATE_BYTES], uint8_t flag,
                          uint8_t *history, size_t history_len,
                          uint32_t *cells, size_t cells_len,
                          uint64_t *report, size_t report_len,
                          uint64_t *words, size_t words_len,
                          size_t *reported, size_t *live);

/* Takes flag bytes one after another as sw_steps does, and marks the ticks of those that
 * were taken, each as sw_calendar_step does.
 * Answers 0, or those of sw_steps: 21, 17, 18, 20, in this order.
 * After 0, all is as after sw_steps, and the words are what *taken calls of
 * sw_calendar_step leave. */
uint32_t sw_calendar_steps(uint8_t state[SW_STATE_BYTES],
                           const uint8_t *flags, size_t flags_len,
                           uint8_t *history, size_t history_len,
                           uint32_t *cells, size_t cells_len,
                           uint64_t *report, size_t report_len,
                           uint64_t *words, size_t words_len,
                           size_t *taken, size_t *pairs, size_t *live);

/* Zeroes the words of a calendar as sw_calendar_open does: no flag is up at any tick. A last
 * group under eight is as it was. */
void sw_calendar_clear(uint64_t *words, size_t words_len);

/* Marks the ticks `tick`, `tick` + 1, .., one for each flag byte, in the words of a calendar
 * as sw_calendar_step does. Ticks past the words are not kept. A bit that is 1 stays 1, so
 * fill in each tick once after the words were zeroed.
 *
 * Of a recording: clear the words, and fill in its bytes from tick 0. Beside a set: clear
 * the words when it is opened, and after each step or batch that answers 0 fill in the flags
 * that were taken, from the `next` on that its records had before the call. The tick numbers
 * are the set's. */
void sw_calendar_fill(uint64_t *words, size_t words_len, uint64_t tick,
                      const uint8_t *flags, size_t flags_len);

/* At how many ticks from `first` to `last` a flag was up. Both ends are in the range. It is
 * empty if `first` is the larger, and a range past the last kept tick is cut there.
 * Answers 0, or 7.
 * After 0, *count is the number. */
uint32_t sw_calendar_ups(const uint64_t *words, size_t words_len, uint8_t flag,
                         uint64_t first, uint64_t last, uint64_t *count);

/* The first tick of such a range at which a flag was up.
 * Answers 0, or 7.
 * After 0, *tick is this tick; SW_NO_TICK where the flag is up at no tick of the range so
 * cut. */
uint32_t sw_calendar_first(const uint64_t *words, size_t words_len, uint8_t flag,
                           uint64_t first, uint64_t last, uint64_t *tick);

/* The last tick of such a range at which a flag was up.
 * Answers 0, or 7.
 * After 0, *tick is this tick; SW_NO_TICK where the flag is up at no tick of the range so
 * cut. */
uint32_t sw_calendar_last(const uint64_t *words, size_t words_len, uint8_t flag,
                          uint64_t first, uint64_t last, uint64_t *tick);

/* The tick nearest to `tick` at which a flag was up, the earlier of two equally near. It is
 * sought among all kept ticks; `tick` itself may lie past them.
 * Answers 0, or 7.
 * After 0, *nearest is this tick; SW_NO_TICK where the flag is up at no kept tick. */
uint32_t sw_calendar_nearest(const uint64_t *words, size_t words_len, uint8_t flag,
                             uint64_t tick, uint64_t *nearest);

/* Compares a list of violations with the complete report of rule number `rule` of a sheet over a
 * recording of up to 65,535 flag bytes. The complete report has each tick at which the rule is
 * false, once, with its deciding step, as sw_outcome answers it over the whole recording, ordered
 * by step and then by tick; ticks that are open are not in it. The rule need not be one that
 * opens, and the list may have any length and content. An empty recording has the empty report.
 * Answers 0, or 1 to 10, 23, 24, then 16 for a longer recording.
 * After 0 the four numbers are set. Entries are counted from 0. *difference is one of these:
 *
 * - SW_REPORT_SAME: the list is the complete report. *entry, *tick and *step are 0.
 * - SW_REPORT_DIFFERS: *entry is the first entry that differs. The violation that stands there in
 *   the complete report is *tick and *step; the list has another one there, or has ended.
 * - SW_REPORT_ENDS: the list goes on where the complete report has ended, after *entry entries,
 *   which are the same in both. *tick and *step are 0. */
uint32_t sw_check_report(const uint8_t *sheet, size_t sheet_len, size_t rule,
                         const uint8_t *recording, size_t recording_len,
                         const sw_violation *claimed, size_t claimed_len,
                         uint32_t *difference, size_t *entry, uint64_t *tick, uint64_t *step);

/* Writes the complete report of a rule over a recording, as sw_check_report has it, at the start
 * of a list. A list with an entry for each tick of the recording is always long enough. With a
 * shorter one the report is measured first.
 * Answers 0, or those of sw_check_report in their order, then 22.
 * After 0, *written is how many violations the report has; so many entries of the list are the
 * report, and those after them are as they were. */
uint32_t sw_complete_report(const uint8_t *sheet, size_t sheet_len, size_t rule,
                            const uint8_t *recording, size_t recording_len,
                            sw_violation *report, size_t report_len, size_t *written);

#ifdef __cplusplus
}
#endif

#endif
