/* Lendaru on a record that the firmware lends: liblendaru_panel.a, and liblendaru_run.a for lendaru_run (made by
 * `tools/archives lendaru_panel lendaru_run`; x86-64). They may be linked together.
 *
 * The firmware owns an engine record, lends it for one command or one run at a time, and finds it advanced; the record
 * may live for months. Every function here is proved, in crates/lendaru_panel and crates/lendaru_run, to do what is
 * said, for every record and every command; costs are measured. Nothing is allocated, no state is kept beside the
 * record, and no function calls the operating system; of the C library the archives need memcpy and memset at most.
 * What a caller owes is what C cannot check: that the pointer names a whole record, and that nothing else reads or
 * writes it during the call. Two records are two engines, and two threads may use them.
 */
#ifndef LENDARU_PANEL_H
#define LENDARU_PANEL_H

#include <stddef.h>
#include <stdint.h>

#ifdef __cplusplus
extern "C" {
#endif

/* The version of the record's layout, as lendaru_record_version() returns it. A later version may add parts: keep it
 * beside a record that is saved, and load no record of another version. */
#define LENDARU_RECORD_VERSION 2

/* The time shown, and the hidden remainder in 2^-32 ns (below 2^24); the fraction is in 1/256 ns. */
typedef struct {
    uint64_t seconds, nanoseconds, fraction, remainder;
} lendaru_clock;

/* PER_ADJ in 2^-32 ns and the cycles left of it; both 0 where none runs, or where none waits. */
typedef struct {
    uint64_t amount, cycles;
} lendaru_adjustment;

/* PERIOD in 2^-32 ns, the running adjustment, and the one that waits: it becomes the running one in the cycle that ends
 * the other, and steers from the next cycle on. */
typedef struct {
    uint64_t period;
    lendaru_adjustment adjustment, waiting;
} lendaru_steering;

/* The timestamp of an input edge; rising is 1 or 0. */
typedef struct {
    uint64_t seconds, nanoseconds, rising;
} lendaru_timestamp;

/* A timestamp FIFO, oldest first; unused places are zero. */
typedef struct {
    lendaru_timestamp entries[8];
    uint64_t count;
} lendaru_fifo;

/* Seconds, nanoseconds, and remainder / denominator of a nanosecond. */
typedef struct {
    uint64_t seconds, nanoseconds, remainder;
} lendaru_instant;

/* An event generator: pending instant, interval whole + numerator / denominator ns, edges left, direction of the next
 * edge (0 rising, 1 falling), mark; all 0 where it is idle. */
typedef struct {
    lendaru_instant pending;
    uint64_t whole, numerator, denominator, left, direction, mark;
} lendaru_generator;

/* The latched interrupt bits and the enable mask. */
typedef struct {
    uint64_t latched, enabled;
} lendaru_interrupts;

/* Five words, or the five values of a reply. */
typedef struct {
    uint64_t w1, w2, w3, w4, w5;
} lendaru_words;

/* The engine record. */
typedef struct {
    lendaru_clock clock;
    lendaru_steering steering;
    lendaru_fifo fifo1, fifo2, fifo3;
    lendaru_generator generator1, generator2;
    lendaru_interrupts interrupts;
    lendaru_words words;
} lendaru_engine;

/* A command: the op and its fields a to h, as a line of a command sheet has them (docs/GUIDE.md). */
typedef struct {
    uint64_t op, a, b, c, d, e, f, g, h;
} lendaru_command;

/* 0 or the number of the first failed check, and v1 to v5. */
typedef struct {
    uint64_t answer;
    lendaru_words values;
} lendaru_reply;

/* The layout that the library was proved with. */
#ifdef __cplusplus
#define LENDARU_ASSERT(fact) static_assert(fact, #fact)
#else
#define LENDARU_ASSERT(fact) _Static_assert(fact, #fact)
#endif
LENDARU_ASSERT(sizeof(lendaru_engine) == 872);
LENDARU_ASSERT(sizeof(lendaru_command) == 72);
LENDARU_ASSERT(sizeof(lendaru_reply) == 48);
LENDARU_ASSERT(sizeof(lendaru_steering) == 40);
LENDARU_ASSERT(sizeof(lendaru_fifo) == 200);
LENDARU_ASSERT(sizeof(lendaru_generator) == 72);
LENDARU_ASSERT(offsetof(lendaru_engine, clock) == 0);
LENDARU_ASSERT(offsetof(lendaru_engine, steering) == 32);
LENDARU_ASSERT(offsetof(lendaru_engine, fifo1) == 72);
LENDARU_ASSERT(offsetof(lendaru_engine, fifo2) == 272);
LENDARU_ASSERT(offsetof(lendaru_engine, fifo3) == 472);
LENDARU_ASSERT(offsetof(lendaru_engine, generator1) == 672);
LENDARU_ASSERT(offsetof(lendaru_engine, generator2) == 744);
LENDARU_ASSERT(offsetof(lendaru_engine, interrupts) == 816);
LENDARU_ASSERT(offsetof(lendaru_engine, words) == 832);
LENDARU_ASSERT(offsetof(lendaru_steering, adjustment) == 8);
LENDARU_ASSERT(offsetof(lendaru_steering, waiting) == 24);
LENDARU_ASSERT(offsetof(lendaru_fifo, count) == 192);
LENDARU_ASSERT(offsetof(lendaru_generator, left) == 48);
#undef LENDARU_ASSERT

/* LENDARU_RECORD_VERSION.
 * Needs: nothing. Leaves: nothing changed. */
uint64_t lendaru_record_version(void);

/* The record at power-on: time 0, PERIOD 8 ns, both masks and all words 0, everything else empty.
 * Needs: nothing. Leaves: nothing changed. */
lendaru_engine lendaru_power_on(void);

/* One command on the lent record.
 *
 * Needs: `engine` points to a record, of any content.
 *
 * Leaves: where the command is accepted (answer 0), the record advanced by it, and in the reply its values; where it is
 * refused, the record as it was, the number of the first failed check as the answer, and five zeros.
 *
 * Every call checks the record first: a malformed one is answered with 4 and left as it was. So a record that was saved
 * and loaded again may be lent as it is. What number 4 sees is a field out of its range, an idle part or an unused
 * place that is not zero, a pending instant before the time shown, and an adjustment that waits while none runs. What
 * it cannot see is a record that is well formed and not yours: an older save, another engine's, or one whose flipped
 * bit left a field in range. Keep a sum of your own beside a record in flash; and promises about lists of commands hold
 * for a record that comes from power-on by these calls alone. */
lendaru_reply lendaru_execute(lendaru_engine *engine, lendaru_command command);

/* A run on the lent record (in liblendaru_run.a): up to `a` ticks without inputs in one call, what lendaru_execute does
 * with op 9, `a` and seven zeros. It ends after the first tick that places an edge, or before a tick that would pass
 * the last second. Its cost does not grow with `a` (docs/PERFORMANCE.md).
 *
 * Needs: `engine` points to a record, of any content; `a` is any number.
 *
 * Leaves: where the run is accepted (answer 0), the record advanced by the ticks done, at least one. The reply has the
 * last tick's edges of generators 1 and 2 in w1 and w2, as a tick has them, and the ticks done in w3 (low 16 bits) and
 * w4 (w4 << 16 | w3); w5 is 0. Where it is refused, the record as it was, and five zeros. The answer is then 4 for a
 * malformed record, 6 where `a` is not 1 to 1,000,000, and 15 where the very first tick would pass the last second. */
lendaru_reply lendaru_run(lendaru_engine *engine, uint64_t a);

#ifdef __cplusplus
}
#endif

#endif
