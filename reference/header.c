/* Holds the two headers to the static libraries: their numbers, and the place of every part of the record, by a tick
 * and by runs that were worked out by hand from the papers. reference/run compiles it as C and as C++. */
#include "lendaru.h"
#include "lendaru_panel.h"
#include "same.h"
#include <string.h>

static int numbers(void)
{
    int ok = same("sheet version", LENDARU_SHEET_VERSION, lendaru_sheet_version());
    ok &= same("results room", LENDARU_RESULTS_ROOM, lendaru_results_room());
    ok &= same("record version", LENDARU_RECORD_VERSION, lendaru_record_version());
    return ok;
}

/* At 5 s 7 ns: adjust by 9 ns and FRAC 0x40800020 for 3 cycles, and behind it, waiting, by 7 ns and FRAC 0x40200080
 * for 4; mask TS1_NE, generator 2 from 5 s 10 ns at 256 + 2/7 ns, 5 edges, no mark; then a tick with input 2 falling at
 * eighth 0 and input 3 rising at eighth 4. The step is 9.25 ns, so generator 2's edge rises at eighth 2 (24 / 9.25),
 * and input 3's comes at 11.625 ns, of which 12 is the nearest. */
static int advanced(lendaru_engine *e)
{
    static const lendaru_command commands[] = {
        {1, 5, 0, 0, 7, 0, 0, 0, 0},
        {2, 0, 8, 0, 0, 0, 0, 0, 0},
        {1, 1, 3, 0x2000, 0x8000, 0x0940, 0, 0, 0},
        {2, 2, 8, 0, 0, 0, 0, 0, 0},
        {1, 1, 4, 0x8000, 0x2000, 0x0740, 0, 0, 0},
        {2, 2, 8, 0, 0, 0, 0, 0, 0},
        {6, 0x100, 0, 0, 0, 0, 0, 0, 0},
        {3, 2, 5, 10, 256, 2, 7, 5, 0},
        {0, 0, 1, 13, 0, 0, 0, 0, 0},
    };
    lendaru_reply reply = {0, {0, 0, 0, 0, 0}};
    int ok = 1;
    *e = lendaru_power_on();
    ok &= same("PERIOD at power-on", 8ull << 32, e->steering.period);
    for (unsigned n = 0; n < sizeof commands / sizeof commands[0]; n++) {
        reply = lendaru_execute(e, commands[n]);
        ok &= same("answer", 0, reply.answer);
    }
    ok &= same("edge of generator 1", 0, reply.values.w1);
    return ok & same("edge of generator 2", 9 + 2, reply.values.w2);
}

static int clock_and_words(const lendaru_engine *e)
{
    int ok = same("seconds", 5, e->clock.seconds) & same("nanoseconds", 16, e->clock.nanoseconds);
    ok &= same("fraction", 0x40, e->clock.fraction) & same("remainder", 0x800020, e->clock.remainder);
    ok &= same("PERIOD", 8ull << 32, e->steering.period);
    ok &= same("PER_ADJ", 0x940800020ull, e->steering.adjustment.amount);
    ok &= same("cycles", 2, e->steering.adjustment.cycles);
    ok &= same("waiting PER_ADJ", 0x740200080ull, e->steering.waiting.amount);
    ok &= same("waiting cycles", 4, e->steering.waiting.cycles);
    /* TS2_NE and TS3_NE */
    ok &= same("latched", 1 << 10 | 1 << 12, e->interrupts.latched);
    ok &= same("enabled", 0x100, e->interrupts.enabled);
    ok &= same("word 1", 1, e->words.w1) & same("word 2", 4, e->words.w2) & same("word 3", 0x8000, e->words.w3);
    return ok & same("word 4", 0x2000, e->words.w4) & same("word 5", 0x0740, e->words.w5);
}

static int holds_one(const lendaru_fifo *f, unsigned long long nanoseconds, unsigned long long rising)
{
    int ok = same("count", 1, f->count) & same("timestamp's seconds", 5, f->entries[0].seconds);
    ok &= same("timestamp's nanoseconds", nanoseconds, f->entries[0].nanoseconds);
    return ok & same("timestamp's direction", rising, f->entries[0].rising);
}

static int generator_2(const lendaru_generator *g)
{
    int ok = same("pending seconds", 5, g->pending.seconds) & same("pending nanoseconds", 266, g->pending.nanoseconds);
    ok &= same("pending remainder", 2, g->pending.remainder) & same("whole", 256, g->whole);
    ok &= same("numerator", 2, g->numerator) & same("denominator", 7, g->denominator);
    return ok & same("left", 4, g->left) & same("direction", 1, g->direction) & same("mark", 0, g->mark);
}

static int replied(const char *what, lendaru_reply r, unsigned long long answer, unsigned long long edge2,
                   unsigned long long low, unsigned long long high)
{
    int ok = same(what, answer, r.answer) & same("edge of generator 1", 0, r.values.w1);
    ok &= same("edge of generator 2", edge2, r.values.w2) & same("ticks, low", low, r.values.w3);
    return ok & same("ticks, high", high, r.values.w4) & same("value 5", 0, r.values.w5);
}

static int steered_by(const char *what, lendaru_adjustment a, unsigned long long amount, unsigned long long cycles)
{
    return same(what, amount, a.amount) & same("cycles of it", cycles, a.cycles);
}

/* From the tick above the exact time is 5 s 16 ns and 0x40800020 / 2^32, about 0.252 ns. Two more cycles of 9.252 ns
 * end the first adjustment at 34 ns and 3 x 0x40800020 = 0xC1800060, and the other, of 7 ns and 0x40200080, is taken
 * up. Its 4 cycles, 28 ns and 4 x 0x40200080 = 2^32 + 0x800200, end at 63 ns and 0xC2000260, about 63.758 ns. 26 cycles
 * of 8 ns bring it to 271.758 ns, past generator 2's instant of 266 + 2/7 ns; the last of them starts at 263.758 ns, so
 * the edge falls at eighth 2. TAC is latched at each of the two ends. */
static int runs_over_adjustments(lendaru_engine *e)
{
    static const lendaru_command interrupts = {5, 0, 0, 0, 0, 0, 0, 0, 0};
    int ok = replied("a run to the end of the first", lendaru_run(e, 2), 0, 0, 2, 0);
    ok &= same("nanoseconds", 34, e->clock.nanoseconds);
    ok &= same("fraction", 0xC1, e->clock.fraction) & same("remainder", 0x800060, e->clock.remainder);
    ok &= steered_by("taken up", e->steering.adjustment, 0x740200080ull, 4);
    ok &= steered_by("none waits", e->steering.waiting, 0, 0);
    /* TS2_NE, TS3_NE and TAC */
    ok &= same("interrupts", 1 << 10 | 1 << 12 | 1, lendaru_execute(e, interrupts).values.w1);
    ok &= replied("a run to an edge", lendaru_run(e, 1000000), 0, 1 + 2, 4 + 26, 0);
    ok &= same("seconds after a run", 5, e->clock.seconds) & same("nanoseconds", 271, e->clock.nanoseconds);
    ok &= same("fraction", 0xC2, e->clock.fraction) & same("remainder", 0x260, e->clock.remainder);
    ok &= steered_by("none runs", e->steering.adjustment, 0, 0);
    return ok & same("TAC alone", 1, e->interrupts.latched) & same("left", 3, e->generator2.left);
}

/* With the generator stopped, 70,000 cycles of 8 ns are 65,536 + 4,464. */
static int runs(lendaru_engine *e)
{
    static const lendaru_command stop = {4, 2, 0, 0, 0, 0, 0, 0, 0};
    int ok = replied("no ticks", lendaru_run(e, 0), 6, 0, 0, 0);
    ok &= replied("too many ticks", lendaru_run(e, 1000001), 6, 0, 0, 0);
    ok &= same("nanoseconds after refusals", 16, e->clock.nanoseconds);
    ok &= runs_over_adjustments(e);
    ok &= same("stop", 0, lendaru_execute(e, stop).answer);
    ok &= replied("a run by count", lendaru_run(e, 70000), 0, 0, 4464, 1);
    ok &= same("nanoseconds", 560271, e->clock.nanoseconds);
    e->clock.seconds = 0xFFFFFFFFFFFFull;
    e->clock.nanoseconds = 999999992;
    ok &= replied("a run at the end of time", lendaru_run(e, 1), 15, 0, 0, 0);
    e->clock.nanoseconds = 1000000000;
    ok &= replied("a run on a malformed record", lendaru_run(e, 1), 4, 0, 0, 0);
    e->clock.nanoseconds = 0;
    e->steering.waiting.amount = 8ull << 32;
    e->steering.waiting.cycles = 1;
    return ok & replied("a run where one waits and none runs", lendaru_run(e, 1), 4, 0, 0, 0);
}

/* 9 ns for two cycles and 8 ns for three are 42 ns; a preview shows them, and leaves every byte of the record. */
static int preview(void)
{
    static const lendaru_command load = {1, 0, 2, 0, 0, 0x0900, 0, 0, 0}, show = {10, 5, 0, 0, 0, 0, 0, 0, 0};
    lendaru_engine e = lendaru_power_on(), before;
    lendaru_reply r;
    int ok = same("load", 0, lendaru_execute(&e, load).answer);
    before = e;
    r = lendaru_execute(&e, show);
    ok &= same("preview", 0, r.answer) & same("nanoseconds of a preview", 42, r.values.w4);
    ok &= same("seconds of a preview", 0, r.values.w1 + r.values.w2 + r.values.w3 + r.values.w5);
    return ok & same("bytes that a preview changed", 0, memcmp(&e, &before, sizeof e) != 0);
}

int main(void)
{
    lendaru_engine e;
    int ok = numbers() & advanced(&e) & clock_and_words(&e);
    ok &= same("count of FIFO 1", 0, e.fifo1.count) & same("edges left of generator 1", 0, e.generator1.left);
    ok &= holds_one(&e.fifo2, 7, 0) & holds_one(&e.fifo3, 12, 1) & generator_2(&e.generator2);
    ok &= runs(&e) & preview();
    return !ok;
}
