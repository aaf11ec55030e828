/* A panel's day on a lent record: power on, set the time, steer, arm, tick with an input, read the timestamp and the
 * interrupts, save the record and load it again, run for ten seconds of engine time, print the time.
 *
 *     tools/archives lendaru_panel lendaru_run
 *     cc -Iinclude examples/panel.c target/staticlib/liblendaru_panel.a target/staticlib/liblendaru_run.a -o panel
 *     ./panel
 */
#include <inttypes.h>
#include <stdio.h>
#include <string.h>

#include "lendaru_panel.h"

/* The most that one run takes, and ten seconds of the 125 MHz reference. */
#define RUN_MOST 1000000u
#define TEN_SECONDS 1250000000u

static lendaru_engine engine;

/* What came back; a refusal is told and ends the day. */
static int accepted(const char *what, lendaru_reply reply, lendaru_words *values)
{
    if (reply.answer != 0) {
        fprintf(stderr, "%s: refused with %" PRIu64 "\n", what, reply.answer);
        return 0;
    }
    if (values)
        *values = reply.values;
    return 1;
}

/* One command on the record. */
static int execute(const char *what, lendaru_command c, lendaru_words *values)
{
    return accepted(what, lendaru_execute(&engine, c), values);
}

static uint64_t seconds(const lendaru_words *w) { return w->w3 << 32 | w->w2 << 16 | w->w1; }
static uint64_t nanoseconds(const lendaru_words *w) { return (w->w5 & 0x3FFF) << 16 | w->w4; }

/* An edge that a tick or a run returned: codes 1 to 8 fall at eighths 0 to 7, and 9 to 16 rise there. */
static void print_edge(uint64_t cycle, uint64_t code)
{
    printf("edge of generator 1: cycle %" PRIu64 ", %s at eighth %" PRIu64 "\n", cycle,
           code >= 9 ? "rising" : "falling", (code - 1) % 8);
}

static int print_interrupts(void)
{
    lendaru_words v;
    if (!execute("interrupts", (lendaru_command){5, 0, 0, 0, 0, 0, 0, 0, 0}, &v))
        return 0;
    printf("interrupts: 0x%04" PRIx64 "\n", v.w1);
    return 1;
}

/* Runs on from a cycle to the end of the ten seconds. A run ends after an edge, so `cycle` is then the edge's. */
static int run_on(uint64_t cycle)
{
    unsigned calls = 0;
    while (cycle < TEN_SECONDS) {
        uint64_t left = TEN_SECONDS - cycle;
        lendaru_words v;
        if (!accepted("run", lendaru_run(&engine, left < RUN_MOST ? left : RUN_MOST), &v))
            return 0;
        calls++;
        cycle += v.w4 << 16 | v.w3;
        if (v.w1 != 0)
            print_edge(cycle, v.w1);
    }
    printf("%" PRIu64 " cycles, all but the first in %u runs\n", cycle, calls);
    return 1;
}

int main(void)
{
    uint8_t flash[sizeof engine];
    lendaru_words v;
    if (lendaru_record_version() != LENDARU_RECORD_VERSION) {
        fprintf(stderr, "header and library are of two versions\n");
        return 1;
    }
    engine = lendaru_power_on();

    /* words for 1,000,000 s 0 ns, then TIME; words for 8.5 ns in 100 cycles, then adjust */
    int ok = execute("load", (lendaru_command){1, 16960, 15, 0, 0, 0, 0, 0, 0}, NULL)
        && execute("TIME", (lendaru_command){2, 0, 8, 0, 0, 0, 0, 0, 0}, NULL)
        && execute("load", (lendaru_command){1, 0, 100, 0, 0, 2176, 0, 0, 0}, NULL)
        && execute("adjust", (lendaru_command){2, 2, 8, 0, 0, 0, 0, 0, 0}, NULL)
        /* generator 1 at 1,000,000 s 3 ns, every 999,999,999 + 1/3 ns, four edges, marked; P1EC enabled */
        && execute("arm", (lendaru_command){3, 1, 1000000, 3, 999999999, 1, 3, 4, 1}, NULL)
        && execute("mask", (lendaru_command){6, 2, 0, 0, 0, 0, 0, 0, 0}, NULL)
        /* a cycle with a rising edge at eighth 5 of input 2 */
        && execute("tick", (lendaru_command){0, 0, 14, 0, 0, 0, 0, 0, 0}, &v);
    if (!ok)
        return 1;
    print_edge(1, v.w1);

    if (!execute("read", (lendaru_command){2, 16, 2, 0, 0, 0, 0, 0, 0}, &v))
        return 1;
    printf("timestamp: %" PRIu64 " s %" PRIu64 " ns, %s\n", seconds(&v), nanoseconds(&v),
           v.w5 >> 15 ? "rising" : "falling");
    if (!print_interrupts())
        return 1;

    memcpy(flash, &engine, sizeof engine);
    memset(&engine, 0, sizeof engine);
    printf("a blank record: %" PRIu64 "\n", lendaru_run(&engine, 1).answer);
    memcpy(&engine, flash, sizeof engine);

    if (!run_on(1) || !print_interrupts() || !execute("time", (lendaru_command){2, 16, 0, 0, 0, 0, 0, 0, 0}, &v))
        return 1;
    printf("time: %" PRIu64 " s %" PRIu64 " ns\n", seconds(&v), nanoseconds(&v));
    return 0;
}
