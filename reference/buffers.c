/* Holds each function of the two headers to what it says of the memory that it is lent: sheets that can only be read
 * and sheets that can be written, buffers with just enough room, with more and with too little, records in static
 * memory, on the stack and on the heap. Whatever is not said to change is looked at byte by byte. reference/run
 * compiles it as C and as C++. */
#include <stdlib.h>
#include <string.h>

#include "lendaru.h"
#include "lendaru_panel.h"
#include "same.h"

#define HEAD "line,answer,v1,v2,v3,v4,v5\n"
#define FENCE 0xA5

/* Document 01's whole example, in memory that cannot be written. */
static const uint8_t example[] =
    "op,a,b,c,d,e,f,g,h\n3,1,0,3,256,1,3,4,0\n0,16,0,0,0,0,0,0,0\n2,16,1,0,0,0,0,0,0\n5,0,0,0,0,0,0,0,0\n";
static const char results[] = HEAD "2,0,0,0,0,0,0\n3,0,12,0,0,0,0\n4,0,0,0,0,7,32768\n5,0,256,0,0,0,0\n";

static uint8_t out[LENDARU_RESULTS_ROOM + 100];
static uint8_t large[65537];

static int all_fence(const uint8_t *from, const uint8_t *to)
{
    while (from < to && *from == FENCE)
        from++;
    return from == to;
}

/* One sheet into a buffer of so much room: the text, and behind it nothing. */
static int leaves(const char *what, const uint8_t *sheet, size_t length, size_t room, const char *text)
{
    size_t size = strlen(text);
    memset(out, FENCE, sizeof out);
    int ok = same(what, size, lendaru_run_sheet(sheet, length, out, room));
    ok &= same("text", 1, memcmp(out, text, size) == 0);
    return ok & same("bytes behind the text as they were", 1, all_fence(out + size, out + sizeof out));
}

static int sheets(void)
{
    uint8_t own[sizeof example + 20];
    size_t length = sizeof example - 1;
    int ok = leaves("just enough room", example, length, LENDARU_RESULTS_ROOM, results);
    ok &= leaves("room told by the library", example, length, lendaru_results_room(), results);
    ok &= leaves("more room", example, length, sizeof out, results);
    ok &= leaves("a byte too little", example, length, LENDARU_RESULTS_ROOM - 1, "");
    ok &= leaves("no room", example, length, 0, "");
    ok &= leaves("an empty sheet", example, 0, sizeof out, HEAD "1,2,0,0,0,0,0\n");
    ok &= leaves("the first line alone", example, 19, sizeof out, HEAD);
    ok &= leaves("a sheet cut in line 3", example, 50, sizeof out, HEAD "3,3,0,0,0,0,0\n");
    ok &= leaves("65,537 bytes", large, sizeof large, sizeof out, HEAD "0,1,0,0,0,0,0\n");
    memset(own, FENCE, sizeof own);
    memcpy(own + 10, example, length);
    ok &= leaves("a sheet that can be written", own + 10, length, sizeof out, results);
    ok &= same("the sheet as it was", 1, memcmp(own + 10, example, length) == 0);
    return ok & same("bytes beside the sheet as they were", 1,
                     all_fence(own, own + 10) & all_fence(own + 10 + length, own + sizeof own));
}

/* A run to generator 1's second edge, after an arming and a tick with an edge on input 1: the example's numbers, and 32
 * ticks to the falling edge at 259 1/3 ns, in the cycle from 256 ns on, eighth 3. */
static int works_on(lendaru_engine *e)
{
    static const lendaru_command arm = {3, 1, 0, 3, 256, 1, 3, 4, 0};
    static const lendaru_command tick = {0, 16, 0, 0, 0, 0, 0, 0, 0};
    lendaru_reply reply;
    *e = lendaru_power_on();
    int ok = same("arming", 0, lendaru_execute(e, arm).answer);
    reply = lendaru_execute(e, tick);
    ok &= same("tick", 0, reply.answer) & same("rising edge", 12, reply.values.w1);
    reply = lendaru_run(e, 1000000);
    ok &= same("run", 0, reply.answer) & same("falling edge", 4, reply.values.w1);
    return ok & same("ticks", 32, reply.values.w3) & same("nanoseconds", 264, e->clock.nanoseconds);
}

static int records(void)
{
    static struct {
        uint8_t before[64];
        lendaru_engine engine;
        uint8_t behind[64];
    } fenced;
    lendaru_engine own;
    lendaru_engine *heap = (lendaru_engine *)malloc(sizeof *heap);
    if (heap == NULL)
        return 0;
    memset(&fenced, FENCE, sizeof fenced);
    int ok = works_on(&fenced.engine) & works_on(&own) & works_on(heap);
    ok &= same("bytes before the record as they were", 1, all_fence(fenced.before, fenced.before + 64));
    ok &= same("bytes behind the record as they were", 1, all_fence(fenced.behind, fenced.behind + 64));
    ok &= same("one record in static memory and on the stack", 0, memcmp(&fenced.engine, &own, sizeof own) != 0);
    ok &= same("one record on the heap and on the stack", 0, memcmp(heap, &own, sizeof own) != 0);
    free(heap);
    return ok;
}

int main(void)
{
    return !(sheets() & records());
}
