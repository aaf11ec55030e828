/* Runs document 01's whole example through the static library, and prints its five lines.
 *
 *     tools/archives lendaru
 *     cc -Iinclude examples/whole_example.c target/staticlib/liblendaru.a -o whole_example && ./whole_example
 */
#include <stdio.h>
#include <string.h>

#include "lendaru.h"

static const char sheet[] =
    "op,a,b,c,d,e,f,g,h\n"
    "3,1,0,3,256,1,3,4,0\n" /* arm generator 1 at 3 ns, every 256 + 1/3 ns, four edges */
    "0,16,0,0,0,0,0,0,0\n"  /* tick, a rising edge at eighth 7 on input 1 */
    "2,16,1,0,0,0,0,0,0\n"  /* read the oldest timestamp of FIFO 1 */
    "5,0,0,0,0,0,0,0,0\n";  /* read the interrupt bits */

static uint8_t results[LENDARU_RESULTS_ROOM];

int main(void)
{
    if (lendaru_sheet_version() != LENDARU_SHEET_VERSION) {
        fprintf(stderr, "this program writes sheets of version %d\n", LENDARU_SHEET_VERSION);
        return 1;
    }
    size_t length = lendaru_run_sheet((const uint8_t *)sheet, strlen(sheet), results, sizeof results);
    if (length == 0) {
        fprintf(stderr, "the buffer has %zu bytes, and %zu are needed\n", sizeof results, lendaru_results_room());
        return 1;
    }
    fwrite(results, 1, length, stdout);
    return 0;
}
