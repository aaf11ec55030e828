/* Lendaru: the time engine as a static library (liblendaru.a, made by `tools/archives lendaru`; x86-64).
 *
 * Every function here is proved in crates/lendaru to do what is said, for all bytes. Nothing is allocated, no state is
 * kept between calls, and no function calls the operating system; of the C library the archive needs memcpy at most.
 * What a caller owes is what C cannot check: that each pointer and length name memory that is really there and that
 * nothing else writes meanwhile.
 */
#ifndef LENDARU_H
#define LENDARU_H

#include <stddef.h>
#include <stdint.h>

#ifdef __cplusplus
extern "C" {
#endif

/* Bytes that are enough for the results of every sheet, as lendaru_results_room() returns it. */
#define LENDARU_RESULTS_ROOM 138309

/* The version of the sheet format, as lendaru_sheet_version() returns it. Version 2 has run lines, op 9,
 * version 3 previews, op 10, version 4 values in base 16, and version 5 departure times, ops 11 and 12. */
#define LENDARU_SHEET_VERSION 5

/* LENDARU_SHEET_VERSION.
 * Needs: nothing. Leaves: nothing changed. */
uint64_t lendaru_sheet_version(void);

/* LENDARU_RESULTS_ROOM.
 * Needs: nothing. Leaves: nothing changed. */
size_t lendaru_results_room(void);

/* Runs a command sheet from power-on.
 *
 * Needs: `sheet` points to `sheet_length` bytes, of any content and any length (0 is allowed); `out` points to
 * `out_length` bytes that do not overlap the sheet. A pointer is not null, even where its length is 0.
 *
 * Leaves: where out_length is at least LENDARU_RESULTS_ROOM, the text of the results at the front of `out` (no 0 byte
 * is added) and the bytes behind it as they were; returns the length of the text, at least 27. Where out_length is
 * less, `out` as it was; returns 0. The sheet is never changed.
 *
 * The text is `line,answer,v1,v2,v3,v4,v5` and a line for each command, or for a refused sheet that head and one line
 * (docs/GUIDE.md). */
size_t lendaru_run_sheet(const uint8_t *sheet, size_t sheet_length, uint8_t *out, size_t out_length);

#ifdef __cplusplus
}
#endif

#endif
