/* Lutarosa: can a unit have kept its protocol, from what a sniffer heard?
 *
 * Tables, recordings and witnesses are bytes in the formats of document 01; the times of a witness rise strictly (R-3
 * of document 02). A table has version 1 or 2; in version 2 the record of a kind has a third byte, the device that sends
 * it: 0 if from the unit, 1 to 15 if to it. Devices change no answer but 14 and those of a call under a rule
 * . The times of a recording go to 65535, and a witness has one of two editions, which the caller names by
 * the function:
 *
 *                            edition 1          edition 2, functions ..._edition2
 *    length, row count       two bytes each     four bytes each
 *    version byte            1                  2
 *    rows                    at most 4608       at most 65535
 *    times of rows           1 to 4096          1 to 65535
 *
 * Any bytes may be handed in: what is wrong with them is told by a number. A call always returns and keeps nothing of
 * what it was lent.
 *
 * A slice is a pointer and a length in bytes. The pointer must not be null, even if the length is 0. A slice that a call
 * writes (scratch, room) must not overlap another slice of that call. While the call runs, nothing else may write its
 * slices, nor read those that it writes.
 *
 * Link with liblutarosa.a (x86-64 Linux), which needs memcpy and memset of the C library, and about 811 KB of stack for a
 * validation, 36 KB for any other call (measured, not proved).
 */
#ifndef LUTAROSA_H
#define LUTAROSA_H

#include <stddef.h>
#include <stdint.h>

#ifdef __cplusplus
extern "C" {
#endif

/* Document 01's numbers. What 0, 1 and 2 mean stands at each function. From 10 on an answer is a refusal, with
 * every lent byte untouched:
 *
 *    10 to 16   the table is not sound         second: where (document 01)
 *    17         a state of the table cannot    second: the lowest such state
 *               be reached from state 0
 *    20 to 24   the recording is not sound     second: where; for 23 and 24 the row, from 0
 *    25         the rule is out of range:      second: 0
 *               device above 15, window not
 *               1 to 8, most above window
 *    26         N times 2 to the power         second: 0
 *               window - 1 is above 65536
 *    30         scratch too short              second: bytes wanted
 *    31         witness room too short         second: bytes wanted; 0 if the last recorded time is above
 *                                              4096, for which edition 1 is not written however large
 *                                              the room
 *    33         room too short to rewrite      second: bytes wanted
 *    40 to 43   the witness is not permitted   second: where; for 41 and 42 the offset of version and
 *                                              count, 2 and 3 or, in edition 2, 4 and 5; for 43 the row,
 *                                              from 0, or the row count if recorded rows are left
 *                                              unaccounted for
 */
struct lutarosa_answer {
    uint64_t number;
    uint64_t second;
    uint64_t third;
};

/* A verdict has two counts besides, both 0 where nothing is rejected: over the situations that were possible just
 * before the moves of the rejected instant and had the air free, and the transitions of the recorded kind from their
 * state, the pairs whose guard did not hold
 *
 *    not_yet    but would after waiting for some ticks: the packet came too early
 *    no_more    and would not after any wait: the packet came too late, or never fits
 */
struct lutarosa_verdict {
    uint64_t number;
    uint64_t second;
    uint64_t third;
    uint64_t not_yet;
    uint64_t no_more;
};

/* Judges a recording against a table, at a cost of at most the budget.
 *
 *    0   accepted     second: cost     third: rows of the witness
 *    1   rejected     second: cost     third: instant after whose moves nothing is left
 *                     not_yet, no_more: as above
 *    2   exhausted    second: budget   third: instant at which the cost passes it
 *
 * Lent, whatever they hold: a scratch of (T + 1) * S bytes and a room of 5 + 5 * (T + n) bytes, in edition 2 of
 * 9 + 5 * (T + n) bytes, with T the last recorded time, n the recorded rows, and S an eighth of document 01's N, rounded
 * up. Always enough: in edition 2, 536870912 and 330244; in edition 1, for a T up to 4096, beyond which it is not
 * written, 33562624 and 23045. The largest cost is 4294901760, so there is a budget that suffices for every call.
 * After 0, 1 and 2 the wanted part of the scratch is zero. After 0 the preferred witness stands at the start of the room,
 * 5 + 5 * rows bytes, in edition 2 9 + 5 * rows. All other lent bytes are as they were.
 */
struct lutarosa_verdict lutarosa_validate(const uint8_t *table, size_t table_length,
                                          const uint8_t *recording, size_t recording_length,
                                          uint32_t budget,
                                          uint8_t *scratch, size_t scratch_length,
                                          uint8_t *room, size_t room_length);

struct lutarosa_verdict lutarosa_validate_edition2(const uint8_t *table, size_t table_length,
                                                   const uint8_t *recording, size_t recording_length,
                                                   uint32_t budget,
                                                   uint8_t *scratch, size_t scratch_length,
                                                   uint8_t *room, size_t room_length);

/* Checks a witness against a table and a recording.
 *
 *    0   permitted    second: removed and added rows   third: rows
 */
struct lutarosa_answer lutarosa_check(const uint8_t *table, size_t table_length,
                                      const uint8_t *recording, size_t recording_length,
                                      const uint8_t *witness, size_t witness_length);

struct lutarosa_answer lutarosa_check_edition2(const uint8_t *table, size_t table_length,
                                               const uint8_t *recording, size_t recording_length,
                                               const uint8_t *witness, size_t witness_length);

/* The same under a measured loss rate: in any window of so many consecutive kept or added rows at most so many are
 * added rows from the device; fewer rows than a window are one window. Removed rows are not counted. window is 1 to 8,
 * most 0 to window, device 0 to 15: 0 is the unit, and in a version 1 table 1 sends all that is to it.
 *
 * Judging looks for traces that keep the rule alone, and 1 then says "rejected as unlikely": no trace within this loss
 * rate explains the recording, while a trace beyond it may. A situation also holds which of the last window - 1 kept or
 * added rows were added ones from the device: N grows to N times 2 to the power window - 1, in S and in the largest cost.
 * What is always enough stays. A witness is permitted if its rows keep the rule too, and 43 names the row by which they
 * first do not. With window 1 and most 1 every answer is that of the call without a rule.
 */
struct lutarosa_verdict lutarosa_validate_rule(const uint8_t *table, size_t table_length,
                                               const uint8_t *recording, size_t recording_length,
                                               uint32_t budget,
                                               uint8_t device, uint8_t window, uint8_t most,
                                               uint8_t *scratch, size_t scratch_length,
                                               uint8_t *room, size_t room_length);

struct lutarosa_verdict lutarosa_validate_rule_edition2(const uint8_t *table, size_t table_length,
                                                        const uint8_t *recording, size_t recording_length,
                                                        uint32_t budget,
                                                        uint8_t device, uint8_t window, uint8_t most,
                                                        uint8_t *scratch, size_t scratch_length,
                                                        uint8_t *room, size_t room_length);

struct lutarosa_answer lutarosa_check_rule(const uint8_t *table, size_t table_length,
                                           const uint8_t *recording, size_t recording_length,
                                           const uint8_t *witness, size_t witness_length,
                                           uint8_t device, uint8_t window, uint8_t most);

struct lutarosa_answer lutarosa_check_rule_edition2(const uint8_t *table, size_t table_length,
                                                    const uint8_t *recording, size_t recording_length,
                                                    const uint8_t *witness, size_t witness_length,
                                                    uint8_t device, uint8_t window, uint8_t most);

/* Each reads bytes and writes what it read into the room. Sound bytes come out the same, in either version of a table
 * and in either edition of a witness, so a room of their length is enough. A recording is read against a table; of a
 * witness the form alone is judged.
 *
 *    0   written      second: bytes written, at the start of the room; the rest of the room is as it was
 */
struct lutarosa_answer lutarosa_rewrite_table(const uint8_t *bytes, size_t length,
                                              uint8_t *room, size_t room_length);

struct lutarosa_answer lutarosa_rewrite_recording(const uint8_t *table, size_t table_length,
                                                  const uint8_t *bytes, size_t length,
                                                  uint8_t *room, size_t room_length);

struct lutarosa_answer lutarosa_rewrite_witness(const uint8_t *bytes, size_t length,
                                                uint8_t *room, size_t room_length);

struct lutarosa_answer lutarosa_rewrite_witness_edition2(const uint8_t *bytes, size_t length,
                                                         uint8_t *room, size_t room_length);

#ifdef __cplusplus
}
#endif

#endif
