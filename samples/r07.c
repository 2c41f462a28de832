/* A measured loss rate through the C interface: one recording judged under five rules, and the witness that the
 * first of them leaves, which forbids nothing, checked against the third.
 *
 * tools/staticlib
 * gcc -std=c11 -Wall -Wextra -pedantic -Iinclude samples/r07.c target/staticlib/liblutarosa.a -o /tmp/r07
 * /tmp/r07 samples/small.table samples/r07.recording
 *
 * It prints of each rule device, window and most, then number, second and third value; and those of the check:
 *
 *    1 1 1: 0 9 5
 *    1 2 1: 0 9 5
 *    1 3 1: 1 8 7
 *    1 3 2: 0 9 5
 *    1 1 0: 1 4 4
 *    the first witness under 1 3 1: 43 3 0
 */
#include <inttypes.h>
#include <stdio.h>

#include "files.h"
#include "lutarosa.h"

static uint8_t table[65537], recording[65537], scratch[65536], room[23045], first[23045];

static const uint8_t rules[5][3] = {{1, 1, 1}, {1, 2, 1}, {1, 3, 1}, {1, 3, 2}, {1, 1, 0}};

int main(int count, char **names) {
    if (count != 3) {
        fprintf(stderr, "usage: r07 TABLE RECORDING\n");
        return 1;
    }
    size_t t = read_file(names[1], table), r = read_file(names[2], recording), rows = 0;
    for (int i = 0; i < 5; i++) {
        const uint8_t *rule = rules[i];
        uint8_t *witness = i == 0 ? first : room;
        struct lutarosa_verdict a = lutarosa_validate_rule(table, t, recording, r, 10000, rule[0], rule[1], rule[2],
                                                           scratch, sizeof scratch, witness, sizeof room);
        printf("%u %u %u: ", rule[0], rule[1], rule[2]);
        printf("%" PRIu64 " %" PRIu64 " %" PRIu64 "\n", a.number, a.second, a.third);
        if (i == 0 && a.number == 0) {
            rows = a.third;
        }
    }
    const uint8_t *rule = rules[2];
    struct lutarosa_answer c = lutarosa_check_rule(table, t, recording, r, first, 5 + 5 * rows, rule[0], rule[1], rule[2]);
    printf("the first witness under %u %u %u: ", rule[0], rule[1], rule[2]);
    printf("%" PRIu64 " %" PRIu64 " %" PRIu64 "\n", c.number, c.second, c.third);
    return 0;
}
