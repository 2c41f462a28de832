/* A handover of a minute through the C interface, in edition 2 of the witness: judged, and the witness checked.
 * What scratch and room it takes is asked of the library: 30 and 31 name the bytes wanted.
 *
 * tools/staticlib
 * gcc -std=c11 -Wall -Wextra -pedantic -Iinclude samples/r05.c target/staticlib/liblutarosa.a -o /tmp/r05
 * /tmp/r05 samples/small.table samples/r05.recording
 *
 * It prints number, second and third value, for judging also the two counts of a rejection, and for checking:
 *
 *    0 1139872 3 0 0
 *    0 1 3
 */
#include <inttypes.h>
#include <stdio.h>
#include <stdlib.h>

#include "files.h"
#include "lutarosa.h"

static uint8_t table[65537], recording[65537];

static uint8_t *lent(size_t length) {
    uint8_t *bytes = malloc(length == 0 ? 1 : length);
    if (bytes == NULL) {
        perror("malloc");
        exit(1);
    }
    return bytes;
}

int main(int count, char **names) {
    if (count != 3) {
        fprintf(stderr, "usage: r05 TABLE RECORDING\n");
        return 1;
    }
    size_t t = read_file(names[1], table), r = read_file(names[2], recording), s = 0, w = 0;
    struct lutarosa_verdict a;
    uint8_t *scratch = lent(0), *room = lent(0);
    for (;;) {
        a = lutarosa_validate_edition2(table, t, recording, r, UINT32_MAX, scratch, s, room, w);
        if (a.number == 30) {
            free(scratch);
            scratch = lent(s = a.second);
        } else if (a.number == 31) {
            free(room);
            room = lent(w = a.second);
        } else {
            break;
        }
    }
    printf("%" PRIu64 " %" PRIu64 " %" PRIu64 " ", a.number, a.second, a.third);
    printf("%" PRIu64 " %" PRIu64 "\n", a.not_yet, a.no_more);
    if (a.number == 0) {
        struct lutarosa_answer c = lutarosa_check_edition2(table, t, recording, r, room, 9 + 5 * a.third);
        printf("%" PRIu64 " %" PRIu64 " %" PRIu64 "\n", c.number, c.second, c.third);
    }
    free(scratch);
    free(room);
    return 0;
}
