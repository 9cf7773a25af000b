/* The outline's bench example through the library: prints what `trace` prints for f 0 10, a, d 0, d 1, d 1. */
#include <stdio.h>
#include <stdlib.h>

#include "cwazibuthu.h"

static const uint8_t net_sheet[74] = {
    0x00, 0x08, 0, 0, 0, 0, 0, 0, 0, 0, 0, 0, /* 0: IN, 8 bits */
    0x02, 0x08, 2, 0, 0, 0, 0, 0, 5, 0, 0, 0, /* 1: REG of 2, first 5 */
    0x23, 0x08, 0, 0, 1, 0, 0, 0, 0, 0, 0, 0, /* 2: ADD of 0 and 1 */
    0x10, 0x08, 1, 0, 0, 0, 0, 0, 0, 0, 0, 0, /* 3: NOT of 1 */
    2, 0, 3, 0,                               /* outputs 2 and 3 */
    2, 0, 3, 's', 'u', 'm',                   /* label of node 2 */
    6, 0, 0, 0, 10, 0, 0, 0, 58, 0, 0, 0, 1, 0, 'S', 'N',
};
static const uint8_t cut_sheet[25] = {0, 1, 0, 1, 1, 1, 1, 1, 1, 0, 0, 0, 0, 5, 0, 0, 0, 9, 0, 0, 0, 1, 0, 'S', 'C'};

int main(void) {
    cwazi_opened *o = malloc(sizeof *o);
    cwazi_drained d;
    int turn;
    if (o == NULL) return 2;
    *o = cwazi_open(net_sheet, sizeof net_sheet, cut_sheet, sizeof cut_sheet, CWAZI_LIMIT);
    if (o->answer != CWAZI_DONE) {
        printf("open %u %zu\n", (unsigned)o->answer, o->place);
        return 1;
    }
    printf("open 0 %zu %zu %zu %zu\n", o->plan.nodes, o->plan.parts, o->plan.queues, o->plan.rules);
    printf("%u\n", (unsigned)cwazi_feed(&o->plan, &o->network, 0, 10));
    printf("0 %zu\n", cwazi_round(&o->plan, &o->network));
    for (turn = 0; turn < 3; turn++) {
        d = cwazi_drain(&o->plan, &o->network, turn == 0 ? 0 : 1);
        if (d.answer == CWAZI_DONE)
            printf("0 %u\n", (unsigned)d.value);
        else
            printf("%u\n", (unsigned)d.answer);
    }
    free(o);
    return 0;
}
