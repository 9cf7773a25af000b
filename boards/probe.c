/* What the compiled library really stores, seen through the header: every element of every field, on sheets that fill every array.
 *
 * The expected fields are worked out here from the sheets' own rules, slowly and apart from the library, so that a field which the header has in
 * the wrong place is found. Prints each field that is wrong, and a last line with the number of elements compared.
 */
#include <stdio.h>
#include <stdlib.h>
#include <string.h>

#include "cwazibuthu.h"

static unsigned long compared, wrong;

/* Compares a field whole; the element's type is the header's. */
#define FIELD(name, got, want)                                                                     \
    do {                                                                                           \
        size_t i_, n_ = sizeof(got) / sizeof((got)[0]);                                            \
        compared += n_;                                                                            \
        for (i_ = 0; i_ < n_; i_++)                                                                \
            if ((got)[i_] != (want)[i_]) {                                                         \
                printf("%s[%zu] is %llu and not %llu\n", name, i_, (unsigned long long)(got)[i_], \
                       (unsigned long long)(want)[i_]);                                            \
                wrong++;                                                                           \
                break;                                                                             \
            }                                                                                      \
    } while (0)
#define ONE(name, got, want)                                                                                               \
    do {                                                                                                                   \
        compared++;                                                                                                        \
        if ((unsigned long long)(got) != (unsigned long long)(want)) {                                                     \
            printf("%s is %llu and not %llu\n", name, (unsigned long long)(got), (unsigned long long)(want)); \
            wrong++;                                                                                                       \
        }                                                                                                                  \
    } while (0)

enum { IN = 0x00, CONST = 0x01, REG = 0x02, MUX = 0x50, INS = 414, RING = 416, REST = 448, PARTS = 32, CHANNELS = 34, PUTS = CHANNELS + CWAZI_OUTPUTS };

static cwazi_netlist net;
static cwazi_cut cut;
static cwazi_queues queues;
static cwazi_plan plan;
static uint8_t net_sheet[CWAZI_NET_SHEET], cut_sheet[CWAZI_CUT_SHEET], image[CWAZI_NET_SHEET + 8];
static size_t net_length, cut_length;

static void node(size_t i, uint8_t code, uint8_t width, uint16_t a, uint16_t b, uint16_t c, uint32_t k) {
    net.code[i] = code, net.width[i] = width, net.a[i] = a, net.b[i] = b, net.c[i] = c, net.k[i] = k;
}

/* 4,096 bytes of entries from a node on: 120 of 31 bytes of text and one of 13. */
static void label_section(uint8_t *label, size_t from, uint8_t first) {
    size_t entry, at = 0, i;
    for (entry = 0; entry < 121; entry++) {
        size_t length = entry < 120 ? 31 : 13;
        label[at] = (uint8_t)(from + entry), label[at + 1] = (uint8_t)((from + entry) >> 8), label[at + 2] = (uint8_t)length;
        for (i = 0; i < length; i++) label[at + 3 + i] = (uint8_t)(0x20 + (first + 3 * entry + 7 * i) % 95);
        at += 3 + length;
    }
}

/* 414 INs and two constants, a ring of 32 REGs through the 32 parts, 576 nodes of the other codes, each in its part with its operands, but for one
 * MUX that reads other parts' REGs too; the last row is MUXes or REGs. */
static void draw(int last_are_registers) {
    static const uint8_t rows[18] = {0x10, 0x11, 0x12, 0x13, 0x20, 0x21, 0x22, 0x23, 0x24, 0x30, 0x31, 0x40, 0x41, MUX, 0x51, 0x52, CONST, MUX};
    size_t i, q;
    memset(&net, 0, sizeof net);
    memset(&cut, 0, sizeof cut);
    net.nodes = CWAZI_NODES;
    for (i = 0; i < CWAZI_NODES; i++) {
        uint16_t p = (uint16_t)(i % PARTS), any = (uint16_t)(REST + 2 * PARTS + p), par = (uint16_t)(REST + 3 * PARTS + p);
        uint8_t w = (uint8_t)(p + 1), code = i < INS ? IN : i < RING ? CONST : i < REST ? REG : rows[(i - REST) / PARTS];
        size_t row = i < REST ? 0 : (i - REST) / PARTS;
        cut.part[i] = (uint8_t)p;
        if (row == 17 && last_are_registers) code = REG;
        if (code == IN)
            node(i, IN, w, 0, 0, 0, 0);
        else if (i < RING)
            node(i, CONST, w, 0, 0, 0, 1);
        else if (i < REST)
            node(i, REG, 32, (uint16_t)(RING + (p + 1) % PARTS), 0, 0, 0x80000000u + 7919u * p);
        else if (code == REG)
            node(i, REG, 32, (uint16_t)i, 0, 0, 0xC0000000u + (uint32_t)i);
        else if (code == CONST)
            node(i, CONST, 32, 0, 0, 0, 0xD0000000u + (uint32_t)i);
        else if (code < 0x12)
            node(i, code, w, p, 0, 0, 0);
        else if (code < 0x20)
            node(i, code, 1, (uint16_t)(p + 32 * (code & 1)), 0, 0, 0);
        else if (code == 0x30 || code == 0x31)
            node(i, code, 1, p, (uint16_t)(p + 64), 0, 0);
        else if (code < MUX)
            node(i, code, w, (uint16_t)(p + 32 * (code & 7)), (uint16_t)(p + 96), 0, 0);
        else if (code == MUX && row == 13 && p == 31)
            node(i, MUX, w, any, RING + 5, RING + 9, 0);
        else if (code == MUX)
            node(i, MUX, w, row == 17 ? par : any, (uint16_t)(p + 128), (uint16_t)(p + 160), 0);
        else if (code == 0x51)
            node(i, code, 2, any, par, 0, 0);
        else
            node(i, code, 1, (uint16_t)(RING + p), 0, 0, p);
    }
    net.outputs = CWAZI_OUTPUTS;
    for (i = 0; i < CWAZI_OUTPUTS; i++) net.output[i] = (uint16_t)(1023 - 7 * i);
    net.labels = cut.labels = CWAZI_LABEL_BYTES;
    label_section(net.label, 3, 5);
    label_section(cut.label, 500, 50);
    cut.nodes = CWAZI_NODES;
    cut.queues = CWAZI_QUEUES;
    for (q = 0; q < CWAZI_QUEUES; q++) cut.depth[q] = (uint8_t)(1 + q % 16);
}

static size_t put(uint8_t *sheet, size_t at, uint32_t x, size_t bytes) {
    size_t i;
    for (i = 0; i < bytes; i++) sheet[at + i] = (uint8_t)(x >> (8 * i));
    return at + bytes;
}

static size_t trailer(uint8_t *sheet, size_t at, size_t labels, size_t middle, char mark) {
    size_t end = at;
    at = put(sheet, at, (uint32_t)labels, 4);
    at = put(sheet, at, (uint32_t)(labels + middle), 4);
    at = put(sheet, at, (uint32_t)end, 4);
    at = put(sheet, at, 1, 2);
    sheet[at] = 'S', sheet[at + 1] = (uint8_t)mark;
    return at + 2;
}

static void write_sheets(void) {
    size_t i, at = 0;
    for (i = 0; i < net.nodes; i++) {
        at = put(net_sheet, at, net.code[i], 1);
        at = put(net_sheet, at, net.width[i], 1);
        at = put(net_sheet, at, net.a[i], 2);
        at = put(net_sheet, at, net.b[i], 2);
        at = put(net_sheet, at, net.c[i], 2);
        at = put(net_sheet, at, net.k[i], 4);
    }
    for (i = 0; i < net.outputs; i++) at = put(net_sheet, at, net.output[i], 2);
    memcpy(net_sheet + at, net.label, net.labels);
    net_length = trailer(net_sheet, at + net.labels, net.labels, 2 * net.outputs, 'N');
    memcpy(cut_sheet, cut.part, cut.nodes);
    memcpy(cut_sheet + cut.nodes, cut.depth, cut.queues);
    memcpy(cut_sheet + cut.nodes + cut.queues, cut.label, cut.labels);
    cut_length = trailer(cut_sheet, cut.nodes + cut.queues + cut.labels, cut.labels, cut.queues, 'C');
}

static size_t operands(uint8_t code) {
    return code < 0x02 ? 0 : code < 0x20 || code == 0x52 ? 1 : code == MUX ? 3 : 2;
}

static uint16_t operand(size_t i, size_t slot) { return slot == 0 ? net.a[i] : slot == 1 ? net.b[i] : net.c[i]; }

/* Whether some node of the part uses node m. */
static int reads(size_t part, size_t m) {
    size_t i, slot;
    for (i = 0; i < net.nodes; i++)
        for (slot = 0; slot < operands(net.code[i]); slot++)
            if (cut.part[i] == part && operand(i, slot) == m) return 1;
    return 0;
}

/* The queues and the plan, by the outline's words. */
static void work_out(void) {
    static uint16_t channel[CWAZI_NODES][PARTS];
    size_t i, p, slot, q = 0;
    memset(&queues, 0, sizeof queues);
    memset(&plan, 0, sizeof plan);
    queues.parts = PARTS;
    for (i = 0; i < net.nodes; i++) {
        queues.input[i] = CWAZI_NO_QUEUE;
        if (net.code[i] == IN) {
            queues.input[i] = (uint16_t)q;
            queues.node[q] = (uint16_t)i, queues.from[q] = CWAZI_OUTSIDE, queues.into[q++] = cut.part[i];
        }
    }
    queues.inputs = q;
    for (i = 0; i < net.nodes; i++)
        for (p = 0; p < PARTS; p++)
            if (p != cut.part[i] && reads(p, i)) {
                channel[i][p] = (uint16_t)q;
                queues.node[q] = (uint16_t)i, queues.from[q] = cut.part[i], queues.into[q++] = (uint8_t)p;
            }
    queues.channels = q - queues.inputs;
    for (i = 0; i < net.outputs; i++)
        queues.node[q] = net.output[i], queues.from[q] = cut.part[net.output[i]], queues.into[q++] = CWAZI_OUTSIDE;
    queues.outputs = net.outputs;
    queues.count = q;
    for (i = 0; i < net.nodes; i++) {
        uint16_t via[3], at[3];
        for (slot = 0; slot < 3; slot++) {
            uint16_t m = operand(i, slot);
            int used = slot < operands(net.code[i]), crosses = used && cut.part[m] != cut.part[i];
            via[slot] = crosses ? channel[m][cut.part[i]] : CWAZI_NO_QUEUE;
            at[slot] = (uint16_t)(crosses ? 1024 + via[slot] : used ? m : CWAZI_NO_OPERAND);
        }
        if (net.code[i] == IN) at[0] = (uint16_t)(1024 + queues.input[i]);
        queues.a[i] = via[0], queues.b[i] = via[1], queues.c[i] = via[2];
        plan.ra[i] = at[0], plan.rb[i] = at[1], plan.rc[i] = at[2];
        plan.join[i] = net.width[net.b[i]];
    }
    plan.limit = 3999999999u;
    plan.nodes = net.nodes, plan.parts = PARTS, plan.inputs = queues.inputs, plan.channels = queues.channels, plan.outputs = queues.outputs;
    plan.queues = queues.count, plan.rules = queues.channels + queues.outputs + PARTS;
    memcpy(plan.code, net.code, sizeof plan.code);
    memcpy(plan.width, net.width, sizeof plan.width);
    memcpy(plan.k, net.k, sizeof plan.k);
    memcpy(plan.part, cut.part, sizeof plan.part);
    memcpy(plan.node, queues.node, sizeof plan.node);
    memcpy(plan.from, queues.from, sizeof plan.from);
    memcpy(plan.into, queues.into, sizeof plan.into);
    memcpy(plan.depth, cut.depth, sizeof plan.depth);
}

static void sheets(void) {
    cwazi_net_read *r = malloc(sizeof *r);
    cwazi_cut_read *s = malloc(sizeof *s);
    cwazi_wrote wrote;
    cwazi_spot spot;
    if (r == NULL || s == NULL) exit(2);
    memset(r, 0xA5, sizeof *r);
    memset(s, 0xA5, sizeof *s);
    *r = cwazi_read_net(net_sheet, net_length);
    ONE("net_read.answer", r->answer, 0);
    ONE("net_read.place", r->place, 0);
    ONE("netlist.nodes", r->net.nodes, net.nodes);
    FIELD("netlist.code", r->net.code, net.code);
    FIELD("netlist.width", r->net.width, net.width);
    FIELD("netlist.a", r->net.a, net.a);
    FIELD("netlist.b", r->net.b, net.b);
    FIELD("netlist.c", r->net.c, net.c);
    FIELD("netlist.k", r->net.k, net.k);
    ONE("netlist.outputs", r->net.outputs, net.outputs);
    FIELD("netlist.output", r->net.output, net.output);
    ONE("netlist.labels", r->net.labels, net.labels);
    FIELD("netlist.label", r->net.label, net.label);
    *s = cwazi_read_cut(&net, cut_sheet, cut_length);
    ONE("cut_read.answer", s->answer, 0);
    ONE("cut_read.place", s->place, 0);
    ONE("cut.nodes", s->cut.nodes, cut.nodes);
    FIELD("cut.part", s->cut.part, cut.part);
    ONE("cut.queues", s->cut.queues, cut.queues);
    FIELD("cut.depth", s->cut.depth, cut.depth);
    ONE("cut.labels", s->cut.labels, cut.labels);
    FIELD("cut.label", s->cut.label, cut.label);
    ONE("queues.parts", s->queues.parts, queues.parts);
    ONE("queues.count", s->queues.count, queues.count);
    ONE("queues.inputs", s->queues.inputs, queues.inputs);
    ONE("queues.channels", s->queues.channels, queues.channels);
    ONE("queues.outputs", s->queues.outputs, queues.outputs);
    FIELD("queues.node", s->queues.node, queues.node);
    FIELD("queues.from", s->queues.from, queues.from);
    FIELD("queues.into", s->queues.into, queues.into);
    FIELD("queues.input", s->queues.input, queues.input);
    FIELD("queues.a", s->queues.a, queues.a);
    FIELD("queues.b", s->queues.b, queues.b);
    FIELD("queues.c", s->queues.c, queues.c);
    /* The writers read what is lent to them: the sheets come back, and what is past them stays. */
    memset(image, 0xA5, sizeof image);
    wrote = cwazi_write_net(&net, image, sizeof image);
    ONE("wrote.answer", wrote.answer, 0);
    ONE("wrote.place", wrote.place, 0);
    ONE("wrote.length", wrote.length, net_length);
    ONE("the net sheet's image", memcmp(image, net_sheet, net_length) == 0 && image[net_length] == 0xA5, 1);
    memset(image, 0xA5, sizeof image);
    wrote = cwazi_write_cut(&net, &cut, image, sizeof image);
    ONE("wrote.length of a cut", wrote.length, cut_length);
    ONE("the cut sheet's image", memcmp(image, cut_sheet, cut_length) == 0 && image[cut_length] == 0xA5, 1);
    net.outputs = 64, net.output[63] = 5000;
    wrote = cwazi_write_net(&net, image, sizeof image);
    ONE("wrote.answer of a bad output", wrote.answer, CWAZI_OUTPUT);
    ONE("wrote.place of a bad output", wrote.place, 63);
    ONE("wrote.length of a bad output", wrote.length, 0);
    net.output[63] = (uint16_t)(1023 - 7 * 63);
    /* A label in the net sheet alone, one in the cut sheet, and none. */
    spot = cwazi_label(net_sheet, net_length, cut_sheet, cut_length, 4);
    ONE("spot.cut", spot.cut, 0);
    ONE("spot.found", spot.found, 1);
    ONE("spot.from", spot.from, 12 * 1024 + 2 * 64 + 34 + 3);
    ONE("spot.length", spot.length, 31);
    spot = cwazi_label(net_sheet, net_length, cut_sheet, cut_length, 620);
    ONE("spot.cut of a cut's label", spot.cut, 1);
    ONE("spot.from of a cut's label", spot.from, 1024 + 512 + 120 * 34 + 3);
    ONE("spot.length of a cut's label", spot.length, 13);
    spot = cwazi_label(net_sheet, net_length, cut_sheet, cut_length, 2);
    ONE("spot.cut of none", spot.cut, 0);
    ONE("spot.found of none", spot.found, 0);
    ONE("spot.from of none", spot.from, net_length);
    /* Refused, with places: a record of no width, and a queue of no depth. */
    net_sheet[12 * 700 + 1] = 0;
    *r = cwazi_read_net(net_sheet, net_length);
    net_sheet[12 * 700 + 1] = net.width[700];
    ONE("net_read.answer of a bad record", r->answer, CWAZI_RECORD);
    ONE("net_read.place of a bad record", r->place, 700);
    cut_sheet[1024 + 300] = 0;
    *s = cwazi_read_cut(&net, cut_sheet, cut_length);
    cut_sheet[1024 + 300] = cut.depth[300];
    ONE("cut_read.answer of a bad depth", s->answer, CWAZI_QUEUE_DEPTH);
    ONE("cut_read.place of a bad depth", s->place, 300);
    free(r);
    free(s);
}

static void registers(void) {
    static uint32_t regs[CWAZI_NODES], want[CWAZI_NODES], ins[INS], outs[CWAZI_OUTPUTS + 1];
    size_t i;
    memset(regs, 0xA5, sizeof regs);
    for (i = 0; i < CWAZI_NODES; i++) want[i] = net.code[i] == REG ? net.k[i] : 0;
    cwazi_first_registers(&net, regs);
    FIELD("first registers", regs, want);
    for (i = 0; i < INS; i++) ins[i] = 1;
    outs[CWAZI_OUTPUTS] = 77;
    ONE("step", cwazi_step(&net, regs, ins, INS, outs, CWAZI_OUTPUTS + 1), 0);
    for (i = 0; i < PARTS; i++) want[RING + i] = net.k[RING + (i + 1) % PARTS];
    FIELD("registers after a cycle", regs, want);
    ONE("the place past the outputs", outs[CWAZI_OUTPUTS], 77);
    ONE("steps of too few values", cwazi_steps(&net, regs, 2, ins, INS, outs, CWAZI_OUTPUTS), CWAZI_NO_SUCH);
    ONE("a value too large", (ins[0] = 2, cwazi_step(&net, regs, ins, INS, outs, CWAZI_OUTPUTS)), CWAZI_TOO_LARGE);
    ONE("steps of no cycles", cwazi_steps(&net, regs, 0, ins, 0, outs, 0), 0);
}

static uint32_t value(size_t input, size_t turn) {
    uint32_t x = (uint32_t)(input + 1) * 2654435761u + (uint32_t)turn * 40503u;
    unsigned w = 1 + (unsigned)(input % PARTS);
    return w == 32 ? x : x & ((1u << w) - 1);
}

static void networks(void) {
    static cwazi_network want;
    static uint32_t kinds[4], indexes[4], values[4], drained[4];
    cwazi_opened *o = malloc(sizeof *o);
    cwazi_network *n;
    cwazi_ran ran;
    cwazi_played played;
    cwazi_action actions[4];
    cwazi_network *other = malloc(sizeof *other);
    cwazi_drained d;
    uint32_t first;
    size_t q, t, p, fired;
    if (o == NULL || other == NULL) exit(2);
    memset(o, 0xA5, sizeof *o);
    cut_sheet[31] = 32;
    *o = cwazi_open(net_sheet, net_length, cut_sheet, cut_length, plan.limit);
    cut_sheet[31] = cut.part[31];
    ONE("opened.answer of a bad part", o->answer, CWAZI_PART_NUMBER);
    ONE("opened.place of a bad part", o->place, 31);
    *o = cwazi_open(net_sheet, net_length, cut_sheet, cut_length, plan.limit);
    n = &o->network;
    ONE("opened.answer", o->answer, 0);
    ONE("opened.place", o->place, 0);
    ONE("plan.limit", o->plan.limit, plan.limit);
    ONE("plan.nodes", o->plan.nodes, plan.nodes);
    ONE("plan.parts", o->plan.parts, plan.parts);
    ONE("plan.inputs", o->plan.inputs, plan.inputs);
    ONE("plan.channels", o->plan.channels, plan.channels);
    ONE("plan.outputs", o->plan.outputs, plan.outputs);
    ONE("plan.queues", o->plan.queues, plan.queues);
    ONE("plan.rules", o->plan.rules, plan.rules);
    FIELD("plan.code", o->plan.code, plan.code);
    FIELD("plan.width", o->plan.width, plan.width);
    FIELD("plan.join", o->plan.join, plan.join);
    FIELD("plan.k", o->plan.k, plan.k);
    FIELD("plan.ra", o->plan.ra, plan.ra);
    FIELD("plan.rb", o->plan.rb, plan.rb);
    FIELD("plan.rc", o->plan.rc, plan.rc);
    FIELD("plan.part", o->plan.part, plan.part);
    FIELD("plan.node", o->plan.node, plan.node);
    FIELD("plan.from", o->plan.from, plan.from);
    FIELD("plan.into", o->plan.into, plan.into);
    FIELD("plan.depth", o->plan.depth, plan.depth);
    memset(&want, 0, sizeof want);
    for (q = 0; q < CWAZI_NODES; q++) want.held[q] = net.code[q] == REG ? net.k[q] : 0;
#define NETWORK(when)                                    \
    do {                                                 \
        FIELD("network.cells " when, n->cells, want.cells); \
        FIELD("network.used " when, n->used, want.used);    \
        FIELD("network.flag " when, n->flag, want.flag);    \
        FIELD("network.held " when, n->held, want.held);    \
        FIELD("network.count " when, n->count, want.count); \
    } while (0)
    NETWORK("when opened");
    /* Every input's queue full, each with its own tokens. */
    for (q = 0; q < INS; q++) {
        for (t = 0; t < cut.depth[q]; t++) {
            ONE("feed", cwazi_feed(&o->plan, n, (uint32_t)q, value(q, t)), 0);
            want.cells[16 * q + t] = value(q, t);
        }
        want.used[q] = cut.depth[q];
        ONE("feed of a full queue", cwazi_feed(&o->plan, n, (uint32_t)q, 0), CWAZI_NOT_READY);
    }
    NETWORK("when fed");
    /* The last put rule, that of the last queue, and the first one. */
    ONE("ready", cwazi_ready(&o->plan, n, PUTS - 1), 0);
    ONE("fire of the last put rule", cwazi_fire(&o->plan, n, PUTS - 1), 0);
    ONE("ready again", cwazi_ready(&o->plan, n, PUTS - 1), CWAZI_NOT_READY);
    ONE("fire of the first put rule", cwazi_fire(&o->plan, n, 0), 0);
    want.flag[511] = want.flag[INS] = true;
    want.used[511] = want.used[INS] = 1;
    want.cells[16 * INS] = net.k[RING];
    want.cells[16 * 511] = n->cells[16 * 511];
    NETWORK("when two rules have fired");
    /* The round does the rest: every part finishes its first cycle, and its INs and channels give their oldest tokens. */
    fired = cwazi_round(&o->plan, n);
    ONE("round", fired, PUTS - 2 + PARTS);
    for (q = 0; q < INS; q++) {
        memmove(want.cells + 16 * q, want.cells + 16 * q + 1, 15 * sizeof want.cells[0]);
        want.cells[16 * q + 15] = 0;
        want.used[q]--;
    }
    want.cells[16 * INS] = 0;
    want.used[INS] = 0;
    memset(want.flag, 0, sizeof want.flag);
    for (q = INS + CHANNELS; q < CWAZI_QUEUES; q++) {
        want.used[q] = 1;
        want.cells[16 * q] = n->cells[16 * q];
    }
    for (p = 0; p < PARTS; p++) want.count[p] = 1, want.held[RING + p] = net.k[RING + (p + 1) % PARTS];
    NETWORK("after a round");
    for (q = 0; q < CWAZI_QUEUES; q++) ONE("tokens", cwazi_tokens(&o->plan, n, (uint32_t)q).value, want.used[q]);
    for (p = 0; p < PARTS; p++) ONE("finished", cwazi_finished(&o->plan, n, (uint32_t)p).value, 1);
    ONE("tokens of no queue", cwazi_tokens(&o->plan, n, 512).answer, CWAZI_NO_SUCH);
    /* Every output gives what its place has, and one of a constant or a register its k. */
    for (t = 0; t < CWAZI_OUTPUTS; t++) {
        uint32_t before = n->cells[16 * (INS + CHANNELS + t)];
        d = cwazi_drain(&o->plan, n, (uint32_t)t);
        ONE("drained.answer", d.answer, 0);
        ONE("drained.value", d.value, before);
        if (net.code[net.output[t]] == CONST || net.code[net.output[t]] == REG) ONE("drained.value of a known node", d.value, net.k[net.output[t]]);
    }
    ONE("drained.answer of an empty queue", cwazi_drain(&o->plan, n, 63).answer, CWAZI_NOT_READY);
    /* Rounds, until the queues of one token are empty: a run counts the round that fires none. */
    ran = cwazi_run(&o->plan, n, 65536);
    ONE("ran.answer", ran.answer, CWAZI_NO_SUCH);
    ONE("ran.rounds of a refused run", ran.rounds, 0);
    ran = cwazi_run(&o->plan, n, 1);
    ONE("ran.rounds", ran.rounds, 1);
    ONE("ran.firings", ran.firings > ran.rounds, 1);
    ran = cwazi_run(&o->plan, n, 60000);
    ONE("ran.answer of a run that stops", ran.answer, 0);
    ONE("ran.rounds of a run that stops", ran.rounds > 0 && ran.rounds < 60000, 1);
    ONE("a round after it", cwazi_round(&o->plan, n), 0);
    /* An order: two feeds of empty queues, a drain that is done, a rule that is not there. */
    for (q = 0; n->used[q] > 0; q++) continue;
    for (t = q + 1; n->used[t] > 0; t++) continue;
    kinds[0] = CWAZI_FEED, indexes[0] = (uint32_t)q, values[0] = 1;
    kinds[1] = CWAZI_DRAIN, indexes[1] = 63, values[1] = 9;
    kinds[2] = CWAZI_FIRE, indexes[2] = 5000, values[2] = 9;
    kinds[3] = CWAZI_FEED, indexes[3] = (uint32_t)t, values[3] = 1;
    drained[0] = drained[1] = 7;
    ONE("tokens of the last output", cwazi_tokens(&o->plan, n, 511).value > 0, 1);
    *other = *n;
    played = cwazi_order(&o->plan, n, kinds, 4, indexes, 4, values, 4, drained, 2);
    ONE("played.answer", played.answer, 0);
    ONE("played.feeds", played.feeds, 2);
    ONE("played.drains", played.drains, 1);
    ONE("played.firings", played.firings, 0);
    ONE("the place past the drained values", drained[1], 7);
    played = cwazi_order(&o->plan, n, kinds, 4, indexes, 4, values, 4, drained, 0);
    ONE("played.answer of too few places", played.answer, CWAZI_TOO_SHORT);
    played = cwazi_order(&o->plan, n, kinds, 4, indexes, 3, values, 4, drained, 2);
    ONE("played.answer of unequal lists", played.answer, CWAZI_NO_SUCH);
    /* The same as one list of actions, on the network as it was. */
    for (q = 0; q < 4; q++) actions[q].kind = kinds[q], actions[q].index = indexes[q], actions[q].value = values[q];
    first = drained[0];
    drained[0] = 8;
    played = cwazi_actions(&o->plan, other, actions, 4, drained, 0);
    ONE("played.answer of actions with too few places", played.answer, CWAZI_TOO_SHORT);
    played = cwazi_actions(&o->plan, other, actions, 4, drained, 2);
    ONE("played.answer of actions", played.answer, 0);
    ONE("played.feeds of actions", played.feeds, 2);
    ONE("played.drains of actions", played.drains, 1);
    ONE("played.firings of actions", played.firings, 0);
    ONE("the value drained by actions", drained[0], first);
    ONE("the place past the values drained by actions", drained[1], 7);
    ONE("the network after actions", memcmp(other, n, sizeof *n) == 0, 1);
    free(other);
    free(o);
}

int main(void) {
    int turn;
    for (turn = 0; turn < 2; turn++) {
        draw(turn);
        write_sheets();
        work_out();
        ONE("the sheets' queues", queues.count, CWAZI_QUEUES);
        sheets();
        registers();
        networks();
    }
    printf("%lu elements compared, %lu fields wrong\n", compared, wrong);
    return wrong == 0 ? 0 : 1;
}
