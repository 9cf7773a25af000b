/* The proved library for the boards' hosts: sheets, cycles and networks, for C and C++ on x86-64 Linux.
 *
 * Link with libcwazibuthu.a, which boards/build makes. Every function is proved to end, to keep within what it is lent and to answer as said
 * here, on any arguments; none allocates, prints or keeps anything between calls. A list is a pointer and then its length. No pointer may be
 * NULL, not even that of an empty list, and what a call may change overlaps nothing else that it is lent. A bool is 0 or 1.
 *
 * Some structs are large (a cwazi_opened has 54,992 bytes): keep them off small stacks. The calls on sheets, opening among them, use up to some
 * 300,000 bytes of stack themselves; the calls on registers and networks some 12,000.
 */
#ifndef CWAZIBUTHU_H
#define CWAZIBUTHU_H

#include <stdbool.h>
#include <stddef.h>
#include <stdint.h>

#ifdef __cplusplus
extern "C" {
#endif

/* Numbers of the outline. */
enum {
    CWAZI_NODES = 1024,        /* nodes, at most; at least 1 */
    CWAZI_OUTPUTS = 64,        /* outputs, at most */
    CWAZI_WIDTH = 32,          /* bits of a node, at most; at least 1 */
    CWAZI_PARTS = 32,          /* parts, at most; at least 1 */
    CWAZI_QUEUES = 512,        /* queues, at most */
    CWAZI_DEPTH = 16,          /* places of a queue, at most; at least 1 */
    CWAZI_PLACES = 8192,       /* places of the queue store */
    CWAZI_LABEL_BYTES = 4096,  /* bytes of a labels section, at most */
    CWAZI_ROUNDS = 65535,      /* rounds in one run, at most */
    CWAZI_NET_SHEET = 16528,   /* bytes of a net sheet that is read, at most */
    CWAZI_CUT_SHEET = 5648,    /* bytes of a cut sheet that is read, at most */
    CWAZI_OUTSIDE = 32,        /* the part at the outer end of an input's or an output's queue */
    CWAZI_NO_QUEUE = 512,      /* no queue, among the queues of a cut */
    CWAZI_NO_OPERAND = 1536    /* no operand, in a plan */
};
#define CWAZI_LIMIT UINT32_C(4000000000) /* cycle limit, at most; at least 1 */

/* Answers. Checks run in the order of the numbers. */
enum {
    CWAZI_DONE = 0,
    CWAZI_NET_SHORT = 1,     /* net sheet under 16 bytes */
    CWAZI_NET_TRAILER = 2,   /* net trailer breaks its rules */
    CWAZI_NET_NUMBERS = 3,   /* nodes, outputs or net label bytes outside their numbers */
    CWAZI_RECORD = 4,        /* a record breaks its rule; place: lowest record */
    CWAZI_OUTPUT = 5,        /* an output names no node; place: lowest output */
    CWAZI_NET_LABEL = 6,     /* a net label entry breaks its rule; place: its entry */
    CWAZI_CUT_TRAILER = 7,   /* cut sheet under 16 bytes, trailer wrong, or over 4,096 label bytes */
    CWAZI_PART_NUMBER = 8,   /* part numbers not one per node (place 0), or one above 31; place: lowest node */
    CWAZI_QUEUE_DEPTH = 9,   /* over 512 queues or depths not one per queue (place 0), or a depth not 1 to 16; place: lowest queue */
    CWAZI_PART_ALONE = 10,   /* a part with no queue in or out; place: lowest part */
    CWAZI_CUT_LABEL = 11,    /* a cut label entry breaks its rule; place: its entry */
    CWAZI_NO_SUCH = 12,      /* no such input, output, rule, queue or part; not one value per IN; lists of unequal length; too many rounds */
    CWAZI_TOO_LARGE = 13,    /* a value not below 2^w */
    CWAZI_NOT_READY = 14,    /* not ready (fire, ready), full (feed), empty (drain) */
    CWAZI_CYCLE_LIMIT = 15,  /* cycle limit outside its numbers */
    CWAZI_TOO_SHORT = 16     /* a lent buffer or list too short */
};

/* The kinds of an order's actions. */
enum { CWAZI_FEED = 0, CWAZI_DRAIN = 1, CWAZI_FIRE = 2 };

/* A netlist. Past its counts stands zero in each netlist that was read. */
typedef struct cwazi_netlist {
    size_t nodes;                    /* how many nodes */
    uint8_t code[CWAZI_NODES];       /* of each node its record's code, */
    uint8_t width[CWAZI_NODES];      /* width, */
    uint16_t a[CWAZI_NODES];         /* operands, */
    uint16_t b[CWAZI_NODES];
    uint16_t c[CWAZI_NODES];
    uint32_t k[CWAZI_NODES];         /* and k */
    size_t outputs;                  /* how many outputs */
    uint16_t output[CWAZI_OUTPUTS];  /* the node of each output, in sheet order */
    size_t labels;                   /* how many label bytes */
    uint8_t label[CWAZI_LABEL_BYTES]; /* the labels section */
} cwazi_netlist;

/* What reading a net sheet gives; refused, the netlist is zeros. */
typedef struct cwazi_net_read {
    uint32_t answer;
    size_t place;
    cwazi_netlist net;
} cwazi_net_read;

/* What a writer gives: how many bytes of the image it wrote; refused, 0. */
typedef struct cwazi_wrote {
    uint32_t answer;
    size_t place;
    size_t length;
} cwazi_wrote;

/* A cut. Past its counts stands zero in each cut that was read. */
typedef struct cwazi_cut {
    size_t nodes;                    /* how many part numbers */
    uint8_t part[CWAZI_NODES];       /* the part of each node */
    size_t queues;                   /* how many depths */
    uint8_t depth[CWAZI_QUEUES];     /* the depth of each queue */
    size_t labels;                   /* how many label bytes */
    uint8_t label[CWAZI_LABEL_BYTES]; /* the labels section */
} cwazi_cut;

/* The queues of a cut, in order: one for each IN, the channels, one for each output. */
typedef struct cwazi_queues {
    size_t parts;                    /* how many parts */
    size_t count;                    /* how many queues, */
    size_t inputs;                   /* and of each kind */
    size_t channels;
    size_t outputs;
    uint16_t node[CWAZI_QUEUES];     /* of each queue its node, */
    uint8_t from[CWAZI_QUEUES];      /* the part that puts, or CWAZI_OUTSIDE, */
    uint8_t into[CWAZI_QUEUES];      /* and the part that takes, or CWAZI_OUTSIDE */
    uint16_t input[CWAZI_NODES];     /* of each IN its queue; of other nodes CWAZI_NO_QUEUE */
    uint16_t a[CWAZI_NODES];         /* the channel that a node's operand is read from, or CWAZI_NO_QUEUE */
    uint16_t b[CWAZI_NODES];
    uint16_t c[CWAZI_NODES];
} cwazi_queues;

/* What reading a cut sheet gives; refused, cut and queues are zeros. */
typedef struct cwazi_cut_read {
    uint32_t answer;
    size_t place;
    cwazi_cut cut;
    cwazi_queues queues;
} cwazi_cut_read;

/* Where a node's label stands: in the cut sheet, else in the net sheet, from a byte on. Where none is found: empty, at the net sheet's end. */
typedef struct cwazi_spot {
    bool cut;
    bool found;
    size_t from;
    size_t length;
} cwazi_spot;

/* The plan of a network: what opening works out once and no call changes. One plan serves many networks. */
typedef struct cwazi_plan {
    uint32_t limit;                  /* the cycle limit */
    size_t nodes;                    /* how many nodes, */
    size_t parts;                    /* parts, */
    size_t inputs;                   /* queues of each kind, */
    size_t channels;
    size_t outputs;
    size_t queues;                   /* queues in all, */
    size_t rules;                    /* and rules: one per channel, one per output, then a Finish per part */
    uint8_t code[CWAZI_NODES];
    uint8_t width[CWAZI_NODES];
    uint8_t join[CWAZI_NODES];       /* the width of operand b */
    uint32_t k[CWAZI_NODES];
    uint16_t ra[CWAZI_NODES];        /* where an operand is read: a node, 1,024 and its queue, or CWAZI_NO_OPERAND */
    uint16_t rb[CWAZI_NODES];
    uint16_t rc[CWAZI_NODES];
    uint8_t part[CWAZI_NODES];
    uint16_t node[CWAZI_QUEUES];     /* of each queue its node, the part that puts, the part that takes, the depth */
    uint8_t from[CWAZI_QUEUES];
    uint8_t into[CWAZI_QUEUES];
    uint8_t depth[CWAZI_QUEUES];
} cwazi_plan;

/* The network: what calls change. A host may look at it and copy it; only calls change it. */
typedef struct cwazi_network {
    uint32_t cells[CWAZI_PLACES];    /* 16 places for each queue: its tokens, the oldest first, then zeros */
    uint8_t used[CWAZI_QUEUES];      /* how many tokens each queue has */
    bool flag[CWAZI_QUEUES];         /* the done flag of each put rule, by its queue */
    uint32_t held[CWAZI_NODES];      /* what each REG holds, by its node */
    uint32_t count[CWAZI_PARTS];     /* how many cycles each part has finished */
} cwazi_network;

/* What opening gives; refused, plan and network are zeros. */
typedef struct cwazi_opened {
    uint32_t answer;
    size_t place;
    cwazi_plan plan;
    cwazi_network network;
} cwazi_opened;

/* What a drain gives; refused, the value is 0. */
typedef struct cwazi_drained {
    uint32_t answer;
    uint32_t value;
} cwazi_drained;

/* What a question gives; refused, the value is 0. */
typedef struct cwazi_told {
    uint32_t answer;
    uint32_t value;
} cwazi_told;

/* What a run gives: the rounds, the one that fired none too, and the firings in all; refused, zeros. */
typedef struct cwazi_ran {
    uint32_t answer;
    size_t rounds;
    size_t firings;
} cwazi_ran;

/* What an order gives: feeds, drains and firings done; refused, zeros. */
typedef struct cwazi_played {
    uint32_t answer;
    size_t feeds;
    size_t drains;
    size_t firings;
} cwazi_played;

/* An action of an order; only a feed's value counts. */
typedef struct cwazi_action {
    uint32_t kind;
    uint32_t index;
    uint32_t value;
} cwazi_action;

/* Reads a net sheet: 0 to 6. */
cwazi_net_read cwazi_read_net(const uint8_t *sheet, size_t sheet_length);

/* Writes a net sheet to the image's front: 0, 3 to 6 or 16. What is past it stays; refused, all of it. */
cwazi_wrote cwazi_write_net(const cwazi_netlist *net, uint8_t *image, size_t image_length);

/* Reads a cut sheet for a netlist that was read, with its queues: 0, 7 to 11. */
cwazi_cut_read cwazi_read_cut(const cwazi_netlist *net, const uint8_t *sheet, size_t sheet_length);

/* Writes a cut sheet to the image's front: 0, 7 to 11 or 16. What is past it stays; refused, all of it. */
cwazi_wrote cwazi_write_cut(const cwazi_netlist *net, const cwazi_cut *cut, uint8_t *image, size_t image_length);

/* Finds a node's label in the two sheets: the cut sheet's if it has one, else the net sheet's; with neither, with no such node or with sheets
 * that opening refuses at every limit, the empty part at the net sheet's end. */
cwazi_spot cwazi_label(const uint8_t *net, size_t net_length, const uint8_t *cut, size_t cut_length, size_t node);

/* The registers before cycle 1: k at each REG, 0 elsewhere. */
void cwazi_first_registers(const cwazi_netlist *net, uint32_t regs[CWAZI_NODES]);

/* One cycle: a value for each IN in node order, one for each output in sheet order, all registers together: 0, 12, 13 or 16. Refused, nothing
 * changes. */
uint32_t cwazi_step(const cwazi_netlist *net, uint32_t regs[CWAZI_NODES], const uint32_t *ins, size_t ins_length, uint32_t *outs,
                    size_t outs_length);

/* So many cycles in one call, cycle after cycle, on lists that are so many times as long: 0, 12, 13 or 16. Refused, nothing changes. */
uint32_t cwazi_steps(const cwazi_netlist *net, uint32_t regs[CWAZI_NODES], uint32_t cycles, const uint32_t *ins, size_t ins_length,
                     uint32_t *outs, size_t outs_length);

/* Opens two sheets for a cycle limit: 0 to 11 or 15. */
cwazi_opened cwazi_open(const uint8_t *net, size_t net_length, const uint8_t *cut, size_t cut_length, uint32_t limit);

/* Puts a token on an input queue with room: 0, 12, 13 or 14. Refused, nothing changes; so with every call below. */
uint32_t cwazi_feed(const cwazi_plan *plan, cwazi_network *network, uint32_t input, uint32_t value);

/* Takes the oldest token from an output queue that has one: 0, 12 or 14. */
cwazi_drained cwazi_drain(const cwazi_plan *plan, cwazi_network *network, uint32_t output);

/* How many tokens a queue has: 0 or 12. */
cwazi_told cwazi_tokens(const cwazi_plan *plan, const cwazi_network *network, uint32_t queue);

/* How many cycles a part has finished: 0 or 12. */
cwazi_told cwazi_finished(const cwazi_plan *plan, const cwazi_network *network, uint32_t part);

/* Fires a rule that is ready: 0, 12 or 14. */
uint32_t cwazi_fire(const cwazi_plan *plan, cwazi_network *network, uint32_t rule);

/* What firing the rule would answer. */
uint32_t cwazi_ready(const cwazi_plan *plan, const cwazi_network *network, uint32_t rule);

/* A round: tries each rule once by number, and counts firings. */
size_t cwazi_round(const cwazi_plan *plan, cwazi_network *network);

/* A run: so many rounds, or up to a round that fires none: 0 or 12. */
cwazi_ran cwazi_run(const cwazi_plan *plan, cwazi_network *network, uint32_t rounds);

/* An order: three lists of kinds, indexes and values, action by action; one that is refused changes nothing and the next is tried. Drained
 * values go to the lent list from its start: 0; 12 where the lists are of unequal length; 16 where it has more drains than places. */
cwazi_played cwazi_order(const cwazi_plan *plan, cwazi_network *network, const uint32_t *kinds, size_t kinds_length, const uint32_t *indexes,
                         size_t indexes_length, const uint32_t *values, size_t values_length, uint32_t *drained, size_t drained_length);

/* The same order as one list of actions: 0, or 16 where it has more drains than places. */
cwazi_played cwazi_actions(const cwazi_plan *plan, cwazi_network *network, const cwazi_action *actions, size_t actions_length, uint32_t *drained,
                           size_t drained_length);

#ifdef __cplusplus
}
#endif

#endif
