/* ROBUS as a library: the three programs as calls over bytes in memory, one node of a bus as a core
 * that a host drives, and a whole bus that runs the host's own software.
 *
 *   cc -I include report.c crates/robus_c/out/librobus.a -o report
 *
 * A call reads `words` and `input`, writes `output`, and keeps nothing: no pointer is stored, no
 * file is opened, and nothing is left from one call to the next. The caller owns all three and may
 * free or change them when the call returns. They may not overlap while it runs, and a pointer may
 * be anything but NULL if its length is 0. Several threads may call at once, each with an
 * `output` of its own. A call takes memory by malloc, realloc and free and gives all of it back; it
 * may not be made from a signal handler, or from the forked child of a process with threads.
 *
 * Lengths are in bytes. `words` are the words of the program's command line in UTF-8 with a NUL
 * byte between one and the next, and none at the end: "run", 3; "gen\0" "7\0" "20", 8; no words are
 * length 0. `input` is what the program would read, `output` what it would write. Every list of
 * bytes has its answer: nothing is refused but by a status.
 *
 * What is proved is said beside each call as the clause that carries it, in crates/robus_c/specs;
 * docs/PROMISES.md says what it rests on. Nothing is proved of this header, of the C compiler and
 * linker, and of the caller.
 */
#ifndef ROBUS_H
#define ROBUS_H

#include <stddef.h>
#include <stdint.h>
#ifndef __cplusplus
#include <stdbool.h>
#endif

#ifdef __cplusplus
extern "C" {
#endif

/* What a call came to. IsPut: the output stands at the front of `output`, or as many of its bytes
 * as that has room for, and every byte behind them is as it was. */
typedef struct robus_answer {
    int32_t status;  /* one of the numbers below */
    uint64_t length; /* how many bytes the whole output has, also if `output` has room for fewer */
} robus_answer;

enum {
    ROBUS_DONE = 0,      /* all that was asked for is done */
    ROBUS_BREACH = 1,    /* the same, and the run ended with a breach of the fault premise; never of
                            a picture */
    ROBUS_USAGE = 2,     /* the words are of no known form; length 0 */
    ROBUS_REFUSED = 3,   /* the input is refused; the output is one line that says why */
    ROBUS_TOO_LONG = 4,  /* the input is longer than the form allows: 4194304 bytes of a scenario or
                            bridge, 67108864 of a log or report; length 0 */
    ROBUS_NO_MEMORY = 7, /* an allocation failed; length 0 */
    ROBUS_NOT_TEXT = 8,  /* the words are not UTF-8; length 0 */
    ROBUS_TOO_SMALL = 9  /* the output has more bytes than there is room for: its first ones are
                            written, and length says how many it has */
};

/* `robus WORDS < input > output`, as docs/robus.md says it.
 *
 * robus_c::robus_call, IsBusAnswer (specs/Bus.antt). For each form that the words ask for:
 *   promise          at 0 and 1 of `run`, `letters` and `group`: the input is the text of an
 *                    accepted scenario, the output is exactly what is told of its rounds, 1 comes
 *                    if and only if they end with a breach, and up to it the bus keeps its promise
 *   ended            at 0 and 1 the output is the form's text for that input, for every form
 *   refused          at 3 the output is the line of the first rule that the input breaks
 *   too_long         at 4 the input is longer than the form allows
 *   complete         within that length the status that is due comes, or 7, or 9 with its output
 *                    cut off
 *   unknown, usage   2 comes if and only if the words ask for no form, unless 7 comes first
 *   reads, writes    5 and 6, with which the program says that reading or writing failed, never
 *                    come
 *   nothing          at 2, 4 and 7 nothing is written
 */
robus_answer robus_call(const uint8_t *words, size_t words_length, const uint8_t *input,
                        size_t input_length, uint8_t *output, size_t output_length);

/* `robus_bridge WORDS < input > output`, as docs/robus_bridge.md says it.
 *
 * robus_c::robus_bridge_call, IsBridgeAnswer (specs/Bridge.antt): the same fields for `run`, where
 * the output is exactly what is said of the accepted bridge that the input is, and up to a breach
 * words cross it; at a flag the output is its page (shown). */
robus_answer robus_bridge_call(const uint8_t *words, size_t words_length, const uint8_t *input,
                               size_t input_length, uint8_t *output, size_t output_length);

/* `robus_picture WORDS < input > output`, as docs/robus_picture.md says it. The input is a report
 * of `run`, the output one SVG document.
 *
 * robus_c::robus_picture_call, IsPictureAnswer (specs/Picture.antt):
 *   done             at 0 the output is the picture of the frames that the words ask for, in the
 *                    one style of all pictures, or the page of a flag
 *   refused          at 3 the output is the line that says where and why the input is no report
 *   too_long         at 4 the input is longer than a report may be
 *   complete         within that length a report whose numbers a bus can have is drawn, and an
 *                    input that is no list of a report's lines is refused; or 7 comes, or 9 with
 *                    the output cut off
 *   shown            at a flag 0 comes and its page is the output, or 7 comes, or 9 with the page
 *                    cut off
 *   unknown, usage, reads, writes, nothing: as of robus_call
 */
robus_answer robus_picture_call(const uint8_t *words, size_t words_length, const uint8_t *input,
                                size_t input_length, uint8_t *output, size_t output_length);

/* A NODE CORE
 *
 * One node of a bus, a BIU or an RMU, without a clock and a link of its own: the host gives it the
 * ticks of its clock and what comes on its links, and sends what it says. Ticks are counted from 0
 * by the node's own clock; nothing here knows what time a tick takes. At each tick the host asks
 * what the node wants, then ticks it. What comes on a link before a tick is handed over by
 * robus_node_arrive before that tick, in the order in which it came. Any number of any bytes may
 * come, at any tick, from any number. Ticks at which nothing happens need no call each:
 * robus_node_pass has them all at once. A node has at most 2^31 ticks; one that has had them gives
 * nothing and does not change.
 *
 * The handle is the caller's: a struct that is zeros at first, `robus_node node = {0};`, and may be
 * moved. Each call takes the handle of its node and keeps no other state, so threads may call at
 * once, each with nodes of its own. A node stays on the thread that made it; one handle is in one
 * call at a time, and is never copied: the copy would have the same node. The fields are for these
 * calls alone. The node itself, some 2 KB, is in memory that robus_node_new takes by malloc;
 * robus_node_free gives it back. No other call takes memory. On a handle without a node each call
 * says so and does nothing.
 *
 * What is proved is of the core of rb_rules (specs/Core.antt) that the node stands for, whatever
 * came: a clause says it for every core c for which IsCore of the node and c holds, and each node
 * has one. The clauses are in crates/rb_host/specs, those of the call before them in
 * crates/rb_node.
 */
typedef struct robus_node {
    bool there;    /* whether there is a node */
    uint8_t *core; /* where it lies */
} robus_node;

/* A node, its bus and the bus's plan. Times are in reference units, lengths of windows in ticks, as
 * in docs/SCENARIOS.md. */
typedef struct robus_seat {
    uint8_t kind;       /* 0 a BIU, 1 an RMU */
    uint8_t index;      /* the number of the node among those of its kind, from 0 */
    uint8_t biu;        /* 1 to 16 BIUs */
    uint8_t rmu;        /* 1 to 16 RMUs */
    uint16_t slots;     /* 1 to 64 data slots of a frame */
    uint8_t version;    /* 1 or 2: how messages are spelled */
    uint8_t bus;        /* the number of the bus, which messages of version 2 carry; not read in
                           version 1 */
    uint16_t probation; /* 0 to 4096: after how many frames without new evidence a direct accusation
                           lapses; 0 for never */
    uint32_t u;         /* 2 to 1000000 units of a tick */
    uint32_t r;         /* below u: by how many units a tick may be longer or shorter */
    uint32_t dmin;      /* 1 to dmax units: the least delay of a message */
    uint32_t dmax;      /* up to 1000000000 units: the greatest */
    uint32_t l;         /* 1 to 1000 ticks of a window below the sync slot, and of that slot's
                           stage 1 */
    uint32_t h;         /* 1 to 1000: the tick of a window at which its message is sent */
    uint32_t v;         /* 1 to 1000 ticks of the sync slot's stage 2 */
    uint32_t z;         /* 1 to 1000 ticks of its stage 3 */
    uint32_t c;         /* 0 to 1000: how many ticks beyond z after its call in stage 3 a BIU begins
                           the next frame */
    uint32_t p;         /* 0 to 1000000000 units: the bound on the skew of the nodes' first ticks of
                           a frame */
} robus_seat;

enum {
    ROBUS_BIU = 0,
    ROBUS_RMU = 1,
    ROBUS_NODE_SIZES = 11,     /* biu, rmu or slots is out of its range */
    ROBUS_NODE_INDEX = 12,     /* the bus has no such node */
    ROBUS_NODE_PLAN = 13,      /* the version or a number of the plan is out of its range */
    ROBUS_NODE_INFEASIBLE = 20 /* this and a number from 1 to 7: that inequality of the plan fails
                                  first (docs/RULES.md) */
};

/* What a node says of a frame as it begins it: `begins`, its number, its first tick, and whom the
 * node holds convicted, BIUs and RMUs as masks (bit i is the node with number i). Else all is 0. */
typedef struct robus_epoch {
    bool begins;
    uint32_t frame;
    uint64_t tick;
    uint16_t biu;
    uint16_t rmu;
} robus_epoch;

/* A delivery, at BIUs alone: in that case `delivers`, the slot and the frame, the BIU whose slot it
 * is, and the word; if that is none, `none`, and the word is 0. Else all is 0. */
typedef struct robus_delivery {
    bool delivers;
    bool none;
    uint8_t sender;
    uint16_t slot;
    uint32_t frame;
    uint32_t word;
} robus_delivery;

/* What a node gives at a tick. */
typedef struct robus_act {
    uint8_t message[12];     /* what it sends to all nodes of the other kind: the first `length`
                                bytes */
    uint8_t length;          /* 11 or 12; 0 if it sends nothing */
    bool closes;             /* whether a window ended with this tick */
    robus_epoch epoch;
    robus_delivery delivery; /* of the window that ended */
} robus_act;

enum { ROBUS_WANTS_NOTHING = 0, ROBUS_WANTS_REQUEST = 1, ROBUS_WANTS_WORD = 2 };

/* What a node wants for its next tick: nothing; its request, for how many data slots it asks in the
 * next frame; or the word that it says in the data slot with this number. */
typedef struct robus_want {
    uint8_t what;
    uint16_t slot;
} robus_want;

#define ROBUS_NO_TICK UINT64_C(2147483648)

/* Frees the node of the handle, if it has one, and puts the node of this seat into it, before its
 * first tick. 0, or why there is none: ROBUS_NO_MEMORY, or one of the reasons above, the first that
 * applies.
 *
 * IsAnswered (specs/Calls.antt):
 *   node, accepted   at 0 the numbers are within their ranges, the plan is feasible, and the node
 *                    stands for the first core of its kind
 *   refused          at another number but 7 they are not, and the number says which
 *   none             then the handle has no node */
uint32_t robus_node_new(robus_node *node, const robus_seat *seat);

/* A message comes, or other bytes, from the node of the other kind with this number; one that no
 * node has changes nothing. It is stamped with the number of the next tick. Whether there is a
 * node.
 *
 * Arrives: the node then stands for what `arrive` makes of the core that it stood for. */
bool robus_node_arrive(robus_node *node, uint8_t from, const uint8_t *bytes, size_t length);

/* What the node wants to be handed for its next tick; nothing if there is no node.
 *
 * IsHostWant: that is what the core wants (wants of Core.antt), and the node stays as it is. */
robus_want robus_node_wants(robus_node *node);

/* A tick, with the request or the word that the node wants for it; if it wants none, `word` counts
 * for nothing. At the tick of its next epoch the node begins the next frame; then it says its
 * message, if this is the tick of one; then it closes the window, if this is its last tick, on what
 * came since the last close. Whether there is a node; if there is none, `act` is as it was.
 *
 * Ticks: the node then stands for the core after `tick`, and `act` is what that gives: the message
 * spelled in the plan's version, the frame, and the delivery of the window that it closed
 * (IsHostAct, specs/Acts.antt). */
bool robus_node_tick(robus_node *node, uint32_t word, robus_act *act);

/* The number of the first tick from the next on at which something happens: a frame begins, the
 * node speaks, or a window ends. ROBUS_NO_TICK if the node comes to its last tick before that,
 * and if there is no node. It does not depend on what comes.
 *
 * IsNextTick: it is `next_tick` of the core, and the node stays as it is. */
uint64_t robus_node_next_tick(robus_node *node);

/* Has ticks at which nothing happens: at most `ticks`, and no more than there are before the tick
 * that robus_node_next_tick gives. How many it has had; 0 if there is no node.
 *
 * Passes: the node then stands for the core after that many ticks with word 0. */
uint64_t robus_node_pass(robus_node *node, uint64_t ticks);

/* Gives the node's memory back; the handle then has no node. Whether it had one. */
bool robus_node_free(robus_node *node);

/* A BUS IN A HOST'S HANDS
 *
 * A whole bus, simulated from a scenario, whose BIUs say what the host's own software gives them.
 * The host opens the bus from the scenario's text and takes one record after another: a frame
 * begins, a slot is delivered, the run ends, or the fault premise is broken. After the record of a
 * frame it hands each good BIU the word that this BIU offers in its slots. examples/c/loop.c closes
 * a control loop over a bus in this way.
 *
 *     robus_bus bus = {0};
 *     static robus_record record;
 *     robus_opening opening = robus_bus_open(&bus, text, length);
 *     while (robus_bus_next(&bus, &record) == ROBUS_DONE && record.what < ROBUS_RECORD_END) {
 *         if (record.what == ROBUS_RECORD_SLOT)
 *             deliver(record.deliveries, record.delivery_count);
 *         else
 *             robus_bus_hand(&bus, 0, word_of_b0(record.frame));
 *     }
 *     robus_bus_free(&bus);
 *
 * Time. Times are in reference units and ticks are counted by a node's own clock, as in
 * docs/SCENARIOS.md. A word is handed in for a whole frame. What is delivered in frame k can be
 * answered in frame k + 1 at the soonest. A run has at most 4096 frames, so a loop has at most 4096
 * cycles. The last frame record has the number `frames` of the scenario and no slots behind it: a
 * word that is handed in after it is accepted and never offered.
 *
 * Ownership. The handle is the caller's: a struct that is zeros at first, `robus_bus bus = {0};`.
 * It may be moved, and it is never copied, since the copy would have the same bus. Its fields are
 * for these calls alone. The bus is in memory that robus_bus_open takes by malloc, and
 * robus_bus_free gives that memory back. robus_bus_next takes a few small blocks and gives them
 * back before it returns. The text may be freed when robus_bus_open returns. One handle is in one
 * call at a time. Threads may call at once, each with handles of its own. A bus stays on the thread
 * that opened it.
 *
 * Any calls in any order, with any bytes and any numbers, have an answer. A call that is not done
 * changes neither the bus nor the record.
 *
 * What is proved holds whatever is handed in and whatever the scenario's faulty nodes say. The
 * clauses are in crates/rb_bus/specs. At each call, of the run that the bus stands for (HasRun) and
 * up to the first breach of the fault premise (Promised):
 *   first, whole  the records given are the first records of the run of the rules with these words,
 *                 and all of them once the run has ended
 *   slots         each record of a slot has no deliveries, or one for each BIU that is good in it,
 *                 all of one value; if the sender is good, that is the word that it was handed last
 *   keeps         good nodes begin each slot near each other, deliver alike, hold one schedule,
 *                 convict no good node and are one machine; each good BIU owns the data slots that
 *                 it asks for, up to an equal share rounded down; the nodes that run event by event
 *                 hold what the run of the rules holds
 *   words         all good BIUs deliver the word that a good BIU was handed last, in each slot that
 *                 it owns
 */
typedef struct robus_bus {
    bool there;   /* whether there is a bus */
    uint8_t *run; /* where it lies */
} robus_bus;

/* The answer to a scenario's text. */
typedef struct robus_opening {
    uint8_t status;  /* ROBUS_DONE, ROBUS_REFUSED or ROBUS_NO_MEMORY */
    uint8_t code;    /* if refused, the code of the first rule that the text breaks, 1 to 11
                        (docs/SCENARIOS.md); else 0 */
    uint64_t number; /* if refused by code 6, the inequality of the plan that fails first, 1 to 7;
                        else 0 */
} robus_opening;

/* A good node as a frame begins. */
typedef struct robus_bus_node {
    uint8_t kind;            /* ROBUS_BIU or ROBUS_RMU */
    uint8_t index;           /* its number among the nodes of its kind, from 0 */
    uint16_t convicted_bius; /* the BIUs that it holds convicted: bit i is the BIU with number i */
    uint16_t convicted_rmus; /* the RMUs that it holds convicted */
    uint64_t tick;           /* its first tick of the frame, by its own clock */
    uint64_t time;           /* when that tick begins, in reference units */
} robus_bus_node;

/* The port of a good BIU as a frame begins. */
typedef struct robus_bus_port {
    uint8_t biu;
    uint8_t losses; /* how many of its last 64 deliveries were none */
    uint64_t state; /* the state of its application: a table's is the word that it offers */
} robus_bus_port;

/* What a good BIU delivers in a slot. */
typedef struct robus_bus_delivery {
    uint8_t receiver; /* the BIU that delivers */
    uint8_t sender;   /* the BIU that owns the slot */
    bool none;        /* no word is delivered, and `word` is 0 */
    uint32_t word;
} robus_bus_delivery;

enum {
    ROBUS_RECORD_FRAME = 1, /* has frame, nodes and ports */
    ROBUS_RECORD_SLOT = 2,  /* has frame, slot and deliveries, one for each good BIU */
    ROBUS_RECORD_END = 3,   /* all frames of the scenario are done */
    ROBUS_RECORD_BREACH = 4 /* has frame, slot, stage and cause: the first stage at which the fault
                               premise fails, and with it every promise */
};

enum {
    ROBUS_FEW_GOOD_BIUS = 1, /* the good BIUs do not outnumber the faulty ones that are trusted and
                                were heard in this frame */
    ROBUS_FEW_GOOD_RMUS = 2, /* the good RMUs do not outnumber such RMUs */
    ROBUS_TWO_SIDED = 3      /* a faulty BIU and a faulty RMU that are trusted were each heard
                                differently by different good nodes */
};

/* A record. Only the fields that its `what` names are written. Every other field, and every entry
 * of an array behind its count, is as it was before the call; this is tested and not proved. */
typedef struct robus_record {
    uint8_t what;
    uint8_t cause;
    uint8_t stage;
    uint8_t node_count;
    uint8_t port_count;
    uint8_t delivery_count;
    uint16_t slot;
    uint32_t frame;
    robus_bus_node nodes[32];          /* the first node_count of them: BIUs, then RMUs */
    robus_bus_port ports[16];          /* the first port_count */
    robus_bus_delivery deliveries[16]; /* the first delivery_count; none if nobody owns the slot */
} robus_record;

enum {
    ROBUS_NO_BUS = 10,   /* the handle has no bus */
    ROBUS_NO_FRAME = 14, /* the last record does not begin a frame */
    ROBUS_NOT_GOOD = 15, /* the bus has no such BIU, or the BIU is not good as the frame begins */
    ROBUS_NO_TABLE = 16  /* the scenario gives the BIU another application than "table" */
};

/* Frees the bus of the handle, if there is one, and puts the bus of the scenario in `text` into it,
 * before its first record. The run takes all its memory here.
 *
 * IsOpened (specs/Calls.antt):
 *   opens    at ROBUS_DONE the text is that of an accepted scenario, which is lawful, and the bus
 *            is at the start of its run
 *   refused  at ROBUS_REFUSED `code` and `number` name the first rule that the text breaks
 *   none     at ROBUS_REFUSED and ROBUS_NO_MEMORY the handle has no bus */
robus_opening robus_bus_open(robus_bus *bus, const uint8_t *text, size_t length);

/* Writes the next record. After the last one, ROBUS_RECORD_END or ROBUS_RECORD_BREACH, that record
 * comes again. ROBUS_DONE; or ROBUS_NO_MEMORY or ROBUS_NO_BUS, and nothing changes.
 *
 * NextOf: at ROBUS_DONE, if n records were given before, this is record n of the run of the rules
 * with all that was handed in (GivesNext), the struct shows it (Shows, specs/Shown.antt), and the
 * promise above holds (KeepsItsPromise, specs/Buses.antt). */
uint8_t robus_bus_next(robus_bus *bus, robus_record *record);

/* Hands a word to the table of the BIU with this number. The BIU offers that word in each of its
 * slots, from the frame that has just begun until it is handed another word; before the first it
 * offers the scenario's word. ROBUS_DONE; or ROBUS_NO_BUS, ROBUS_NO_FRAME, ROBUS_NOT_GOOD or
 * ROBUS_NO_TABLE, the first that applies, and nothing changes.
 *
 * HandOf: at ROBUS_DONE the BIU is good, has a table, and the word is handed in for the frame that
 * the last record began (HandsIn, specs/Buses.antt). At each other status that status is true of
 * the bus: a good BIU with a table cannot be refused after the record of a frame. */
uint8_t robus_bus_hand(robus_bus *bus, uint8_t biu, uint32_t word);

/* Gives the memory of the bus back; the handle then has no bus. Whether it had one. */
bool robus_bus_free(robus_bus *bus);

#ifdef __cplusplus
}
#endif

#endif
