/* hostile_node COUNT SEED: COUNT times a node of some seat, mostly a good one, is given calls in
 * any order: ticks with any word, bytes of any kind from any number, messages of another node with
 * some bits changed, passes of any length, and calls without a node. What it is handed ends at a
 * page that may not be touched. Ends with 1 at the first answer that is none. */
#define HOSTILE "hostile_node"
#include "hostile.h"

enum { LONGEST = 1 << 16 };

static const robus_seat good = {.biu = 4, .rmu = 3, .slots = 8, .version = 1, .u = 10000, .r = 1, .dmin = 5000, .dmax = 15000,
                                .l = 15, .h = 6, .v = 18, .z = 20, .c = 1, .p = 60200};

/* A good seat, or one with some bytes changed. */
static robus_seat some_seat(void)
{
    robus_seat seat = good;
    seat.kind = below(2);
    seat.index = below(seat.kind == ROBUS_BIU ? 4 : 3);
    seat.version = 1 + below(2);
    seat.bus = below(256);
    seat.probation = below(3);
    if (below(4) == 0)
        for (uint64_t edits = 1 + below(3); edits > 0; edits--)
            ((uint8_t *)&seat)[below(sizeof seat)] = below(256);
    return seat;
}

static void must(bool holds, const char *what, unsigned long number)
{
    if (!holds) {
        fprintf(stderr, "hostile_node: node %lu: %s\n", number, what);
        exit(1);
    }
}

static int is_known(uint32_t answer)
{
    return answer == 0 || answer == ROBUS_NO_MEMORY || (ROBUS_NODE_SIZES <= answer && answer <= ROBUS_NODE_PLAN)
        || (ROBUS_NODE_INFEASIBLE < answer && answer <= ROBUS_NODE_INFEASIBLE + 7);
}

int main(int argc, char **argv)
{
    if (argc != 3) {
        fprintf(stderr, "usage: hostile_node COUNT SEED\n");
        return 2;
    }
    unsigned long count = strtoul(argv[1], NULL, 10), made = 0, ticks = 0, arrivals = 0, messages = 0;
    state = strtoull(argv[2], NULL, 10) * 2654435761u + 1;
    uint8_t *fence = fenced();
    robus_node node = {0};
    robus_act act, last = {0};
    memset(&act, 0xa5, sizeof act);
    for (unsigned long number = 0; number < count; number++) {
        robus_seat seat = some_seat();
        bool had_one = node.there;
        if (below(3) == 0)
            must(robus_node_free(&node) == had_one, "freed what was not there", number);
        uint32_t answer = robus_node_new(&node, &seat);
        must(is_known(answer), "no such answer", number);
        must(node.there == (answer == 0), "a node beside a refusal", number);
        made += answer == 0;
        uint64_t had = 0;
        for (uint64_t calls = below(120); calls > 0; calls--) {
            uint64_t next = robus_node_next_tick(&node);
            must(next <= ROBUS_NO_TICK, "a tick that no node has", number);
            must(!node.there || next >= had, "a next tick that is over", number);
            robus_want want = robus_node_wants(&node);
            must(want.what <= ROBUS_WANTS_WORD, "no such want", number);
            switch (below(6)) {
            case 0: case 1: {
                size_t length = below(6) == 0 ? below(LONGEST) : below(20);
                uint8_t *bytes = fence + MOST - length;
                for (size_t i = 0; i < length && i < 64; i++)
                    bytes[i] = below(256);
                if (length == last.length && length > 0 && below(2) == 0) {
                    memcpy(bytes, last.message, length);
                    if (below(2) == 0)
                        bytes[below(length)] ^= 1 << below(8);
                }
                must(robus_node_arrive(&node, below(256), bytes, length) == node.there, "who is there", number);
                arrivals++;
                break;
            }
            case 2: {
                uint64_t ask = below(3) == 0 ? UINT64_MAX - below(9) : below(50), passed = robus_node_pass(&node, ask);
                must(passed <= ask && (!node.there || had + passed <= next), "more ticks than quiet ones", number);
                had += passed;
                break;
            }
            default: {
                robus_act before = act;
                bool there = robus_node_tick(&node, below(UINT32_MAX), &act);
                must(there == node.there, "who is there", number);
                must(there || memcmp(&before, &act, sizeof act) == 0, "a tick of nobody", number);
                if (!there)
                    break;
                must(act.length == 0 || act.length == (seat.version == 2 ? 12 : 11), "no such message", number);
                must(had == next || (act.length == 0 && !act.closes && !act.epoch.begins), "a quiet tick that is not quiet", number);
                must(!act.delivery.delivers || (act.closes && seat.kind == ROBUS_BIU), "a delivery of nothing", number);
                if (act.length > 0) {
                    last = act;
                    messages++;
                }
                had += had < ROBUS_NO_TICK;
                ticks++;
                break;
            }
            }
        }
    }
    robus_node_free(&node);
    must(!robus_node_free(&node), "freed twice", count);
    printf("nodes: %lu of %lu seats; %lu ticks, %lu arrivals, %lu messages\n", made, count, ticks, arrivals, messages);
    return 0;
}
