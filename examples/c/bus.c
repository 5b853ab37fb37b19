/* bus: four BIUs and three RMUs, each a node core, driven by a loop with clocks and delays of its
 * own. R2 is silent: what its core says goes nowhere. Prints what the BIUs deliver in the first
 * frame, line by line as `robus run` does for examples/one_silent_rmu.toml. */
#include <robus.h>
#include <stdio.h>

enum { BIUS = 4, RMUS = 3, NODES = BIUS + RMUS, SILENT = 6, SLOTS = 8, FLYING = 256 };

/* A node with its clock: tick k comes at start + k * length, in reference units. */
struct site {
    robus_node node;
    uint64_t start, length, had;
};

/* A message on its way. */
struct message {
    uint64_t time;
    int from, to;
    uint8_t bytes[12], length;
};

static struct site sites[NODES];
static struct message flying[FLYING];
static int flying_count;
static robus_delivery delivered[2 * BIUS + RMUS + SLOTS][BIUS];

static const uint32_t words[BIUS] = {10, 20, 30, 40};

static uint64_t time_of(const struct site *site, uint64_t tick)
{
    return site->start + tick * site->length;
}

/* Quiet ticks pass up to this one. None of them is busy: the loop takes what happens by its time.
 * */
static void pass_to(struct site *site, uint64_t tick)
{
    if (site->had < tick)
        site->had += robus_node_pass(&site->node, tick - site->had);
}

/* What comes at a time is stamped with the first tick that is not before it. */
static void hand_over(const struct message *m)
{
    struct site *site = &sites[m->to];
    uint64_t tick = m->time <= site->start ? 0 : (m->time - site->start + site->length - 1) / site->length;
    pass_to(site, tick);
    robus_node_arrive(&site->node, m->from < BIUS ? m->from : m->from - BIUS, m->bytes, m->length);
}

/* A message goes to each node of the other kind, with a delay between dmin and dmax. */
static void send(int from, uint64_t time, const robus_act *act)
{
    int first = from < BIUS ? BIUS : 0, last = from < BIUS ? NODES : BIUS;
    for (int to = first; to < last && flying_count < FLYING; to++) {
        struct message *m = &flying[flying_count++];
        uint64_t delay = 6000 + 1000 * (uint64_t)((3 * from + 5 * to) % 9);
        *m = (struct message){time + delay, from, to, {0}, act->length};
        for (int i = 0; i < act->length; i++)
            m->bytes[i] = act->message[i];
    }
}

/* The next busy tick of a node. Gives the number of the frame that begins with it, else 0. */
static uint32_t tick(int number)
{
    struct site *site = &sites[number];
    uint64_t at = robus_node_next_tick(&site->node);
    pass_to(site, at);
    robus_want want = robus_node_wants(&site->node);
    robus_act act;
    robus_node_tick(&site->node, want.what == ROBUS_WANTS_REQUEST ? 1 : number < BIUS ? words[number] : 0, &act);
    site->had = at + 1;
    if (act.length > 0 && number != SILENT)
        send(number, time_of(site, at), &act);
    if (act.delivery.delivers && number < BIUS)
        delivered[act.delivery.slot][number] = act.delivery;
    return act.epoch.begins ? act.epoch.frame : 0;
}

int main(void)
{
    robus_seat seat = {.biu = BIUS, .rmu = RMUS, .slots = SLOTS, .version = 1, .u = 10000, .r = 1, .dmin = 5000, .dmax = 15000,
                       .l = 15, .h = 6, .v = 18, .z = 20, .c = 1, .p = 60200};
    for (int i = 0; i < NODES; i++) {
        seat.kind = i < BIUS ? ROBUS_BIU : ROBUS_RMU;
        seat.index = i < BIUS ? i : i - BIUS;
        sites[i] = (struct site){{0}, 700 * (uint64_t)i, 9999 + i % 3, 0};
        uint32_t answer = robus_node_new(&sites[i].node, &seat);
        if (answer != 0) {
            fprintf(stderr, "bus: no node %d: %u\n", i, (unsigned)answer);
            return 1;
        }
    }
    /* What comes first is taken first: an arrival before a tick at the same time. The loop ends
     * once all have begun frame 1. */
    for (int begun = 0; begun < NODES;) {
        int next = -1, first = -1;
        for (int i = 0; i < flying_count; i++)
            if (first < 0 || flying[i].time < flying[first].time)
                first = i;
        for (int i = 0; i < NODES; i++)
            if (next < 0 || time_of(&sites[i], robus_node_next_tick(&sites[i].node)) < time_of(&sites[next], robus_node_next_tick(&sites[next].node)))
                next = i;
        if (first >= 0 && flying[first].time <= time_of(&sites[next], robus_node_next_tick(&sites[next].node))) {
            hand_over(&flying[first]);
            flying[first] = flying[--flying_count];
        } else {
            begun += tick(next) == 1;
        }
    }
    for (int slot = 0; slot < 2 * BIUS + RMUS + SLOTS; slot++)
        for (int i = 0; i < BIUS; i++) {
            robus_delivery d = delivered[slot][i];
            if (d.delivers && d.frame == 0 && d.none)
                printf("d 0 %d B%d B%d none\n", slot, i, d.sender);
            else if (d.delivers && d.frame == 0)
                printf("d 0 %d B%d B%d %u\n", slot, i, d.sender, (unsigned)d.word);
        }
    for (int i = 0; i < NODES; i++)
        robus_node_free(&sites[i].node);
    return 0;
}
