/* hostile_bus COUNT SEED FILE..: COUNT calls in any order on three buses, with texts that are the
 * files, spoilt copies of them or random bytes, any BIU and any word. Texts and records end at a
 * page that may not be touched. What is not a record's own may not change. Ends with 1 at the first
 * answer that robus.h does not allow. */
#define HOSTILE "hostile_bus"
#include "hostile.h"

/* A bus, and what is known of it from the answers so far. */
struct known {
    robus_bus bus;
    bool there;
    uint8_t what;        /* of the last record; 0 before the first */
    uint16_t good;       /* the BIUs that were good as the last frame began, as a mask */
    uint32_t frame;      /* the number of the last frame record */
    robus_record last;   /* the last record, over the pattern */
    uint8_t pattern;     /* the byte that filled the struct before it */
};

static unsigned long number; /* of the call */

static void must(bool holds, const char *what)
{
    if (!holds) {
        fprintf(stderr, "hostile_bus: call %lu: %s\n", number, what);
        exit(1);
    }
}

/* A text that breaks one rule, the code of the rule, and the number that follows the rule's name,
 * by docs/SCENARIOS.md. */
static const struct { const char *text; uint8_t code; uint64_t number; } refused[] = {
    {"biu = ", 1, 0},
    {"biu = 1", 2, 0},
    {"biu = 1\nrmu = 1\nslots = 1\nframes = 1\ncolour = 1", 3, 0},
    {"biu = \"1\"\nrmu = 1\nslots = 1\nframes = 1", 4, 0},
    {"biu = 17\nrmu = 1\nslots = 1\nframes = 1", 5, 0},
    {"biu = 1\nrmu = 1\nslots = 1\nframes = 1\nplan = { h = 5 }", 6, 1},
    {"biu = 1\nrmu = 1\nslots = 1\nframes = 1\ndelay = 15001", 8, 0},
    {"\xff", 1, 0},
};

/* Texts that break one rule, and a bus whose BIU 1 has no table and whose BIU 2 is faulty. */
static void fixed_calls(void)
{
    robus_bus bus = {0};
    static robus_record record;
    must(robus_bus_next(&bus, &record) == ROBUS_NO_BUS, "a record of no bus");
    must(robus_bus_hand(&bus, 0, 1) == ROBUS_NO_BUS, "a word for no bus");
    must(!robus_bus_free(&bus), "a bus that nobody opened");
    for (size_t i = 0; i < sizeof refused / sizeof *refused; i++) {
        const char *text = refused[i].text;
        robus_opening o = robus_bus_open(&bus, (const uint8_t *)text, strlen(text));
        must(o.status == ROBUS_REFUSED && !bus.there, text);
        must(o.code == refused[i].code && o.number == refused[i].number, text);
    }
    const char *text = "biu = 3\nrmu = 1\nslots = 3\nframes = 1\n"
                       "apps = [\"table\", \"counter\", \"table\"]\n"
                       "[[fault]]\nnode = \"B2\"\nframe = 0\nslot = 0\n";
    robus_opening o = robus_bus_open(&bus, (const uint8_t *)text, strlen(text));
    must(o.status == ROBUS_DONE && o.code == 0 && o.number == 0, "a bus is refused");
    must(robus_bus_hand(&bus, 0, 1) == ROBUS_NO_FRAME, "handed in before the first record");
    must(robus_bus_next(&bus, &record) == ROBUS_DONE, "no first record");
    must(record.what == ROBUS_RECORD_FRAME, "another record first");
    static const uint8_t answers[] = {ROBUS_DONE, ROBUS_NO_TABLE, ROBUS_NOT_GOOD, ROBUS_NOT_GOOD};
    for (uint8_t biu = 0; biu < 4; biu++)
        must(robus_bus_hand(&bus, biu, 77) == answers[biu], "another answer to a word");
    must(robus_bus_free(&bus) && !robus_bus_free(&bus), "freed otherwise than once");
}

/* Opens a bus on some text. */
static void open_some(struct known *k, uint8_t *fence, const struct bytes *files, size_t count)
{
    struct bytes text = some_input(fence, files, count);
    robus_opening o = robus_bus_open(&k->bus, text.at, text.length);
    bool refusal = o.status == ROBUS_REFUSED;
    must(refusal || o.status == ROBUS_DONE || o.status == ROBUS_NO_MEMORY, "no such status");
    must(refusal == (1 <= o.code && o.code <= 11), "a code without a refusal");
    must((o.code == 6) == (1 <= o.number && o.number <= 7), "an inequality of another rule");
    must(k->bus.there == (o.status == ROBUS_DONE), "a bus beside a refusal");
    *k = (struct known){.bus = k->bus, .there = o.status == ROBUS_DONE};
}

/* The struct with the record's own fields, and the pattern everywhere else. */
static robus_record own_fields(const robus_record *r, uint8_t pattern)
{
    robus_record own;
    memset(&own, pattern, sizeof own);
    own.what = r->what;
    memcpy((uint8_t *)&own + 12, (const uint8_t *)r + 12, 4); /* bytes of no field */
    if (r->what != ROBUS_RECORD_END)
        own.frame = r->frame;
    if (r->what == ROBUS_RECORD_FRAME) {
        own.node_count = r->node_count, own.port_count = r->port_count;
        memcpy(own.nodes, r->nodes, r->node_count * sizeof *r->nodes);
        memcpy(own.ports, r->ports, r->port_count * sizeof *r->ports);
    } else if (r->what == ROBUS_RECORD_SLOT) {
        own.slot = r->slot, own.delivery_count = r->delivery_count;
        memcpy(own.deliveries, r->deliveries, r->delivery_count * sizeof *r->deliveries);
    } else if (r->what == ROBUS_RECORD_BREACH) {
        own.slot = r->slot, own.stage = r->stage, own.cause = r->cause;
    }
    return own;
}

/* A frame begins behind the one before; its ports are those of the good BIUs. */
static void see_frame(struct known *k, const robus_record *r)
{
    must(r->node_count <= 32 && r->port_count <= 16, "more than there is room for");
    must(r->port_count <= r->node_count, "more ports than nodes");
    must(r->frame == (k->what == 0 ? 0 : k->frame + 1), "not the next frame");
    k->frame = r->frame, k->good = 0;
    for (int i = 0; i < r->port_count; i++) {
        uint8_t biu = r->ports[i].biu;
        must(r->nodes[i].kind == ROBUS_BIU && r->nodes[i].index == biu, "a port of no good BIU");
        k->good |= 1u << biu;
    }
}

/* A slot has one sender and one value. */
static void see_slot(const struct known *k, const robus_record *r)
{
    const robus_bus_delivery *all = r->deliveries;
    must(r->delivery_count <= 16 && r->frame == k->frame, "a slot of another frame");
    for (int i = 0; i < r->delivery_count; i++) {
        must(all[i].sender == all[0].sender, "a slot of two senders");
        must(all[i].none == all[0].none && all[i].word == all[0].word, "good BIUs differ");
        must(i == 0 || all[i - 1].receiver < all[i].receiver, "receivers out of order");
        must(!all[i].none || all[i].word == 0, "a word that is none");
    }
}

/* The next record of a bus, or no bus. */
static void next_one(struct known *k, robus_record *r)
{
    uint8_t pattern = below(256);
    memset(r, pattern, sizeof *r);
    uint8_t status = robus_bus_next(&k->bus, r);
    must(status == (k->there ? ROBUS_DONE : ROBUS_NO_BUS), "another status of next");
    must(k->bus.there == k->there, "a bus that comes or goes");
    if (status != ROBUS_DONE) {
        for (size_t i = 0; i < sizeof *r; i++)
            must(((uint8_t *)r)[i] == pattern, "a record of no bus");
        return;
    }
    must(ROBUS_RECORD_FRAME <= r->what && r->what <= ROBUS_RECORD_BREACH, "no such record");
    robus_record own = own_fields(r, pattern);
    must(memcmp(&own, r, sizeof own) == 0, "bytes that are not the record's have changed");
    if (k->what >= ROBUS_RECORD_END) {
        robus_record again = own_fields(r, k->pattern);
        memcpy((uint8_t *)&again + 12, (uint8_t *)&k->last + 12, 4);
        must(memcmp(&again, &k->last, sizeof again) == 0, "not the last record again");
    } else if (r->what == ROBUS_RECORD_FRAME) {
        see_frame(k, r);
    } else if (r->what == ROBUS_RECORD_SLOT) {
        see_slot(k, r);
    } else if (r->what == ROBUS_RECORD_BREACH) {
        must(1 <= r->stage && r->stage <= 3 && 1 <= r->cause && r->cause <= 3, "no such breach");
    }
    k->what = r->what, k->last = *r, k->pattern = pattern;
}

/* A word for some BIU, mostly one that there is. */
static void hand_some(struct known *k, unsigned long *handed)
{
    uint8_t biu = below(3) == 0 ? below(256) : below(6);
    uint8_t status = robus_bus_hand(&k->bus, biu, (uint32_t)below(UINT64_C(1) << 32));
    bool good = biu < 16 && (k->good >> biu & 1);
    uint8_t due = !k->there ? ROBUS_NO_BUS
        : k->what != ROBUS_RECORD_FRAME ? ROBUS_NO_FRAME
        : !good ? ROBUS_NOT_GOOD : ROBUS_DONE;
    bool no_table = due == ROBUS_DONE && status == ROBUS_NO_TABLE;
    must(status == due || no_table, "another answer to a word");
    *handed += status == ROBUS_DONE;
}

int main(int argc, char **argv)
{
    if (argc < 4) {
        fprintf(stderr, "usage: hostile_bus COUNT SEED FILE..\n");
        return 2;
    }
    unsigned long count = strtoul(argv[1], NULL, 10), opened = 0, records = 0, handed = 0;
    state = strtoull(argv[2], NULL, 10) * 2654435761u + 1;
    size_t files_count = argc - 3;
    struct bytes *files = calloc(files_count, sizeof *files);
    for (size_t i = 0; i < files_count; i++)
        files[i] = read_file(argv[3 + i]);
    fixed_calls();
    uint8_t *text_fence = fenced(), *record_fence = fenced();
    robus_record *record = (robus_record *)(void *)(record_fence + MOST - sizeof *record);
    static struct known buses[3];
    for (number = 1; number <= count; number++) {
        struct known *k = &buses[below(3)];
        uint64_t which = below(200);
        if (which == 0) {
            must(robus_bus_free(&k->bus) == k->there, "freed what was not there");
            *k = (struct known){.bus = k->bus};
        } else if (which < 6 || (!k->there && below(4) > 0)) {
            open_some(k, text_fence, files, files_count);
            opened += k->there;
        } else if (which < (k->what == ROBUS_RECORD_FRAME ? 80 : 190)) {
            next_one(k, record);
            records += k->there;
        } else {
            hand_some(k, &handed);
        }
    }
    for (int i = 0; i < 3; i++)
        must(robus_bus_free(&buses[i].bus) == buses[i].there, "freed what was not there");
    for (size_t i = 0; i < files_count; i++)
        free(files[i].at);
    free(files);
    printf("buses: %lu calls; %lu opened, %lu records, %lu words handed in\n", count, opened,
           records, handed);
    return 0;
}
