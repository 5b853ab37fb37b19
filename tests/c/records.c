/* records FILE: opens a bus on the scenario in the file and prints its records as the lines of a
 * report. Ends with 0 at the end of the run and with 1 at a breach, as `robus run` does. */
#include <inttypes.h>
#include <robus.h>
#include <stdio.h>

static void print_frame(const robus_record *r)
{
    for (int i = 0; i < r->node_count; i++)
        printf("e %" PRIu32 " %c%u %" PRIu64 " %" PRIu64 "\n", r->frame, "BR"[r->nodes[i].kind],
               r->nodes[i].index, r->nodes[i].tick, r->nodes[i].time);
    for (int i = 0; i < r->node_count; i++)
        printf("c %" PRIu32 " %c%u %u %u\n", r->frame, "BR"[r->nodes[i].kind],
               r->nodes[i].index, r->nodes[i].convicted_bius, r->nodes[i].convicted_rmus);
    for (int i = 0; i < r->port_count; i++)
        printf("p %" PRIu32 " B%u %" PRIu64 " %u\n", r->frame, r->ports[i].biu, r->ports[i].state,
               r->ports[i].losses);
}

static void print_slot(const robus_record *r)
{
    for (int i = 0; i < r->delivery_count; i++) {
        robus_bus_delivery d = r->deliveries[i];
        printf("d %" PRIu32 " %u B%u B%u ", r->frame, r->slot, d.receiver, d.sender);
        if (d.none)
            printf("none\n");
        else
            printf("%" PRIu32 "\n", d.word);
    }
}

int main(int argc, char **argv)
{
    static uint8_t text[1 << 20];
    FILE *file = argc == 2 ? fopen(argv[1], "rb") : NULL;
    if (file == NULL) {
        fprintf(stderr, "usage: records FILE\n");
        return 2;
    }
    size_t length = fread(text, 1, sizeof text, file);
    fclose(file);
    robus_bus bus = {0};
    robus_opening opening = robus_bus_open(&bus, text, length);
    if (opening.status != ROBUS_DONE) {
        fprintf(stderr, "records: status %u, rule %u\n", opening.status, opening.code);
        return 3;
    }
    static const char *const causes[] = {"", "FewGoodBiu", "FewGoodRmu", "TwoSided"};
    static robus_record r;
    uint32_t newest = 0;
    do {
        if (robus_bus_next(&bus, &r) != ROBUS_DONE)
            return 3;
        switch (r.what) {
        case ROBUS_RECORD_FRAME: newest = r.frame; print_frame(&r); break;
        case ROBUS_RECORD_SLOT: print_slot(&r); break;
        case ROBUS_RECORD_END: printf("end %" PRIu32 "\n", newest); break;
        default: printf("breach %" PRIu32 " %u %u %s\n", r.frame, r.slot, r.stage, causes[r.cause]);
        }
    } while (r.what < ROBUS_RECORD_END);
    robus_bus_free(&bus);
    return r.what == ROBUS_RECORD_BREACH;
}
