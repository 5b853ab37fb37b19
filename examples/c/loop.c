/* loop SCENARIO: holds the pitch of an airframe by software at the BIUs of a bus, and prints how it
 * went. examples/c/loop.toml is a scenario for it.
 *
 * B0 measures the pitch and moves the elevator. B1, B2 and B3 are replicas of one controller: each
 * computes an elevator angle from the pitch that it delivers. B0 moves the elevator to the middle
 * of the three angles that it delivers, so one replica may say anything. A word is an angle in
 * microradians, as a signed number. A frame is a control period, and a unit of the bus's time is a
 * nanosecond. What B0 measures as frame k begins reaches the replicas in frame k, their angles
 * reach B0 in frame k + 1, and the elevator moves as frame k + 2 begins. */
#include <robus.h>
#include <stdio.h>
#include <stdlib.h>

enum { BIUS = 4, GUST = 400 };

/* An airframe that tips over if nobody holds it. */
struct airframe {
    double pitch;    /* rad */
    double rate;     /* rad/s */
    double elevator; /* rad */
};

/* What the software of one BIU keeps: the last word that it delivered from each BIU, and the pitch
 * that it delivered a frame earlier, in microradians. */
struct software {
    int32_t heard[BIUS];
    int32_t pitch_before;
};

/* What is counted. */
struct tally {
    unsigned slots;    /* slots in which a word was due */
    unsigned alike;    /* and all good BIUs delivered the same */
    unsigned good;     /* slots whose sender was good */
    unsigned as_given; /* and all good BIUs delivered the word that it had been handed */
};

/* Time passes for the airframe: its own motion, in steps of a tenth of a period. */
static void fly(struct airframe *frame, double seconds)
{
    for (int i = 0; i < 10; i++) {
        double acceleration = 6 * frame->pitch - frame->rate - 12 * frame->elevator; /* rad/s^2 */
        frame->rate += acceleration * seconds / 10;
        frame->pitch += frame->rate * seconds / 10;
    }
}

static int32_t middle(int32_t a, int32_t b, int32_t c)
{
    int32_t low = a < b ? a : b, high = a < b ? b : a;
    return c < low ? low : c > high ? high : c;
}

/* The elevator angle of a replica: it leans against the pitch and its change. */
static int32_t control(struct software *replica, double seconds)
{
    int32_t pitch = replica->heard[0];
    double rate = (pitch - replica->pitch_before) / seconds; /* microradians a second */
    replica->pitch_before = pitch;
    return (int32_t)(1.5 * pitch + 0.4 * rate);
}

/* Each good BIU's software takes what that BIU delivers; it keeps the last word if this is none. */
static void deliver(struct software *software, const robus_record *slot)
{
    for (int i = 0; i < slot->delivery_count; i++) {
        robus_bus_delivery d = slot->deliveries[i];
        if (!d.none)
            software[d.receiver].heard[d.sender] = (int32_t)d.word;
    }
}

/* Compares the deliveries of a slot with each other and with the word that the sender was handed.
 * A BIU is good in a slot if it is one of the receivers. */
static void count(struct tally *tally, const robus_record *slot, const uint32_t *handed)
{
    const robus_bus_delivery *all = slot->deliveries;
    bool alike = true, as_given = true, good = false;
    for (int i = 0; i < slot->delivery_count; i++) {
        alike = alike && all[i].none == all[0].none && all[i].word == all[0].word;
        as_given = as_given && !all[i].none && all[i].word == handed[all[i].sender];
        good = good || all[i].receiver == all[i].sender;
    }
    tally->slots += slot->delivery_count > 0;
    tally->alike += slot->delivery_count > 0 && alike;
    tally->good += good;
    tally->as_given += good && as_given;
}

/* A frame begins: the airframe has flown up to here, the elevator moves, and each good BIU is
 * handed its word. */
static void begin(robus_bus *bus, const robus_record *frame, struct airframe *airframe,
                  struct software *software, uint32_t *handed)
{
    static uint64_t before; /* when the frame before began, in nanoseconds */
    double seconds = (double)(frame->nodes[0].time - before) * 1e-9;
    before = frame->nodes[0].time;
    fly(airframe, seconds);
    const int32_t *angles = software[0].heard;
    airframe->elevator = middle(angles[1], angles[2], angles[3]) * 1e-6;
    if (frame->frame == GUST)
        airframe->rate += 0.5;
    for (int i = 0; i < frame->port_count; i++) {
        uint8_t biu = frame->ports[i].biu;
        int32_t word = biu == 0 ? (int32_t)(airframe->pitch * 1e6)
                                : frame->frame == 0 ? 0 : control(&software[biu], seconds);
        handed[biu] = (uint32_t)word;
        robus_bus_hand(bus, biu, handed[biu]);
    }
}

int main(int argc, char **argv)
{
    static uint8_t text[1 << 16];
    FILE *file = argc == 2 ? fopen(argv[1], "rb") : NULL;
    if (file == NULL) {
        fprintf(stderr, "usage: loop SCENARIO\n");
        return 2;
    }
    size_t length = fread(text, 1, sizeof text, file);
    fclose(file);
    robus_bus bus = {0};
    robus_opening opening = robus_bus_open(&bus, text, length);
    if (opening.status != ROBUS_DONE) {
        fprintf(stderr, "loop: status %u, rule %u\n", opening.status, opening.code);
        return 1;
    }
    static robus_record record;
    struct airframe airframe = {.pitch = 0.1};
    struct software software[BIUS] = {0};
    struct tally tally = {0};
    uint32_t handed[BIUS] = {0}, frames = 0;
    double worst = 0; /* rad, since the gust */
    for (;;) {
        uint8_t status = robus_bus_next(&bus, &record);
        if (status != ROBUS_DONE || record.what >= ROBUS_RECORD_END)
            break;
        if (record.what == ROBUS_RECORD_SLOT) {
            count(&tally, &record, handed);
            deliver(software, &record);
        } else {
            frames = record.frame;
            begin(&bus, &record, &airframe, software, handed);
            if (frames >= GUST && airframe.pitch > worst)
                worst = airframe.pitch;
        }
    }
    bool ended = record.what == ROBUS_RECORD_END;
    robus_bus_free(&bus);
    printf("%u frames, %s\n", (unsigned)frames, ended ? "no breach" : "a breach");
    printf("%u slots: all good BIUs deliver the same in %u\n", tally.slots, tally.alike);
    printf("%u slots of good senders: the word handed in is delivered in %u\n", tally.good,
           tally.as_given);
    printf("pitch 0.1000 rad at first, at most %.4f after the gust, %.4f at the end\n", worst,
           airframe.pitch < 0 ? -airframe.pitch : airframe.pitch);
    return ended ? 0 : 1;
}
