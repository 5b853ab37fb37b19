// The book of a run. It judges the fault premise, and prints the numbers of `robus stress`. With a
// third word it prints the report of `robus run` on that scenario, in the order of events.
#pragma once
#include <cstdio>
#include <cstdlib>
#include "bus.h"

namespace bus {

inline Scenario scenario_of(int count, char** words) {
    if (count < 3) std::fputs("usage: SEED FRAMES [run]\n", stderr), std::exit(2);
    return {std::strtoull(words[1], nullptr, 10), std::atoi(words[2])};
}

// Good nodes close a stage before one of them closes the next, so the book has one stage at a time.
// A stage, or the start of a frame, is settled once all good nodes have told of it.
class Book {
public:
    bool ended = false;

    Book(const Scenario& scenario, bool prints) : scenario_(scenario), prints_(prints) {}

    void note(const Node& node, const Shown& shown) {
        if (shown.began) begin(node);
        if (shown.owner >= 0) deliver(node, shown);
        if (shown.stage == 0 || shown.stage == TAIL) return;
        see(node, shown);
        if (++closed_ == size(good_[BIU]) + size(good_[RMU])) settle(node, shown);
    }

    // Prints the end of the report, or the four numbers if no report was asked for.
    void finish() const {
        if (prints_) std::printf("end %d\n", scenario_.frames);
        else std::printf("frames %d\ndeliveries %d\nconvicted %d\nspread %ld\n",
                         scenario_.frames, deliveries_, convicted_, spread_);
    }

private:
    struct Sights {  // of the nodes of a kind that are or turn faulty in the frame
        Mask watched = 0, heard = 0, unlike = 0;  // in the frame so far
        Mask seen = 0, missed = 0;                // in this stage, by some good receiver
        Word low[MOST], high[MOST];               // words, or in the sync slot times
    };

    const Scenario& scenario_;
    const bool prints_;
    int deliveries_ = 0, convicted_ = 0, begun_ = 0, closed_ = 0;
    Time spread_ = 0, start_ = 0;
    Mask good_[2] = {};
    Sights sights_[2];

    void begin(const Node& node) {
        const int frame = node.frame, i = node.number;
        const Place place = {frame, 0};
        const Time time = node.clock.time_of(node.epoch);
        const Mask bius = all(BIU) & ~node.trusted[BIU], rmus = all(RMU) & ~node.trusted[RMU];
        if (prints_) {
            const char kind = "BR"[node.kind];
            std::printf("e %d %c%d %ld %ld\n", frame, kind, i, node.epoch, time);
            std::printf("c %d %c%d %u %u\n", frame, kind, i, bius, rmus);
            const int losses = __builtin_popcountll(node.lost);
            if (kind == 'B') std::printf("p %d B%d %d %d\n", frame, i, i + 1, losses);
        }
        if (begun_++ == 0) start_ = time;
        if (begun_ < size(scenario_.good(BIU, place)) + size(scenario_.good(RMU, place))) return;
        begun_ = 0;
        spread_ = std::max(spread_, time - start_);
        convicted_ = size(bius) + size(rmus);
        ended = frame == scenario_.frames;
        for (Kind kind : {BIU, RMU}) {
            good_[kind] = scenario_.good(kind, place);
            sights_[kind] = {};
            sights_[kind].watched = all(kind) & ~scenario_.good(kind, {frame, SYNC_SLOT});
        }
    }

    void deliver(const Node& node, const Shown& shown) {
        deliveries_++;
        if (!prints_) return;
        const Word word = node.votes[shown.slot];
        std::printf("d %d %d B%d B%d ", node.frame, shown.slot, node.number, shown.owner);
        word == FAULT ? std::printf("none\n") : std::printf("%ld\n", word);
    }

    void see(const Node& node, const Shown& shown) {
        Sights& it = sights_[other(node.kind)];
        each(it.watched & shown.taken, [&](int i) {
            const bool first = !has(it.seen, i), sync = shown.slot == SYNC_SLOT;
            const Word sight = sync ? node.inbox[i].time : node.inbox[i].word;
            it.low[i] = first ? sight : std::min(it.low[i], sight);
            it.high[i] = first ? sight : std::max(it.high[i], sight);
            it.unlike |= Mask(it.high[i] - it.low[i] > (sync ? DMAX - DMIN : 0)) << i;
            it.seen |= 1u << i;
        });
        it.missed |= it.watched & ~shown.taken;
    }

    void settle(const Node& node, const Shown& shown) {
        bool few[2], split[2];
        for (Kind kind : {BIU, RMU}) {
            Sights& it = sights_[kind];
            const Mask bad = node.trusted[kind] & ~good_[kind];
            it.heard |= it.seen;
            it.unlike |= it.seen & it.missed;
            it.seen = it.missed = 0;
            few[kind] = size(node.trusted[kind] & good_[kind]) <= size(bad & it.heard);
            split[kind] = bad & it.unlike;
            if (shown.stage == 3) good_[kind] = scenario_.good(kind, {node.frame, shown.slot + 1});
        }
        closed_ = 0;
        // A breach ends the run with status 1, as in `stress`
        if (few[BIU] || few[RMU] || (split[BIU] && split[RMU])) std::exit(1);
    }
};

}  // namespace bus
