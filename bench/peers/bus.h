// The nodes of `robus stress` and their scenario, from docs/RULES.md and docs/robus.md, for any
// simulator that keeps time and carries messages. The simulator calls Node::tick at the time of
// Node::next, and Node::arrive beforehand with each message that arrives up to that time.
#pragma once
#include <algorithm>
#include <cstdint>
#include <limits>
#include <optional>
#include <utility>
#include <vector>

namespace bus {

using Time = long;                  // in reference units
using Tick = long;                  // of a node's own clock, from 0 on
using Mask = unsigned;              // bit i is the node with number i
using Word = long;                  // a word of 32 bits, FAULT or CALL
using Place = std::pair<int, int>;  // a frame and a slot
constexpr Word FAULT = -1, CALL = -2;
constexpr Tick NEVER = std::numeric_limits<Tick>::max();

// The sizes and the timing plan of the generated scenario
enum Kind { BIU, RMU };
constexpr int MOST = 8, COUNT[] = {8, 5}, SLOTS = 16, REQUEST = 2;
constexpr int DATA_SLOT = COUNT[BIU], DIAGNOSIS_SLOT = DATA_SLOT + SLOTS;
constexpr int SYNC_SLOT = DIAGNOSIS_SLOT + COUNT[BIU] + COUNT[RMU];
constexpr Tick L = 15, H = 6, V = 18, Z = 20, C = 1;
constexpr Time DMIN = 5000, DMAX = 15000, SKEW = 60200;

constexpr Kind other(Kind kind) { return kind == BIU ? RMU : BIU; }
inline bool has(Mask mask, int i) { return mask >> i & 1; }
inline int size(Mask mask) { return __builtin_popcount(mask); }
inline Mask all(Kind kind) { return (1u << COUNT[kind]) - 1; }
template <class Action>
void each(Mask mask, Action action) {
    for (; mask; mask &= mask - 1) action(__builtin_ctz(mask));
}
template <class Action>
void each_node(Action action) {
    for (Kind kind : {BIU, RMU})
        for (int i = 0; i < COUNT[kind]; i++) action(kind, i);
}

enum Role { SCHEDULE, DATA, DIAGNOSIS, SYNC };
constexpr int TAIL = 4;  // the stage after the three of the sync slot

struct Slot {
    Role role;
    Kind kind;  // of its sender
    int item;   // the number of its sender, or in a data slot that of the data slot
};

inline Slot slot_at(int slot) {
    const int rest = slot - DIAGNOSIS_SLOT;
    if (slot < DATA_SLOT) return {SCHEDULE, BIU, slot};
    if (rest < 0) return {DATA, BIU, slot - DATA_SLOT};
    if (rest < COUNT[BIU]) return {DIAGNOSIS, BIU, rest};
    return {slot < SYNC_SLOT ? DIAGNOSIS : SYNC, RMU, rest - COUNT[BIU]};
}

struct Message {
    int from, frame, slot, stage;
    Word word;
    Time time;  // at which it is sent, and on a link the one at which it arrives
};

struct Clock {
    Time start, length;
    Time time_of(Tick tick) const { return start + tick * length; }
    Tick stamp_of(Time at) const { return at <= start ? 0 : (at - start + length - 1) / length; }
};

struct Scenario {
    int frames;
    Clock clocks[2][MOST];
    Time delays[2][MOST][MOST];  // by the sender's kind, the sender and the receiver
    Place onsets[2][MOST];       // from which on a node is not good

    Scenario(std::uint64_t seed, int frames) : frames(frames) {
        auto drawn = [&seed](int range) {
            seed = seed * 6364136223846793005u + 1442695040888963407u;
            return Time((seed >> 32) % range);
        };
        each_node([&](Kind kind, int i) { onsets[kind][i] = {frames + 1, 0}; });
        onsets[BIU][7] = {frames / 2, 15};
        onsets[RMU][4] = {int(drawn(frames)), 0};
        each_node([&](Kind kind, int i) {
            clocks[kind][i].start = i ? drawn(SKEW + 1) : kind == BIU ? SKEW : 0;
        });
        each_node([&](Kind kind, int i) { clocks[kind][i].length = 9999 + drawn(3); });
        each_node([&](Kind kind, int i) {
            for (int to = 0; to < COUNT[other(kind)]; to++)
                delays[kind][i][to] = DMIN + drawn(DMAX - DMIN + 1);
        });
    }

    Mask good(Kind kind, Place place) const {
        Mask mask = 0;
        for (int i = 0; i < COUNT[kind]; i++) mask |= Mask(place < onsets[kind][i]) << i;
        return mask;
    }

    // What B7 says to a node in a window, if it says anything there.
    std::optional<Message> lie_to(Kind kind, int i, Place place, int stage, Time time) const {
        if (kind == BIU || i > 3 || place != onsets[BIU][7] || stage != 1) return {};
        return Message{7, place.first, place.second, 1, i < 2 ? 1 : 2, time};
    }
};

// What a node shows at a tick.
struct Shown {
    bool began = false;          // It began a frame,
    bool says = false;           // it says Node::said to all nodes of the other kind,
    int stage = 0, slot = 0;     // it closed this stage of this slot, unless the stage is 0,
    Mask taken = 0;              // and there it accepted a message from each of these nodes,
    int owner = -1;              // it delivered its vote on what this owner of the slot said,
    std::optional<Message> lie;  // and this lie is on its way to it.
};

struct Node {
    const Scenario& scenario;
    const Kind kind;
    const int number;
    const Clock clock = scenario.clocks[kind][number];
    int frame = -1, at = 0, stage = 1, sender = -1, owners[SLOTS];  // `at` is the slot's number
    Slot slot = {};
    Tick epoch = 0, first = 0, length = 0, last = NEVER, send = NEVER, turn_at = 0, middle = 0;
    Mask trusted[2] = {all(BIU), all(RMU)}, direct = 0, mismatched = 0;
    Mask expected = 0, any = 0, many = 0;  // from whom a message arrived, and from whom more
    Message inbox[MOST] = {}, said = {};
    Word votes[SYNC_SLOT + 1], kept = FAULT, took = FAULT;  // the last two are of stage 1
    std::uint64_t lost = 0;  // which of the last 64 deliveries were FAULT

    Node(const Scenario& scenario, Kind kind, int number)
        : scenario(scenario), kind(kind), number(number) {}

    Tick next() const { return std::min({turn_at, send, last}); }
    bool runs() const { return next() != NEVER; }
    Time next_time() const { return clock.time_of(next()); }
    Mask sources() const { return trusted[other(kind)]; }
    bool is_good(Place place) const { return place < scenario.onsets[kind][number]; }

    void arrive(const Message& message) {
        many |= any & 1u << message.from;
        any |= 1u << message.from;
        inbox[message.from] = message;
    }

    Shown tick() {
        Shown shown;
        const Tick now = next();
        if (now == turn_at) turn(shown);
        if (now == send) {
            send = NEVER;
            said = {number, frame, at, stage, word_to_say(), clock.time_of(now)};
            shown.says = true;
        }
        if (now == last) close(shown);
        return shown;
    }

    // Convicts by the votes of the frame and begins the next one, unless the node is faulty then.
    void turn(Shown& shown) {
        epoch = turn_at;
        turn_at = NEVER;
        if (!is_good({frame + 1, 0})) return;
        const Mask bius = convicted(BIU), rmus = convicted(RMU);
        trusted[BIU] &= ~bius;
        trusted[RMU] &= ~rmus;
        frame++;
        shown.began = true;
        std::fill_n(votes, SYNC_SLOT + 1, FAULT);
        std::fill_n(owners, SLOTS, -1);
        first = epoch;
        length = 0;
        if (frame < scenario.frames) open(0, 1, shown);
    }

    Mask convicted(Kind accused) const {
        int valid = 0, named[MOST] = {};
        const int begin = DIAGNOSIS_SLOT + (accused == BIU ? COUNT[BIU] : 0);
        each(frame < 0 ? 0 : trusted[other(accused)], [&](int voter) {
            const Word vector = votes[begin + voter];
            if (vector == FAULT || vector >> COUNT[accused]) return;
            valid++;
            each(Mask(vector), [&](int i) { named[i]++; });
        });
        Mask mask = 0;
        for (int i = 0; i < COUNT[accused]; i++) mask |= Mask(2 * named[i] > valid) << i;
        return mask;
    }

    // Opens the window of a stage, which begins where the last window ended.
    void open(int next_slot, int next_stage, Shown& shown) {
        at = next_slot;
        stage = next_stage;
        slot = slot_at(at);
        const Tick before = length;
        first += before;
        const Tick lengths[] = {L, slot.role == SYNC ? V : L, slot.role == SYNC ? Z : L};
        length = stage == TAIL ? turn_at - first : lengths[stage - 1];
        last = length ? first + length - 1 : NEVER;
        expected = 0;
        if (slot.role == SYNC) {
            const bool listens = (kind == BIU) == (stage == 2);
            if (listens && stage != TAIL) expected = sources();
            if (!listens && stage != TAIL) send = stage == 1 ? first + H : middle + before;
        } else {
            sender = slot.role == DATA ? owners[slot.item] : slot.item;
            if (sender >= 0 && !has(trusted[slot.kind], sender)) sender = -1;
            const bool listens = (slot.kind == kind) == (stage == 2);
            const bool is_silent = sender < 0 || (slot.role == DATA && stage == 3);
            const bool speaks = !is_silent && !listens && (stage > 1 || sender == number);
            if (listens && !is_silent) expected = stage == 1 ? 1u << sender : sources();
            if (speaks) send = first + H;
        }
        shown.lie = scenario.lie_to(kind, number, {frame, at}, stage, clock.time_of(first + H));
    }

    Word word_to_say() {
        if (slot.role == SYNC) return CALL;
        if (stage > 1) return stage == 2 ? took : votes[at];
        if (slot.role == DIAGNOSIS) return kept = (direct | mismatched) & sources();
        return kept = slot.role == DATA ? number + 1 : REQUEST;
    }

    // Closes the window, and opens the next one if this was not the tail.
    void close(Shown& shown) {
        Mask fitting = 0;
        each(expected & any & ~many, [&](int from) {
            const Message& it = inbox[from];
            const bool is_here = it.frame == frame && it.slot == at && it.stage == stage;
            fitting |= Mask(is_here && (it.word == CALL) == (slot.role == SYNC)) << from;
        });
        shown.stage = stage;
        shown.slot = at;
        shown.taken = fitting & ~direct;
        direct |= sources() & ((expected & ~fitting) | (any & ~expected));
        any = many = 0;
        last = NEVER;
        if (stage == TAIL) return;
        if (slot.role == SYNC) close_sync(shown.taken);
        else close_exact(shown);
        const bool is_over = stage == 3 && at < SYNC_SLOT;
        if (is_good({frame, at + is_over})) open(at + is_over, is_over ? 1 : stage + 1, shown);
    }

    void close_exact(Shown& shown) {
        const bool data = slot.role == DATA, votes_now = (slot.kind == kind) == (stage == 2);
        if (stage == 1) {
            took = shown.taken ? inbox[sender].word : FAULT;
        } else if (votes_now && sender >= 0 && !(data && stage == 3)) {
            const Word word = votes[at] = majority(shown.taken);
            if (stage == 3) accuse_unlike(shown.taken, word);
            else if (sender == number) accuse_unlike(shown.taken, kept);
            if (data) shown.owner = sender;
            if (data) lost = lost << 1 | (word == FAULT);
        }
        if (stage == 3 && at == DATA_SLOT - 1) deal_slots();
    }

    Word majority(Mask taken) const {
        for (Mask rest = taken; rest; rest &= rest - 1) {
            const Word word = inbox[__builtin_ctz(rest)].word;
            int count = 0;
            each(taken, [&](int from) { count += inbox[from].word == word; });
            if (2 * count > size(taken)) return word;
        }
        return FAULT;
    }

    void accuse_unlike(Mask taken, Word word) {
        each(taken, [&](int from) { mismatched |= Mask(inbox[from].word != word) << from; });
    }

    void deal_slots() {
        int dealt = 0;
        for (Word pass = 0; pass < SLOTS; pass++)
            each(trusted[BIU], [&](int biu) {
                if (pass < votes[biu] && dealt < SLOTS) owners[dealt++] = biu;
            });
    }

    void close_sync(Mask taken) {
        std::vector<Tick> stamps;
        each(taken, [&](int from) { stamps.push_back(clock.stamp_of(inbox[from].time)); });
        std::sort(stamps.begin(), stamps.end());
        if (expected) middle = stamps.empty() ? first : stamps[(stamps.size() - 1) / 2];
        if (stage == 3) turn_at = middle + Z + (kind == BIU ? V + C : 0);
    }
};

}  // namespace bus
