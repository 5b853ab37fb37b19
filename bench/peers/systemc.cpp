// `robus stress SEED FRAMES` in SystemC. A node is a module with a method that wakes at its ticks,
// a port for its links, and a queue of payloads, which the node empties as it closes a window.
#define SC_INCLUDE_DYNAMIC_PROCESSES
#include <systemc>
#include <tlm_utils/peq_with_get.h>
#include <memory>
#include <string>
#include "book.h"

using bus::Message;
using namespace sc_core;

// A reference unit is two units of SystemC. Messages arrive at even times, and ticks are at odd
// ones, so a message that arrives at the time of a tick comes before it.
static sc_time until(bus::Time twice) {
    return sc_time::from_value(sc_dt::uint64(twice)) - sc_time_stamp();
}

struct Receiver : virtual sc_interface {
    virtual void receive(Message& message) = 0;
};

class Unit : public sc_module, public Receiver {
public:
    sc_port<Receiver, 0> links{"links"};  // to the nodes of the other kind, by number

    SC_HAS_PROCESS(Unit);
    Unit(sc_module_name, const bus::Scenario& scenario, bus::Book& book, bus::Kind kind, int number)
        : book_(book), node_(scenario, kind, number) {
        SC_METHOD(act);
        dont_initialize();
        sensitive << wake_;
        wait_for_tick();
    }

    void receive(Message& message) override {
        if (node_.runs()) arrivals_.notify(message, until(2 * message.time));
    }

private:
    bus::Book& book_;
    bus::Node node_;
    sc_event wake_;
    tlm_utils::peq_with_get<Message> arrivals_{"arrivals"};
    Message sent_[bus::MOST], lie_;  // a link has at most one message on its way

    void wait_for_tick() {
        if (node_.runs()) wake_.notify(until(2 * node_.next_time() + 1));
    }

    void act() {
        if (node_.next() == node_.last)
            while (const Message* it = arrivals_.get_next_transaction()) node_.arrive(*it);
        const bus::Shown shown = node_.tick();
        book_.note(node_, shown);
        for (int to = 0; shown.says && to < links.size(); to++) {
            sent_[to] = node_.said;
            sent_[to].time += node_.scenario.delays[node_.kind][node_.number][to];
            links[to]->receive(sent_[to]);
        }
        if (shown.lie) receive(lie_ = *shown.lie);
        if (book_.ended) sc_stop();
        wait_for_tick();
    }
};

int sc_main(int count, char** words) {
    sc_report_handler::set_actions(SC_INFO, SC_DO_NOTHING);
    const bus::Scenario scenario = bus::scenario_of(count, words);
    bus::Book book(scenario, count > 3);
    std::vector<std::unique_ptr<Unit>> units[2];
    bus::each_node([&](bus::Kind kind, int i) {
        const std::string name = "BR"[kind] + std::to_string(i);
        units[kind].push_back(std::make_unique<Unit>(name.c_str(), scenario, book, kind, i));
    });
    for (auto& biu : units[bus::BIU])
        for (auto& rmu : units[bus::RMU]) biu->links(*rmu), rmu->links(*biu);
    sc_start();
    book.finish();
    return 0;
}
