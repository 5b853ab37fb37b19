// `robus stress SEED FRAMES` in ns-3. A node is an object, and its ticks and arrivals are events of
// the simulator.
#include <ns3/core-module.h>
#include "book.h"

using bus::Message;
using ns3::Simulator;

// A reference unit is two units of ns-3. Messages arrive at even times, and ticks are at odd ones,
// so a message that arrives at the time of a tick comes before it.
static ns3::Time until(bus::Time twice) { return ns3::Time(twice) - Simulator::Now(); }

class Unit : public ns3::Object {
public:
    Unit(const bus::Scenario& scenario, bus::Book& book, bus::Kind kind, int number)
        : m_book(book), m_node(scenario, kind, number) {
        wait_for_tick();
    }

    void link(const ns3::Ptr<Unit>& peer) { m_peers.push_back(ns3::PeekPointer(peer)); }

private:
    bus::Book& m_book;
    bus::Node m_node;
    std::vector<Unit*> m_peers;

    void wait_for_tick() {
        if (m_node.runs())
            Simulator::Schedule(until(2 * m_node.next_time() + 1), &Unit::act, this);
    }

    void deliver(const Message& message) {
        if (m_node.runs())
            Simulator::Schedule(until(2 * message.time), &bus::Node::arrive, &m_node, message);
    }

    void act() {
        const bus::Shown shown = m_node.tick();
        m_book.note(m_node, shown);
        for (std::size_t to = 0; shown.says && to < m_peers.size(); to++) {
            Message message = m_node.said;
            message.time += m_node.scenario.delays[m_node.kind][m_node.number][to];
            m_peers[to]->deliver(message);
        }
        if (shown.lie) deliver(*shown.lie);
        if (m_book.ended) Simulator::Stop();
        wait_for_tick();
    }
};

int main(int count, char** words) {
    const bus::Scenario scenario = bus::scenario_of(count, words);
    bus::Book book(scenario, count > 3);
    Simulator::SetScheduler(ns3::ObjectFactory("ns3::PriorityQueueScheduler"));
    std::vector<ns3::Ptr<Unit>> units[2];
    bus::each_node([&](bus::Kind kind, int i) {
        units[kind].push_back(ns3::Create<Unit>(scenario, book, kind, i));
    });
    for (auto& biu : units[bus::BIU])
        for (auto& rmu : units[bus::RMU]) biu->link(rmu), rmu->link(biu);
    Simulator::Run();
    Simulator::Destroy();
    book.finish();
    return 0;
}
