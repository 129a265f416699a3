// A shared object with its own function alone, though it has copies of the library's: the addresses
// of all that CALLS names, and handles of C++.
#include <galliumtoad.hpp>

#include <vector>

extern "C" const void *own(size_t at) {
    static const void *const calls[] = { CALLS };
    std::vector<galliumtoad::Card> cards(3);
    std::vector<galliumtoad::Session> sessions(3);
    std::vector<galliumtoad::Terminal> terminals(3);
    std::vector<galliumtoad::Exchange> exchanges(3);
    std::vector<galliumtoad::T1> ends(3);
    galliumtoad::Aid aid;
    bool is;
    cards.resize(4);
    sessions.resize(4);
    terminals.resize(4);
    exchanges.resize(4);
    ends.resize(4);
    cards[0] = std::move(cards[1]);
    if (failed(cards[2].selected(aid)) || failed(sessions[0].idle(is))
        || failed(terminals[0].create()) || failed(exchanges[0].start(aid))
        || failed(ends[0].missed()) || failed(galliumtoad::pps_agreed(aid, aid, is)))
        return nullptr;
    return calls[at];
}
