// Tests what calls of galliumtoad.hpp pass to the archive, and that they return the archive's code:
// those that same.py has no rule for, and one with a span and one that asks, for the macros. The
// stand-ins for the archive are those of forwards.c, which tests the header for C.
#include <galliumtoad.hpp>

#define STAND_INS_ALONE
#include "../forwards.c"

using namespace galliumtoad;

// Each has an address and a size of its own.
static const uint8_t bytes[23] = {}, more[29] = {};
static uint8_t buffer[31];
static const Bytes in(bytes, 23), second(more, 29);
static const Room to(buffer, 31);
#define IN P(bytes), 23
#define TO P(buffer), 31

// A code that is no fault is a yes or a no.
#define ASKS(call, is, name, ...) do { \
        static const int32_t answers_[] = { 0, 1, GT_EMPTY, GT_NULL }; \
        for (int32_t answer_ : answers_) \
            for (bool was_ : { false, true }) { \
                is = was_; \
                calls = 0; \
                told[0] = answer_; \
                CHECK(call, answer_ < 0 ? answer_ : GT_OK); \
                CHECK(calls, 1); \
                IS_HANDED(0, name, __VA_ARGS__); \
                CHECK(is, answer_ < 0 ? was_ : answer_ == 1); \
            } \
    } while (0)

static void of_no_handle() {
    Pps request;
    bool is;
    HANDS(pps_request(request, 1, 2, 3, 4), "pps_request", 1, 2, 3, 4, P(request.bytes),
          GT_PPS_LIMIT, P(&request.count));
    HANDS(pps_request(request, 1), "pps_request", 1, 256, 256, 256, P(request.bytes), GT_PPS_LIMIT,
          P(&request.count));
    ASKS(pps_agreed(in, second, is), is, "pps_agreed", IN, P(more), 29);
    library = 0x000300;
    CHECK(version(), 0x000300);
    CHECK(version_fits(), 1);
    library = 0x000900;
    CHECK(version(), 0x000900);
    CHECK(version_fits(), 0);
}

// `find` of a stand-in that answers GT_OK leaves the object as it was, so this has a stand-in's
// size: it is no object.
static void of_objects() {
    calls = 0;
    told[0] = GT_NOT_FOUND;
    CHECK(is_object(in, 0x84), 0);
    CHECK(calls, 1);
    CHECK(notes[0].what[0], P(bytes));
    CHECK(notes[0].what[1], 23);
}

static void of_t1() {
    T1 t;
    Code cause = Code::Busy;
    Outcome outcome = Outcome::InPart;
    HANDS(t.create(Edc::Lrc, 32), "t1_new", P(t.handle()), GT_LRC, 32, 4, 1000, 258);
    HANDS(t.fault(cause, outcome), "t1_fault", P(t.handle()), ANY, ANY);
    // a stand-in sets nothing
    CHECK(cause, GT_BUSY);
    CHECK(outcome, GT_IN_PART);
}

static void of_card() {
    Card c;
    Entry it;
    const Directions ways = GT_ISO_DIRECTIONS;
    HANDS(c.object(0x5F20, in), "card_object", P(c.handle()), 0x5F20, IN, 0);
    HANDS(c.plan(text(3)), "card_plan", P(c.handle()), P(text(3)), 3, 256);
    HANDS(c.entry_at(5, 6, it, to), "card_entry_at", P(c.handle()), 5, 6, P(&it.tag), P(&it.locked),
          TO, P(&it.count));
    HANDS(c.own(&ways), "card_own", P(c.handle()), P(ways), 32);
    HANDS(c.own(), "card_own", P(c.handle()), ANY, 0);
}

static void of_session() {
    Session s;
    Entry it;
    HANDS(s.plan(text(3)), "session_plan", P(s.handle()), P(text(3)), 3, 256);
    HANDS(s.entry_at(5, 6, it, to), "session_entry_at", P(s.handle()), 5, 6, P(&it.tag),
          P(&it.locked), TO, P(&it.count));
}

// The destructor and `free` free the handle, and nothing else does.
template <class T> static void frees(const char *name) {
    uintptr_t at;
    {
        T handle;
        at = P(handle.handle());
        calls = 0;
        handle.free();
        CHECK(calls, 1);
        is_handed(__LINE__, 0, name, &at, 1);
        calls = 0;
    }
    CHECK(calls, 1);
    is_handed(__LINE__, 0, name, &at, 1);
}

// A moved handle has the content, and the old one is empty. A handle frees its own content first.
template <class T> static void moves(const char *name) {
    T one, two;
    one.handle()->live = true;
    one.handle()->held = AT(1);
    calls = 0;
    T three(std::move(one));
    CHECK(calls, 0);
    CHECK(one.handle()->live, 0);
    CHECK(P(one.handle()->held), 0);
    CHECK(three.handle()->live, 1);
    CHECK(P(three.handle()->held), P(AT(1)));
    two = std::move(three);
    CHECK(calls, 1);
    const uintptr_t at = P(two.handle());
    is_handed(__LINE__, 0, name, &at, 1);
    CHECK(three.handle()->live, 0);
    CHECK(P(two.handle()->held), P(AT(1)));
    T &same = two;
    two = std::move(same);
    CHECK(two.handle()->live, 1);
    CHECK(P(two.handle()->held), P(AT(1)));
}

template <class T> static void is_handle(const char *name) {
    static_assert(std::is_nothrow_default_constructible_v<T>);
    static_assert(std::is_nothrow_move_constructible_v<T>);
    static_assert(std::is_nothrow_move_assignable_v<T>);
    static_assert(std::is_nothrow_destructible_v<T>);
    static_assert(!std::is_copy_constructible_v<T> && !std::is_copy_assignable_v<T>);
    static_assert(sizeof(T) == 16);
    CHECK(T().handle()->live, 0);
    frees<T>(name);
    moves<T>(name);
}

int main() {
    memset(letters, 'o', LETTERS);
    of_no_handle();
    of_objects();
    of_t1();
    of_card();
    of_session();
    is_handle<Exchange>("galliumtoad_exchange_free");
    is_handle<Terminal>("galliumtoad_terminal_free");
    is_handle<T1>("galliumtoad_t1_free");
    is_handle<Card>("galliumtoad_card_free");
    is_handle<Session>("galliumtoad_session_free");
    return check_result("cxx_forwards");
}
