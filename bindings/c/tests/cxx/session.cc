// The program examples/session.c in C++.
#include <galliumtoad.hpp>

#include <cstdio>
#include <cstdlib>

using galliumtoad::Bytes, galliumtoad::Card, galliumtoad::Code, galliumtoad::Session;

static const uint8_t AID[] = { 0xA0, 0x00, 0x00, 0x00, 0x03, 0x10, 0x10 };
static const uint8_t JOE[] = { 'J', 'O', 'E' }, ANN[] = { 'A', 'N', 'N' };
static const uint8_t VISA[] = { 'V', 'I', 'S', 'A' };

static void check(Code code) {
    if (!failed(code)) return;
    std::fprintf(stderr, "%s\n", text(code));
    std::exit(1);
}

static void print(const char *what, unsigned status, Bytes data = {}) {
    std::printf("%s: %04X%s", what, status, data.size() > 0 ? " " : "");
    for (size_t i = 0; i < data.size(); i++) std::printf("%02X", data.data()[i]);
    std::printf("\n");
}

static Card build() {
    Card card;
    check(card.create());
    check(card.app(AID));
    check(card.object(0x5F20, JOE));
    check(card.object(0x50, VISA, true));
    check(card.finish());
    return card;
}

int main() {
    Card card = build();
    Session session;
    uint8_t data[GT_OBJECT_LIMIT];
    uint16_t status;
    size_t n;

    check(session.start(card));
    check(session.select(AID, status, data, n));
    print("select", status, { data, n });
    check(session.get(0x5F20, status, data, n));
    print("get", status, { data, n });
    check(session.put(0x5F20, ANN, status));
    print("put", status);
    check(session.get(0x5F20, status, data, n));
    print("get", status, { data, n });
    check(session.put(0x50, ANN, status));
    print("put of a locked object", status);
    check(session.end(card));
}
