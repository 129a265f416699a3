// Tests galliumtoad.hpp with the library itself: codes and texts, spans, buffers, and values that a
// call sets. What each call passes, and moves of handles, are tested in forwards.cc. It compiles
// without exceptions and RTTI.
#include <galliumtoad.hpp>

#include "../check.h"

#include <array>
#include <vector>

using namespace galliumtoad;

static const uint8_t AID[] = { 0xA0, 0x00, 0x00, 0x00, 0x03, 0x10, 0x10 };

static void of_texts() {
    CHECK(strcmp(text(Code::Ok), "ok"), 0);
    CHECK(strcmp(text(Code::AppTwice), "aid twice"), 0);
    CHECK(strcmp(status_text(0x6982), "security status not satisfied"), 0);
    std::array<char, GT_WORDS_ROOM> words{};
    CHECK(status_words(0x00, 0x20, 0x63C2, words), 27);
    CHECK(strcmp(words.data(), "a warning: 2 tries are left"), 0);
    CHECK(galliumtoad::failed(Code::Ok), 0);
    CHECK(galliumtoad::failed(Code::AllSent), 0);
    CHECK(galliumtoad::failed(Code::Null), 1);
    CHECK(Edc::Lrc, GT_LRC);
    CHECK(Edc::Crc, GT_CRC);
    CHECK(Outcome::NotCarriedOut, GT_NOT_CARRIED_OUT);
    CHECK(Outcome::Unknown, GT_UNKNOWN);
    CHECK(Outcome::InPart, GT_IN_PART);
}

static size_t size_of(Bytes bytes) { return bytes.size(); }

static void of_spans() {
    const uint8_t array[] = { 1, 2, 3 };
    const std::vector<uint8_t> vector(4);
    std::array<uint8_t, 5> standard{};
    const Aid aid;
    CHECK(size_of(array), 3);
    CHECK(size_of(vector), 4);
    CHECK(size_of(std::vector<uint8_t>(6)), 6);
    CHECK(size_of(standard), 5);
    CHECK(size_of({ array, 2 }), 2);
    CHECK(size_of({}), 0);
    CHECK(size_of(aid), 0);
    CHECK(Room(standard).data() == standard.data(), 1);
    static_assert(!std::is_convertible_v<const std::vector<uint8_t> &, Room>);
    static_assert(!std::is_convertible_v<std::vector<uint16_t> &, Room>);
    static_assert(!std::is_convertible_v<const Aid &, Room>);
    static_assert(!std::is_convertible_v<Code, int>);
}

// Why an end gave up, by its number of tries.
static void of_faults() {
    T1 end;
    Code cause = Code::Ok;
    Outcome outcome = Outcome::InPart;
    std::array<uint8_t, GT_BLOCK_LIMIT> block;
    size_t n = 0;
    uint8_t waits = 0;
    CHECK(end.fault(cause, outcome), GT_EMPTY);
    CHECK(end.create(Edc::Lrc, 32, 0), GT_OK);
    CHECK(end.fault(cause, outcome), GT_NOT_FOUND);
    CHECK(cause, GT_OK);
    CHECK(outcome, GT_IN_PART);
    CHECK(end.begin(AID), GT_OK);
    for (int i = 0; i < 2; i++) {
        CHECK(end.send_bytes(block, n, waits), GT_OK);
        CHECK(end.missed(), GT_OK);
    }
    CHECK(end.send_bytes(block, n, waits), GT_FAILED);
    CHECK(end.fault(cause, outcome), GT_OK);
    CHECK(cause, GT_TRIES_SPENT);
    CHECK(outcome, GT_UNKNOWN);
}

int main() {
    of_texts();
    of_spans();
    of_faults();
    return check_result("cxx_texts");
}
