/* galliumtoad.hpp: the functions of galliumtoad.h for C++17 and later. That header is the
 * reference: a call here is the function of its name there (`create` is gt_.._new).
 *
 * - A handle is empty at first. It moves, can't be copied, and its destructor frees what it holds.
 * - `Bytes` is input and `Room` is for output. They are std::span in C++20, and in C++17 a type
 *   with its constructors. Arrays, std::array and std::vector convert to both, `Buffer` to `Bytes`.
 * - A call sets its references if the function of C sets what its pointers point to.
 * - Nothing throws, and -fno-exceptions and -fno-rtti are possible.
 * - All calls are inline and hidden: a shared object exports none of them. */
#ifndef GALLIUMTOAD_HPP
#define GALLIUMTOAD_HPP

#include "galliumtoad.h"

#include <iterator>
#include <type_traits>
#include <utility>
#if __has_include(<span>)
#include <span>
#endif

#define GT_HIDDEN __attribute__((visibility("hidden")))
#define GT_ASK [[nodiscard]] inline GT_HIDDEN
#define GT_CODE GT_ASK Code
/* What C takes for a span, and a call that returns the code of one of C. */
#define GT_SPAN(it) (it).data(), (it).size()
#define GT_OVER(...) noexcept { return Code(__VA_ARGS__); }

namespace galliumtoad {

/* The codes of galliumtoad.h. */
enum class Code : int32_t {
    Ok = GT_OK, Sends = GT_SENDS, Done = GT_DONE, Command = GT_COMMAND, Header = GT_HEADER,
    AllSent = GT_ALL_SENT, NotAllSent = GT_NOT_ALL_SENT, SentUnknown = GT_SENT_UNKNOWN,
    Null = GT_NULL, Empty = GT_EMPTY, State = GT_STATE, Memory = GT_MEMORY,
    Argument = GT_ARGUMENT, Buffer = GT_BUFFER, Busy = GT_BUSY, NotFound = GT_NOT_FOUND,
    Failed = GT_FAILED, Plans = GT_PLANS,
    AppTwice = GT_APP_TWICE, TooManyApps = GT_TOO_MANY_APPS, NoApp = GT_NO_APP,
    ValueTooLong = GT_VALUE_TOO_LONG, NotObjects = GT_NOT_OBJECTS, TableFull = GT_TABLE_FULL,
    NotListening = GT_NOT_LISTENING, BadProcedure = GT_BAD_PROCEDURE, TooLong = GT_TOO_LONG,
    Stalled = GT_STALLED, AfterEnd = GT_AFTER_END, TagCut = GT_TAG_CUT, TagForm = GT_TAG_FORM,
    LengthCut = GT_LENGTH_CUT, LengthForm = GT_LENGTH_FORM, ValueCut = GT_VALUE_CUT,
    TooDeep = GT_TOO_DEEP, TooShort = GT_TOO_SHORT, BadLength = GT_BAD_LENGTH,
    InvalidIns = GT_INVALID_INS, NotDue = GT_NOT_DUE, NoStatus = GT_NO_STATUS,
    NotAsked = GT_NOT_ASKED, TooMany = GT_TOO_MANY, NoTpdu = GT_NO_TPDU, WantsData = GT_WANTS_DATA,
    SendsData = GT_SENDS_DATA, AtrNoTs = GT_ATR_NO_TS, AtrCut = GT_ATR_CUT,
    AtrTooLong = GT_ATR_TOO_LONG, AtrOrder = GT_ATR_ORDER, AtrSurplus = GT_ATR_SURPLUS,
    AtrCheckMissing = GT_ATR_CHECK_MISSING, AtrCheckNotDue = GT_ATR_CHECK_NOT_DUE,
    AtrCheckWrong = GT_ATR_CHECK_WRONG, PpsNoPpss = GT_PPS_NO_PPSS, PpsCut = GT_PPS_CUT,
    PpsReserved = GT_PPS_RESERVED, PpsSurplus = GT_PPS_SURPLUS, PpsCheckWrong = GT_PPS_CHECK_WRONG,
    TriesSpent = GT_TRIES_SPENT, ExtensionsSpent = GT_EXTENSIONS_SPENT, Aborted = GT_ABORTED
};
enum class Edc : uint8_t { Lrc = GT_LRC, Crc = GT_CRC };
enum class Outcome : int32_t
{ NotCarriedOut = GT_NOT_CARRIED_OUT, Unknown = GT_UNKNOWN, InPart = GT_IN_PART };

#ifdef __cpp_lib_span
template <class T> using Span = std::span<T>;
#else
template <class T> class Span {
public:
    constexpr Span() noexcept = default;
    constexpr Span(T *first, size_t count) noexcept : first_(first), count_(count) {}
    template <class From, class = std::enable_if_t<std::is_convertible_v<
        std::remove_pointer_t<decltype(std::data(std::declval<From &>()))> (*)[], T (*)[]>>>
    constexpr Span(From &&from) noexcept : Span(std::data(from), std::size(from)) {}
    constexpr T *data() const noexcept { return first_; }
    constexpr size_t size() const noexcept { return count_; }

private:
    T *first_ = nullptr;
    size_t count_ = 0;
};
#endif
using Bytes = Span<const uint8_t>;
using Room = Span<uint8_t>;

/* Output of at most `Most` bytes, and their number. */
template <size_t Most> struct Buffer {
    uint8_t bytes[Most] = {};
    size_t count = 0;
    constexpr operator Bytes() const noexcept { return {bytes, count}; }
};
using Tpdu = Buffer<GT_TPDU_LIMIT>;
using Apdu = Buffer<GT_APDU_LIMIT>;
using Aid = Buffer<GT_AID_LIMIT>;
using Pps = Buffer<GT_PPS_LIMIT>;
using Head = Buffer<6>;

/* Which way the data of each INS go, as `gt_card_own` has them. */
using Directions = uint8_t[32];

/* A data object of a card, and the number of bytes of its value. */
struct Entry { uint32_t tag = 0; int32_t locked = 0; size_t count = 0; };

/* Sets `is` to whether a code is 1, if it is no fault. */
GT_CODE whether(int32_t code, bool &is) noexcept {
    is = code < 0 ? is : code == 1;
    return Code(code < 0 ? code : GT_OK);
}

GT_ASK constexpr bool failed(Code code) noexcept { return int32_t(code) < 0; }
GT_ASK const char *text(Code code) noexcept { return gt_text(int32_t(code)); }
GT_ASK const char *status_text(uint16_t status) noexcept { return gt_status_text(status); }
inline GT_HIDDEN size_t status_words(uint8_t cla, uint8_t ins, uint16_t status,
                                     Span<char> words) noexcept
{ return gt_status_words(cla, ins, status, GT_SPAN(words)); }
GT_ASK uint32_t version() noexcept { return gt_version(); }
GT_ASK bool version_fits() noexcept { return gt_version_fits() == 1; }
GT_CODE objects(Bytes list, Span<gt_object> to, size_t &count, size_t &place)
GT_OVER(gt_objects(GT_SPAN(list), GT_SPAN(to), &count, &place))
GT_CODE find(Bytes list, Span<const uint32_t> path, gt_object &it, size_t &place)
GT_OVER(gt_find(GT_SPAN(list), GT_SPAN(path), &it, &place))
GT_ASK bool is_object(Bytes it, uint32_t tag) noexcept
{ return gt_is_object(GT_SPAN(it), tag) == 1; }
GT_CODE head(uint32_t tag, uint16_t length, Head &to)
GT_OVER(gt_head(tag, length, to.bytes, &to.count))
GT_CODE atr_read(Bytes bytes, gt_atr &atr, size_t &place)
GT_OVER(gt_atr_read(GT_SPAN(bytes), &atr, &place))
GT_CODE pps_request(Pps &to, uint8_t t, uint16_t pps1 = GT_ABSENT, uint16_t pps2 = GT_ABSENT,
                    uint16_t pps3 = GT_ABSENT)
GT_OVER(gt_pps_request(t, pps1, pps2, pps3, to.bytes, &to.count))
GT_CODE pps_agreed(Bytes request, Bytes response, bool &is)
GT_OVER(whether(gt_pps_agreed(GT_SPAN(request), GT_SPAN(response)), is))

/* What each handle has: it moves, and frees what it holds. */
#define GT_OWNS(Name, Held) \
public: \
    GT_HIDDEN Name() noexcept = default; \
    GT_HIDDEN Name(Name &&other) noexcept : held(std::exchange(other.held, Held{})) {} \
    GT_HIDDEN Name &operator=(Name &&other) noexcept { \
        const Held taken = std::exchange(other.held, Held{}); \
        free(); \
        held = taken; \
        return *this; \
    } \
    GT_HIDDEN ~Name() { free(); } \
    GT_HIDDEN void free() noexcept { Held##_free(&held); } \
    GT_ASK Held *handle() noexcept { return &held; } \
\
private: \
    Held held = GT_INIT; \
\
public:

/* The calls that an exchange and a terminal share. */
#define GT_PASSES(Held) \
    GT_CODE next(uint8_t &byte) GT_OVER(Held##_next(&held, &byte)) \
    GT_CODE take(uint8_t byte) GT_OVER(Held##_take(&held, byte)) \
    GT_CODE send_bytes(Room to, size_t &n) GT_OVER(Held##_send_bytes(&held, GT_SPAN(to), &n)) \
    GT_CODE receive_bytes(Bytes it, size_t &n) \
    GT_OVER(Held##_receive_bytes(&held, GT_SPAN(it), &n)) \
    GT_CODE tpdu(Tpdu &to, size_t &most) GT_OVER(Held##_tpdu(&held, to.bytes, &to.count, &most)) \
    GT_CODE answered(Bytes it) GT_OVER(Held##_answered(&held, GT_SPAN(it))) \
    GT_CODE apdu(Apdu &to, size_t &most) GT_OVER(Held##_apdu(&held, to.bytes, &to.count, &most)) \
    GT_CODE responded(Bytes it) GT_OVER(Held##_responded(&held, GT_SPAN(it))) \
    GT_CODE answer(uint16_t &status, Room to, size_t &n) \
    GT_OVER(Held##_answer(&held, &status, GT_SPAN(to), &n)) \
    GT_CODE data_sent() GT_OVER(Held##_data_sent(&held))

class Exchange {
    GT_OWNS(Exchange, gt_exchange)
    GT_CODE start(Bytes command) GT_OVER(gt_exchange_start(&held, GT_SPAN(command)))
    GT_CODE start_within(Bytes command, size_t limit)
    GT_OVER(gt_exchange_start_within(&held, GT_SPAN(command), limit))
    GT_PASSES(gt_exchange)
};

class Terminal {
    GT_OWNS(Terminal, gt_terminal)
    GT_CODE create() GT_OVER(gt_terminal_new(&held))
    GT_CODE create_within(size_t limit) GT_OVER(gt_terminal_new_within(&held, limit))
    GT_HIDDEN Code reset() noexcept { return Code(gt_terminal_reset(&held)); }
    GT_CODE select(Bytes aid) GT_OVER(gt_terminal_select(&held, GT_SPAN(aid)))
    GT_CODE get(uint32_t tag) GT_OVER(gt_terminal_get(&held, tag))
    GT_CODE put(uint32_t tag, Bytes value) GT_OVER(gt_terminal_put(&held, tag, GT_SPAN(value)))
    GT_CODE send(Bytes command) GT_OVER(gt_terminal_send(&held, GT_SPAN(command)))
    GT_PASSES(gt_terminal)
};

class T1 {
    GT_OWNS(T1, gt_t1)
    GT_CODE create(Edc edc, uint8_t ifsc, uint8_t tries = GT_T1_TRIES,
                   uint16_t extensions = GT_T1_EXTENSIONS, size_t limit = GT_ANSWER_LIMIT)
    GT_OVER(gt_t1_new(&held, uint8_t(edc), ifsc, tries, extensions, limit))
    GT_CODE begin(Bytes apdu) GT_OVER(gt_t1_begin(&held, GT_SPAN(apdu)))
    GT_CODE send_bytes(Room to, size_t &n, uint8_t &waits)
    GT_OVER(gt_t1_send_bytes(&held, GT_SPAN(to), &n, &waits))
    GT_CODE receive_bytes(Bytes it, size_t &n) GT_OVER(gt_t1_receive_bytes(&held, GT_SPAN(it), &n))
    GT_CODE missed() GT_OVER(gt_t1_missed(&held))
    GT_CODE damaged() GT_OVER(gt_t1_damaged(&held))
    GT_CODE response(Room to, size_t &n) GT_OVER(gt_t1_response(&held, GT_SPAN(to), &n))
    GT_CODE fault(Code &cause, Outcome &outcome) noexcept {
        int32_t why = int32_t(cause), known = int32_t(outcome);
        const Code code{gt_t1_fault(&held, &why, &known)};
        cause = Code(why);
        outcome = Outcome(known);
        return code;
    }
    GT_HIDDEN Code reset() noexcept { return Code(gt_t1_reset(&held)); }
};

class Card {
    GT_OWNS(Card, gt_card)
    GT_CODE create() GT_OVER(gt_card_new(&held))
    GT_CODE app(Bytes aid) GT_OVER(gt_card_app(&held, GT_SPAN(aid)))
    GT_CODE object(uint32_t tag, Bytes value, bool locked = false)
    GT_OVER(gt_card_object(&held, tag, GT_SPAN(value), locked))
    GT_CODE finish() GT_OVER(gt_card_finish(&held))
    GT_CODE take(uint8_t byte) GT_OVER(gt_card_take(&held, byte))
    GT_CODE turn(uint8_t &byte) GT_OVER(gt_card_turn(&held, &byte))
    GT_CODE send_bytes(Room to, size_t &n) GT_OVER(gt_card_send_bytes(&held, GT_SPAN(to), &n))
    GT_CODE receive_bytes(Bytes it, size_t &n)
    GT_OVER(gt_card_receive_bytes(&held, GT_SPAN(it), &n))
    GT_HIDDEN Code reset() noexcept { return Code(gt_card_reset(&held)); }
    GT_CODE tpdu(Bytes it, Room to, size_t &n)
    GT_OVER(gt_card_tpdu(&held, GT_SPAN(it), GT_SPAN(to), &n))
    GT_CODE apdu(Bytes it, Room to, size_t &n)
    GT_OVER(gt_card_apdu(&held, GT_SPAN(it), GT_SPAN(to), &n))
    GT_CODE t1_begin() GT_OVER(gt_card_t1_begin(&held))
    GT_CODE t1_send_bytes(Room to, size_t &n) GT_OVER(gt_card_t1_send_bytes(&held, GT_SPAN(to), &n))
    GT_CODE t1_receive_bytes(Bytes it, size_t &n)
    GT_OVER(gt_card_t1_receive_bytes(&held, GT_SPAN(it), &n))
    GT_CODE t1_missed() GT_OVER(gt_card_t1_missed(&held))
    GT_CODE t1_damaged() GT_OVER(gt_card_t1_damaged(&held))
    GT_CODE plan(const char *steps, uint16_t cut = 256) GT_OVER(gt_card_plan(&held, steps, cut))
    GT_CODE selected(Aid &to) GT_OVER(gt_card_selected(&held, to.bytes, &to.count))
    GT_CODE app_at(size_t app, Aid &to) GT_OVER(gt_card_app_at(&held, app, to.bytes, &to.count))
    GT_CODE entry_at(size_t app, size_t at, Entry &it, Room to)
    GT_OVER(gt_card_entry_at(&held, app, at, &it.tag, &it.locked, GT_SPAN(to), &it.count))
    GT_CODE own(const Directions *directions = nullptr)
    GT_OVER(gt_card_own(&held, directions ? *directions : nullptr))
    GT_CODE command(gt_command &it) GT_OVER(gt_card_command(&held, &it))
    GT_CODE direction(bool to_card) GT_OVER(gt_card_direction(&held, to_card))
    GT_CODE respond(Bytes data, uint16_t status)
    GT_OVER(gt_card_respond(&held, GT_SPAN(data), status))
    GT_CODE more_time(uint8_t multiple) GT_OVER(gt_card_more_time(&held, multiple))
    GT_CODE settled(bool &is) GT_OVER(whether(gt_card_settled(&held), is))
};

class Session {
    GT_OWNS(Session, gt_session)
    GT_CODE start(Card &card) GT_OVER(gt_session_start(&held, card.handle()))
    GT_CODE idle(bool &is) GT_OVER(whether(gt_session_idle(&held), is))
    GT_CODE plan(const char *steps, uint16_t cut = 256) GT_OVER(gt_session_plan(&held, steps, cut))
    GT_CODE select(Bytes aid, uint16_t &status, Room to, size_t &n)
    GT_OVER(gt_session_select(&held, GT_SPAN(aid), &status, GT_SPAN(to), &n))
    GT_CODE get(uint32_t tag, uint16_t &status, Room to, size_t &n)
    GT_OVER(gt_session_get(&held, tag, &status, GT_SPAN(to), &n))
    GT_CODE put(uint32_t tag, Bytes value, uint16_t &status)
    GT_OVER(gt_session_put(&held, tag, GT_SPAN(value), &status))
    GT_CODE send(Bytes it, uint16_t &status, Room to, size_t &n)
    GT_OVER(gt_session_send(&held, GT_SPAN(it), &status, GT_SPAN(to), &n))
    GT_CODE answer(uint16_t &status, Room to, size_t &n)
    GT_OVER(gt_session_answer(&held, &status, GT_SPAN(to), &n))
    GT_CODE listen() GT_OVER(gt_session_listen(&held))
    GT_CODE heard(Span<gt_character> to, size_t &n)
    GT_OVER(gt_session_heard(&held, GT_SPAN(to), &n))
    GT_HIDDEN Code reset() noexcept { return Code(gt_session_reset(&held)); }
    GT_CODE selected(Aid &to) GT_OVER(gt_session_selected(&held, to.bytes, &to.count))
    GT_CODE app_at(size_t app, Aid &to) GT_OVER(gt_session_app_at(&held, app, to.bytes, &to.count))
    GT_CODE entry_at(size_t app, size_t at, Entry &it, Room to)
    GT_OVER(gt_session_entry_at(&held, app, at, &it.tag, &it.locked, GT_SPAN(to), &it.count))
    GT_CODE end(Card &card) GT_OVER(gt_session_end(&held, card.handle()))
};

} // namespace galliumtoad

#undef GT_ASK
#undef GT_CODE
#undef GT_HIDDEN
#undef GT_OVER
#undef GT_OWNS
#undef GT_PASSES
#undef GT_SPAN
#endif
