// The archive's functions, as `galliumtoad.h` declares them. `raw.rs` turns this list into
// declarations, `tests/forwards.rs` into stand-ins.
type At = *mut Held;
type In = *const u8;
type Out = *mut u8;
type Count = *mut usize;

declared! { of Library;
    fn galliumtoad_version() -> u32;
    fn galliumtoad_objects(
        bytes: In, n: usize, objects: *mut Object, room: usize, count: Count, place: Count
    ) -> i32;
    fn galliumtoad_find(
        bytes: In, n: usize, path: *const u32, steps: usize, object: *mut Object, place: Count
    ) -> i32;
    fn galliumtoad_head(tag: u32, length: u16, head: Out, room: usize, len: Count) -> i32;
    fn galliumtoad_atr_read(bytes: In, n: usize, atr: *mut Atr, place: Count) -> i32;
    fn galliumtoad_pps_request(
        t: u8, pps1: u16, pps2: u16, pps3: u16, request: Out, room: usize, n: Count
    ) -> i32;
    fn galliumtoad_pps_agreed(request: In, n: usize, response: In, m: usize) -> i32;
}

declared! { of Exchange;
    fn galliumtoad_exchange_free(e: At);
    fn galliumtoad_exchange_start_within(e: At, command: In, n: usize, limit: usize) -> i32;
    fn galliumtoad_exchange_next(e: At, byte: *mut u8) -> i32;
    fn galliumtoad_exchange_take(e: At, byte: u8) -> i32;
    fn galliumtoad_exchange_send_bytes(e: At, bytes: Out, room: usize, n: Count) -> i32;
    fn galliumtoad_exchange_receive_bytes(e: At, bytes: In, n: usize, taken: Count) -> i32;
    fn galliumtoad_exchange_data_sent(e: At) -> i32;
    fn galliumtoad_exchange_answer(
        e: At, status: *mut u16, data: Out, room: usize, len: Count
    ) -> i32;
    fn galliumtoad_exchange_tpdu(e: At, tpdu: Out, room: usize, n: Count, most: Count) -> i32;
    fn galliumtoad_exchange_answered(e: At, answer: In, n: usize) -> i32;
    fn galliumtoad_exchange_apdu(e: At, apdu: Out, room: usize, n: Count, most: Count) -> i32;
    fn galliumtoad_exchange_responded(e: At, response: In, n: usize) -> i32;
}

declared! { of Terminal;
    fn galliumtoad_terminal_free(t: At);
    fn galliumtoad_terminal_new_within(t: At, limit: usize) -> i32;
    fn galliumtoad_terminal_reset(t: At) -> i32;
    fn galliumtoad_terminal_select(t: At, aid: In, n: usize) -> i32;
    fn galliumtoad_terminal_get(t: At, tag: u32) -> i32;
    fn galliumtoad_terminal_put(t: At, tag: u32, value: In, n: usize) -> i32;
    fn galliumtoad_terminal_send(t: At, command: In, n: usize) -> i32;
    fn galliumtoad_terminal_next(t: At, byte: *mut u8) -> i32;
    fn galliumtoad_terminal_take(t: At, byte: u8) -> i32;
    fn galliumtoad_terminal_send_bytes(t: At, bytes: Out, room: usize, n: Count) -> i32;
    fn galliumtoad_terminal_receive_bytes(t: At, bytes: In, n: usize, taken: Count) -> i32;
    fn galliumtoad_terminal_tpdu(t: At, tpdu: Out, room: usize, n: Count, most: Count) -> i32;
    fn galliumtoad_terminal_answered(t: At, answer: In, n: usize) -> i32;
    fn galliumtoad_terminal_apdu(t: At, apdu: Out, room: usize, n: Count, most: Count) -> i32;
    fn galliumtoad_terminal_responded(t: At, response: In, n: usize) -> i32;
    fn galliumtoad_terminal_data_sent(t: At) -> i32;
    fn galliumtoad_terminal_answer(
        t: At, status: *mut u16, data: Out, room: usize, len: Count
    ) -> i32;
}

declared! { of T1;
    fn galliumtoad_t1_free(t: At);
    fn galliumtoad_t1_new(
        t: At, edc: u8, ifsc: u8, tries: u8, extensions: u16, limit: usize
    ) -> i32;
    fn galliumtoad_t1_begin(t: At, apdu: In, n: usize) -> i32;
    fn galliumtoad_t1_send_bytes(t: At, bytes: Out, room: usize, n: Count, waits: *mut u8) -> i32;
    fn galliumtoad_t1_receive_bytes(t: At, bytes: In, n: usize, taken: Count) -> i32;
    fn galliumtoad_t1_missed(t: At) -> i32;
    fn galliumtoad_t1_damaged(t: At) -> i32;
    fn galliumtoad_t1_response(t: At, response: Out, room: usize, len: Count) -> i32;
    fn galliumtoad_t1_fault(t: At, cause: *mut i32, outcome: *mut i32) -> i32;
    fn galliumtoad_t1_reset(t: At) -> i32;
}

declared! { of Card;
    fn galliumtoad_card_free(c: At);
    fn galliumtoad_card_new(c: At) -> i32;
    fn galliumtoad_card_app(c: At, aid: In, n: usize) -> i32;
    fn galliumtoad_card_object(c: At, tag: u32, value: In, n: usize, locked: bool) -> i32;
    fn galliumtoad_card_finish(c: At) -> i32;
    fn galliumtoad_card_take(c: At, byte: u8) -> i32;
    fn galliumtoad_card_turn(c: At, byte: *mut u8) -> i32;
    fn galliumtoad_card_send_bytes(c: At, bytes: Out, room: usize, n: Count) -> i32;
    fn galliumtoad_card_receive_bytes(c: At, bytes: In, n: usize, taken: Count) -> i32;
    fn galliumtoad_card_reset(c: At) -> i32;
    fn galliumtoad_card_tpdu(
        c: At, tpdu: In, n: usize, answer: Out, room: usize, len: Count
    ) -> i32;
    fn galliumtoad_card_apdu(
        c: At, apdu: In, n: usize, response: Out, room: usize, len: Count
    ) -> i32;
    fn galliumtoad_card_t1_begin(c: At) -> i32;
    fn galliumtoad_card_t1_send_bytes(c: At, bytes: Out, room: usize, n: Count) -> i32;
    fn galliumtoad_card_t1_receive_bytes(c: At, bytes: In, n: usize, taken: Count) -> i32;
    fn galliumtoad_card_t1_missed(c: At) -> i32;
    fn galliumtoad_card_t1_damaged(c: At) -> i32;
    fn galliumtoad_card_own(c: At, directions: In, n: usize) -> i32;
    fn galliumtoad_card_command(c: At, command: *mut Command) -> i32;
    fn galliumtoad_card_direction(c: At, to_card: bool) -> i32;
    fn galliumtoad_card_respond(c: At, data: In, n: usize, status: u16) -> i32;
    fn galliumtoad_card_more_time(c: At, multiple: u8) -> i32;
    fn galliumtoad_card_settled(c: At) -> i32;
    fn galliumtoad_card_plan(c: At, steps: In, n: usize, cut: u16) -> i32;
    fn galliumtoad_card_selected(c: At, aid: Out, room: usize, n: Count) -> i32;
    fn galliumtoad_card_app_at(c: At, app: usize, aid: Out, room: usize, n: Count) -> i32;
    fn galliumtoad_card_entry_at(
        c: At, app: usize, entry: usize, tag: *mut u32, locked: *mut i32, value: Out, room: usize,
        len: Count
    ) -> i32;
}

declared! { of Session;
    fn galliumtoad_session_free(s: At);
    fn galliumtoad_session_start(s: At, c: At) -> i32;
    fn galliumtoad_session_select(s: At, aid: In, n: usize) -> i32;
    fn galliumtoad_session_get(s: At, tag: u32) -> i32;
    fn galliumtoad_session_put(s: At, tag: u32, value: In, n: usize) -> i32;
    fn galliumtoad_session_send(s: At, command: In, n: usize) -> i32;
    fn galliumtoad_session_answer(
        s: At, status: *mut u16, data: Out, room: usize, len: Count
    ) -> i32;
    fn galliumtoad_session_listen(s: At) -> i32;
    fn galliumtoad_session_heard(s: At, line: *mut Character, room: usize, count: Count) -> i32;
    fn galliumtoad_session_idle(s: At) -> i32;
    fn galliumtoad_session_plan(s: At, steps: In, n: usize, cut: u16) -> i32;
    fn galliumtoad_session_reset(s: At) -> i32;
    fn galliumtoad_session_selected(s: At, aid: Out, room: usize, n: Count) -> i32;
    fn galliumtoad_session_app_at(s: At, app: usize, aid: Out, room: usize, n: Count) -> i32;
    fn galliumtoad_session_entry_at(
        s: At, app: usize, entry: usize, tag: *mut u32, locked: *mut i32, value: Out, room: usize,
        len: Count
    ) -> i32;
    fn galliumtoad_session_end(s: At, c: At) -> i32;
}
