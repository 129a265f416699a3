"""Reads an object of a card here, by ctypes."""

from ctypes import CDLL, Structure, byref, c_bool, c_char_p, c_size_t, c_uint16, c_void_p, \
    create_string_buffer


class Handle(Structure):
    _fields_ = [("live", c_bool), ("held", c_void_p)]


def check(code):
    if code < 0:
        raise RuntimeError(library.gt_text(code).decode())


library = CDLL("libgalliumtoad.so.0.3")
library.gt_text.restype = c_char_p
aid = bytes.fromhex("A0000000031010")
data, room = create_string_buffer(8197), c_size_t(8197)
card, session, status, n = Handle(), Handle(), c_uint16(), c_size_t()
check(library.gt_card_new(byref(card)))
check(library.gt_card_app(byref(card), aid, c_size_t(len(aid))))
check(library.gt_card_object(byref(card), 0x5F20, b"JOE", c_size_t(3), 0))
check(library.gt_card_finish(byref(card)))
check(library.gt_session_start(byref(session), byref(card)))
check(library.gt_session_select(byref(session), aid, c_size_t(len(aid)), byref(status), data, room,
                                byref(n)))
check(library.gt_session_get(byref(session), 0x5F20, byref(status), data, room, byref(n)))
print(f"{status.value:04X} {data.raw[:n.value].hex().upper()}")
library.gt_session_free(byref(session))
