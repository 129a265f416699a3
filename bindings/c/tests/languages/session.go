// Reads an object of a card here, by cgo.
package main

// #cgo pkg-config: galliumtoad
// #include <galliumtoad.h>
import "C"
import "fmt"

func check(code C.int32_t) {
	if code < 0 {
		panic(C.GoString(C.gt_text(code)))
	}
}

func main() {
	aid, joe := []C.uint8_t{0xA0, 0, 0, 0, 3, 0x10, 0x10}, []C.uint8_t{'J', 'O', 'E'}
	var card C.gt_card
	var session C.gt_session
	var data [C.GT_OBJECT_LIMIT]C.uint8_t
	var status C.uint16_t
	var n C.size_t
	check(C.gt_card_new(&card))
	check(C.gt_card_app(&card, &aid[0], C.size_t(len(aid))))
	check(C.gt_card_object(&card, 0x5F20, &joe[0], C.size_t(len(joe)), 0))
	check(C.gt_card_finish(&card))
	check(C.gt_session_start(&session, &card))
	check(C.gt_session_select(&session, &aid[0], C.size_t(len(aid)), &status, &data[0],
		C.GT_OBJECT_LIMIT, &n))
	check(C.gt_session_get(&session, 0x5F20, &status, &data[0], C.GT_OBJECT_LIMIT, &n))
	fmt.Printf("%04X %X\n", status, data[:n])
	C.gt_session_free(&session)
}
