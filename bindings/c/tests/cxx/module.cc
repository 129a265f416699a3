// A module over the header: a class of its own, and a function of the header.
module;
#include <galliumtoad.h>
export module card;

// g++ 12 exports nothing here
export namespace gt {
using ::gt_text;
}

export class card {
public:
    ~card() { gt_card_free(&held); }
    int make() {
        const int code = gt_card_new(&held);
        return code < 0 ? code : gt_card_finish(&held);
    }

private:
    gt_card held = GT_INIT;
};
