#include "owner.h"

owner filled() {
    owner it;
    it.card.reset(new gt_card());
    if (gt_card_new(it.card.get()) != GT_OK || gt_card_finish(it.card.get()) != GT_OK)
        it.card.reset();
    return it;
}

bool is_same(void (*free)(gt_card *), const char *text) {
    return free == &gt_card_free && text == gt_text(GT_OK);
}
