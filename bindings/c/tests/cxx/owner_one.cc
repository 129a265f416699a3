// Fills an owner in the other source, and frees it here. Both sources have the same functions.
#include "owner.h"

int main() {
    owner filled_there = filled();
    uint8_t byte;
    if (gt_card_turn(filled_there.card.get(), &byte) != GT_OK) return 1;
    return is_same(free_of_card(), gt_text(GT_OK)) ? 0 : 2;
}
