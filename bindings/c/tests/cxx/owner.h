/* Types of a user, with handles and functions of the library in their members. */
#ifndef OWNER_H
#define OWNER_H

struct gt_card;
struct gt_session;
struct gt_atr;

#include <galliumtoad.h>
#include <memory>

template <auto Free> struct deleter {
    template <class T> void operator()(T *handle) const {
        Free(handle);
        delete handle;
    }
};

struct owner {
    std::unique_ptr<gt_card, deleter<gt_card_free>> card;
    std::unique_ptr<gt_session, deleter<gt_session_free>> session;
    gt_atr atr;
};

/* Returns the address of a function of the library, as the other source sees it. */
inline auto free_of_card() { return &gt_card_free; }
owner filled();
bool is_same(void (*free)(gt_card *), const char *text);

#endif
