/* Every call of the library, on all that a call may look at or write. The calls of the archive and
 * the inline ones are made by the same text. */
#include "rignolda.h"

#define CALL(name) rignolda_##name
#ifndef MAKE_CALL
#define MAKE_CALL linked
#endif

enum { CALLS = 38, CALLS_OF_A_LINK = 11, PLACES = 16, OBJECTS = 10, OBJECTS_OF_A_LINK = 6 };

/* The most items that a buffer can have. */
#define MOST_SIZE ((size_t)-1 / 2 / sizeof(uint32_t))

/* (what a call is given of the list are its last `size` places, and a call that is given no list
 * has `any_size`) */
struct all {
    union {
        void *objects[OBJECTS];
        struct {
            rignolda_params *params;
            rignolda_frame *frame;
            rignolda_sender *sender;
            rignolda_receiver *receiver;
            uint32_t *item;
            uint16_t *label;
            /* (those that the calls of a link alone are not given) */
            rignolda_node *node;
            rignolda_child *child;
            rignolda_session *session;
            uint32_t *places;
        };
    };
    uint32_t *list;
    uint64_t number, word;
    size_t size, any_size;
};

uint64_t linked(unsigned which, struct all *it);
uint64_t inlined(unsigned which, struct all *it);

/* Makes a call, and answers what it returns. */
uint64_t MAKE_CALL(unsigned which, struct all *it) {
    switch (which) {
    case 0: return CALL(params_check)(it->params);
    case 1: CALL(sender_init)(it->sender, *it->label); return 0;
    case 2: return CALL(sender_offer)(it->sender, *it->item);
    case 3: return CALL(sender_frame)(it->sender, it->frame);
    case 4: return CALL(sender_on_ack)(it->sender, it->params, *it->label);
    case 5: CALL(sender_close)(it->sender); return 0;
    case 6: CALL(receiver_init)(it->receiver, *it->label); return 0;
    case 7: return CALL(receiver_is_fresh)(it->receiver, it->frame);
    case 8: return CALL(receiver_on_frame)(it->receiver, it->frame, it->item);
    case 9: return CALL(receiver_ack)(it->receiver, it->label);
    case 10: CALL(receiver_close)(it->receiver); return 0;
    case 11: CALL(node_init)(it->node, *it->label, it->number); return 0;
    case 12: CALL(child_init)(it->child, *it->label); return 0;
    case 13: return CALL(child_init_at)(it->child, it->node, it->any_size, *it->label, it->number);
    case 14: return CALL(node_publish)(it->node, it->list, it->size, *it->item);
    case 15: return CALL(node_on_frame)(it->node, it->list, it->size, it->frame);
    case 16: return CALL(node_poll)(it->node, it->child, it->list, it->size, it->frame);
    case 17: return CALL(child_on_ack)(it->child, it->params, *it->label);
    case 18: return CALL(child_needs)(it->node, it->child, it->number);
    case 19: CALL(node_forget)(it->node, it->number); return 0;
    case 20: return CALL(node_left_behind)(it->node, it->child, it->any_size);
    case 21: return CALL(node_backlog)(it->node, it->child, it->any_size);
    case 22: CALL(session_init)(it->session); return 0;
    case 23: return CALL(session_made)(it->session);
    case 24: return CALL(session_accepted)(it->session);
    case 25: return CALL(session_has)(it->session, it->number);
    case 26: return CALL(session_ended)(it->session, it->number);
    case 27: return CALL(session_send)(it->sender, it->session, it->frame);
    case 28:
        return CALL(session_on_ack)(it->sender, it->session, it->params, it->number, *it->label);
    case 29:
        return CALL(session_on_frame)(it->receiver, it->session, it->number, it->frame, it->item);
    case 30: return CALL(session_ack)(it->receiver, it->session, it->label);
    case 31:
        return CALL(session_poll)(it->node, it->child, it->session, it->list, it->size, it->frame);
    case 32:
        return CALL(session_child_on_ack)(it->child, it->session, it->params, it->number,
                                             *it->label);
    case 33:
        return CALL(session_node_on_frame)(it->node, it->session, it->number, it->list,
                                              it->size, it->frame);
    case 34: return CALL(word_of_frame)(it->frame);
    case 35: return CALL(word_frame)(it->word, it->frame);
    case 36: return CALL(word_of_label)(*it->label);
    default: return CALL(word_label)(it->word, it->label);
    }
}
