/* Spoils the library for an agent, by the linker's --wrap: run_tree has to see that the bounds are
 * broken. One of these is defined: TWO_LABELS, STEPS_ON_ANY_ACK, DELIVERS_EVERY_FRAME,
 * ACKNOWLEDGES_WHAT_IT_DROPS, HANDS_ON_TWICE. */
#include "rignolda.h"

bool __real_rignolda_child_on_ack(rignolda_child *, const rignolda_params *, uint16_t);
bool __wrap_rignolda_child_on_ack(rignolda_child *, const rignolda_params *, uint16_t);
bool __real_rignolda_node_on_frame(rignolda_node *, uint32_t *, size_t, const rignolda_frame *);
bool __wrap_rignolda_node_on_frame(rignolda_node *, uint32_t *, size_t, const rignolda_frame *);

bool __wrap_rignolda_child_on_ack(rignolda_child *child, const rignolda_params *params,
                                  uint16_t label) {
#ifdef STEPS_ON_ANY_ACK
    label = child->sender.label;
#endif
#ifdef HANDS_ON_TWICE
    uint32_t item = child->sender.item;
#endif
    bool acked = __real_rignolda_child_on_ack(child, params, label);
#ifdef TWO_LABELS
    child->sender.label %= 2;
#endif
#ifdef HANDS_ON_TWICE
    /* the first item of its list, as after a restart: so perhaps a stray */
    static rignolda_child *before;
    if (acked && child != before && child->acknowledged == 1)
        child->sender.item = item, child->sender.holding = 1, child->acknowledged = 0,
        before = child;
#endif
    return acked;
}

bool __wrap_rignolda_node_on_frame(rignolda_node *node, uint32_t *list, size_t size,
                                   const rignolda_frame *frame) {
#ifdef DELIVERS_EVERY_FRAME
    node->above.label = (uint16_t)(frame->label + 1);
#endif
    bool fresh = __real_rignolda_node_on_frame(node, list, size, frame);
#ifdef ACKNOWLEDGES_WHAT_IT_DROPS
    static unsigned count;
    if (fresh && ++count % 4 == 0)
        return node->length--, false;
#endif
    return fresh;
}
