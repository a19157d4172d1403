/*
 * The calls of rignolda.h as `static inline` functions: a program that defines RIGNOLDA_INLINE
 * before it includes rignolda.h needs no archive.
 *
 * They are written by hand, in plain C99 that C++ reads as well, so no proof covers them: each call
 * says in a few rules what the proved one of the archive does, from each bit pattern of a struct.
 * The gate makes both calls on structs with drawn bits, and compares what they answer and each byte
 * that lies there then (tests/library/both.c).
 */

static inline uint8_t rignolda_params_check(const rignolda_params *params)
{
    if (params->capacity < 1 || params->capacity > 64)
        return RIGNOLDA_CAPACITY_OUT_OF_RANGE;
    if (params->labels < 2 * params->capacity + 2)
        return RIGNOLDA_LABELS_TOO_FEW;
    return params->labels > 1000 ? RIGNOLDA_LABELS_TOO_MANY : RIGNOLDA_LAWFUL;
}

/* A count with one more: it stops at its greatest number. */
static inline uint64_t rignolda_inline_one_more(uint64_t count)
{
    return count < UINT64_MAX ? count + 1 : count;
}

/* The ends of a link. */

static inline void rignolda_sender_init(rignolda_sender *sender, uint16_t label)
{
    sender->item = 0;
    sender->label = label;
    sender->holding = 0;
    sender->closed = 0;
}

static inline bool rignolda_sender_offer(rignolda_sender *sender, uint32_t item)
{
    if (sender->closed || sender->holding)
        return false;
    sender->item = item;
    sender->holding = 1;
    return true;
}

static inline bool rignolda_sender_frame(const rignolda_sender *sender, rignolda_frame *frame)
{
    if (sender->closed || !sender->holding)
        return false;
    frame->item = sender->item;
    frame->label = sender->label;
    frame->unused = 0;
    return true;
}

static inline bool rignolda_sender_on_ack(rignolda_sender *sender, const rignolda_params *params,
                                          uint16_t label)
{
    if (rignolda_params_check(params) != RIGNOLDA_LAWFUL || sender->closed || !sender->holding ||
        sender->label != label)
        return false;
    sender->label = (uint16_t)(label + 1 < params->labels ? label + 1 : 0);
    sender->holding = 0;
    return true;
}

static inline void rignolda_sender_close(rignolda_sender *sender)
{
    sender->closed = 1;
}

static inline void rignolda_receiver_init(rignolda_receiver *receiver, uint16_t label)
{
    receiver->label = label;
    receiver->closed = 0;
}

static inline bool rignolda_receiver_is_fresh(const rignolda_receiver *receiver,
                                              const rignolda_frame *frame)
{
    return !receiver->closed && receiver->label != frame->label;
}

static inline bool rignolda_receiver_on_frame(rignolda_receiver *receiver,
                                              const rignolda_frame *frame, uint32_t *item)
{
    if (!rignolda_receiver_is_fresh(receiver, frame))
        return false;
    *item = frame->item;
    receiver->label = frame->label;
    return true;
}

static inline bool rignolda_receiver_ack(const rignolda_receiver *receiver, uint16_t *label)
{
    if (receiver->closed)
        return false;
    *label = receiver->label;
    return true;
}

static inline void rignolda_receiver_close(rignolda_receiver *receiver)
{
    receiver->closed = 1;
}

/* A node. Any counts mean something: nothing is kept where more is forgotten than there is, and no
 * more is kept than the buffer has places. */

static inline void rignolda_node_init(rignolda_node *node, uint16_t label, uint64_t opening)
{
    rignolda_receiver_init(&node->above, label);
    node->length = opening;
    node->forgotten = 0;
    node->old_frames = 0;
}

/* The first place of the list that a node keeps: its end at most. */
static inline uint64_t rignolda_inline_first(const rignolda_node *node, size_t size)
{
    const uint64_t first = node->length > size ? node->length - size : 0;
    const uint64_t forgotten = node->forgotten < node->length ? node->forgotten : node->length;
    return forgotten > first ? forgotten : first;
}

static inline bool rignolda_node_publish(rignolda_node *node, uint32_t *list, size_t size,
                                         uint32_t item)
{
    const uint64_t length = node->length;
    const uint64_t kept = length > node->forgotten ? length - node->forgotten : 0;
    if (kept >= size || length == UINT64_MAX)
        return false;
    list[length % size] = item;
    node->length = length + 1;
    return true;
}

static inline bool rignolda_node_on_frame(rignolda_node *node, uint32_t *list, size_t size,
                                          const rignolda_frame *frame)
{
    if (node->above.closed)
        return false;
    if (frame->label == node->above.label) {
        node->old_frames = rignolda_inline_one_more(node->old_frames);
        return false;
    }
    if (!rignolda_node_publish(node, list, size, frame->item))
        return false;
    node->above.label = frame->label;
    return true;
}

static inline void rignolda_child_init(rignolda_child *child, uint16_t label)
{
    rignolda_sender_init(&child->sender, label);
    child->offered = 0;
    child->acknowledged = 0;
    child->ignored = 0;
}

static inline bool rignolda_child_init_at(rignolda_child *child, const rignolda_node *node,
                                          size_t size, uint16_t label, uint64_t place)
{
    if (place < rignolda_inline_first(node, size) || place > node->length)
        return false;
    rignolda_child_init(child, label);
    child->offered = place;
    return true;
}

static inline bool rignolda_node_poll(const rignolda_node *node, rignolda_child *child,
                                      const uint32_t *list, size_t size, rignolda_frame *frame)
{
    const uint64_t offered = child->offered;
    const bool is_next_kept = offered >= node->forgotten && offered < node->length &&
                              node->length - offered <= size;
    if (is_next_kept && rignolda_sender_offer(&child->sender, list[offered % size]))
        child->offered = offered + 1;
    return rignolda_sender_frame(&child->sender, frame);
}

static inline bool rignolda_child_on_ack(rignolda_child *child, const rignolda_params *params,
                                         uint16_t label)
{
    if (rignolda_sender_on_ack(&child->sender, params, label)) {
        child->acknowledged = rignolda_inline_one_more(child->acknowledged);
        return true;
    }
    child->ignored = rignolda_inline_one_more(child->ignored);
    return false;
}

static inline uint64_t rignolda_child_needs(const rignolda_node *node, const rignolda_child *child,
                                            uint64_t place)
{
    const uint64_t offered = child->offered;
    return offered >= node->forgotten && offered < place ? offered : place;
}

static inline void rignolda_node_forget(rignolda_node *node, uint64_t place)
{
    const uint64_t forgotten = place > node->forgotten ? place : node->forgotten;
    node->forgotten = forgotten < node->length ? forgotten : node->length;
}

static inline bool rignolda_node_left_behind(const rignolda_node *node, const rignolda_child *child,
                                             size_t size)
{
    return child->offered < rignolda_inline_first(node, size) || child->offered > node->length;
}

static inline uint64_t rignolda_node_backlog(const rignolda_node *node, const rignolda_child *child,
                                             size_t size)
{
    if (rignolda_node_left_behind(node, child, size))
        return UINT64_MAX;
    const uint64_t backlog = node->length - child->offered;
    return child->sender.holding ? rignolda_inline_one_more(backlog) : backlog;
}

/* Sessions: the end that accepted a connection has the first turn, and then whoever was sent a
 * message. A message counts by the connection alone that the end has. */

static inline void rignolda_session_init(rignolda_session *session)
{
    session->number = 0;
    session->there = 0;
    session->turn = 0;
}

/* A connection begins, and the end has this turn. Its number is 0, and there is none, where no
 * number is left. */
static inline uint64_t rignolda_inline_begins(rignolda_session *session, uint32_t turn)
{
    const bool is_left = session->number < UINT64_MAX;
    session->number = rignolda_inline_one_more(session->number);
    session->there = is_left;
    session->turn = is_left ? turn : 0;
    return is_left ? session->number : 0;
}

static inline uint64_t rignolda_session_made(rignolda_session *session)
{
    return rignolda_inline_begins(session, 0);
}

static inline uint64_t rignolda_session_accepted(rignolda_session *session)
{
    return rignolda_inline_begins(session, 1);
}

static inline bool rignolda_session_has(const rignolda_session *session, uint64_t number)
{
    return session->there && session->number == number;
}

static inline bool rignolda_session_ended(rignolda_session *session, uint64_t number)
{
    if (!rignolda_session_has(session, number))
        return false;
    session->there = 0;
    session->turn = 0;
    return true;
}

static inline bool rignolda_inline_may_send(const rignolda_session *session)
{
    return session->there && session->turn;
}

/* A message is sent, or is not: after one the turn is with the other end. */
static inline bool rignolda_inline_sent(rignolda_session *session, bool is_sent)
{
    if (is_sent)
        session->turn = 0;
    return is_sent;
}

static inline bool rignolda_session_send(const rignolda_sender *sender, rignolda_session *session,
                                         rignolda_frame *frame)
{
    return rignolda_inline_may_send(session) &&
           rignolda_inline_sent(session, rignolda_sender_frame(sender, frame));
}

static inline bool rignolda_session_ack(const rignolda_receiver *receiver,
                                        rignolda_session *session, uint16_t *label)
{
    return rignolda_inline_may_send(session) &&
           rignolda_inline_sent(session, rignolda_receiver_ack(receiver, label));
}

static inline bool rignolda_session_poll(const rignolda_node *node, rignolda_child *child,
                                         rignolda_session *session, const uint32_t *list,
                                         size_t size, rignolda_frame *frame)
{
    return rignolda_inline_may_send(session) &&
           rignolda_inline_sent(session, rignolda_node_poll(node, child, list, size, frame));
}

/* A message came by this connection: whether it counts, which gives this end the turn. */
static inline bool rignolda_inline_came(rignolda_session *session, uint64_t number)
{
    if (!rignolda_session_has(session, number))
        return false;
    session->turn = 1;
    return true;
}

static inline bool rignolda_session_on_ack(rignolda_sender *sender, rignolda_session *session,
                                           const rignolda_params *params, uint64_t number,
                                           uint16_t label)
{
    return rignolda_inline_came(session, number) && rignolda_sender_on_ack(sender, params, label);
}

static inline bool rignolda_session_child_on_ack(rignolda_child *child, rignolda_session *session,
                                                 const rignolda_params *params, uint64_t number,
                                                 uint16_t label)
{
    return rignolda_inline_came(session, number) && rignolda_child_on_ack(child, params, label);
}

static inline bool rignolda_session_on_frame(rignolda_receiver *receiver, rignolda_session *session,
                                             uint64_t number, const rignolda_frame *frame,
                                             uint32_t *item)
{
    return rignolda_inline_came(session, number) &&
           rignolda_receiver_on_frame(receiver, frame, item);
}

/* (a fresh frame for which a node has no room is as if it had not come) */
static inline bool rignolda_session_node_on_frame(rignolda_node *node, rignolda_session *session,
                                                  uint64_t number, uint32_t *list, size_t size,
                                                  const rignolda_frame *frame)
{
    if (!rignolda_session_has(session, number))
        return false;
    const bool is_fresh = rignolda_receiver_is_fresh(&node->above, frame);
    const bool is_taken = rignolda_node_on_frame(node, list, size, frame);
    if (is_taken || !is_fresh)
        session->turn = 1;
    return is_taken;
}

/* Words of registers: 1, then a label, and of a frame its item. */

static inline uint64_t rignolda_word_of_frame(const rignolda_frame *frame)
{
    return (uint64_t)1 << 48 | (uint64_t)frame->label << 32 | frame->item;
}

static inline bool rignolda_word_frame(uint64_t word, rignolda_frame *frame)
{
    if (word >> 48 != 1)
        return false;
    frame->item = (uint32_t)word;
    frame->label = (uint16_t)(word >> 32);
    frame->unused = 0;
    return true;
}

static inline uint64_t rignolda_word_of_label(uint16_t label)
{
    return (uint64_t)1 << 16 | label;
}

static inline bool rignolda_word_label(uint64_t word, uint16_t *label)
{
    if (word >> 16 != 1)
        return false;
    *label = (uint16_t)word;
    return true;
}
