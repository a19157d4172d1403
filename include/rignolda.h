/*
 * Rignolda: the two halves of a stop-and-wait link, and a node of a broadcast tree, for agents of
 * one's own.
 *
 * Each call is proved: it does the step of the protocol's definition, from every bit pattern that a
 * struct may hold. So the bounds of the laws hold from there too; that items arrive is so where the
 * ends call what "When nothing comes" says, in the part on sessions. The proofs are of the code
 * behind this header (the crate stab_c); that your line is one of those that the laws are about is
 * for you to see to.
 *
 * Every call:
 *   - takes no memory, does no input or output, reads no clock, waits for nothing, calls nothing
 *     back and keeps no pointer;
 *   - takes pointers that are not null and are aligned; none of one call points into what another
 *     of them points at; a struct or number that a call may write was given some value before;
 *   - may run at once with another call, as long as neither may write a struct, number or buffer
 *     that the other uses. What a pointer to const points at is only read, so several calls may
 *     read it at once.
 * A call that returns bool returns true if it did what it is for. Where it returns false, it wrote
 * nothing but what it names: counts, and the turn of a session.
 *
 * The calls are those of an archive, librignolda.a. Where RIGNOLDA_INLINE is defined before this
 * header is included, they are `static inline` functions, which need no archive, so also processors
 * for which there is none may have them. Those are written by hand, so no proof covers them: each
 * is compared with the proved one, on x86-64 and arm64. A compiler then knows all that a call does.
 * One program may have both forms, since their structs are the same.
 *
 * What a struct means:
 *   - a label may be any uint16_t, as after a restart with whatever lay in memory;
 *   - holding, closed, there and turn are true at any value but 0;
 *   - the item of a sender counts only while it is holding;
 *   - a node keeps the items of its list from place `forgotten` on, and no more than the last
 *     `size` of them: any other length or count of forgotten items means that too. A child whose
 *     count of offered items is past the end of the list is left behind.
 *
 * A count of a link is what the laws are about: all that happens on it from a moment that you
 * choose, whatever the structs and the line hold then. From its beginning to its end a link has one
 * struct of a sender and one of a receiver. A count ends where a rignolda_.._init writes one of
 * them, where one is put back from a copy, and where a second copy is used: what was delivered
 * before may come again. Begin a new count then. What a node received before is no part of it, but
 * for its backlog (rignolda_node_backlog) for its child on a path: that is the node's opening, with
 * which its list begins. A child that is left behind gets no more than what its sender holds: its
 * count goes on with nothing to come, and a new one begins where the child is made anew.
 *
 * The laws (functions of the module laws of the crate stab_line):
 *   - two_ends_on_a_line_are_a_link: two ends on a line that is first in first out, holds at most
 *     capacity messages each way, may lose any message and may repeat the front one, are a replay
 *     of the link, whatever the two structs and the line held when the count began.
 *   - two_ends_on_a_line_obey_the_link_law: so at most capacity strays (items that lay on the line)
 *     are delivered, then offered items in their order, each at most once; and of the acknowledged
 *     items only some among the first 2 * capacity + 1 can be missing.
 *   - a_tree_of_nodes_obeys_the_tree_law: let each link of a tree, of however many nodes, be such a
 *     line, with lawful parameters of its own; let the list of each inner node (neither the root
 *     nor a leaf) begin with at most h items, h being any number, and the list of a leaf with none.
 *     C, M and E are the sums over a node's path from the root: of capacity and of 2 * capacity + 1
 *     over the links, and of h over the inner nodes, itself among them. Then the node's list is at
 *     most C + E strays and after them published items in their order, each at most once; and
 *     before its last one only some among the first M can be missing. By the same law these are no
 *     more than the first N, the greatest of the following sums, one for each link of the path: the
 *     link's 2 * capacity + 1, and capacity + 1 of each link above it. Where each capacity is 1, at
 *     depth d M is 3 * d and N is 2 * d + 1. So N harmless items after a restart are enough. Fewer
 *     are not: under some schedule all N are missing (sharper_bounds_are_reached, a law of
 *     stab_convergence). When the count begins, a child was offered nothing yet, or its sender holds
 *     the first item of the list; what lies before that item in the buffer is not counted. Where
 *     the children of a node are at different items then, this is no one list, and the law holds of
 *     each path by itself, whatever the links beside it do: there the list of a node begins with
 *     the first item that its child on the path has not acknowledged.
 *   - a_tree_of_whole_lists_obeys_the_tree_law: the same of each path by itself where the list of a
 *     node is all that it ever had, and each child is at a place of it, wherever its siblings are.
 *     So what a node forgets changes nothing; and a count of a path can begin where a child of it
 *     is made anew, or at any other moment.
 *   - a_child_made_anew_gets_the_list_from_its_place: see rignolda_child_init_at.
 *   - a_tree_of_nodes_obeys_the_law_of_its_starts: the law of a whole tree with what each link
 *     really had under way when the count began: its frames in place of capacity, and its frames,
 *     its acknowledgements and one in place of 2 * capacity + 1.
 *   - calls_of_nodes_are_acts_of_the_tree: what the calls do makes up what these laws are about.
 *     Each call that steps an end, or says what to send, has a clause `act`, which says what step
 *     of the laws' own definitions it is.
 * Links over connections that are made again, such as TCP, and links in two places of a store have
 * laws of their own: see the last two parts, on sessions and on words. One tree may have links of
 * every kind (law a_tree_of_mixed_links_obeys_the_tree_law).
 */
#ifndef RIGNOLDA_H
#define RIGNOLDA_H

#include <stdbool.h>
#include <stddef.h>
#include <stdint.h>

/* (nothing but what is compiled here looks into the structs of inline calls) */
#ifdef RIGNOLDA_INLINE
#define RIGNOLDA_CALL static inline
#define RIGNOLDA_HAS_SIZE(type, bytes) (sizeof(type) <= (bytes))
#else
#define RIGNOLDA_CALL
#define RIGNOLDA_HAS_SIZE(type, bytes) (sizeof(type) == (bytes))
#endif

#ifdef __cplusplus
#define RIGNOLDA_SIZE_IS(type, bytes)                                                              \
    static_assert(RIGNOLDA_HAS_SIZE(type, bytes), "size of " #type)
extern "C" {
#else
#define RIGNOLDA_SIZE_IS(type, bytes)                                                              \
    _Static_assert(RIGNOLDA_HAS_SIZE(type, bytes), "size of " #type)
#endif

/*
 * What a link is set up with: the same two numbers at both ends, and in every call of one sender.
 * They are lawful if 1 <= capacity <= 64 and 2 * capacity + 2 <= labels <= 1000.
 */
typedef struct rignolda_params {
    uint16_t capacity; /* how many messages the line holds at most, each way */
    uint16_t labels;   /* how many labels the sender counts through */
} rignolda_params;
RIGNOLDA_SIZE_IS(rignolda_params, 4);

/* One message of a sender. An acknowledgement is a label alone. */
typedef struct rignolda_frame {
    uint32_t item;   /* what the publisher sent: the tree gives it no meaning */
    uint16_t label;  /* the sender's label */
    uint16_t unused; /* 0 in a frame that the library writes; never read */
} rignolda_frame;
RIGNOLDA_SIZE_IS(rignolda_frame, 8);

/* The sender's half of a link. */
typedef struct rignolda_sender {
    uint32_t item;   /* the item that waits for its acknowledgement, while holding */
    uint16_t label;
    uint8_t holding; /* not 0: it holds an item; 0: it is idle */
    uint8_t closed;  /* not 0: it is closed */
} rignolda_sender;
RIGNOLDA_SIZE_IS(rignolda_sender, 8);

/* The receiver's half of a link. */
typedef struct rignolda_receiver {
    uint16_t label;  /* the label that it took last */
    uint16_t closed; /* not 0: it is closed */
} rignolda_receiver;
RIGNOLDA_SIZE_IS(rignolda_receiver, 4);

/*
 * A node: the receiver of the link from its parent, and the counts of its list. The list is all
 * that the node ever had, and the buffer that you lend is a ring for the end of it: the item at
 * place i of the list, 0 being the first, is list[i % size]. The node keeps those from `forgotten`
 * on.
 */
typedef struct rignolda_node {
    rignolda_receiver above;
    uint64_t length;     /* items of the list: its opening, then what was delivered or published */
    uint64_t forgotten;  /* how many of them, from the front, are no more kept */
    uint64_t old_frames; /* frames that were not fresh; it stops at UINT64_MAX */
} rignolda_node;
RIGNOLDA_SIZE_IS(rignolda_node, 32);

/* A child of a node: the sender of the link to it, and counts. */
typedef struct rignolda_child {
    rignolda_sender sender;
    uint64_t offered;      /* the place in the list of the item that it is offered next */
    uint64_t acknowledged; /* how many acknowledgements it waited for; it stops at UINT64_MAX */
    uint64_t ignored;      /* acknowledgements that changed nothing; it stops at UINT64_MAX */
} rignolda_child;
RIGNOLDA_SIZE_IS(rignolda_child, 32);

/* What rignolda_params_check returns. */
#define RIGNOLDA_LAWFUL 0
#define RIGNOLDA_CAPACITY_OUT_OF_RANGE 1 /* 0, or over 64 */
#define RIGNOLDA_LABELS_TOO_FEW 2        /* under 2 * capacity + 2 */
#define RIGNOLDA_LABELS_TOO_MANY 3       /* over 1000 */

/* Returns RIGNOLDA_LAWFUL, or the first of the three checks that fails, in their order. */
RIGNOLDA_CALL uint8_t rignolda_params_check(const rignolda_params *params);

/* ---- The sender's half ---- */

/* Makes an idle and open sender with this label, which may be any. */
RIGNOLDA_CALL void rignolda_sender_init(rignolda_sender *sender, uint16_t label);

/*
 * Offers the sender an item. True: it was open and idle, and now holds the item. False: it is
 * closed or holds an item; it stays as it was, so offer this item again later.
 * Law: offered items are delivered in their order, each at most once.
 */
RIGNOLDA_CALL bool rignolda_sender_offer(rignolda_sender *sender, uint32_t item);

/*
 * Asks for the frame to send now. True: *frame is the item that the sender holds, under its label.
 * False: it is closed or idle, and *frame stays as it was. The sender never changes, so send as
 * often as your line can bear: a frame that finds no room on the line is lost, and that does no
 * harm.
 */
RIGNOLDA_CALL bool rignolda_sender_frame(const rignolda_sender *sender, rignolda_frame *frame);

/*
 * Gives the sender an acknowledgement. True: it is the one that the sender waits for, so the item
 * is acknowledged, and the sender is idle with the next label. False: it has another label, or the
 * sender is closed or idle, or the parameters are not lawful; the sender stays as it was.
 * Law: of the acknowledged items only some among the first 2 * capacity + 1 can be missing.
 */
RIGNOLDA_CALL bool rignolda_sender_on_ack(rignolda_sender *sender, const rignolda_params *params,
                                          uint16_t label);

/*
 * Closes the sender for good, over all connections that are made later too; only
 * rignolda_sender_init makes an open one of it. All else stays.
 */
RIGNOLDA_CALL void rignolda_sender_close(rignolda_sender *sender);

/* ---- The receiver's half ---- */

/* Makes an open receiver that remembers this label, which may be any. */
RIGNOLDA_CALL void rignolda_receiver_init(rignolda_receiver *receiver, uint16_t label);

/*
 * Whether rignolda_receiver_on_frame would deliver the item of this frame: the receiver is open and
 * remembers another label. Nothing changes. Ask it where you may have no place for the item: a
 * frame that you then do not give to the receiver counts as lost.
 */
RIGNOLDA_CALL bool rignolda_receiver_is_fresh(const rignolda_receiver *receiver,
                                              const rignolda_frame *frame);

/*
 * Gives the receiver a frame. True: the frame is fresh; *item is its item, which is delivered now,
 * and the receiver remembers its label. False: the receiver is closed or the frame is old; the
 * receiver and *item stay as they were.
 * Law: at most capacity strays are delivered, then offered items in their order.
 */
RIGNOLDA_CALL bool rignolda_receiver_on_frame(rignolda_receiver *receiver,
                                              const rignolda_frame *frame, uint32_t *item);

/*
 * Asks for the label to acknowledge now. True: *label is the label that the receiver remembers.
 * False: it is closed, and *label stays as it was. The receiver never changes; send as often as
 * your line can bear.
 */
RIGNOLDA_CALL bool rignolda_receiver_ack(const rignolda_receiver *receiver, uint16_t *label);

/* The same for a receiver: only rignolda_receiver_init makes an open one of it. */
RIGNOLDA_CALL void rignolda_receiver_close(rignolda_receiver *receiver);

/* ---- A node: one receiver above, a child for each link below, and a ring in your buffer ---- */

/*
 * In each call of one node, list and size are the same buffer; size counts its items (of 4 bytes
 * each), which nothing else changes. As many places as the longest backlog that you allow are
 * enough for ever, if you forget (rignolda_node_forget) what each child was offered. Calls are
 * fastest where size is a power of two: then they need no division. Frames, offers and
 * acknowledgements of a node go by the calls below alone. Ask for the label to acknowledge by
 * rignolda_receiver_ack(&node.above, ..), and close the ends by rignolda_receiver_close and
 * rignolda_sender_close. The receiver of the root is not used.
 */

/*
 * Makes a node whose list is the first `opening` items of the buffer, with an open receiver that
 * remembers this label. 0 is a node that begins with nothing. Of an opening that is longer than the
 * buffer, the node keeps as many items as the buffer has places.
 * Law: these items count as strays; h is the most of them that an inner node may begin with.
 */
RIGNOLDA_CALL void rignolda_node_init(rignolda_node *node, uint16_t label, uint64_t opening);

/* Makes a child that begins at the list's front, with an idle and open sender of this label. */
RIGNOLDA_CALL void rignolda_child_init(rignolda_child *child, uint16_t label);

/*
 * The same for a child that is added later, or again: it begins at this place of the list. True:
 * the node keeps the list from there on, or the place is the list's end, node.length, at which a
 * child can begin whatever the node holds. False: the place is past the end, or what is there is no
 * more kept; the child stays as it was. So a child with a backlog of n items begins at
 * node.length - n.
 * A new count of its link begins. Close first what the child had open.
 * Law: it gets at most capacity strays, then the list from this place on in its order, each item at
 * most once; of those that it acknowledges only some among the first 2 * capacity + 1 can be
 * missing (a_child_made_anew_gets_the_list_from_its_place).
 */
RIGNOLDA_CALL bool rignolda_child_init_at(rignolda_child *child, const rignolda_node *node,
                                          size_t size, uint16_t label, uint64_t place);

/*
 * Puts an item at the end of the list: what the root does to publish. True: it is there, in place
 * list[(length - 1) % size], and the rest of the buffer stays as it was. False: the node keeps as
 * many items as the buffer has places, or its list has UINT64_MAX items; node and buffer stay as
 * they were.
 * Call it at the root alone: no law speaks of an item that another node puts into its list.
 */
RIGNOLDA_CALL bool rignolda_node_publish(rignolda_node *node, uint32_t *list, size_t size,
                                         uint32_t item);

/*
 * Gives the node a frame from its parent. True: the frame is fresh, and its item is now the last of
 * the list; the rest of the buffer stays as it was. False, and the buffer, the length and the
 * receiver stay as they were: the frame is old (then old_frames is one more), or the receiver is
 * closed, or there is no place, as rignolda_node_publish says. A fresh frame that finds no place is
 * lost, as on the line.
 * So the list is its opening and then what the receiver delivered.
 * Law: it is at most C + E strays, then published items in their order.
 */
RIGNOLDA_CALL bool rignolda_node_on_frame(rignolda_node *node, uint32_t *list, size_t size,
                                          const rignolda_frame *frame);

/*
 * Asks what to send to a child now. First the child's sender is offered the next item, where there
 * is one and the sender is open and idle; then offered is one more. True: *frame is the frame to
 * send. False: the sender is closed, or has nothing to send; *frame stays as it was. A child that
 * is left behind is offered nothing; the item that its sender holds is sent as before.
 * Law: what a child is offered is a prefix of the list from its place on
 * (offers_are_a_prefix_of_the_list).
 */
RIGNOLDA_CALL bool rignolda_node_poll(const rignolda_node *node, rignolda_child *child,
                                      const uint32_t *list, size_t size, rignolda_frame *frame);

/*
 * Gives the child's sender an acknowledgement, as rignolda_sender_on_ack does. True: acknowledged
 * is one more. False: the sender stays as it was, and ignored is one more.
 */
RIGNOLDA_CALL bool rignolda_child_on_ack(rignolda_child *child, const rignolda_params *params,
                                         uint16_t label);

/*
 * Forgetting. The item that a sender holds lies in the sender, so what each child was offered is no
 * more needed in the buffer:
 *
 *     uint64_t place = node.length;
 *     for (each child)
 *         if (!rignolda_node_left_behind(&node, child, size))
 *             place = rignolda_child_needs(&node, child, place);
 *     rignolda_node_forget(&node, place);
 *
 * A child that is left behind is left out, since it may be at an item that the buffer has no more,
 * as after an opening that was longer than the buffer, or in a struct whose bits changed: no call
 * gives it that item, and asked for its place it would have the node keep all, take nothing more,
 * and so hold up its siblings. A child that is left out holds nothing back. So leave out one that
 * takes nothing, too, and its siblings go on: once the item that it would be offered next is
 * forgotten, it is left behind. Before that it can still come back as it is. Neither the laws nor
 * the list change: they speak of the whole list.
 */

/*
 * The place from which on the child needs the list, if that is before this place; else this place.
 * A child that would be offered next what the node has forgotten needs nothing. This call is not
 * told the size of the buffer: of a child that is left behind do not ask it. Nothing changes.
 */
RIGNOLDA_CALL uint64_t rignolda_child_needs(const rignolda_node *node, const rignolda_child *child,
                                            uint64_t place);

/*
 * Forgets what is before this place of the list, or all of it where the place is past the end; what
 * was forgotten before stays so, but never more than the list has. What is at the place and behind
 * it is kept, and a child whose count of offered items is the place or more is as it was before.
 */
RIGNOLDA_CALL void rignolda_node_forget(rignolda_node *node, uint64_t place);

/*
 * Whether the child is left behind: the item that it would be offered next is no more kept, or its
 * count of offered items is past the end of the list, as no count is that began here. Then make the
 * child anew (rignolda_child_init_at). Nothing changes.
 */
RIGNOLDA_CALL bool rignolda_node_left_behind(const rignolda_node *node, const rignolda_child *child,
                                             size_t size);

/*
 * The backlog of a child, in items: the one that its sender holds, and those still to be offered.
 * It is what the `h` of a restart has to bound. It stops at UINT64_MAX, and is that where the child
 * is left behind. Nothing changes.
 * Law: it is 0 just where the child was offered the whole list and its sender is idle
 * (no_backlog_is_the_whole_list, a law of stab_c).
 */
RIGNOLDA_CALL uint64_t rignolda_node_backlog(const rignolda_node *node, const rignolda_child *child,
                                             size_t size);

/* ---- Sessions: a link over connections that are made again, such as TCP ---- */

/*
 * What one end of a link remembers of its connections; each end of each link has one.
 *
 * Either end may make connections, and both may. An end has one at a time, the newest that it made
 * or accepted: when it makes or accepts the next one, it leaves the one before for ever. On a
 * connection the two ends take turns, one message each, and the end that accepted it begins. So at
 * most one message is under way on a connection, none on one that was not accepted yet, and
 * capacity is 1. Nothing of this is on the wire, and no rule of time matters to the bounds.
 *
 * The laws (functions of the module session_laws of stab_line), where an end handles and sends only
 * what these calls say, and accepts only what the link's own other end made:
 *   - connections_are_a_line: such a link is a line of capacity 1, whatever the network does to the
 *     connections: it may break them, bring them late, in another order or never, and lose what is
 *     under way on them. So the laws above are about it.
 *   - connections_obey_the_link_law, a_tree_over_connections_obeys_the_tree_law: those laws, of
 *     connections that are in turn when the count begins.
 *   - restarts_leave_connections_in_turn: they are in turn where both ends never had a connection,
 *     and stay so at each restart of either end, which begins a new count. At most one frame and
 *     one acknowledgement are under way then, and none to an end that restarted.
 *   - few_are_missing_after_a_restart: so after a restart of one end only some among the first 2
 *     acknowledged items can be missing, and of both ends only the first one; at most one stray is
 *     delivered, and none if the receiver's end restarted.
 *   - numbers_tell_the_newest_connection, numbers_may_mean_any_connections: each end numbers its
 *     connections by itself.
 *   - calls_of_sessions_are_acts_of_the_tree: what the calls of a node do makes up these steps.
 */
typedef struct rignolda_session {
    uint64_t number; /* of the newest connection of this end; the first has 1 */
    uint32_t there;  /* not 0: the end has that connection */
    uint32_t turn;   /* not 0: the end may send there */
} rignolda_session;
RIGNOLDA_SIZE_IS(rignolda_session, 16);

/* Makes a session that never had a connection. Close first what an end before it had open. */
RIGNOLDA_CALL void rignolda_session_init(rignolda_session *session);

/*
 * Call it where you begin to make a connection (connect), and close the one that the end had. It
 * returns the number of the new one: keep it beside the descriptor. 0: no number is left, and the
 * end has no connection; make none, but see below.
 */
RIGNOLDA_CALL uint64_t rignolda_session_made(rignolda_session *session);

/* The same where you accepted one that the link's other end made. The end has the first turn. */
RIGNOLDA_CALL uint64_t rignolda_session_accepted(rignolda_session *session);

/* Whether this is the connection that the end has. Nothing changes. */
RIGNOLDA_CALL bool rignolda_session_has(const rignolda_session *session, uint64_t number);

/*
 * Call it where a connection ended or you end it: it broke, nothing came in time, or you like.
 * True: the end had it, and now has none. False: the session stays as it was.
 */
RIGNOLDA_CALL bool rignolda_session_ended(rignolda_session *session, uint64_t number);

/*
 * Asks for the frame to write now on the connection that the end has. True: write *frame there,
 * whole and once; the turn is given away. False: there is no connection, the turn is not the end's,
 * or the sender has nothing to send; all stays as it was.
 */
RIGNOLDA_CALL bool rignolda_session_send(const rignolda_sender *sender, rignolda_session *session,
                                         rignolda_frame *frame);

/*
 * Gives the sender an acknowledgement that came whole by the connection of this number. A
 * connection that the end has left changes nothing. By the one that it has, the turn is the end's
 * now. True: the sender waits for it, as rignolda_sender_on_ack says. False: the sender stays as it
 * was.
 */
RIGNOLDA_CALL bool rignolda_session_on_ack(rignolda_sender *sender, rignolda_session *session,
                                           const rignolda_params *params, uint64_t number,
                                           uint16_t label);

/* The same for a receiver and a frame. True: it is fresh, as rignolda_receiver_on_frame says. */
RIGNOLDA_CALL bool rignolda_session_on_frame(rignolda_receiver *receiver, rignolda_session *session,
                                             uint64_t number, const rignolda_frame *frame,
                                             uint32_t *item);

/* Asks for the label to write now on the connection that the end has, as rignolda_session_send. */
RIGNOLDA_CALL bool rignolda_session_ack(const rignolda_receiver *receiver,
                                        rignolda_session *session, uint16_t *label);

/*
 * The same for a node over connections, in place of rignolda_node_poll, rignolda_child_on_ack and
 * rignolda_node_on_frame. Ask for the label to acknowledge by rignolda_session_ack, with the node's
 * receiver. Where the end may not send, a poll offers nothing. Each child has a session of its own,
 * and so has the receiver of the node.
 */
RIGNOLDA_CALL bool rignolda_session_poll(const rignolda_node *node, rignolda_child *child,
                                         rignolda_session *session, const uint32_t *list,
                                         size_t size, rignolda_frame *frame);
RIGNOLDA_CALL bool rignolda_session_child_on_ack(rignolda_child *child, rignolda_session *session,
                                                 const rignolda_params *params, uint64_t number,
                                                 uint16_t label);

/*
 * A fresh frame that finds no place in the list is lost, and the turn with it: nothing more is sent
 * on this connection, until an end leaves it. So while there is no place, better read nothing;
 * there is one while node.length - node.forgotten < size.
 */
RIGNOLDA_CALL bool rignolda_session_node_on_frame(rignolda_node *node, rignolda_session *session,
                                                  uint64_t number, uint32_t *list, size_t size,
                                                  const rignolda_frame *frame);

/*
 * When nothing comes. Whatever bits the structs of both ends hold, and whatever is under way, items
 * arrive again where connections are made again and each end calls what stands here. Those calls
 * that begin a new count have a star; a sound end is led to none, but for a child left behind.
 *
 *   what an end sees                              what it calls
 *
 *   it waits for an answer, and nothing comes     rignolda_session_ended, and another connection:
 *   in the time that you allow                    its turns begin anew
 *   the same again, on some connections           that alone: it is the network, and no struct
 *   a connection gets the number 0                close all that the end has open, then
 *                                                 rignolda_session_init and the call again
 *   a poll returns false, where the end may       the child is left behind, or closed:
 *   send and the child's backlog is not 0         rignolda_child_init_at *, at any place of what
 *                                                 is kept, or at node.length
 *   the same of rignolda_session_send, and        rignolda_sender_init *
 *   rignolda_sender_offer returns false too
 *   rignolda_session_ack returns false, where     its receiver is closed: rignolda_receiver_init *,
 *   the end may send                              with the label that it has
 *   node.length is UINT64_MAX                     rignolda_node_init *, and each child as above
 *
 * An end may send where neither `there` nor `turn` of its session is 0, and who waits for an answer
 * is an end with a backlog. Whoever closed an end leaves it closed. Let each node forget, as above,
 * before it takes a frame or publishes, and before it makes a child anew. Make no end anew for a
 * silence alone: it would begin new counts as long as the network is away.
 * Laws: a poll that may send is false only where the child's backlog is 0, or it is left behind, or
 * closed (a_backlog_is_sent, of stab_c). Of the module progress_laws of stab_line, on a connection
 * that is not lost while it lasts, and of an exchange of one frame and its answer:
 *   - a_new_connection_acknowledges_the_item: whatever labels, connections and turns two open ends
 *     have, one new connection and one exchange on it acknowledge the item that waits.
 *   - each_exchange_hands_on_an_item: from there on each exchange acknowledges one item more, and
 *     all are delivered in their order, but for the first if the receiver had its label already.
 *   - a_path_hands_on_everything_from_any_state: on a path that gets new connections, and of which
 *     no end is closed, an exchange on each link, from the upper end down, leaves at least one item
 *     less in its backlogs, all taken together. So as many of these as there are items leave none,
 *     if nobody publishes meanwhile.
 * And of the crate stab_exchanges, whatever lies between, is lost or is published:
 *   - completed_exchanges_acknowledge_items: each exchange that is completed on one connection
 *     acknowledges an item, while the sender's end is open.
 *   - completed_exchanges_are_reading_rounds, nodes_over_connections_converge: each is a round of
 *     the link, so after enough of them on each link of its path a node has all.
 */

/* ---- Words: a link in two places of a store ---- */

/*
 * A link can lie in two places (registers) of a store that hold a number each, such as two keys of
 * a database: the sender's end sets the one and gets the other, and the receiver's end the other
 * way round. What an end has got it gives to its half before it does anything else, and it waits
 * until a set is done before it gets or sets again.
 * Laws (functions of the module register_laws of stab_line): registers_are_a_line: where each get
 * and each set takes effect at one moment (the store is linearizable), such a link is a line of
 * capacity 1, whatever the two places held when the count began. So the laws above are about it.
 * registers_obey_the_law_of_their_start: where both were empty, no stray is delivered, and of the
 * acknowledged items only the first one can be missing. And of progress_laws, from any state of two
 * open ends and any words: an_exchange_of_registers_acknowledges_the_item, the one that waits,
 * where each end sets its place and then the other one gets it. Of an end that is closed, or left
 * behind, the table above says what to call: here an end may always send.
 *
 * The word of a frame is 2^48 + label * 2^32 + item, and of an acknowledgement 2^16 + label. Any
 * other number shows nothing, such as 0, which an empty place can hold.
 */

/* The word to set for a frame. */
RIGNOLDA_CALL uint64_t rignolda_word_of_frame(const rignolda_frame *frame);

/* True: the word shows a frame, *frame. False: it shows none, and *frame stays as it was. */
RIGNOLDA_CALL bool rignolda_word_frame(uint64_t word, rignolda_frame *frame);

/* The word to set for the acknowledgement of a label. */
RIGNOLDA_CALL uint64_t rignolda_word_of_label(uint16_t label);

/* True: the word shows the acknowledgement of *label. False: of none; *label stays as it was. */
RIGNOLDA_CALL bool rignolda_word_label(uint64_t word, uint16_t *label);

#ifdef RIGNOLDA_INLINE
#include "rignolda_inline.h"
#endif

#ifdef __cplusplus
}
#endif

#endif
