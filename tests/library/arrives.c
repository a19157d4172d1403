/* Tries whether items arrive from every bit pattern of the structs.
 *
 *     arrives ROUNDS SEED [without RULE]
 *
 * Three agents in a row, the first of which publishes, have a link over connections between each
 * two. At a moment all bits of all their structs become one of ROUNDS drawn patterns, in which many
 * numbers are at their limits. The agents go on, and call what the table of rignolda.h says where
 * nothing comes. After a number of steps that is the same for all patterns, every item that is
 * published has to come to the last agent, in its order and once. Then the same is tried of a sender
 * and a receiver without nodes. With a rule of the table left out it has to fail for some pattern,
 * and returns 1. Where no bits are changed, and connections break as they like, the table may lead
 * no end to a new count. That what is waited for arrives from every pattern is proved link by link
 * (progress_laws of the crate stab_line); here the whole table is tried.
 */
#include "draw.h"
#include "rignolda.h"

#include <stdio.h>
#include <stdlib.h>
#include <string.h>

/* So many steps have the agents to come to order, and so many items have to come then. A link is
 * silent if nothing comes on it in so many steps. */
enum { PLACES = 16, AGENTS = 3, LINKS = AGENTS - 1, CALM = 200, ITEMS = 20, SILENCE = 4 };

/* What an agent has of the library: its node, and the child below it, each with its session. */
struct agent {
    rignolda_node node;
    rignolda_session above;
    rignolda_child child;
    rignolda_session below;
};

/* What is between two agents: the numbers of the connection at both ends, and what is under way. */
struct line {
    uint64_t above, below;
    bool has_frame, has_label;
    rignolda_frame frame;
    uint16_t label;
    unsigned quiet; /* steps since something came */
};

struct world {
    struct agent agents[AGENTS];
    uint32_t lists[AGENTS][PLACES];
    struct line lines[LINKS];
};

/* The rules of the table, each of which may be left out. */
static const char *const RULES[] = {"connection", "number", "child", "sender", "receiver", "list"};
enum { CONNECTION, NUMBER, CHILD, SENDER, RECEIVER, LIST, COUNT };
static int left_out = COUNT;

static const rignolda_params params = {1, 4};
static unsigned long begun_anew; /* how often an end began a new count */
static bool is_alone;            /* a sender and a receiver without nodes */
static uint32_t next, end;       /* the item that is published next, and where that ends */
static uint32_t first, expected; /* the items that count: the first, and that which is to come */
static bool in_order;            /* whether these came so */

/* ---- What an agent does, by the table */

/* An item that came to the last agent: from the first that counts on, each is the next one. */
static void at_last(uint32_t item) {
    if (expected == first && item != first)
        return; /* (one from before: a stray, or one published while the agents came to order) */
    in_order &= item == expected++;
}

static void forget(struct agent *it, bool is_last) {
    uint64_t place = it->node.length;
    if (!is_last && !rignolda_node_left_behind(&it->node, &it->child, PLACES))
        place = rignolda_child_needs(&it->node, &it->child, place);
    rignolda_node_forget(&it->node, place);
}

/* The child begins anew at the end of the list. */
static void begin_child_anew(struct agent *it) {
    uint16_t label = (uint16_t)(draw() >> 48);
    rignolda_child_init_at(&it->child, &it->node, PLACES, label, it->node.length);
    begun_anew++;
}

/* A node whose list can grow no more begins anew. */
static void begin_list_anew(struct agent *it) {
    if (left_out == LIST || it->node.length != UINT64_MAX)
        return;
    rignolda_node_init(&it->node, (uint16_t)(draw() >> 48), 0);
    begun_anew++;
}

static uint64_t numbered(rignolda_session *session, bool by_it) {
    uint64_t number = by_it ? rignolda_session_made(session) : rignolda_session_accepted(session);
    if (number > 0 || left_out == NUMBER)
        return number;
    /* (no connection of this end is open now) */
    rignolda_session_init(session);
    return by_it ? rignolda_session_made(session) : rignolda_session_accepted(session);
}

/* One of the two makes a connection, and the other accepts it. What was under way is lost. */
static void connect_ends(struct agent *above, struct line *line, struct agent *below) {
    bool by_parent = draw() >> 63;
    *line = (struct line){.above = numbered(&above->below, by_parent),
                          .below = numbered(&below->above, !by_parent)};
}

/* An end that has a backlog waits for an answer. */
static bool waits(const struct agent *it) {
    return is_alone ? it->child.sender.holding || next != end
                    : rignolda_node_backlog(&it->node, &it->child, PLACES) > 0;
}

/* What the parent does on the link to its child, or a sender alone, which is offered the items that
 * are published. */
static void look_down(struct agent *it, uint32_t *list, struct line *line) {
    rignolda_sender *sender = &it->child.sender;
    rignolda_session *session = &it->below;
    if (line->has_label) {
        line->has_label = false, line->quiet = 0;
        if (is_alone)
            rignolda_session_on_ack(sender, session, &params, line->above, line->label);
        else
            rignolda_session_child_on_ack(&it->child, session, &params, line->above, line->label);
    }
    forget(it, false);
    bool may_send = session->there && session->turn;
    if (is_alone ? rignolda_session_send(sender, session, &line->frame)
                 : rignolda_session_poll(&it->node, &it->child, session, list, PLACES,
                                         &line->frame)) {
        line->has_frame = true;
    } else if (may_send && !is_alone) {
        if (left_out != CHILD && waits(it))
            begin_child_anew(it);
    } else if (may_send && next != end) {
        if (rignolda_sender_offer(sender, next)) {
            next++;
        } else if (left_out != SENDER) {
            rignolda_sender_init(sender, (uint16_t)(draw() >> 48));
            begun_anew++;
        }
    }
}

/* What the child does on the link to its parent, or a receiver alone, which answers where it may. */
static void look_up(struct agent *it, uint32_t *list, struct line *line, bool is_last) {
    rignolda_receiver *receiver = &it->node.above;
    rignolda_session *session = &it->above;
    uint32_t item;
    forget(it, is_last);
    if (line->has_frame) {
        line->has_frame = false, line->quiet = 0;
        if (is_alone) {
            if (rignolda_session_on_frame(receiver, session, line->below, &line->frame, &item))
                at_last(item);
        } else if (!rignolda_session_node_on_frame(&it->node, session, line->below, list, PLACES,
                                                   &line->frame)) {
            begin_list_anew(it);
        } else if (is_last) {
            at_last(list[(it->node.length - 1) % PLACES]);
        }
    }
    bool may_send = session->there && session->turn;
    if (rignolda_session_ack(receiver, session, &line->label)) {
        line->has_label = true;
    } else if (left_out != RECEIVER && may_send) {
        rignolda_receiver_init(receiver, receiver->label);
        begun_anew++;
    }
}

static bool publish(struct agent *it, uint32_t *list, uint32_t item) {
    forget(it, false);
    if (rignolda_node_publish(&it->node, list, PLACES, item))
        return true;
    begin_list_anew(it);
    return false;
}

/* ---- Runs */

static void step(struct world *it) {
    if (!is_alone && next != end)
        next += publish(&it->agents[0], it->lists[0], next);
    for (int i = 0; i < (is_alone ? 1 : LINKS); i++) {
        struct agent *above = &it->agents[i], *below = &it->agents[i + 1];
        struct line *line = &it->lines[i];
        look_down(above, it->lists[i], line);
        look_up(below, it->lists[i + 1], line, i + 1 == AGENTS - 1);
        line->quiet = waits(above) ? line->quiet + 1 : 0;
        if (left_out != CONNECTION && line->quiet > SILENCE)
            connect_ends(above, line, below);
    }
}

/* Publishes so many items, one as soon as there is room, in a bounded number of steps. */
static void go_on(struct world *it, uint32_t items) {
    end = next + items;
    for (int k = 0; k < CALM; k++)
        step(it);
}

/* Whether items arrive in the end in such a world. */
static bool arrives(struct world *it) {
    first = expected = 0;
    for (int k = 0; k < 3; k++)
        go_on(it, ITEMS);
    first = expected = next, in_order = true;
    go_on(it, ITEMS);
    return in_order && next == first + ITEMS && expected == next;
}

/* Connections break at drawn moments, and lose what is under way. */
static bool is_sound(struct world *it) {
    end = next + 1000;
    first = expected = next, in_order = true, begun_anew = 0;
    for (int k = 0; k < 20000; k++) {
        step(it);
        uint64_t which = draw() >> 60;
        if (which < (is_alone ? 1 : LINKS))
            connect_ends(&it->agents[which], &it->lines[which], &it->agents[which + 1]);
    }
    return begun_anew == 0 && in_order && expected == end;
}

static struct world sound(void) {
    struct world it;
    memset(&it, 0, sizeof it);
    for (int i = 0; i < AGENTS; i++) {
        rignolda_node_init(&it.agents[i].node, 255, 0);
        rignolda_child_init(&it.agents[i].child, 0);
        rignolda_session_init(&it.agents[i].above);
        rignolda_session_init(&it.agents[i].below);
    }
    for (int i = 0; i < LINKS; i++)
        connect_ends(&it.agents[i], &it.lines[i], &it.agents[i + 1]);
    go_on(&it, ITEMS);
    return it;
}

/* ---- Patterns */

static const struct field {
    size_t at, bytes;
} FIELDS[] = {
#define FIELD(member) {offsetof(struct agent, member), sizeof((struct agent *)0)->member}
    FIELD(node.above.label), FIELD(node.above.closed), FIELD(node.length), FIELD(node.forgotten),
    FIELD(node.old_frames), FIELD(above.number), FIELD(above.there), FIELD(above.turn),
    FIELD(child.sender.item), FIELD(child.sender.label), FIELD(child.sender.holding),
    FIELD(child.sender.closed), FIELD(child.offered), FIELD(child.acknowledged),
    FIELD(child.ignored), FIELD(below.number), FIELD(below.there), FIELD(below.turn),
};
enum { FIELD_COUNT = sizeof FIELDS / sizeof *FIELDS };

static unsigned long tried, stuck;

/* A drawn number of a few bytes: often a small one, or close to the greatest. */
static uint64_t number(void) {
    uint64_t any = draw();
    switch (draw() >> 61) {
    case 0: return 0;
    case 1: return any % 40;
    case 2: return UINT64_MAX - any % ITEMS;
    case 3: return next + any % 40;
    default: return any;
    }
}

static void try_drawn(const struct world *it) {
    struct world spoiled = *it;
    for (int agent = 0; agent < AGENTS; agent++)
        for (int k = 0; k < FIELD_COUNT; k++) {
            uint64_t drawn = number();
            memcpy((uint8_t *)&spoiled.agents[agent] + FIELDS[k].at, &drawn, FIELDS[k].bytes);
        }
    for (int agent = 0; agent < AGENTS; agent++)
        for (int k = 0; k < PLACES; k++)
            spoiled.lists[agent][k] = (uint32_t)draw();
    for (int k = 0; k < LINKS; k++) {
        struct line *line = &spoiled.lines[k];
        line->has_frame = draw() >> 63, line->has_label = draw() >> 63;
        line->frame = (rignolda_frame){(uint32_t)draw(), (uint16_t)number(), 0};
        line->label = (uint16_t)number();
    }
    uint32_t published = next;
    tried++, stuck += !arrives(&spoiled);
    next = published;
}

/* Tries all patterns. */
static void try_all(unsigned long rounds, int leave_out) {
    left_out = COUNT;
    struct world it = sound();
    if (!is_sound(&it)) {
        printf("something is lost or begun anew where no bits are changed\n");
        exit(2);
    }
    left_out = leave_out;
    for (unsigned long k = 0; k < rounds; k++)
        try_drawn(&it);
}

int main(int count, char **words) {
    if (count != 3 && count != 5)
        return 2;
    unsigned long rounds = strtoul(words[1], 0, 10);
    state = strtoul(words[2], 0, 10) * 2 + 1;
    if (count == 5)
        for (left_out = 0; left_out < COUNT && strcmp(RULES[left_out], words[4]) != 0;)
            left_out++;
    if (count == 5 && left_out == COUNT)
        return 2;
    next = 1 << 20;
    int leave_out = left_out;
    try_all(rounds, leave_out);
    is_alone = true;
    try_all(rounds, leave_out);
    printf("%lu patterns, and after %lu of them items do not arrive\n", tried, stuck);
    return stuck > 0;
}
