/* Tries whether a link over connections needs what rignolda.h says of its ends.
 *
 *     sessions                           ends that do what they may
 *     sessions maker-begins              the end that made a connection has the first turn
 *     sessions handles-left              an end hears a connection that it has left
 *     sessions keeps-one                 a sender that restarts keeps its connection
 *
 * With a word an end does what it may not do, and a bound of the laws has to break: then the program
 * says which, and returns 1. Ends that do what they may go the same ways, and no bound breaks. That
 * none ever does is proved (the laws of session_laws in the crate stab_line).
 */
#include "rignolda.h"

#include <stdio.h>
#include <stdlib.h>
#include <string.h>

static const rignolda_params params = {1, 4};
static rignolda_sender sender;
static rignolda_receiver receiver;
/* The session of the sender's end, and that of the receiver's. */
static rignolda_session above, below;
static bool maker_begins, handles_left, keeps_one;

/* The first item of this count, and what was delivered in it. At its beginning at most one frame is
 * under way. */
static uint32_t first_item, last_item, strays;

/* What was sent on a connection, and when the sender's end had it. */
struct connection {
    uint64_t number;
    rignolda_frame frame;
    bool has_frame;
};

static void broken(const char *what) {
    printf("broken: %s\n", what);
    exit(1);
}

static void is_delivered(uint32_t item) {
    if (item < first_item) {
        if (++strays > 1)
            broken("more strays than frames were under way");
    } else if (item <= last_item) {
        broken("an item that came before");
    } else {
        last_item = item;
    }
}

/* A count begins with this item. */
static void count_anew(uint32_t item) {
    first_item = item, last_item = strays = 0;
}

static void begin(void) {
    rignolda_session_init(&above);
    rignolda_session_init(&below);
    rignolda_sender_init(&sender, 0);
    rignolda_receiver_init(&receiver, 3);
}

static void offer(uint32_t item) {
    if (!rignolda_sender_offer(&sender, item))
        broken("an item is not taken");
}

/* The sender's end sends on a connection, where it may. */
static void send_on(struct connection *it) {
    it->has_frame = rignolda_session_send(&sender, &above, &it->frame);
}

/* The sender's end makes a connection, and sends there if it has the turn. */
static struct connection made(void) {
    struct connection it = {rignolda_session_made(&above), {0, 0, 0}, false};
    if (maker_begins)
        above.turn = 1;
    send_on(&it);
    return it;
}

/* The frame of a connection comes to the receiver's end, for which that has this number. */
static void comes(const struct connection *it, uint64_t number) {
    uint32_t item;
    if (it->has_frame && rignolda_session_on_frame(&receiver, &below, number, &it->frame, &item))
        is_delivered(item);
}

/* The receiver's end answers, where it may, and the sender's end hears it. */
static void answer(const struct connection *it) {
    uint16_t label;
    if (rignolda_session_ack(&receiver, &below, &label))
        rignolda_session_on_ack(&sender, &above, &params, it->number, label);
}

/* The sender's end restarts with another label, and is offered an item. */
static void restart(uint16_t label, uint32_t item) {
    if (keeps_one)
        above.turn = 1;
    else
        rignolda_session_init(&above);
    rignolda_sender_init(&sender, label);
    offer(item);
}

/* The sender's end makes three connections, and restarts before each. The other end accepts them
 * after that, the oldest first. */
static void late_connections(void) {
    struct connection connections[3];
    begin();
    for (uint16_t k = 0; k < 3; k++) {
        restart(k, k);
        connections[k] = made();
    }
    count_anew(2);
    for (int k = 0; k < 3; k++)
        comes(&connections[k], rignolda_session_accepted(&below));
}

/* A frame comes by a connection that the receiver's end has left for another one, by which two
 * items have come. */
static void left_connection(void) {
    begin();
    count_anew(1);
    offer(1);
    struct connection old = made();
    uint64_t number = rignolda_session_accepted(&below);
    answer(&old);
    send_on(&old);
    struct connection newest = made();
    uint64_t newest_number = rignolda_session_accepted(&below);
    answer(&newest);
    for (uint32_t item = 1; item < 3; item++) {
        send_on(&newest);
        comes(&newest, newest_number);
        answer(&newest);
        offer(item + 1);
    }
    if (last_item != 2)
        broken("the items do not come");
    comes(&old, handles_left ? newest_number : number);
}

/* The sender's end restarts twice, and sends each time where it may. */
static void kept_connection(void) {
    struct connection sent[3];
    begin();
    offer(0);
    sent[0] = made();
    uint64_t number = rignolda_session_accepted(&below);
    answer(&sent[0]);
    send_on(&sent[0]);
    for (uint16_t k = 1; k < 3; k++) {
        restart(k, k);
        send_on(&sent[k]);
    }
    count_anew(2);
    for (int k = 0; k < 3; k++)
        comes(&sent[k], number);
}

int main(int count, char **words) {
    const char *word = count > 1 ? words[1] : "";
    maker_begins = !strcmp(word, "maker-begins");
    handles_left = !strcmp(word, "handles-left");
    keeps_one = !strcmp(word, "keeps-one");
    late_connections();
    left_connection();
    kept_connection();
    printf("no bound breaks\n");
    return 0;
}
