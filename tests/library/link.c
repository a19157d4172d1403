/* A link of two halves of the library and two bounded queues.
 *
 * Reads jobs from standard input, one after the other, in words: the capacity, the number of
 * labels, the labels of sender and receiver; how many frames there are, and for each its label and
 * item; how many acknowledgements, and their labels; how many events, and these: o ITEM, f (send a
 * frame), r (receive it), R (and keep it), s (send an acknowledgement), a (receive it), A (and
 * keep it), l PLACE (lose a frame), L PLACE (lose an acknowledgement), c (close).
 *
 * It prints each link at its start and after each event, as the columns of a .run file. (That a
 * closed end refuses, and changes nothing, is seen by both.c.)
 */
#include "rignolda.h"

#include <stdio.h>
#include <stdlib.h>

enum { MOST_ENTRIES = 64 };

struct queue {
    unsigned capacity, count;
    rignolda_frame entries[MOST_ENTRIES];    /* the front first; of an acknowledgement its label */
};

static rignolda_params params;
static rignolda_sender sender;
static rignolda_receiver receiver;
static struct queue frames, acks;
static unsigned acked;
static uint32_t delivered; /* the last item */

static unsigned word(void) {
    unsigned number = 0;
    if (scanf("%u", &number) != 1)
        exit(2);
    return number;
}

static const char *put(struct queue *queue, rignolda_frame entry) {
    if (queue->count == queue->capacity)
        return "Lost";
    queue->entries[queue->count++] = entry;
    return "Sent";
}

static const char *lose(struct queue *queue, unsigned place) {
    if (place >= queue->count)
        return "Nothing";
    for (queue->count--; place < queue->count; place++)
        queue->entries[place] = queue->entries[place + 1];
    return "Lost";
}

static const char *offer(uint32_t item) {
    return rignolda_sender_offer(&sender, item) ? "Held" : "Nothing";
}

static const char *send_frame(void) {
    rignolda_frame frame = {.label = 1, .item = 2};
    return rignolda_sender_frame(&sender, &frame) ? put(&frames, frame) : "Nothing";
}

static const char *receive_frame(int keep) {
    if (frames.count == 0)
        return "Nothing";
    rignolda_frame front = frames.entries[0];
    int fresh = rignolda_receiver_on_frame(&receiver, &front, &delivered);
    if (!keep)
        lose(&frames, 0);
    return fresh ? "Fresh" : "Old";
}

static const char *send_ack(void) {
    rignolda_frame ack = {0};
    return rignolda_receiver_ack(&receiver, &ack.label) ? put(&acks, ack) : "Nothing";
}

static const char *receive_ack(int keep) {
    if (acks.count == 0)
        return "Nothing";
    int taken = rignolda_sender_on_ack(&sender, &params, acks.entries[0].label);
    acked += (unsigned)taken;
    if (!keep)
        lose(&acks, 0);
    return taken ? "Acked" : "Ignored";
}

/* Makes the event whose letter this is, and answers its effect. */
static const char *event(char letter, int closed) {
    unsigned number = letter == 'o' || letter == 'l' || letter == 'L' ? word() : 0;
    if (closed)
        return "Nothing";
    switch (letter) {
    case 'o': return offer(number);
    case 'f': return send_frame();
    case 'r': case 'R': return receive_frame(letter == 'R');
    case 's': return send_ack();
    case 'a': case 'A': return receive_ack(letter == 'A');
    case 'l': return lose(&frames, number);
    case 'L': return lose(&acks, number);
    case 'c':
        rignolda_sender_close(&sender);
        rignolda_receiver_close(&receiver);
        return "Closed";
    default: exit(2);
    }
}

static void print_queue(const struct queue *queue, int of_frames) {
    for (unsigned i = 0; i < queue->count; i++) {
        printf("%s%u", i > 0 ? "," : "", queue->entries[i].label);
        if (of_frames)
            printf("=%u", queue->entries[i].item);
    }
    printf(queue->count > 0 ? " " : "- ");
}

static void print_step(const char *effect) {
    printf("%s %u ", effect, sender.label);
    if (sender.holding)
        printf("%u %u ", sender.item, acked);
    else
        printf("- %u ", acked);
    print_queue(&frames, 1);
    print_queue(&acks, 0);
    printf("%u ", receiver.label);
    if (effect[0] == 'F')
        printf("%u\n", delivered);
    else
        printf("-\n");
}

static void start(void) {
    rignolda_sender_init(&sender, (uint16_t)word());
    rignolda_receiver_init(&receiver, (uint16_t)word());
    frames = acks = (struct queue){.capacity = params.capacity};
    for (unsigned count = word(); frames.count < count;) {
        rignolda_frame frame = {.label = (uint16_t)word()};
        frame.item = word();
        put(&frames, frame);
    }
    for (unsigned count = word(); acks.count < count;)
        put(&acks, (rignolda_frame){.label = (uint16_t)word()});
    acked = 0;
}

int main(void) {
    unsigned capacity;
    while (scanf("%u", &capacity) == 1) {
        params = (rignolda_params){.capacity = (uint16_t)capacity};
        params.labels = (uint16_t)word();
        start();
        int closed = 0;
        print_step("-");
        for (unsigned count = word(); count > 0; count--) {
            char letter = 0;
            if (scanf(" %c", &letter) != 1)
                return 2;
            print_step(event(letter, closed));
            closed |= letter == 'c';
        }
    }
    return 0;
}
