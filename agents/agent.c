/* An agent: one process of a tree that passes settings down.
 *
 *     agent [options] NAME [CHILD=LABEL ..]
 *
 *     -c CAPACITY   how many messages a line contains in each direction: 1, 2, 4, .. or 64
 *     -k LABELS     the number of labels, at least 2 * CAPACITY + 2
 *     -r LABEL      the label of the receiver; an agent without it is the root
 *     -s FILE       the settings, which the root alone reads
 *     -m ITEMS      how many harmless items the root publishes before them
 *     -o ITEM       an item that the agent has in hand when it starts; may be given again
 *     -l N, -e N    of 1000 messages, how many are lost and how many are repeated
 *     -x SEED       for the generator that draws these
 *
 * It runs in the folder of its lines. The link into an agent is two named pipes, NAME.frames and
 * NAME.acks, which somebody has made. In packet mode (O_DIRECT) a pipe keeps the messages apart,
 * and one of n pages contains at most n messages: so the kernel keeps the bound that the protocol
 * needs. A message that finds its pipe full is lost, and nobody ever waits for a line.
 *
 * What an agent does depends on signals: HUP makes the root read its settings again. USR1 makes an
 * agent write where it is and stop, until it is continued; so it begins, too. TERM says that the
 * parent has ended: once each child has acknowledged everything, this agent ends as well. INT ends
 * it where it is.
 *
 * The file NAME.log has a line for each thing that somebody may want to know:
 *
 *     count LABEL          a new count begins: the receiver's label, or - at the root
 *     child NAME LABEL N   the label of the sender for a child, and how many items it has
 *                          acknowledged in this life
 *     hand ITEM            an item that is not yet handed on
 *     item ITEM            an item was received, or at the root published
 *     acked NAME N         how many items this child has acknowledged in the count that ends
 *     ended WHY            upstream: all is acknowledged after TERM; turns: the end came before
 */
#define _GNU_SOURCE
#include "rignolda.h"

#include <err.h>
#include <errno.h>
#include <fcntl.h>
#include <inttypes.h>
#include <poll.h>
#include <signal.h>
#include <stdbool.h>
#include <stdio.h>
#include <stdlib.h>
#include <string.h>
#include <sys/prctl.h>
#include <sys/signalfd.h>
#include <time.h>
#include <unistd.h>

enum {
    FRAME_BYTES = 6,           /* a label and an item, the highest byte first */
    ACK_BYTES = 2,             /* a label */
    MOST_CHILDREN = 63,
    LONGEST_BACKLOG = 64,      /* an agent with this backlog for a child takes no frame */
    PLACES = 1 << 10,          /* of the buffer: the root needs room for all that it publishes */
    MOST_SETTINGS = 256,
};
static const uint64_t FIRST_PAUSE = 1000000, LONGEST_PAUSE = 64000000;     /* nanoseconds */

/* A child, and the link into it. */
struct child {
    char name[33];
    int frames, acks;              /* its lines */
    rignolda_child link;           /* the sender's end, and its place in the list */
    uint64_t acked_before;         /* the present count began */
    uint64_t due, pause;           /* when to transmit again, and how long to wait after that */
};

static bool is_root = true;
static int frames = -1, acks = -1;             /* the lines from and to the parent */
static rignolda_params params = {.capacity = 1, .labels = 255};
static rignolda_node node;                     /* the receiver's end, and counts of the list */
static uint32_t list[PLACES];                  /* a ring, for what is not forgotten */
static struct child children[MOST_CHILDREN];
static unsigned count_of_children;

static const char *settings_file;
static bool unread_settings, parent_has_ended;
static unsigned harmless, lost, repeated;
static uint64_t seed = 1;
static FILE *log_file;

/* ---- Lines ---------------------------------------------------------------------------------- */

/* Draws whether something happens that happens so often in 1000 times (a xorshift generator). */
static bool drawn(unsigned often) {
    seed ^= seed << 13, seed ^= seed >> 7, seed ^= seed << 17;
    return seed % 1000 < often;
}

/* Opens a pipe, sets its mode and size, and sees that the kernel has taken both. It is opened for
 * reading and writing, so that no call waits for the other agent, or fails when that has ended. */
static int open_line(const char *of, const char *direction) {
    char path[64];
    snprintf(path, sizeof path, "%s.%s", of, direction);
    int line = open(path, O_RDWR | O_NONBLOCK | O_CLOEXEC);
    if (line < 0)
        err(1, "%s", path);
    int size = params.capacity * (int)sysconf(_SC_PAGESIZE);
    if (fcntl(line, F_SETFL, O_NONBLOCK | O_DIRECT) || fcntl(line, F_SETPIPE_SZ, size) != size)
        err(1, "%s: no pipe of %u messages", path, params.capacity);
    return line;
}

/* Puts a message into a line. Where the line is full, the message is lost: that is allowed. */
static void transmit(int line, const void *message, size_t bytes) {
    if (!drawn(lost) && write(line, message, bytes) < 0 && errno != EAGAIN)
        err(1, "write");
}

/* Takes the front message of a line, if there is one. One of another length is nobody's. */
static bool take(int line, void *message, size_t bytes) {
    uint8_t found[64];
    ssize_t found_bytes;
    while ((found_bytes = read(line, found, sizeof found)) >= 0)
        if ((size_t)found_bytes == bytes) {
            memcpy(message, found, bytes);
            return true;
        }
    if (errno != EAGAIN)
        err(1, "read");
    return false;
}

static uint64_t now(void) {
    struct timespec time;
    clock_gettime(CLOCK_MONOTONIC, &time);
    return (uint64_t)time.tv_sec * 1000000000 + (uint64_t)time.tv_nsec;
}

/* ---- The node ------------------------------------------------------------------------------- */

/* What the slowest child has not yet acknowledged. */
static uint64_t backlog(void) {
    uint64_t longest = 0;
    for (unsigned i = 0; i < count_of_children; i++) {
        uint64_t its = rignolda_node_backlog(&node, &children[i].link, PLACES);
        longest = its > longest ? its : longest;
    }
    return longest;
}

/* Forgets what each child was offered: the item that it has to acknowledge is in its sender. One
 * that is left behind holds no other up. */
static void forget(void) {
    uint64_t place = node.length;
    for (unsigned i = 0; i < count_of_children; i++)
        if (!rignolda_node_left_behind(&node, &children[i].link, PLACES))
            place = rignolda_child_needs(&node, &children[i].link, place);
    rignolda_node_forget(&node, place);
}

/* The parent's frame brings an item, if its label is new. */
static void on_frame(const rignolda_frame *frame) {
    if (rignolda_node_on_frame(&node, list, PLACES, frame))
        fprintf(log_file, "item %u\n", list[(node.length - 1) % PLACES]);
}

/* Takes what the parent has sent, and acknowledges every frame, the old ones too. What it brings
 * is in the log before the parent knows of it. While the backlog is as long as it may be, frames
 * are left in the line. */
static void look_up(void) {
    uint8_t bytes[FRAME_BYTES];
    for (unsigned i = 0; i < params.capacity && backlog() < LONGEST_BACKLOG; i++) {
        if (!take(frames, bytes, sizeof bytes))
            return;
        rignolda_frame frame = {.label = (uint16_t)(bytes[0] << 8 | bytes[1]),
                                .item = (uint32_t)bytes[2] << 24 | (uint32_t)bytes[3] << 16 |
                                        (uint32_t)bytes[4] << 8 | bytes[5]};
        on_frame(&frame);
        if (drawn(repeated))
            on_frame(&frame);
        uint16_t label;
        if (rignolda_receiver_ack(&node.above, &label)) {
            uint8_t ack[ACK_BYTES] = {(uint8_t)(label >> 8), (uint8_t)label};
            transmit(acks, ack, sizeof ack);
        }
    }
}

/* A child's acknowledgement lets its sender take the next item, if its label is the right one. */
static void on_ack(struct child *child, uint16_t label) {
    if (rignolda_child_on_ack(&child->link, &params, label)) {
        child->due = 0;
        child->pause = FIRST_PAUSE;
    }
}

/* Transmits the item that a child has to acknowledge next: at once, and then again after pauses,
 * each of them longer than the one before. */
static void send_to(struct child *child) {
    rignolda_frame frame = {0};
    if (now() < child->due ||
        !rignolda_node_poll(&node, &child->link, list, PLACES, &frame))
        return;
    uint8_t bytes[FRAME_BYTES] = {
        (uint8_t)(frame.label >> 8), (uint8_t)frame.label, (uint8_t)(frame.item >> 24),
        (uint8_t)(frame.item >> 16), (uint8_t)(frame.item >> 8), (uint8_t)frame.item};
    transmit(child->frames, bytes, sizeof bytes);
    child->due = now() + child->pause;
    child->pause = child->pause < LONGEST_PAUSE ? 2 * child->pause : LONGEST_PAUSE;
}

/* Takes what a child has sent, and sends it what is due. Where the line repeats a message, the next
 * item may already wait; but nothing is transmitted in between, since the line would then contain
 * a message more than its pipe. */
static void look_down(struct child *child) {
    uint8_t ack[ACK_BYTES];
    for (unsigned i = 0; i < params.capacity && take(child->acks, ack, sizeof ack); i++) {
        on_ack(child, (uint16_t)(ack[0] << 8 | ack[1]));
        if (drawn(repeated)) {
            rignolda_frame unsent = {0};
            rignolda_node_poll(&node, &child->link, list, PLACES, &unsent);
            on_ack(child, (uint16_t)(ack[0] << 8 | ack[1]));
        }
    }
    send_to(child);
}

/* Publishes the settings, as soon as there is room for all. Each line of the file is the number of
 * a setting, up to 255, and its value, up to 16777215; together they are an item. First come
 * harmless items, of which some may be missing: the same settings. Then come all, and none of these
 * is missing anywhere. */
static void publish(void) {
    uint32_t items[MOST_SETTINGS];
    unsigned count = 0, number, value;
    FILE *file = fopen(settings_file, "r");
    if (!file)
        err(1, "%s", settings_file);
    while (count < MOST_SETTINGS && fscanf(file, "%u %u", &number, &value) == 2)
        items[count++] = (number & 0xff) << 24 | (value & 0xffffff);
    fclose(file);
    if (harmless + count > PLACES)
        errx(1, "%u items at once: a root has room for %u", harmless + count, PLACES);
    if (node.length - node.forgotten + harmless + count > PLACES)
        return;
    for (unsigned i = 0; count > 0 && i < harmless + count; i++) {
        uint32_t item = items[i < harmless ? i % count : i - harmless];
        if (!rignolda_node_publish(&node, list, PLACES, item))
            errx(1, "no room for an item");
        fprintf(log_file, "item %u\n", item);
    }
    unread_settings = false;
}

/* ---- Counts, and the end -------------------------------------------------------------------- */

static void end_count(void) {
    for (unsigned i = 0; i < count_of_children; i++) {
        struct child *child = &children[i];
        fprintf(log_file, "acked %s %" PRIu64 "\n", child->name,
                child->link.acknowledged - child->acked_before);
    }
}

/* Writes what is not yet handed on to the slowest child. The first item of it may be in the child's
 * sender alone. */
static void write_in_hand(void) {
    const struct child *slowest = NULL;
    for (unsigned i = 0; i < count_of_children; i++)
        if (rignolda_node_backlog(&node, &children[i].link, PLACES) == backlog())
            slowest = &children[i];
    if (!slowest)
        return;
    if (slowest->link.sender.holding)
        fprintf(log_file, "hand %u\n", slowest->link.sender.item);
    for (uint64_t i = slowest->link.offered; i < node.length; i++)
        fprintf(log_file, "hand %u\n", list[i % PLACES]);
}

/* Stops until this process is continued. A new count begins there, so what stands is written. */
static void stop(void) {
    uint16_t label;
    if (!is_root && rignolda_receiver_ack(&node.above, &label))
        fprintf(log_file, "count %u\n", label);
    else
        fprintf(log_file, "count -\n");
    for (unsigned i = 0; i < count_of_children; i++) {
        struct child *child = &children[i];
        child->acked_before = child->link.acknowledged;
        fprintf(log_file, "child %s %u %" PRIu64 "\n", child->name, child->link.sender.label,
                child->link.acknowledged);
    }
    write_in_hand();
    raise(SIGSTOP);
}

static void end(const char *why) {
    end_count();
    fprintf(log_file, "ended %s\n", why);
    exit(0);
}

static void on_signal(uint32_t signal) {
    if (signal == SIGHUP)
        unread_settings = is_root;
    else if (signal == SIGUSR1)
        end_count(), stop();
    else if (signal == SIGTERM)
        rignolda_receiver_close(&node.above), parent_has_ended = true;
    else
        end("turns");
}

/* ---- Turns ---------------------------------------------------------------------------------- */

/* Waits until a message or a signal comes, or it is time to transmit again. */
static void wait_for_more(int signals) {
    struct pollfd looked_at[MOST_CHILDREN + 2] = {{.fd = signals, .events = POLLIN}};
    /* (a negative file is not looked at) */
    bool takes_frames = !parent_has_ended && backlog() < LONGEST_BACKLOG;
    looked_at[1] = (struct pollfd){.fd = takes_frames ? frames : -1, .events = POLLIN};
    uint64_t earliest = UINT64_MAX, present = now();
    for (unsigned i = 0; i < count_of_children; i++) {
        looked_at[i + 2] = (struct pollfd){.fd = children[i].acks, .events = POLLIN};
        if (rignolda_node_backlog(&node, &children[i].link, PLACES) > 0 &&
            children[i].due < earliest)
            earliest = children[i].due;
    }
    uint64_t rest = earliest > present ? earliest - present : 0;
    struct timespec time = {(time_t)(rest / 1000000000), (long)(rest % 1000000000)};
    ppoll(looked_at, count_of_children + 2, earliest == UINT64_MAX ? NULL : &time, NULL);
    struct signalfd_siginfo signal;
    while (read(signals, &signal, sizeof signal) == sizeof signal)
        on_signal(signal.ssi_signo);
}

/* The agent's life, turn after turn. No call in a turn waits, and each message that is taken is
 * handled before the next one: so nobody can tell that from a line without a place for it here. */
static void live(int signals) {
    for (;;) {
        forget();
        if (unread_settings)
            publish();
        if (!is_root && !parent_has_ended)
            look_up();
        for (unsigned i = 0; i < count_of_children; i++)
            look_down(&children[i]);
        if (parent_has_ended && backlog() == 0)
            end("upstream");
        wait_for_more(signals);
    }
}

static unsigned number(const char *text) { return (unsigned)strtoul(text, NULL, 10); }

int main(int argc, char **argv) {
    uint32_t in_hand = 0;
    uint16_t label = 0;
    for (int option; (option = getopt(argc, argv, "c:k:r:s:m:o:l:e:x:")) != -1;)
        switch (option) {
        case 'c': params.capacity = (uint16_t)number(optarg); break;
        case 'k': params.labels = (uint16_t)number(optarg); break;
        case 'r': label = (uint16_t)number(optarg), is_root = false; break;
        case 's': settings_file = optarg, unread_settings = true; break;
        case 'm': harmless = number(optarg); break;
        case 'o': list[in_hand] = number(optarg), in_hand += in_hand < LONGEST_BACKLOG; break;
        case 'l': lost = number(optarg); break;
        case 'e': repeated = number(optarg); break;
        case 'x': seed = strtoull(optarg, NULL, 10) | 1; break;
        default: return 2;
        }
    if (optind >= argc || argc - optind - 1 > MOST_CHILDREN)
        errx(2, "usage: agent [options] NAME [CHILD=LABEL ..]");
    if (rignolda_params_check(&params) != RIGNOLDA_LAWFUL)
        errx(2, "a capacity of %u and %u labels", params.capacity, params.labels);
    const char *name = argv[optind++];

    /* It ends with whoever has started it. */
    prctl(PR_SET_PDEATHSIG, SIGKILL);
    sigset_t set;
    sigemptyset(&set);
    sigaddset(&set, SIGHUP), sigaddset(&set, SIGUSR1);
    sigaddset(&set, SIGTERM), sigaddset(&set, SIGINT);
    sigprocmask(SIG_BLOCK, &set, NULL);
    int signals = signalfd(-1, &set, SFD_NONBLOCK | SFD_CLOEXEC);

    char path[64];
    snprintf(path, sizeof path, "%s.log", name);
    log_file = fopen(path, "w");
    if (signals < 0 || !log_file)
        err(1, "%s", path);
    setvbuf(log_file, NULL, _IOLBF, 0);

    /* Nothing of an earlier life is needed: the labels may be any. */
    rignolda_node_init(&node, label, in_hand);
    if (!is_root) {
        frames = open_line(name, "frames");
        acks = open_line(name, "acks");
    }
    for (; optind < argc; optind++) {
        struct child *child = &children[count_of_children++];
        unsigned its_label;
        if (sscanf(argv[optind], "%32[^=]=%u", child->name, &its_label) != 2)
            errx(2, "no child and label: %s", argv[optind]);
        child->frames = open_line(child->name, "frames");
        child->acks = open_line(child->name, "acks");
        child->pause = FIRST_PAUSE;
        rignolda_child_init(&child->link, (uint16_t)its_label);
    }
    stop();
    live(signals);
}
