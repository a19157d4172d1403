/* Compares two forms of the library, call by call and bit by bit, on structs with drawn bits.
 *
 *     both ROUNDS SEED [all]
 *
 * It is linked with the archive and with inline.c. In a round all that a call may look at is drawn,
 * and each call is made in either form: what it returns has to be the same, and so has each byte
 * that lies there then. Each object lies at the end of a page before one that may not be read. At
 * the end each call that can refuse has to have done both. All parameters are tried as well, and
 * with the word `all` every label, with many values of the flags, and some with every value.
 */
#include "calls.h"
#include "draw.h"

#include <stdio.h>
#include <stdlib.h>
#include <sys/mman.h>

enum { PAGE = 65536 };

static const size_t BYTES[OBJECTS] = {
    sizeof(rignolda_params), sizeof(rignolda_frame), sizeof(rignolda_sender),
    sizeof(rignolda_receiver), sizeof(uint32_t), sizeof(uint16_t), sizeof(rignolda_node),
    sizeof(rignolda_child), sizeof(rignolda_session), PLACES * sizeof(uint32_t)};

static struct all drawn, one, other;
static unsigned long refused[CALLS], done[CALLS];

/* A drawn number: often a small one, or one of the greatest. */
static uint64_t number(void) {
    switch (draw() >> 62) {
    case 0: return (draw() >> 32) % 20;
    case 1: return UINT64_MAX - (draw() >> 32) % 3;
    default: return draw();
    }
}

/* A flag: often 0. */
static uint64_t flag(void) { return draw() >> 62 ? 0 : number(); }

/* Room for all objects, each at the end of a page, before one that may not be touched. */
static void place(struct all *it) {
    for (unsigned k = 0; k < OBJECTS; k++) {
        char *page =
            mmap(0, 2 * PAGE, PROT_READ | PROT_WRITE, MAP_PRIVATE | MAP_ANONYMOUS, -1, 0);
        if (page == MAP_FAILED || mprotect(page + PAGE, PAGE, PROT_NONE))
            exit(2);
        it->objects[k] = page + PAGE - BYTES[k];
    }
}

/* (word by word: the system's memcpy and memcmp are slow beside a page that may not be touched) */
static void copy(struct all *to, unsigned objects) {
    for (unsigned k = 0; k < objects; k++) {
        volatile uint16_t *at = to->objects[k];
        for (size_t word = 0; word < BYTES[k] / 2; word++)
            at[word] = ((uint16_t *)drawn.objects[k])[word];
    }
    to->number = drawn.number, to->word = drawn.word, to->size = drawn.size;
    to->any_size = drawn.any_size;
    to->list = to->places + PLACES - to->size;
}

static bool are_same(unsigned objects) {
    uint16_t differs = 0;
    for (unsigned k = 0; k < objects; k++)
        for (size_t word = 0; word < BYTES[k] / 2; word++)
            differs |= ((uint16_t *)one.objects[k])[word] ^ ((uint16_t *)other.objects[k])[word];
    return !differs;
}

/* Draws everything: every byte, and then often what lets calls go on. */
static void draw_all(struct all *it) {
    for (unsigned k = 0; k < OBJECTS; k++)
        for (size_t at = 0; at < BYTES[k]; at++)
            ((uint8_t *)it->objects[k])[at] = (uint8_t)(draw() >> 56);
    it->number = draw(), it->word = number() >> (draw() >> 58);
    it->size = (draw() >> 32) % (PLACES + 1);
    it->any_size = (size_t)(number() >> (draw() >> 58)) % (MOST_SIZE + 1);
    if (draw() >> 62 == 0)
        return;
    it->params->capacity = (uint16_t)(number() % 66);
    it->params->labels = (uint16_t)(draw() >> 63 ? 2 * it->params->capacity + draw() % 5
                                                 : 995 + draw() % 8);
    *it->label = (uint16_t)(draw() >> 63 ? it->params->labels - draw() % 3 : number());
    it->frame->label = (uint16_t)(draw() >> 63 ? *it->label : number());
    *it->sender = (rignolda_sender){*it->item, *it->label, (uint8_t)flag(), (uint8_t)flag()};
    it->child->sender = *it->sender;
    it->receiver->label = (uint16_t)(draw() >> 63 ? *it->label : number());
    it->receiver->closed = (uint16_t)flag();
    it->node->above = *it->receiver;
    it->node->length = number();
    it->node->forgotten = draw() >> 62 ? it->node->length - number() % 20 : number();
    it->node->old_frames = number();
    it->child->offered = draw() >> 63 ? it->node->length - number() % 20 : number();
    it->child->acknowledged = number(), it->child->ignored = number();
    it->number = it->node->length - number() % 20;
    if (draw() >> 63) {
        /* (as far from the end as the buffer has places, or nearly so) */
        it->child->offered = it->node->length - it->any_size + draw() % 3 - 1;
        it->number = it->node->length - it->any_size + draw() % 3 - 1;
    }
    it->session->number = draw() >> 63 ? it->number : number();
    it->session->there = (uint32_t)(draw() >> 62 ? number() : 0);
    it->session->turn = (uint32_t)(draw() >> 62 ? number() : 0);
}

/* Makes a call in both forms, on what is drawn. */
static void compare(unsigned which) {
    unsigned objects = which < CALLS_OF_A_LINK ? OBJECTS_OF_A_LINK : OBJECTS;
    copy(&one, objects), copy(&other, objects);
    uint64_t wanted = linked(which, &one), found = inlined(which, &other);
    if (wanted != found || !are_same(objects)) {
        printf("broken: the call %u of calls.h returns %llx and %llx\n", which,
               (unsigned long long)wanted, (unsigned long long)found);
        exit(1);
    }
    refused[which] += wanted == 0, done[which] += wanted != 0;
}

static void try_all_params(void) {
    for (unsigned capacity = 0; capacity <= 66; capacity++)
        for (unsigned labels = 0; labels <= UINT16_MAX; labels++) {
            *drawn.params = (rignolda_params){(uint16_t)capacity, (uint16_t)labels};
            compare(0);
        }
}

/* At the sender's and the receiver's calls. */
static void try_all_flags(void) {
    *drawn.params = (rignolda_params){64, 1000};
    for (unsigned its = 0; its <= UINT16_MAX; its++)
        for (unsigned flags = 0; flags <= UINT16_MAX; flags += its % 2521 ? 4099 : 1) {
            *drawn.sender =
                (rignolda_sender){7, (uint16_t)its, (uint8_t)flags, (uint8_t)(flags >> 8)};
            *drawn.receiver = (rignolda_receiver){(uint16_t)its, (uint16_t)flags};
            *drawn.frame = (rignolda_frame){9, (uint16_t)(its + flags % 2), 5};
            *drawn.label = (uint16_t)(its + flags / 2 % 2);
            for (unsigned which = 1; which < CALLS_OF_A_LINK; which++)
                compare(which);
        }
}

/* Whether a call can return 0 and another number: all but those that return nothing, and those that
 * make a word. */
static bool wants_both(unsigned which) {
    switch (which) {
    case 1: case 5: case 6: case 10: case 11: case 12: case 19: case 22: case 34: case 36:
        return false;
    default: return true;
    }
}

int main(int argc, char **argv) {
    unsigned long rounds = argc > 1 ? strtoul(argv[1], 0, 10) : 100000;
    state = (argc > 2 ? strtoul(argv[2], 0, 10) : 1) * 2 + 1;
    place(&drawn), place(&one), place(&other);
    for (unsigned long round = 0; round < rounds; round++) {
        draw_all(&drawn);
        for (unsigned which = 0; which < CALLS; which++)
            compare(which);
    }
    for (unsigned which = 0; which < CALLS; which++)
        if (wants_both(which) && !(refused[which] && done[which])) {
            printf("the call %u of calls.h always did the same\n", which);
            return 1;
        }
    try_all_params();
    if (argc > 3)
        try_all_flags();
    printf("%lu rounds of %u calls\n", rounds, CALLS);
    return 0;
}
