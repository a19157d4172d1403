/*
 * Rignolda: bodies of settings, as bytes that travel beside an item, which of them an agent takes
 * and applies, what a root publishes, and the messages that bring bodies, for agents of one's own.
 *
 * Each call is proved: it does what the definitions of the crates rignolda_agent and rignolda_wire
 * say. The rules for pointers and for several calls at once are those of rignolda.h, and none takes
 * memory. The calls are those of an archive of their own, librignolda_settings.a, which needs
 * `memmove` of a C library and nothing else.
 *
 * A body is `kind u8 | number u64 | rest`, numbers in big-endian order. A harmless one, 'H', has no
 * rest. That of changes, 'C', and of a whole table, 'T', is `count u32` and as many entries, in the
 * order of their keys, bytewise, each key once: 'S' | length u8 | key | length u32 | value, or, in
 * changes alone, 'U' | length u8 | key, for a key that is unset. A key has 1 to 128 letters,
 * digits, '.', '_' and '-', with no dot or hyphen in front, and a value at most 1 MiB. There are at
 * most 65,536 entries, and 16 MiB in all.
 *
 * The laws (functions of the module body_laws of the crate rignolda_agent):
 *   - what_is_spelled_is_read, what_is_read_is_spelled: the check takes exactly the bodies, and no
 *     two texts say the same.
 *   - what_is_written_is_read: a head and then its entries, one after the other, are that body.
 *   - entries_are_read_in_turn: in a body that was checked, as many entries as its head says follow
 *     each other from the end of the head to the end of the bytes.
 * Those of what an agent does with bodies, of the module laws:
 *   - nothing_older_is_applied: while its floor is that of its files, the number that they are from
 *     never falls.
 *   - what_waits_lacks_nothing: what is applied together lacks nothing in between; an agent that
 *     applied number 7 and takes number 9 next applies that.
 *   - a_newer_table_makes_the_files_right: whatever they were.
 *   - two_rounds_bring_the_roots_settings: from every bit pattern of a taker, if its numbers, and
 *     those of strays and of all that came before the round, are behind the table's (less than half
 *     of all numbers; at exactly half neither is behind), if every item reads as a body, and if the
 *     round is after the items that can be missing.
 *   - what_is_left_out_is_made_up_for: by the next whole table that is taken.
 *   - what_fits_is_a_table, counts_follow_the_settings (of the module room_laws): settings fit
 *     exactly if they are one whole table, and counts stay those of the settings.
 *   - files_never_go_back (of the module marker_laws): whatever the processes remember that keep
 *     files, and between whichever acts they are ended, if each marks the folder first.
 * Those of how parents are chosen, of the crate rignolda_ways:
 *   - parents_come_from_any_state, parents_are_kept: after more rounds than its distance from a root
 *     an agent has a parent on a shortest path, and keeps it. In a round what was said before comes
 *     or is lost, and then each agent learns what each of its candidates says.
 *   - no_ring_of_parents_stays: through as many rounds as it has agents.
 * Those of what a root publishes, of the module root_laws:
 *   - numbers_rise_by_one: from every bit pattern of a publisher, while no agent says a newer
 *     number; a_round_ends: unless tables are held, or a shorter round is asked for;
 *     every_change_is_published: held or not, if a body has room for 4096 of them.
 *   - what_does_not_wait_is_told: if a table was the root's at each key that does not wait, and is
 *     told every body, it stays so.
 *   - merged_changes_tell_the_same: what waits tells a table the same as all bodies that came.
 */
#ifndef RIGNOLDA_SETTINGS_H
#define RIGNOLDA_SETTINGS_H

#include <stdbool.h>
#include <stddef.h>
#include <stdint.h>

#ifdef __cplusplus
extern "C" {
#endif

/* What a body has before its entries: 13 bytes, or 9 where it is harmless. */
typedef struct rignolda_body_head {
    uint64_t number; /* its number */
    uint32_t count;  /* how many entries it has */
    uint32_t kind;   /* its first byte: 'C', 'T' or 'H' */
} rignolda_body_head;

/* Where an entry lies in the bytes of a body. The next one begins at value + value_length. */
typedef struct rignolda_body_entry {
    size_t key;
    size_t key_length;
    size_t value;
    size_t value_length; /* 0 where the key is unset */
} rignolda_body_entry;

/* The checksum CRC-32 of some bytes: the item of a body. */
uint32_t rignolda_checksum(const uint8_t *bytes, size_t length);

/*
 * Returns 0 if these bytes are a body that fits its item, after writing its head; else the first of
 * these faults that is met: 1 they do not fit the item, 2 they are over 16 MiB, 3 they end within a
 * field, 4 no kind, 5 too many entries, 6 neither 'S' nor 'U', 7 no key, 8 a key that is not above
 * the one before it, 9 a value over 1 MiB, 10 a table that unsets a key, 11 something follows the
 * last entry. 1 and 2 are met first, and then the fields from left to right, but 6 after the key,
 * and 8 and then 10 after the whole entry.
 */
uint8_t rignolda_body_check(uint32_t item, const uint8_t *bytes, size_t length,
                            rignolda_body_head *head);

/*
 * Reads the entry that begins at this place: returns 'S' or 'U' after writing where it lies, or 0
 * where there is none.
 */
uint8_t rignolda_body_read(const uint8_t *bytes, size_t length, size_t at,
                               rignolda_body_entry *entry);

/*
 * Write a body into a buffer: what is before its entries, and then each entry, in the order of the
 * keys. Each call returns where the next entry begins, or 0 where there is no room, and then it
 * wrote nothing; also where the kind is none, a key has more than 128 bytes or a value more than
 * 1 MiB. What else a body asks for is for the caller to see to. The buffer may be memory to which
 * nothing was written yet.
 */
size_t rignolda_body_begin(uint8_t *buffer, size_t size, uint8_t kind, uint64_t number,
                           uint32_t count);
size_t rignolda_body_set(uint8_t *buffer, size_t size, size_t at, const uint8_t *key,
                         size_t key_length, const uint8_t *value, size_t value_length);
size_t rignolda_body_unset(uint8_t *buffer, size_t size, size_t at, const uint8_t *key,
                           size_t key_length);

/*
 * Numbers of bodies are serial numbers, as those of DNS are (RFC 1982): they go round, past 0, which
 * is none and older than all. A number is newer than another one where it is less than half of them
 * ahead of it.
 */
bool rignolda_number_is_newer(uint64_t than, uint64_t number);

/* The number after this one. */
uint64_t rignolda_number_next(uint64_t number);

/* Of two numbers the one that is further ahead of `from`, or the first one. */
uint64_t rignolda_number_further(uint64_t from, uint64_t number, uint64_t other);

/* What an agent remembers of the numbers of bodies, to be made by rignolda_taker_init. */
typedef struct rignolda_taker {
    uint64_t number;    /* of the last body that was taken; 0 before the first */
    uint64_t floor;     /* up to which its files are, or may be */
    uint8_t whole;      /* not 0 where a table came, and nothing was left out since */
    uint8_t in_a_round; /* not 0 after a harmless body, until a table comes */
} rignolda_taker;

/* What is to be done about a body that came: 1 for yes and 0 for no, in each. */
typedef struct rignolda_taker_heard {
    uint8_t taken;   /* what it says waits, merged with what waits; else nothing changes */
    uint8_t drops;   /* what waited before it is dropped first */
    uint8_t applied; /* what waits is applied now: the disk has the new floor before the files */
    uint8_t fills;   /* it is a table that makes up for what was left out before it */
    uint8_t looks;   /* it is a table with which all files are looked at */
} rignolda_taker_heard;

/*
 * Makes what an agent remembers at the start of its process, where its disk has this floor, or 0
 * where that is not known.
 */
void rignolda_taker_init(rignolda_taker *taker, uint64_t floor);

/*
 * A body came that begins with this byte and has this number: writes what is to be done about it.
 * One that begins with no kind, or is not newer than the last one, changes nothing.
 */
void rignolda_taker_hears(rignolda_taker *taker, uint8_t kind, uint64_t number,
                          rignolda_taker_heard *heard);

/* What it was told was left out, for want of room: the next whole table makes up for it. */
void rignolda_taker_misses(rignolda_taker *taker);

/* What a whole table takes. Nothing of it has to be right. */
typedef struct rignolda_room {
    uint64_t settings; /* how many settings there are */
    uint64_t bytes;    /* how many bytes the entries of all of them have */
} rignolda_room;

/*
 * A setting is set or unset: its entry had so many bytes, and has so many now. One that is not
 * there has none.
 */
void rignolda_room_change(rignolda_room *room, uint64_t had, uint64_t has);

/* Whether all these settings are one whole table: at most 65,536, in at most 16 MiB. */
bool rignolda_room_fits(const rignolda_room *room);

/*
 * What an agent knows when a candidate for its parent says its way: what it costs to come from a
 * root, and the names from there to that candidate. A flag is true where it is not 0.
 */
typedef struct rignolda_way_asked {
    size_t names;             /* how many names that way has */
    uint16_t said;            /* what it costs */
    uint16_t price;           /* what it costs to come to that candidate: 1 or more */
    uint16_t own;             /* the cost that the agent says itself */
    uint8_t has_own_name;     /* its own name is on that way */
    uint8_t has_parent;       /* it has a parent */
    uint8_t is_parent;        /* that candidate is it */
    uint8_t is_sole;          /* it has no other candidate */
    uint8_t has_children;     /* others may have it as their parent */
    uint8_t was_in_circle;    /* it has left a circle, and has had no root since */
    uint8_t head_is_smaller;  /* the first name of that way is smaller than its own */
} rignolda_way_asked;

/*
 * What it costs to come to an agent over a candidate that says so much and has this price. From 128
 * on there is no root; from 256 on it is all the same.
 */
uint16_t rignolda_way_over(uint16_t said, uint16_t price);

/*
 * What the agent does: 0 where that candidate is its parent from now on, or as before, and that way
 * is heard. Else all stays as it is, since that way has the agent's own name (1), is too long (2),
 * has no root (3), or is not better (4); or the parent is left, since its way has the agent's own
 * name (5), or is too long (6): over it the cost would be 256, or there are 128 names.
 */
uint8_t rignolda_way_answer(const rignolda_way_asked *asked);

/* Why that candidate may not replace a parent that is to be left, by these numbers; 0 if it may. */
uint8_t rignolda_way_unfit(const rignolda_way_asked *asked);

/*
 * Whether a folder whose marker has this number, or 0 where it has none, may be marked with that
 * one, before files are put in it. Else its files are from a later body, and none is to be put.
 */
bool rignolda_may_mark(uint64_t marker, uint64_t number);

/*
 * What a root remembers of what it published, to be made by rignolda_publisher_init. Its settings,
 * and the keys of changes that wait, are kept by the caller: each key once, in the order in which
 * the first change of it came. A body of changes has the first ones of these, each with its value
 * of now, and a whole table has all settings; what was published does not wait any more.
 */
typedef struct rignolda_publisher {
    uint64_t number;      /* of the last body */
    uint64_t items;       /* bodies after the last whole table, */
    uint64_t bytes;       /* their bytes, */
    uint64_t table_bytes; /* and those of the table */
    uint64_t left;        /* bodies of the round that are still to come, its table with them */
    uint8_t rounds_turn;  /* not 0 where the round goes on before changes do */
    uint8_t table_first;  /* not 0 while the first table is still to come */
    uint8_t held;         /* not 0 while no table may be published, and nothing of a round */
} rignolda_publisher;

/* The body to publish next. */
typedef struct rignolda_next_body {
    uint64_t number;  /* its number */
    uint64_t entries; /* how many entries it has: the first changes that wait, or all settings */
    uint8_t kind;     /* 'C', 'T' or 'H', or 0 where nothing is to be published */
} rignolda_next_body;

/*
 * Makes a publisher whose bodies have the numbers after this one. It begins with a whole table,
 * unless it is held.
 */
void rignolda_publisher_init(rignolda_publisher *publisher, uint64_t number);

/*
 * A round with so many harmless bodies begins, 65,535 at most. One that is under way goes on
 * instead, with no more bodies than that.
 */
void rignolda_publisher_begin_round(rignolda_publisher *publisher, uint32_t harmless);

/*
 * Goes on above this number, which an agent has, with a whole table first, if it is newer than the
 * last one. Returns whether it is. Where it is ahead by more than a quarter of all numbers, it goes
 * on by a quarter, so that those who have the last number take that table, and is above it when it
 * is called again.
 */
bool rignolda_publisher_go_above(rignolda_publisher *publisher, uint64_t number);

bool rignolda_publisher_is_in_a_round(const rignolda_publisher *publisher);

/* While `holds` is not 0, no table is published, and nothing of a round. */
void rignolda_publisher_hold(rignolda_publisher *publisher, uint8_t holds);

/* Whether something is to be published, where this number of changes waits. */
bool rignolda_publisher_waits(const rignolda_publisher *publisher, uint64_t changes);

/*
 * Writes which body is next, where this number of changes waits, there are so many settings, and
 * so many bodies may follow a table.
 */
void rignolda_publisher_next(const rignolda_publisher *publisher, uint64_t changes,
                             uint64_t settings, uint64_t limit, rignolda_next_body *body);

/* Publishes that body, which has so many bytes. Returns its kind. */
uint8_t rignolda_publisher_publish(rignolda_publisher *publisher, uint64_t changes, uint64_t limit,
                                   uint64_t bytes);

/*
 * What waits beside a key to be applied; all 0 where nothing does. Its value is kept by the caller.
 */
typedef struct rignolda_waits {
    uint64_t first;   /* the number of the first change that waits for this one, */
    uint64_t last;    /* and its own */
    uint8_t is_there; /* not 0 where something waits */
} rignolda_waits;

/*
 * A change of the key comes. Returns whether its value takes the place of the one that waits, which
 * it does; its numbers are those of the body that it came with.
 */
bool rignolda_waits_on_change(rignolda_waits *waits, uint64_t first, uint64_t last);

/* A whole table leaves the key out. Returns whether it is to be unset: nothing waits beside it. */
bool rignolda_waits_on_left_out(rignolda_waits *waits, uint64_t first, uint64_t last);

/*
 * What goes over a connection, byte for byte, as the crate rignolda_wire defines it. What may come
 * has a byte: 'H' for a hello, 'W' for the way of a candidate, 'F' for what a parent says, 'A' for
 * what a child says; from version 5 on 'V' in place of 'W', and 'S' of 'F'. The laws are those of the module laws of that crate: what is spelled is read,
 * whatever follows it; what is read was spelled so; what is refused stays refused; while more has
 * to come there are few bytes; and what is written is read.
 */

/*
 * A message in front of some bytes. Its kind is 'H' for a hello, 'L' a look, 'W' a way, 'F' a
 * frame, 'D' a frame without its body, 'Q' the request of a whole report, 'A' an acknowledgement,
 * 'N' a frame that is lacking, 'R' a report, 'G' a goodbye; from version 5 on 'V' a way, 'S' a
 * frame, 'B' a frame without its body, 'E' a filler, which brings no item. Its texts are both names;
 * the names of a way, with a line feed between two; the body; the front of a body (9 bytes) and its
 * SHA-256; the report. They lie within the bytes. What a message of its kind does not have is 0.
 */
typedef struct rignolda_message {
    uint64_t life;        /* of a hello and of a look */
    uint64_t table;       /* of a way of 'V': the number of the last whole table */
    uint32_t item;        /* of a frame, with and without its body */
    uint32_t body_length; /* how long the body of a frame is that comes without it */
    uint16_t label;       /* the label, or what a way costs */
    uint8_t version;      /* of a hello and of a look */
    uint8_t kind;
    size_t first; /* where the first text begins */
    size_t first_length;
    size_t second; /* where the second one begins */
    size_t second_length;
    size_t signature; /* where the signature begins, of 'S' and 'B' */
    size_t signature_length;
    size_t end; /* where the next message begins */
} rignolda_message;

/*
 * Returns 0 if there is a message in front of these bytes that may come, after writing it; 1 if
 * more has to come; else the first of these faults that is met: 2 no hello, 3 a version that nobody
 * speaks, 4 no name, 5 no message that may come, 6 a body over 16 MiB, 7 a way over 8,320 bytes or
 * 128 names, 8 no name of a way, 9 a report over 1 MiB, 10 a signature over 1,024 bytes.
 */
uint8_t rignolda_message_read(uint8_t expect, const uint8_t *bytes, size_t length,
                              rignolda_message *message);

/*
 * Writes the message that says this, with these texts and this signature, wherever they lie:
 * all but the text at the end of a way, a frame or a report, which follows. Returns its end; or 0
 * where there is no room, the kind is none or a text is too long, and then it wrote nothing.
 */
size_t rignolda_message_write(uint8_t *buffer, size_t size, const rignolda_message *message,
                              const uint8_t *first, size_t first_length, const uint8_t *second,
                              size_t second_length, const uint8_t *signature,
                              size_t signature_length);

/*
 * Whether the head of a frame is in front, whatever length it says of its body, after writing its
 * label, its item and that length (as body_length).
 */
bool rignolda_frame_head(const uint8_t *bytes, size_t length, rignolda_message *message);

/*
 * Why the other end refuses this one, which expects this, if these are all the bytes that came
 * before it closed the connection: 0 it does not say, 1 it has another name, 2 no child and 3 no
 * parent may have this one's name, 4 it has an address of this one, 5 the certificate has another
 * name, 6 it is full, 7 a twin of this one connected; or 255 where it does not refuse it.
 */
uint8_t rignolda_refusal_read(uint8_t expect, const uint8_t *bytes, size_t length);

/*
 * Writes what an end is told that expects this and is refused for this reason: in the place of a
 * hello or of what a parent says why, and else nothing. Returns its end, or 0 where there is no
 * room, or nothing is told.
 */
size_t rignolda_refusal_write(uint8_t *buffer, size_t size, uint8_t expect, uint8_t why);

/* What says in the place of a label which versions an end speaks: both ends, a byte each. */
uint16_t rignolda_versions_range(uint8_t oldest, uint8_t newest);

/* The same of an end that says this version and label in a look, or as the parent that begins. */
uint16_t rignolda_versions_read(uint8_t version, uint16_t label);

/* Whether a hello, and no look, is in front of what a link in a store shows, after writing it. */
bool rignolda_word_read(const uint8_t *bytes, size_t length, rignolda_message *message);

/* Whether the bytes behind it say how often a child has set its report, after writing that. */
bool rignolda_word_reports(const uint8_t *bytes, size_t length, uint32_t *count);

/* Writes a child's hello and that count. Returns its end, or 0 as rignolda_message_write does. */
size_t rignolda_word_write(uint8_t *buffer, size_t size, const rignolda_message *hello,
                           const uint8_t *from, size_t from_length, const uint8_t *to,
                           size_t to_length, uint32_t reports);

/* Whether these bytes may be the name of an agent. */
bool rignolda_is_name(const uint8_t *bytes, size_t length);

#ifdef __cplusplus
}
#endif

#endif
