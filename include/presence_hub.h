/* The hub that ships, for C. It lives in memory that the caller provides, and no call allocates.
 *
 * A call answers with a number: 0 where it is done, and else the number of the refusal, from 1 to 14 (docs/RULES.md).
 * Bytes, ids and lists come as a pointer and a length. No pointer is NULL, also where the length is 0, except for `memory`,
 * which may be NULL where `size` is 0. A refused call changes nothing but what a handle did before the message that it
 * refuses, and leaves `told` and `length` as they were, except for a handle's. A call where no hub was made is refused with 14.
 *
 * What the caller owes: `memory` is aligned to 8 bytes, has `size` bytes, and is written by nobody else once a hub was made
 * there; the fields of a presence_hub are set once, as PRESENCE_HUB_AT does, and left to the library from then on; one call
 * at a time is made on a hub. */
#ifndef PRESENCE_HUB_H
#define PRESENCE_HUB_H

#include <stdbool.h>
#include <stddef.h>
#include <stdint.h>

/* How many bytes a hub takes; presence_hub_size answers the same. */
#define PRESENCE_HUB_SIZE 20016

/* Memory for one hub. */
typedef union presence_hub_memory {
    uint64_t aligned;
    unsigned char bytes[PRESENCE_HUB_SIZE];
} presence_hub_memory;

/* A hub: where it lies, how many bytes are there, and whether one was made there. */
typedef struct presence_hub {
    void *memory;
    size_t size;
    bool made;
} presence_hub;

/* A hub that is yet to be made, in this memory. */
#define PRESENCE_HUB_AT(m) { (m), sizeof *(m), false }

/* How far a handle came. Done: the messages done, the first byte that is not done, and the length of the joined replies.
 * Refused: the message that is refused, counted from 0, its first byte, and the length of the replies before it; `wire` is
 * the number that reading met in an update that is refused with 12, and otherwise 0. */
typedef struct presence_hub_handled {
    size_t messages;
    size_t place;
    size_t replies;
    uint8_t wire;
} presence_hub_handled;

/* How many clients each of the four lists of an apply has. */
typedef struct presence_hub_changes {
    size_t added;
    size_t updated;
    size_t changed;
    size_t removed;
} presence_hub_changes;

/* What is held of a client: nothing; or at a clock, and changed last at a time, null or a live text of a length. */
typedef struct presence_hub_record {
    uint64_t time;
    uint32_t clock;
    bool held;
    bool live;
    size_t text;
} presence_hub_record;

/* The most bytes of a text, and the places that each list of an apply needs. */
#define PRESENCE_HUB_TEXT 256
#define PRESENCE_HUB_PLACES 64

size_t presence_hub_size(void);

/* Makes a fresh hub of the client `own`, its clock at `reading`; one that is there already gives way to it. Refused with 4
 * for an id of 2^53 or more, and with 14 where the memory is smaller than a hub; then a hub that is there stays. */
uint8_t presence_hub_new(presence_hub *hub, uint64_t own, uint64_t reading);

/* Puts in the next reading of the clock, in milliseconds. */
uint8_t presence_hub_set_clock(presence_hub *hub, uint64_t reading);

/* Handles messages, up to the end of the bytes, one that is cut short or one that is refused. */
uint8_t presence_hub_handle(presence_hub *hub, const uint8_t *bytes, size_t bytes_length, uint8_t *replies,
                            size_t replies_room, presence_hub_handled *told);

/* Takes a presence update, and lists the clients by what it did to them; each list needs 64 places. */
uint8_t presence_hub_apply(presence_hub *hub, const uint8_t *update, size_t update_length, uint64_t *added,
                           size_t added_places, uint64_t *updated, size_t updated_places, uint64_t *changed,
                           size_t changed_places, uint64_t *removed, size_t removed_places, presence_hub_changes *told);

/* Sets the text of the own client, which is null where it spells null. */
uint8_t presence_hub_set(presence_hub *hub, const uint8_t *text, size_t text_length);

/* Makes the own client null, or any client. */
uint8_t presence_hub_clean(presence_hub *hub);
uint8_t presence_hub_remove(presence_hub *hub, uint64_t client);

/* Writes what is sent to ask for what is missing, or what is sent first, to the front of a buffer. */
uint8_t presence_hub_step1(presence_hub *hub, uint8_t *out, size_t room, size_t *length);
uint8_t presence_hub_start(presence_hub *hub, uint8_t *out, size_t room, size_t *length);

/* Tells what is held of a client, with its text at the front of a buffer. */
uint8_t presence_hub_show(presence_hub *hub, uint64_t client, uint8_t *text, size_t room, presence_hub_record *told);

/* Writes the presence update of the clients given, ascending, each once, to the front of a buffer. */
uint8_t presence_hub_list(presence_hub *hub, const uint64_t *clients, size_t count, uint8_t *out, size_t room,
                          size_t *length);

#endif
