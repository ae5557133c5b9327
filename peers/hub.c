/* A hub that answers calls, one a line, each with a line of JSON, so that whatever can start a program drives the
 * library. A call is a name and words: bytes in hexadecimal, or no word for none; numbers; ids with commas between. */
#define _POSIX_C_SOURCE 200809L

#include <inttypes.h>
#include <stdio.h>
#include <stdlib.h>
#include <string.h>

#include "presence_hub.h"

#define ROOM 20000

static presence_hub_memory memory;
static presence_hub hub = PRESENCE_HUB_AT(&memory);
static uint8_t out[ROOM];
static uint64_t lists[4][PRESENCE_HUB_PLACES];

typedef struct slice {
    uint8_t *at;
    size_t length;
} slice;

/* The next word of the line as a number, 0 where there is none. */
static uint64_t next_number(void) {
    const char *word = strtok(NULL, " ");
    return word == NULL ? 0 : strtoull(word, NULL, 10);
}

/* The next word of the line as bytes, which take the place of their digits. */
static slice next_bytes(void) {
    char *word = strtok(NULL, " ");
    if (word == NULL) return (slice){out, 0};
    slice bytes = {(uint8_t *)word, strlen(word) / 2};
    for (size_t i = 0; i < bytes.length; i++) {
        const char digits[3] = {word[2 * i], word[2 * i + 1], 0};
        bytes.at[i] = (uint8_t)strtoul(digits, NULL, 16);
    }
    return bytes;
}

static void tell_bytes(const uint8_t *bytes, size_t length) {
    printf(",\"bytes\":\"");
    for (size_t i = 0; i < length; i++) printf("%02x", bytes[i]);
    printf("\"");
}

static void tell_list(const char *name, const uint64_t *clients, size_t count) {
    printf(",\"%s\":[", name);
    for (size_t i = 0; i < count; i++) printf("%s%" PRIu64, i == 0 ? "" : ",", clients[i]);
    printf("]");
}

/* Tells the refusal, or that there is none, and the bytes that were written. */
static void tell_written(uint8_t fault, size_t length) {
    printf("\"fault\":%u", fault);
    tell_bytes(out, length);
}

static void new(void) {
    uint64_t own = next_number();
    printf("\"fault\":%u", presence_hub_new(&hub, own, next_number()));
}

static void set_clock(void) {
    printf("\"fault\":%u", presence_hub_set_clock(&hub, next_number()));
}

static void handle(void) {
    slice bytes = next_bytes();
    presence_hub_handled told = {0};
    uint8_t fault = presence_hub_handle(&hub, bytes.at, bytes.length, out, ROOM, &told);
    tell_written(fault, told.replies);
    printf(",\"messages\":%zu,\"place\":%zu,\"wire\":%u", told.messages, told.place, told.wire);
}

static void apply(void) {
    slice update = next_bytes();
    presence_hub_changes told = {0};
    uint8_t fault = presence_hub_apply(&hub, update.at, update.length, lists[0], PRESENCE_HUB_PLACES, lists[1],
                                       PRESENCE_HUB_PLACES, lists[2], PRESENCE_HUB_PLACES, lists[3],
                                       PRESENCE_HUB_PLACES, &told);
    printf("\"fault\":%u", fault);
    tell_list("added", lists[0], told.added);
    tell_list("updated", lists[1], told.updated);
    tell_list("changed", lists[2], told.changed);
    tell_list("removed", lists[3], told.removed);
}

static void set(void) {
    slice text = next_bytes();
    printf("\"fault\":%u", presence_hub_set(&hub, text.at, text.length));
}

static void clean(void) {
    printf("\"fault\":%u", presence_hub_clean(&hub));
}

static void remove_client(void) {
    printf("\"fault\":%u", presence_hub_remove(&hub, next_number()));
}

static void step1(void) {
    size_t length = 0;
    uint8_t fault = presence_hub_step1(&hub, out, ROOM, &length);
    tell_written(fault, length);
}

static void start(void) {
    size_t length = 0;
    uint8_t fault = presence_hub_start(&hub, out, ROOM, &length);
    tell_written(fault, length);
}

static void show(void) {
    presence_hub_record told = {0};
    uint8_t fault = presence_hub_show(&hub, next_number(), out, ROOM, &told);
    tell_written(fault, told.text);
    printf(",\"held\":%s,\"live\":%s", told.held ? "true" : "false", told.live ? "true" : "false");
    printf(",\"clock\":%" PRIu32 ",\"time\":%" PRIu64, told.clock, told.time);
}

static void list(void) {
    static uint64_t clients[PRESENCE_HUB_PLACES + 1];
    size_t count = 0, length = 0;
    for (const char *word; count <= PRESENCE_HUB_PLACES && (word = strtok(NULL, ", ")) != NULL; count++) {
        clients[count] = strtoull(word, NULL, 10);
    }
    uint8_t fault = presence_hub_list(&hub, clients, count, out, ROOM, &length);
    tell_written(fault, length);
}

static const struct {
    const char *name;
    void (*answer)(void);
} calls[] = {
    {"new", new},     {"clock", set_clock}, {"handle", handle}, {"apply", apply}, {"set", set},   {"clean", clean},
    {"remove", remove_client}, {"step1", step1}, {"start", start},   {"show", show},   {"list", list},
};

/* Answers the call that a line is. */
static void answer(char *line) {
    const char *name = strtok(line, " ");
    for (size_t i = 0; name != NULL && i < sizeof calls / sizeof *calls; i++) {
        if (strcmp(name, calls[i].name) != 0) continue;
        printf("{");
        calls[i].answer();
        printf("}\n");
        return;
    }
    printf("{\"error\":\"no such call\"}\n");
}

int main(void) {
    char *line = NULL;
    size_t room = 0;
    for (ssize_t length; (length = getline(&line, &room, stdin)) >= 0; fflush(stdout)) {
        if (length > 0 && line[length - 1] == '\n') line[length - 1] = 0;
        answer(line);
    }
    free(line);
    return ferror(stdin) != 0;
}
