/* Two hubs talk: each starts, answers the other and takes the answer; then one is shown, listed, applied and refused. */
#include <inttypes.h>
#include <stdio.h>
#include <string.h>

#include "presence_hub.h"

#define ROOM 4096

static presence_hub_memory memory[2];
static presence_hub hubs[2] = {PRESENCE_HUB_AT(&memory[0]), PRESENCE_HUB_AT(&memory[1])};

static void print_bytes(const char *what, const uint8_t *bytes, size_t length) {
    printf("%s ", what);
    for (size_t i = 0; i < length; i++) printf("%02x", bytes[i]);
    printf("%s\n", length == 0 ? "-" : "");
}

static void print_list(const char *what, const uint64_t *clients, size_t count) {
    printf("%s", what);
    for (size_t i = 0; i < count; i++) printf(" %" PRIu64, clients[i]);
    printf("\n");
}

/* Hands bytes to a hub, prints how far it came, and leaves its replies. */
static size_t handle(presence_hub *hub, const uint8_t *bytes, size_t length, uint8_t *replies) {
    presence_hub_handled told = {0};
    uint8_t fault = presence_hub_handle(hub, bytes, length, replies, ROOM, &told);
    printf("fault %u wire %u messages %zu place %zu\n", fault, told.wire, told.messages, told.place);
    print_bytes("replies", replies, told.replies);
    return told.replies;
}

static void show(presence_hub *hub, uint64_t client) {
    uint8_t text[PRESENCE_HUB_TEXT];
    presence_hub_record told = {0};
    printf("fault %u ", presence_hub_show(hub, client, text, sizeof text, &told));
    if (!told.held) printf("nothing\n");
    else if (!told.live) printf("null at %" PRIu32 ", time %" PRIu64 "\n", told.clock, told.time);
    else printf("%.*s at %" PRIu32 ", time %" PRIu64 "\n", (int)told.text, text, told.clock, told.time);
}

int main(void) {
    static uint8_t sent[ROOM], replies[ROOM];
    static uint64_t lists[4][PRESENCE_HUB_PLACES];
    presence_hub nowhere = {memory, PRESENCE_HUB_SIZE - 1, false};
    size_t length = 0;
    printf("size as declared %d\n", presence_hub_size() == PRESENCE_HUB_SIZE);
    printf("faults %u %u", presence_hub_new(&nowhere, 1, 0), presence_hub_clean(&nowhere));
    printf(" %u", presence_hub_new(&hubs[0], UINT64_C(1) << 53, 0));
    printf(" %u %u\n", presence_hub_new(&hubs[0], 1, 1000), presence_hub_new(&hubs[1], 2, 2000));
    printf("fault %u\n", presence_hub_set(&hubs[0], (const uint8_t *)"\"in a hall\"", 11));
    handle(&hubs[0], (const uint8_t *)"\x00\x02\x03\x01\x05\x02", 6, replies);
    handle(&hubs[1], (const uint8_t *)"\x00\x02\x03\x01\x07\x09", 6, replies);
    for (int from = 0; from < 2; from++) {
        printf("fault %u\n", presence_hub_start(&hubs[from], sent, ROOM, &length));
        print_bytes("start", sent, length);
        length = handle(&hubs[1 - from], sent, length, replies);
        memcpy(sent, replies, length);
        handle(&hubs[from], sent, length, replies);
    }
    presence_hub_step1(&hubs[1], sent, ROOM, &length);
    print_bytes("step1", sent, length);
    show(&hubs[1], 1);
    printf("faults %u %u\n", presence_hub_set_clock(&hubs[1], 2500), presence_hub_set(&hubs[0], (const uint8_t *)"\"out\"", 5));
    printf("fault %u\n", presence_hub_list(&hubs[0], (const uint64_t[]){1}, 1, sent, ROOM, &length));
    presence_hub_changes told = {0};
    printf("fault %u\n", presence_hub_apply(&hubs[1], sent, length, lists[0], 64, lists[1], 64, lists[2], 64, lists[3], 64, &told));
    print_list("added", lists[0], told.added);
    print_list("updated", lists[1], told.updated);
    print_list("changed", lists[2], told.changed);
    print_list("removed", lists[3], told.removed);
    show(&hubs[1], 1);
    printf("faults %u %u\n", presence_hub_clean(&hubs[1]), presence_hub_remove(&hubs[1], 1));
    show(&hubs[1], 1);
    handle(&hubs[1], (const uint8_t *)"\x03\x00\x02\x02\x01\x05\x03", 7, replies);
    printf("fault %u\n", presence_hub_list(&hubs[1], (const uint64_t[]){9}, 1, sent, ROOM, &length));
    return 0;
}
