// testing.h: what the tests of jup.h share: how they count, and calls with texts.
#ifndef JUP_TESTING_H
#define JUP_TESTING_H

#include "jup.h"

#include <stdio.h>
#include <string.h>

static int passed, failed;

static inline void expect(int holds, const char *what) {
    if (holds) {
        passed++;
    } else {
        failed++;
        printf("failed: %s\n", what);
    }
}

// The last line of a test, and its exit status.
static inline int report(void) {
    printf("%d passed, %d failed\n", passed, failed);
    return failed > 0;
}

static inline uint32_t feed(jup_client *client, const char *text) {
    return jup_feed(client, (const uint8_t *)text, strlen(text));
}

// Whether just these bytes wait. They are taken.
static inline int says(jup_client *client, const char *due) {
    uint8_t bytes[512];
    size_t waiting = jup_waiting(client), count = jup_take(client, bytes, sizeof bytes);
    return waiting == strlen(due) && count == waiting && memcmp(bytes, due, count) == 0;
}

// Whether a line of a user is done, and tells just this.
static inline int answers(jup_client *client, const char *line, const char *due) {
    uint8_t text[256];
    size_t told = 99;
    uint32_t fault = jup_ask(client, (const uint8_t *)line, strlen(line), text, sizeof text, &told);
    return fault == JUP_OK && told == strlen(due) && memcmp(text, due, told) == 0;
}

// Whether the oldest change is this one, and nothing is written past it. The fields that its kind does not use are 0.
static inline int tells(jup_client *client, const jup_change *due) {
    struct { jup_change change; uint8_t guard[16]; } out;
    memset(&out, 0xAA, sizeof out);
    int is_told = jup_next_change(client, &out.change) == 1;
    for (size_t k = 0; k < sizeof out.guard; k++) is_told = is_told && out.guard[k] == 0xAA;
    const jup_change *it = &out.change;
    return is_told && it->kind == due->kind && it->win == due->win && it->wid == due->wid && it->place == due->place && it->site == due->site
        && it->number == due->number && it->value == due->value && it->label_len == due->label_len && memcmp(it->label, due->label, due->label_len) == 0;
}

static inline int tells_nothing(jup_client *client) {
    jup_change change;
    return jup_next_change(client, &change) == 0;
}

// Whether the session is open, with this number of its site, and so many edits that are not acknowledged.
static inline int is_site(jup_client *client, uint32_t number, uint32_t backlog) {
    uint32_t found = 0, count = 99;
    return jup_site(client, &found, &count) == JUP_OK && found == number && count == backlog;
}

// Whether the session is over by this fault.
static inline int is_over(jup_client *client, uint32_t fault) {
    uint32_t found = 0;
    return jup_stage(client, &found) == JUP_OVER && found == fault;
}

#endif
