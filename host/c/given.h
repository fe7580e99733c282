/*
 * What the programs here share: a file as a text, and room to lend.
 */
#ifndef WAGONTULIP_GIVEN_H
#define WAGONTULIP_GIVEN_H

#include "wagontulip.h"

#include <inttypes.h>
#include <stdio.h>
#include <stdlib.h>

enum { COULD_NOT_RUN = 3 };

struct text {
    uint8_t *bytes;
    size_t length;
};

/* A file, whole, or one byte more than a text may have: that is refused for its length, whatever follows. */
static struct text read_text(const char *name, uint64_t most) {
    struct text text = {malloc(most + 1), 0};
    FILE *file = fopen(name, "rb");
    if (text.bytes == NULL || file == NULL) {
        perror(name);
        exit(COULD_NOT_RUN);
    }
    text.length = fread(text.bytes, 1, most + 1, file);
    if (ferror(file)) {
        perror(name);
        exit(COULD_NOT_RUN);
    }
    fclose(file);
    return text;
}

/* Room for so many 32-bit numbers, at least one. */
static void *lend(uint64_t numbers) {
    void *room = calloc(numbers == 0 ? 1 : numbers, sizeof(uint32_t));
    if (room == NULL) {
        perror("room");
        exit(COULD_NOT_RUN);
    }
    return room;
}

/* The label and the answer's numbers. */
static void print_answer(const uint64_t *answer) {
    puts("no violation shown is not no violation");
    for (int place = 0; place < WAGONTULIP_NUMBERS; place++) {
        printf("%" PRIu64 "%c", answer[place], place + 1 < WAGONTULIP_NUMBERS ? ' ' : '\n');
    }
}

#endif
