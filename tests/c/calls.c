/* Makes calls through include/amg.h and prints a line for each. Standard input has the records of docs/CALLS.md, with one letter
 * more: Z, a report into a buffer of length 0. A line has the call's name, the word's number, place and count, and after `memory`
 * all that was lent to be written (and a wait's marking), as it is afterwards; 170*384 stands for 384 times 170.
 *
 * Each call is made twice: lent memory that ends at forbidden pages and NULL where a length is 0, then lent memory that begins at
 * them and never NULL. Where the two replies differ, or a byte beside what was lent is changed, the line says so. */
#include <stddef.h>
#include <stdint.h>
#include <stdio.h>
#include <stdlib.h>
#include <string.h>

#include "amg.h"
#include "lend.h"

struct record {
    uint8_t letter;
    const uint8_t *file, *list, *marking; /* list: two bytes an entry, lowest first */
    size_t length, entries, places;
};

/* A line as it grows. */
struct line {
    char text[65536];
    size_t fill;
    uint64_t value; /* the last number, and how often it stood, not yet written */
    size_t times;
};

static uint8_t input[1 << 20];
static struct line first, second;

static void flush(struct line *l) {
    const char *form = l->times > 1 ? " %lu*%lu" : " %lu";
    if (l->times > 0) {
        l->fill += (size_t)snprintf(l->text + l->fill, sizeof l->text - l->fill, form, (unsigned long)l->value, (unsigned long)l->times);
    }
    if (l->fill >= sizeof l->text) {
        fprintf(stderr, "calls: a line is too long\n");
        exit(2);
    }
    l->times = 0;
}

static void number(struct line *l, uint64_t value) {
    if (l->times > 0 && l->value != value) {
        flush(l);
    }
    l->value = value;
    l->times++;
}

static void bytes(struct line *l, const uint8_t *at, size_t count) {
    for (size_t k = 0; k < count; k++) {
        number(l, at[k]);
    }
}

static void begin(struct line *l, const char *name, uint64_t word) {
    l->times = 0;
    l->fill = (size_t)snprintf(l->text, sizeof l->text, "%s %u %u %u%s memory", name, amg_number(word), amg_place(word), amg_count(word),
                               (word >> 24 & 0xffff) != 0 ? " middle bits" : "");
}

static unsigned two(const uint8_t *at) { return at[0] + 256u * at[1]; }

/* Makes the record's call with memory at this side. */
static void make(const struct record *r, enum side side, struct line *l) {
    void *(*give)(const void *, size_t, enum side) = side == HIGH ? lend_or_null : lend;
    take_back();
    const uint8_t *file = give(r->file, r->length, side);
    uint8_t *marking = give(r->marking, r->places, side);
    uint16_t *list = give(NULL, 2 * r->entries, side);
    for (size_t k = 0; k < r->entries; k++) {
        list[k] = (uint16_t)two(r->list + 2 * k);
    }
    uint16_t transition = r->entries == 0 ? 65535 : list[0];
    switch (r->letter) {
    case 'L': {
        uint32_t *counts = lend(NULL, 2 * sizeof *counts, side), *times = lend(NULL, AMG_OPERATIONS * sizeof *times, side);
        uint8_t *from = lend(NULL, AMG_EDGES, side), *to = lend(NULL, AMG_EDGES, side), *mark = lend(NULL, AMG_EDGES, side);
        begin(l, "look", amg_look(file, r->length, counts, times, from, to, mark));
        number(l, counts[0]);
        number(l, counts[1]);
        for (int i = 0; i < AMG_OPERATIONS; i++) {
            number(l, times[i]);
        }
        bytes(l, from, AMG_EDGES);
        bytes(l, to, AMG_EDGES);
        bytes(l, mark, AMG_EDGES);
        break;
    }
    case 'S':
        begin(l, "start", amg_start(file, r->length, marking, r->places));
        bytes(l, marking, r->places);
        break;
    case 'T':
        begin(l, "step", amg_step(file, r->length, marking, r->places, transition));
        bytes(l, marking, r->places);
        break;
    case 'R':
        begin(l, "run", amg_run(file, r->length, marking, r->places, list, r->entries));
        bytes(l, marking, r->places);
        break;
    case 'W':
        begin(l, "wait", amg_wait(file, r->length, marking, r->places, transition));
        bytes(l, marking, r->places);
        break;
    case 'B': {
        uint64_t *values = lend(NULL, 5 * sizeof *values, side);
        begin(l, "bounds", amg_bounds(file, r->length, list, r->entries, values));
        for (int k = 0; k < 5; k++) {
            number(l, values[k]);
        }
        for (size_t k = 0; k < r->entries; k++) {
            number(l, list[k]);
        }
        break;
    }
    default: {
        size_t room = r->letter == 'Z' ? 0 : r->places >= 1 && r->places < AMG_REPORT ? r->places : AMG_REPORT;
        uint8_t *buffer = give(NULL, room, side);
        begin(l, "report", amg_report(file, r->length, buffer, room));
        bytes(l, buffer, room);
    }
    }
    flush(l);
    if (r->length > 0 && memcmp(file, r->file, r->length) != 0) {
        l->fill += (size_t)snprintf(l->text + l->fill, sizeof l->text - l->fill, " the file is changed");
    }
    if (!edges_kept()) {
        l->fill += (size_t)snprintf(l->text + l->fill, sizeof l->text - l->fill, " bytes beside are changed");
    }
}

/* Takes a part of the next record: two bytes with its length, then so many units; NULL where the input ends before. */
static const uint8_t *part(const uint8_t **at, size_t *left, size_t unit, size_t *count) {
    if (*left < 2) {
        return NULL;
    }
    *count = two(*at);
    *at += 2;
    *left -= 2;
    if (*left < unit * *count) {
        return NULL;
    }
    const uint8_t *found = *at;
    *at += unit * *count;
    *left -= unit * *count;
    return found;
}

int main(void) {
    make_rooms();
    size_t left = fread(input, 1, sizeof input, stdin);
    const uint8_t *at = input;
    while (left > 0) {
        struct record r = {.letter = *at++};
        left--;
        r.file = part(&at, &left, 1, &r.length);
        r.list = r.file == NULL ? NULL : part(&at, &left, 2, &r.entries);
        r.marking = r.list == NULL ? NULL : part(&at, &left, 1, &r.places);
        int known = 0;
        for (const char *k = "LSTRWBPZ"; *k != 0; k++) {
            known |= r.letter == (uint8_t)*k;
        }
        if (r.marking == NULL || !known) {
            printf("cut\n");
            return 1;
        }
        make(&r, HIGH, &first);
        make(&r, LOW, &second);
        printf("%s\n", first.text);
        if (strcmp(first.text, second.text) != 0) {
            printf("differs %s\n", second.text);
        }
    }
    return 0;
}
