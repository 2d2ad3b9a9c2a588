/* fuzz ROUNDS SEED FILE...: each round damages one of the files, or leaves it, and makes every call on it with all that is lent
 * between forbidden pages. A call must answer a word that its contract can have, and a refusal must leave what was lent as it was.
 * Round r is made of the seed plus r alone, so `fuzz 1 SEED+r` repeats it. */
#include <signal.h>
#include <stdint.h>
#include <stdio.h>
#include <stdlib.h>
#include <string.h>

#include "amg.h"
#include "lend.h"

enum { FILES = 64, LONGEST = 4200, ENTRIES = 300, NUMBERS = 15 };

static struct {
    uint8_t bytes[AMG_LENGTH];
    size_t length;
} files[FILES];
static int file_count;

static uint64_t dice;
static volatile unsigned long at_round, seed;
static unsigned long seen[NUMBERS], calls;

static size_t roll(size_t n) {
    dice ^= dice << 13;
    dice ^= dice >> 7;
    dice ^= dice << 17;
    return (size_t)(dice >> 11) % n;
}

static void fail(const char *what) {
    fprintf(stderr, "fuzz: %s; `tests/c/fuzz 1 %lu` repeats it\n", what, seed + at_round);
    exit(1);
}

static void fault(int signal_number) {
    fprintf(stderr, "fuzz: a fault; `tests/c/fuzz 1 %lu` repeats it\n", seed + at_round);
    fflush(stderr);
    signal(signal_number, SIG_DFL); /* the same instruction faults again, and ends the program */
}

/* A file with some damage: bytes changed, cut, lengthened, two bytes exchanged, or none. */
static size_t damage(uint8_t *file) {
    int k = (int)roll((size_t)file_count);
    size_t length = files[k].length;
    memcpy(file, files[k].bytes, length);
    for (size_t many = roll(2) == 0 ? roll(4) : 0; many > 0; many--) {
        file[roll(length)] = (uint8_t)(roll(3) == 0 ? roll(256) : roll(4));
    }
    if (roll(8) == 0) {
        file[length - 1 - roll(16)] = (uint8_t)roll(256);
    }
    switch (roll(16)) {
    case 0:
        return roll(length + 1);
    case 1: {
        size_t more = roll(LONGEST - length);
        memset(file + length, (int)roll(256), more);
        return length + more;
    }
    case 2: {
        size_t a = roll(length), b = roll(length);
        uint8_t kept = file[a];
        file[a] = file[b];
        file[b] = kept;
        return length;
    }
    case 3: { /* the trailer moved to the end of another length */
        size_t other = 16 + roll(AMG_LENGTH - 15);
        uint8_t trailer[16];
        memcpy(trailer, file + length - 16, 16);
        for (size_t k2 = length; k2 < other; k2++) {
            file[k2] = (uint8_t)roll(256);
        }
        memcpy(file + other - 16, trailer, 16);
        return other;
    }
    default:
        return length;
    }
}

/* Counts a reply, and holds its word to what the call can answer. */
static unsigned took(uint64_t word, unsigned most, unsigned beside) {
    unsigned number = amg_number(word);
    calls++;
    if (number >= NUMBERS || (number > most && number != beside) || (word >> 24 & 0xffff) != 0 || (number == 0 && amg_place(word) != 0)) {
        fail("a word that the call cannot answer");
    }
    if (!edges_kept()) {
        fail("a byte beside what was lent is changed");
    }
    seen[number]++;
    return number;
}

static void same(const void *now, const void *before, size_t bytes) {
    if (bytes > 0 && memcmp(now, before, bytes) != 0) {
        fail("a refusal that writes, or a lent input that is changed");
    }
}

static int filled(const void *at, size_t bytes) {
    for (size_t k = 0; k < bytes; k++) {
        if (((const uint8_t *)at)[k] != FILL) {
            return 0;
        }
    }
    return 1;
}

static enum side side;

static void *give(const void *from, size_t bytes) { return (roll(2) == 0 ? lend : lend_or_null)(from, bytes, side); }

static void round_of_calls(void) {
    static uint8_t file[LONGEST], marking[ENTRIES * 2], before[ENTRIES * 2];
    static uint16_t list[ENTRIES];
    side = roll(2) == 0 ? LOW : HIGH;
    size_t length = damage(file);

    take_back();
    const uint8_t *lent_file = give(file, length);
    uint32_t *counts = lend(NULL, 8, side), *times = lend(NULL, AMG_OPERATIONS * 4, side);
    uint8_t *from = lend(NULL, AMG_EDGES, side), *to = lend(NULL, AMG_EDGES, side), *mark = lend(NULL, AMG_EDGES, side);
    unsigned number = took(amg_look(lent_file, length, counts, times, from, to, mark), 9, 0);
    size_t n = 3, e = 4;
    if (number == 0) {
        n = counts[0];
        e = counts[1];
        if (n < 1 || n > AMG_OPERATIONS || e < 2 || e > AMG_EDGES) {
            fail("N or E outside its limits");
        }
    } else if (!filled(counts, 8) || !filled(times, AMG_OPERATIONS * 4) || !filled(from, AMG_EDGES) || !filled(to, AMG_EDGES) || !filled(mark, AMG_EDGES)) {
        fail("a refused look that writes");
    }
    same(lent_file, file, lent_file == NULL ? 0 : length);

    /* a marking of the right length, mostly; the start, then what a list of random transitions makes of it */
    size_t places = 3 * n + 2 * e;
    if (roll(8) == 0) {
        places = roll(sizeof marking + 1);
    }
    for (size_t k = 0; k < places; k++) {
        before[k] = (uint8_t)(roll(16) == 0 ? roll(256) : roll(2));
    }
    take_back();
    lent_file = give(file, length);
    uint8_t *lent_marking = give(before, places);
    if (took(amg_start(lent_file, length, lent_marking, places), 10, 0) != 0) {
        same(lent_marking, before, lent_marking == NULL ? 0 : places);
    }
    if (lent_marking != NULL) {
        memcpy(marking, lent_marking, places);
    }
    if (places > 0 && roll(6) == 0) {
        marking[roll(places)] ^= 1;
    }

    for (int again = 0; again < 3; again++) {
        size_t entries = roll(ENTRIES + 1);
        for (size_t k = 0; k < entries; k++) {
            list[k] = (uint16_t)(roll(40) == 0 ? roll(65536) : k < 3 * n + 2 ? k : roll(3 * n + 2));
        }
        memcpy(before, marking, sizeof before);
        take_back();
        lent_file = give(file, length);
        lent_marking = give(marking, places);
        const uint16_t *lent_list = give(list, entries * 2);
        uint64_t word = amg_run(lent_file, length, lent_marking, places, lent_list, entries);
        number = took(word, 13, 0);
        if (amg_count(word) > entries || (number == 0 && amg_count(word) != entries)) {
            fail("a count of firings that cannot be");
        }
        if (number >= 1 && number <= 11) {
            same(lent_marking, before, lent_marking == NULL ? 0 : places);
        }
        if (lent_marking != NULL) {
            memcpy(marking, lent_marking, places);
        }
        uint16_t transition = (uint16_t)(roll(20) == 0 ? roll(65536) : roll(3 * n + 3));
        memcpy(before, marking, sizeof before);
        take_back();
        lent_file = give(file, length);
        lent_marking = give(marking, places);
        took(amg_wait(lent_file, length, lent_marking, places, transition), 12, 0);
        same(lent_marking, before, lent_marking == NULL ? 0 : places);
        if (took(amg_step(lent_file, length, lent_marking, places, transition), 13, 0) != 0) {
            same(lent_marking, before, lent_marking == NULL ? 0 : places);
        }
        if (lent_marking != NULL) {
            memcpy(marking, lent_marking, places);
        }
    }

    size_t entries = roll(4) == 0 ? roll(130) : 3 * n + 2;
    take_back();
    lent_file = give(file, length);
    uint16_t *circuit = give(NULL, entries * 2);
    uint64_t *values = lend(NULL, 40, side);
    uint64_t word = amg_bounds(lent_file, length, circuit, entries, values);
    if (took(word, 9, 14) != 0 && (!filled(values, 40) || (circuit != NULL && !filled(circuit, entries * 2)))) {
        fail("refused bounds that write");
    }
    if (amg_count(word) > entries) {
        fail("a circuit longer than its buffer");
    }

    size_t room = roll(4) == 0 ? roll(5000) : AMG_REPORT;
    take_back();
    lent_file = give(file, length);
    uint8_t *text = give(NULL, room);
    word = amg_report(lent_file, length, text, room);
    took(word, 9, 14);
    if (amg_count(word) > room || (text != NULL && !filled(text + amg_count(word), room - amg_count(word)))) {
        fail("a report that writes past its text");
    }
}

int main(int argc, char **argv) {
    if (argc < 4) {
        fprintf(stderr, "usage: %s ROUNDS SEED FILE...\n", argv[0]);
        return 2;
    }
    unsigned long rounds = strtoul(argv[1], NULL, 10);
    seed = strtoul(argv[2], NULL, 10);
    for (int k = 3; k < argc && file_count < FILES; k++) {
        FILE *in = fopen(argv[k], "rb");
        if (in == NULL) {
            perror(argv[k]);
            return 2;
        }
        files[file_count].length = fread(files[file_count].bytes, 1, AMG_LENGTH, in);
        fclose(in);
        file_count++;
    }
    make_rooms();
    signal(SIGSEGV, fault);
    for (unsigned long r = 0; r < rounds; r++) {
        at_round = r;
        dice = (seed + r + 1) * 0x9e3779b97f4a7c15u;
        roll(2);
        round_of_calls();
    }
    printf("%lu damaged files, %lu calls, no fault; done %lu; refused by 1 to 14:", rounds, calls, seen[0]);
    for (int k = 1; k < NUMBERS; k++) {
        printf(" %lu", seen[k]);
    }
    printf("\n");
    return 0;
}
