/* Memory to lend to a call: it stands between two stretches that nobody may touch, so that one byte too far is a fault at once. */
#ifndef LEND_H
#define LEND_H

#include <stdint.h>
#include <stdio.h>
#include <stdlib.h>
#include <string.h>
#include <sys/mman.h>

enum {
    ROOM = 65536, /* a multiple of every usual page: the room, and each forbidden stretch beside it */
    SLOTS = 8,    /* no call is lent more */
    EDGE = 64,    /* bytes of the room beside a lending, which must stay as they are */
    FILL = 170    /* what stands there, and in memory that is lent to be written */
};

enum side { LOW, HIGH }; /* which forbidden stretch the lending touches: the one before it, or the one after */

static uint8_t *room_of[SLOTS];
static struct lending {
    uint8_t *at;
    size_t bytes;
    enum side side;
} lent[SLOTS];
static int lendings;

static void make_rooms(void) {
    for (int k = 0; k < SLOTS; k++) {
        uint8_t *all = mmap(NULL, 4 * (size_t)ROOM, PROT_NONE, MAP_PRIVATE | MAP_ANONYMOUS, -1, 0);
        if (all == MAP_FAILED) {
            perror("mmap");
            exit(2);
        }
        size_t past = (uintptr_t)all % ROOM;
        room_of[k] = all + ROOM + (past == 0 ? 0 : ROOM - past);
        if (mprotect(room_of[k], ROOM, PROT_READ | PROT_WRITE) != 0) {
            perror("mprotect");
            exit(2);
        }
    }
}

/* Takes all lendings back. */
static void take_back(void) { lendings = 0; }

/* Lends a copy of some bytes, or where from is NULL as many bytes FILL. */
static void *lend(const void *from, size_t bytes, enum side side) {
    if (lendings == SLOTS || bytes + EDGE > ROOM) {
        fprintf(stderr, "lend.h: %zu bytes in slot %d are too much\n", bytes, lendings);
        exit(2);
    }
    uint8_t *room = room_of[lendings], *at = side == LOW ? room : room + ROOM - bytes;
    memset(side == LOW ? at + bytes : at - EDGE, FILL, EDGE);
    if (from == NULL) {
        memset(at, FILL, bytes);
    } else if (bytes > 0) {
        memcpy(at, from, bytes);
    }
    lent[lendings++] = (struct lending){at, bytes, side};
    return at;
}

/* The same, but NULL for no bytes, as an empty vector of C++ has it. */
static void *lend_or_null(const void *from, size_t bytes, enum side side) { return bytes == 0 ? NULL : lend(from, bytes, side); }

/* Whether the bytes of the rooms beside all lendings are as they were. */
static int edges_kept(void) {
    for (int k = 0; k < lendings; k++) {
        const uint8_t *edge = lent[k].side == LOW ? lent[k].at + lent[k].bytes : lent[k].at - EDGE;
        for (int i = 0; i < EDGE; i++) {
            if (edge[i] != FILL) {
                return 0;
            }
        }
    }
    return 1;
}

#endif
