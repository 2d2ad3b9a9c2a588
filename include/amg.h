/* The calls on a graph file, for C. Link target/staticlib/libamg.a, which `include/archive` proves and writes (x86-64 Linux).
 *
 * Every call takes any bytes and any numbers: there is nothing to test before it. A refusal writes nothing, but for a run
 * stopped by 12 or 13, which keeps its firings, and a report refused by 1 to 9, which writes its one line. What is lent is
 * held only for the call's duration. The caller owes what C cannot say: a pointer reaches as many entries as are named, and
 * nothing that a call may write overlaps anything else lent to it. Where a length is 0 its pointer may be NULL, as an empty
 * vector of C++ has it; the arrays of a fixed length (look's five, the five values of bounds) are never NULL.
 *
 * The archive allocates nothing, keeps nothing between calls, and needs two functions of the C library: memcpy and memset.
 *
 * Each call answers one word:
 *   bits  0 to  7   the refusal's number, 0 where the call is done
 *   bits  8 to 23   the refusal's place
 *   bits 24 to 39   0
 *   bits 40 to 63   the count: firings, wait, circuit length or bytes, else 0 (a refusal has 0, but for a run stopped by
 *                   12 or 13 and a report's one line); 16,777,215 stands for itself and all above
 */
#ifndef AMG_H
#define AMG_H

#include <stddef.h>
#include <stdint.h>

#ifdef __cplusplus
extern "C" {
#endif

enum {
    AMG_OPERATIONS = 40,   /* the most operations that a graph has */
    AMG_EDGES = 128,       /* the most edges */
    AMG_TRANSITIONS = 122, /* the most transitions, 3N+2: room for any circuit */
    AMG_PLACES = 376,      /* the most places, 3N+2E: room for any marking */
    AMG_LENGTH = 2048,     /* the longest file */
    AMG_REPORT = 4096      /* room for any report */
};

/* The refusals' numbers, and what a refusal's place counts. amg_refusal.h has each as a sentence. */
enum {
    AMG_DONE = 0,
    AMG_REFUSED_LENGTH = 1,      /* the file's length; the place is 0 */
    AMG_REFUSED_TRAILER = 2,     /* layout byte, zero byte or AMG1; 0 */
    AMG_REFUSED_COUNTS = 3,      /* N or E; 0 */
    AMG_REFUSED_TABLES = 4,      /* distance back, or where the tables stand; 0 */
    AMG_REFUSED_TIME = 5,        /* a time; the operation, from 1 */
    AMG_REFUSED_EDGE = 6,        /* a byte of an edge; the edge, from 0 */
    AMG_REFUSED_LOOSE = 7,       /* an end without an edge; the node */
    AMG_REFUSED_APART = 8,       /* not joined to the source; the node */
    AMG_REFUSED_DEAD = 9,        /* a circuit without a token; the transition */
    AMG_REFUSED_MARKING = 10,    /* the marking's length or a byte of it; 0 */
    AMG_REFUSED_UNREACHED = 11,  /* a marking that no firings reach; 0 */
    AMG_REFUSED_TRANSITION = 12, /* the transition's number; 0 */
    AMG_REFUSED_DISABLED = 13,   /* not enabled; the empty place */
    AMG_REFUSED_ROOM = 14        /* the circuit or report buffer; 0 */
};

static inline unsigned amg_number(uint64_t word) { return (unsigned)(word & 0xff); }
static inline unsigned amg_place(uint64_t word) { return (unsigned)(word >> 8 & 0xffff); }
static inline unsigned amg_count(uint64_t word) { return (unsigned)(word >> 40); }

/* The graph of a file. Refusals 1 to 9.
 * counts: N, E. times: operation i's at i-1. from, to, mark: edge e's at e. Unused entries are 0. */
uint64_t amg_look(const uint8_t *file, size_t length, uint32_t counts[2], uint32_t times[AMG_OPERATIONS],
                  uint8_t from[AMG_EDGES], uint8_t to[AMG_EDGES], uint8_t mark[AMG_EDGES]);

/* Fills a marking of 3N+2E bytes, one a place, with the start. Refusals 1 to 10. */
uint64_t amg_start(const uint8_t *file, size_t length, uint8_t *marking, size_t places);

/* Fires one transition. Refusals 1 to 13. */
uint64_t amg_step(const uint8_t *file, size_t length, uint8_t *marking, size_t places, uint16_t transition);

/* Fires a list of transitions in order, up to the first refused. Refusals 1 to 13. Count: the firings. */
uint64_t amg_run(const uint8_t *file, size_t length, uint8_t *marking, size_t places, const uint16_t *list, size_t entries);

/* How many other firings can come before this transition's. Refusals 1 to 12. Count: the wait. */
uint64_t amg_wait(const uint8_t *file, size_t length, const uint8_t *marking, size_t places, uint16_t transition);

/* The bounds, and the circuit that attains TBO in the first entries of a buffer of 3N+2 or more. Refusals 1 to 9 and 14.
 * values: TBO's numerator and denominator, TBIO, TT, TCE. Count: the circuit's length. */
uint64_t amg_bounds(const uint8_t *file, size_t length, uint16_t *circuit, size_t entries, uint64_t values[5]);

/* The report, at the beginning of a buffer of 4,096 bytes or more. Refusals 14, then 1 to 9. Count: the text's length. */
uint64_t amg_report(const uint8_t *file, size_t length, uint8_t *buffer, size_t room);

#ifdef __cplusplus
}
#endif

#endif
