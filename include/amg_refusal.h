/* The refusals in words, for messages. README has the same sentences in its table of refusals. */
#ifndef AMG_REFUSAL_H
#define AMG_REFUSAL_H

#include "amg.h"

/* What is wrong, as a sentence without its full stop. */
static inline const char *amg_refusal(unsigned number) {
    switch (number) {
    case AMG_DONE:
        return "nothing is wrong";
    case AMG_REFUSED_LENGTH:
        return "the length is outside 16 to 2,048 bytes";
    case AMG_REFUSED_TRAILER:
        return "the layout byte, the zero byte or AMG1 is wrong";
    case AMG_REFUSED_COUNTS:
        return "N is outside 1 to 40, or E outside 2 to 128";
    case AMG_REFUSED_TABLES:
        return "the distance back is wrong, or the tables do not fill the bytes before the trailer exactly";
    case AMG_REFUSED_TIME:
        return "a time is outside 1 to 1,000,000";
    case AMG_REFUSED_EDGE:
        return "an edge's from, to, mark or zero byte is not allowed";
    case AMG_REFUSED_LOOSE:
        return "the source lacks an edge out, the sink one in, or an operation either";
    case AMG_REFUSED_APART:
        return "a node is not joined to the source, edge directions ignored";
    case AMG_REFUSED_DEAD:
        return "a directed circuit of the computational graph has no token at the start";
    case AMG_REFUSED_MARKING:
        return "the marking does not have 3N+2E bytes or, where it is read, has a byte above 1";
    case AMG_REFUSED_UNREACHED:
        return "no sequence of firings leads from the start to this marking";
    case AMG_REFUSED_TRANSITION:
        return "the transition number is above 3N+1";
    case AMG_REFUSED_DISABLED:
        return "the transition is not enabled: an input place is empty";
    case AMG_REFUSED_ROOM:
        return "the circuit buffer has under 3N+2 entries, or the report buffer under 4,096 bytes";
    default:
        return "no refusal has this number";
    }
}

/* What the place counts: operations from 1, edges from 0, nodes, transitions or places. NULL where a refusal has no place. */
static inline const char *amg_refusal_counts(unsigned number) {
    switch (number) {
    case AMG_REFUSED_TIME:
        return "operation";
    case AMG_REFUSED_EDGE:
        return "edge";
    case AMG_REFUSED_LOOSE:
    case AMG_REFUSED_APART:
        return "node";
    case AMG_REFUSED_DEAD:
        return "transition";
    case AMG_REFUSED_DISABLED:
        return "place";
    default:
        return NULL;
    }
}

#endif
