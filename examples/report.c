/* Prints the report of the graph file that is named as argument. A refusal is told in words too. */
#include <stdio.h>

#include "amg.h"
#include "amg_refusal.h"

int main(int argc, char **argv) {
    if (argc != 2) {
        fprintf(stderr, "usage: %s FILE\n", argv[0]);
        return 2;
    }
    FILE *in = fopen(argv[1], "rb");
    if (in == NULL) {
        perror(argv[1]);
        return 2;
    }
    /* one byte more than the longest file: a longer one is refused as too long, never cut to fit */
    uint8_t file[AMG_LENGTH + 1];
    size_t length = fread(file, 1, sizeof file, in);
    if (ferror(in)) { /* a folder, say: what was read is not the file */
        perror(argv[1]);
        fclose(in);
        return 2;
    }
    fclose(in);
    uint8_t text[AMG_REPORT];
    uint64_t word = amg_report(file, length, text, sizeof text);
    if (fwrite(text, 1, amg_count(word), stdout) != amg_count(word) || fflush(stdout) != 0) {
        perror("standard output");
        return 2;
    }
    unsigned number = amg_number(word);
    if (number == AMG_DONE) {
        return 0;
    }
    const char *counts = amg_refusal_counts(number);
    fprintf(stderr, "%s: %s", argv[1], amg_refusal(number));
    if (counts != NULL) {
        fprintf(stderr, " (the lowest: %s %u)", counts, amg_place(word));
    }
    fprintf(stderr, "\n");
    return 1;
}
