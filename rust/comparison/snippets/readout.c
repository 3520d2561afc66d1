/* Prints the readout of a proof file from standard input on a day, which is the argument, piece by piece. */
#include <stdio.h>
#include <stdlib.h>

#include "checker.h"

/* One byte more than the longest file: what is longer is read as too long. */
static uint8_t file[65536 + 1], output[CHECKER_OUTPUT];
static uint16_t symbols[CHECKER_SYMBOLS], rows[CHECKER_ROWS];
static uint16_t clauses[CHECKER_CLAUSES], bindings[CHECKER_BINDINGS];

/* Reads a day, 0 to 65535; 1 if the word is none. */
static int read_day(const char *word, uint16_t *day) {
    char *end;
    long value = strtol(word, &end, 10);
    if (end == word || *end != '\0' || value < 0 || value > 65535)
        return 1;
    *day = (uint16_t)value;
    return 0;
}

int main(int count, char **words) {
    /* There is more, and it goes on with clause 0. */
    uint64_t progress[CHECKER_PROGRESS] = {1, 0, 0};
    uint16_t day;
    size_t length;
    if (count != 2 || read_day(words[1], &day) != 0) {
        fprintf(stderr, "usage: readout DAY < FILE\n");
        return 1;
    }
    length = fread(file, 1, sizeof file, stdin);
    if (ferror(stdin)) {
        perror("standard input");
        return 1;
    }
    while (progress[0] == 1) {
        checker_readout(day, file, length, symbols, CHECKER_SYMBOLS, rows, CHECKER_ROWS,
                        clauses, CHECKER_CLAUSES, bindings, CHECKER_BINDINGS,
                        (uint16_t)progress[2], output, CHECKER_OUTPUT,
                        progress, CHECKER_PROGRESS);
        if (fwrite(output, 1, (size_t)progress[1], stdout) != (size_t)progress[1]) {
            perror("standard output");
            return 1;
        }
    }
    if (fflush(stdout) != 0) {
        perror("standard output");
        return 1;
    }
    /* With CHECKER_OUTPUT bytes no line is too long; with fewer the readout would be cut. */
    return progress[0] == 0 ? 0 : 1;
}
