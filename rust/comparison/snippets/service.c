/* Checks many proof files on one day with one workspace, and prints a line for each. The arguments are the day and the files. */
#include <stdio.h>
#include <stdlib.h>

#include "checker.h"

/* One byte more than the longest file: what is longer is read as too long. */
static uint8_t file[65536 + 1];
static uint16_t symbols[CHECKER_SYMBOLS], rows[CHECKER_ROWS];
static uint16_t clauses[CHECKER_CLAUSES], bindings[CHECKER_BINDINGS];
/* The workspace: never cleared. A thread that checks at the same time has its own, and its own tables. */
static uint16_t nodes[CHECKER_NODES], origins[CHECKER_ORIGINS], values[CHECKER_VALUES];

/* Reads a day, 0 to 65535; 1 if the word is none. */
static int read_day(const char *word, uint16_t *day) {
    char *end;
    long value = strtol(word, &end, 10);
    if (end == word || *end != '\0' || value < 0 || value > 65535)
        return 1;
    *day = (uint16_t)value;
    return 0;
}

/* Reads a file whole; 1 if it could not be read. */
static int read_file(const char *name, size_t *length) {
    int failed;
    FILE *input = fopen(name, "rb");
    if (input == NULL)
        return 1;
    *length = fread(file, 1, sizeof file, input);
    failed = ferror(input) != 0;
    fclose(input);
    return failed;
}

int main(int count, char **words) {
    uint16_t answer[CHECKER_ANSWER], day;
    size_t length;
    if (count < 2 || read_day(words[1], &day) != 0) {
        fprintf(stderr, "usage: service DAY FILE ..\n");
        return 1;
    }
    for (int at = 2; at < count; at++) {
        if (read_file(words[at], &length) != 0) {
            perror(words[at]);
            return 1;
        }
        checker_check_with(day, file, length, symbols, CHECKER_SYMBOLS, rows, CHECKER_ROWS,
                           clauses, CHECKER_CLAUSES, bindings, CHECKER_BINDINGS,
                           nodes, origins, values, answer, CHECKER_ANSWER);
        /* Whatever is not 1 is no acceptance. */
        if (printf("%s\n", answer[0] == 1 ? "accepted" : "not accepted") < 0)
            break;
    }
    if (fflush(stdout) != 0 || ferror(stdout)) {
        perror("standard output");
        return 1;
    }
    return 0;
}
