/* Says whether one input clause of a proof file from standard input covers another, and which literals of the
 * other its own become. The arguments are the numbers of the two clauses. */
#include <stdio.h>
#include <stdlib.h>

#include "checker.h"

/* One byte more than the longest file: what is longer is read as too long. */
static uint8_t file[65536 + 1];
static uint16_t symbols[CHECKER_SYMBOLS], rows[CHECKER_ROWS];
static uint16_t clauses[CHECKER_CLAUSES], bindings[CHECKER_BINDINGS];

/* Reads the number of a clause; 1 if it is none. */
static int read_number(const char *word, uint16_t *number) {
    char *end;
    long value = strtol(word, &end, 10);
    if (end == word || *end != '\0' || value < 0 || value > 65535)
        return 1;
    *number = (uint16_t)value;
    return 0;
}

/* What the last printf returns: negative where the answer could not be written. */
static int print_covering(const uint16_t *answer) {
    if (answer[0] == 0)
        return printf("no\n");
    if (answer[0] != 1)
        return printf("refused %u at %u\n", (unsigned)answer[1], (unsigned)answer[2]);
    if (printf("yes") < 0)
        return -1;
    for (int at = 3; at < CHECKER_COVERING && answer[at] != 0; at++)
        if (printf(" %u", (unsigned)answer[at]) < 0)
            return -1;
    return printf("\n");
}

int main(int count, char **words) {
    uint16_t answer[CHECKER_COVERING], c, d;
    size_t length;
    if (count != 3 || read_number(words[1], &c) != 0 || read_number(words[2], &d) != 0) {
        fprintf(stderr, "usage: covers CLAUSE CLAUSE < FILE\n");
        return 1;
    }
    length = fread(file, 1, sizeof file, stdin);
    if (ferror(stdin)) {
        perror("standard input");
        return 1;
    }
    checker_covers(file, length, c, d, symbols, CHECKER_SYMBOLS, rows, CHECKER_ROWS,
                   clauses, CHECKER_CLAUSES, bindings, CHECKER_BINDINGS,
                   answer, CHECKER_COVERING);
    if (print_covering(answer) < 0 || fflush(stdout) != 0) {
        perror("standard output");
        return 1;
    }
    return 0;
}
