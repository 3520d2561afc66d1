/* Checks a proof file of the new form from standard input on a day, which is the argument, and prints the verdict. */
#include <stdio.h>
#include <stdlib.h>

#include "checker.h"

/* One byte more than the longest file: what is longer is read as too long. */
static uint8_t file[65520 + 1];
static uint16_t symbols[CHECKER_SYMBOLS], rows[CHECKER_ROWS];
static uint16_t clauses[CHECKER_CLAUSES], bindings[CHECKER_BINDINGS];

/* Reads a day, 0 to 65535; 1 if the word is none. */
static int read_day(const char *word, uint16_t *day) {
    char *end;
    long value = strtol(word, &end, 10);
    if (end == word || *end != '\0' || value < 0 || value > 65535)
        return 1;
    *day = (uint16_t)value;
    return 0;
}

/* What printf returns for the verdict: negative where it could not be written. */
static int print_verdict(const uint16_t *answer) {
    if (answer[0] == 0)
        return printf("open\n");
    if (answer[0] == 1)
        return printf("accepted %u\n", (unsigned)answer[1]);
    return printf("refused %u at %u\n", (unsigned)answer[1], (unsigned)answer[2]);
}

int main(int count, char **words) {
    uint16_t answer[CHECKER_ANSWER], day;
    size_t length;
    if (count != 2 || read_day(words[1], &day) != 0) {
        fprintf(stderr, "usage: form DAY < FILE\n");
        return 1;
    }
    length = fread(file, 1, sizeof file, stdin);
    if (ferror(stdin)) {
        perror("standard input");
        return 1;
    }
    checker_check_form(CHECKER_NEW_FORM, day, file, length,
                       symbols, CHECKER_SYMBOLS, rows, CHECKER_ROWS,
                       clauses, CHECKER_CLAUSES, bindings, CHECKER_BINDINGS,
                       answer, CHECKER_ANSWER);
    if (print_verdict(answer) < 0 || fflush(stdout) != 0) {
        perror("standard output");
        return 1;
    }
    return 0;
}
