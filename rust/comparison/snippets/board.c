/* Opens the board of a proof file on a day and withdraws or returns input clauses, one after another. The arguments are the day,
 * the file, and calls: -3 withdraws clause 3, +3 returns it. Prints the opening's answer, then one for each call. */
#include <stdio.h>
#include <stdlib.h>

#include "checker.h"

/* One byte more than the longest file: what is longer is read as too long. */
static uint8_t file[65536 + 1];
static uint16_t symbols[CHECKER_SYMBOLS], rows[CHECKER_ROWS];
static uint16_t clauses[CHECKER_CLAUSES], bindings[CHECKER_BINDINGS];
/* File, clauses and board stay as they are between the calls. */
static uint16_t board[CHECKER_BOARD];

/* Reads a number, 0 to 65535; 1 if the word is none. */
static int read_number(const char *word, uint16_t *number) {
    char *end;
    long value;
    if (*word < '0' || *word > '9')
        return 1;
    value = strtol(word, &end, 10);
    if (*end != '\0' || value > 65535)
        return 1;
    *number = (uint16_t)value;
    return 0;
}

/* Reads a file whole; 1 if it could not be read, which is told. */
static int read_file(const char *name, size_t *length) {
    int failed;
    FILE *input = fopen(name, "rb");
    if (input == NULL) {
        perror(name);
        return 1;
    }
    *length = fread(file, 1, sizeof file, input);
    failed = ferror(input) != 0;
    if (failed)
        perror(name);
    fclose(input);
    return failed;
}

/* Whether all words from the third on are calls. */
static int are_calls(int count, char **words) {
    uint16_t clause;
    for (int at = 3; at < count; at++)
        if ((words[at][0] != '-' && words[at][0] != '+') || read_number(words[at] + 1, &clause) != 0)
            return 0;
    return 1;
}

/* What printf returns for an answer: negative where it could not be written. */
static int print_answer(const uint16_t *answer) {
    if (answer[0] == CHECKER_NONE)
        return printf("none\n");
    if (answer[0] == CHECKER_CLAUSE)
        return printf("clause %u\n", (unsigned)answer[1]);
    return printf("refused %u at %u\n", (unsigned)answer[1], (unsigned)answer[2]);
}

int main(int count, char **words) {
    uint16_t answer[CHECKER_BOARD_ANSWER], day, clause;
    size_t length;
    int written;
    if (count < 3 || read_number(words[1], &day) != 0 || !are_calls(count, words)) {
        fprintf(stderr, "usage: board DAY FILE [-CLAUSE | +CLAUSE] ..\n");
        return 1;
    }
    if (read_file(words[2], &length) != 0)
        return 1;
    checker_board_open(day, file, length, symbols, CHECKER_SYMBOLS, rows, CHECKER_ROWS,
                       clauses, CHECKER_CLAUSES, bindings, CHECKER_BINDINGS,
                       board, CHECKER_BOARD, answer, CHECKER_BOARD_ANSWER);
    written = print_answer(answer);
    /* A file that is refused has no board. */
    if (answer[0] != CHECKER_NONE && answer[0] != CHECKER_CLAUSE)
        count = 3;
    for (int at = 3; at < count && written >= 0; at++) {
        read_number(words[at] + 1, &clause);
        if (words[at][0] == '-')
            checker_board_withdraw(file, length, clauses, CHECKER_CLAUSES, board, CHECKER_BOARD,
                                   clause, answer, CHECKER_BOARD_ANSWER);
        else
            checker_board_return(file, length, clauses, CHECKER_CLAUSES, board, CHECKER_BOARD,
                                 clause, answer, CHECKER_BOARD_ANSWER);
        written = print_answer(answer);
    }
    if (written < 0 || fflush(stdout) != 0) {
        perror("standard output");
        return 1;
    }
    return 0;
}
