/* Merges two proof files, for example a rulebook and the facts of a trip, and writes the merged file to standard output. The
 * arguments are the two files. With a refusal nothing is written, and it is told on standard error. */
#include <stdio.h>

#include "checker.h"

/* One byte more than the longest file: what is longer is read as too long. */
static uint8_t first[65536 + 1], second[65536 + 1];
/* Just long enough for every merged file: with fewer bytes all is refused. */
static uint8_t output[65536];
static uint16_t symbols[CHECKER_SYMBOLS], rows[CHECKER_ROWS];
static uint16_t clauses[CHECKER_CLAUSES], bindings[CHECKER_BINDINGS];

/* Reads a file whole; 1 if it could not be read, which is told. */
static int read_file(const char *name, uint8_t *file, size_t *length) {
    int failed;
    FILE *input = fopen(name, "rb");
    if (input == NULL) {
        perror(name);
        return 1;
    }
    *length = fread(file, 1, 65536 + 1, input);
    failed = ferror(input) != 0;
    if (failed)
        perror(name);
    fclose(input);
    return failed;
}

int main(int count, char **words) {
    uint32_t answer[4];
    size_t first_length, second_length;
    if (count != 3) {
        fprintf(stderr, "usage: merge FIRST SECOND > MERGED\n");
        return 1;
    }
    if (read_file(words[1], first, &first_length) != 0 || read_file(words[2], second, &second_length) != 0)
        return 1;
    checker_merge(first, first_length, second, second_length,
                  symbols, CHECKER_SYMBOLS, rows, CHECKER_ROWS,
                  clauses, CHECKER_CLAUSES, bindings, CHECKER_BINDINGS,
                  output, sizeof output, answer, 4);
    if (answer[0] != 0) {
        fprintf(stderr, "refused %lu at %lu of file %lu\n", (unsigned long)answer[1],
                (unsigned long)answer[3], (unsigned long)answer[2]);
        return 1;
    }
    if (fwrite(output, 1, answer[1], stdout) != answer[1] || fflush(stdout) != 0) {
        perror("standard output");
        return 1;
    }
    return 0;
}
