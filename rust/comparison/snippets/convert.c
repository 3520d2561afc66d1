/* Converts a proof file to the other form and writes the converted file to standard output. The arguments are the form that is
 * wanted, new or old, and the file. With a refusal nothing is written, and it is told on standard error. */
#include <stdio.h>
#include <string.h>

#include "checker.h"

/* One byte more than the longest file: what is longer is read as too long. */
static uint8_t file[65536 + 1];
/* Just long enough for every converted file: with fewer bytes all is refused. */
static uint8_t output[65536];
static uint16_t symbols[CHECKER_SYMBOLS], rows[CHECKER_ROWS];
static uint16_t clauses[CHECKER_CLAUSES], bindings[CHECKER_BINDINGS];

/* Reads a file whole; 1 if it could not be read, which is told. */
static int read_file(const char *name, size_t *length) {
    int failed;
    FILE *input = fopen(name, "rb");
    if (input == NULL) {
        perror(name);
        return 1;
    }
    *length = fread(file, 1, sizeof file, input);
    failed = ferror(input) != 0;
    if (failed)
        perror(name);
    fclose(input);
    return failed;
}

int main(int count, char **words) {
    uint32_t answer[4];
    size_t length;
    if (count != 3 || (strcmp(words[1], "new") != 0 && strcmp(words[1], "old") != 0)) {
        fprintf(stderr, "usage: convert new|old FILE > CONVERTED\n");
        return 1;
    }
    if (read_file(words[2], &length) != 0)
        return 1;
    if (strcmp(words[1], "new") == 0)
        checker_to_new(file, length, symbols, CHECKER_SYMBOLS, rows, CHECKER_ROWS,
                       clauses, CHECKER_CLAUSES, bindings, CHECKER_BINDINGS,
                       output, sizeof output, answer, 4);
    else
        checker_to_old(file, length, symbols, CHECKER_SYMBOLS, rows, CHECKER_ROWS,
                       clauses, CHECKER_CLAUSES, bindings, CHECKER_BINDINGS,
                       output, sizeof output, answer, 4);
    if (answer[0] != 0) {
        fprintf(stderr, "refused %lu at %lu\n", (unsigned long)answer[1], (unsigned long)answer[3]);
        return 1;
    }
    if (fwrite(output, 1, answer[1], stdout) != answer[1] || fflush(stdout) != 0) {
        perror("standard output");
        return 1;
    }
    return 0;
}
