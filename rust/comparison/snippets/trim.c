/* Trims a proof file to what its accepted clause uses and writes the trimmed file to standard output. The arguments are the day
 * and the file. With a refusal nothing is written, and it is told on standard error. */
#include <stdio.h>
#include <stdlib.h>

#include "checker.h"

/* One byte more than the longest file: what is longer is read as too long. */
static uint8_t file[65536 + 1];
/* Just long enough for every trimmed file: with fewer bytes all is refused. */
static uint8_t output[65536];
static uint16_t symbols[CHECKER_SYMBOLS], rows[CHECKER_ROWS];
static uint16_t clauses[CHECKER_CLAUSES], bindings[CHECKER_BINDINGS];

/* Reads a day, 0 to 65535; 1 if the word is none. */
static int read_day(const char *word, uint16_t *day) {
    char *end;
    long value = strtol(word, &end, 10);
    if (end == word || *end != '\0' || value < 0 || value > 65535)
        return 1;
    *day = (uint16_t)value;
    return 0;
}

/* Reads a file whole; 1 if it could not be read, which is told. */
static int read_file(const char *name, size_t *length) {
    int failed;
    FILE *input = fopen(name, "rb");
    if (input == NULL) {
        perror(name);
        return 1;
    }
    *length = fread(file, 1, sizeof file, input);
    failed = ferror(input) != 0;
    if (failed)
        perror(name);
    fclose(input);
    return failed;
}

int main(int count, char **words) {
    uint32_t answer[CHECKER_TRIMMED];
    uint16_t day;
    size_t length;
    if (count != 3 || read_day(words[1], &day) != 0) {
        fprintf(stderr, "usage: trim DAY FILE > TRIMMED\n");
        return 1;
    }
    if (read_file(words[2], &length) != 0)
        return 1;
    checker_trim(day, file, length, symbols, CHECKER_SYMBOLS, rows, CHECKER_ROWS,
                 clauses, CHECKER_CLAUSES, bindings, CHECKER_BINDINGS,
                 output, sizeof output, answer, CHECKER_TRIMMED);
    if (answer[0] != 0) {
        fprintf(stderr, "refused %lu at %lu\n", (unsigned long)answer[1], (unsigned long)answer[3]);
        return 1;
    }
    if (fwrite(output, 1, answer[1], stdout) != answer[1] || fflush(stdout) != 0) {
        perror("standard output");
        return 1;
    }
    return 0;
}
