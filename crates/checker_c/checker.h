/* The check of a resolution-proof file, the same for services and for either form
 * of a file, the two readouts, which input clause covers which, two files merged
 * into one, a file converted to the other form, a file trimmed to what its accepted
 * clause uses, and the board of a file, on which input clauses are withdrawn and
 * returned.
 *
 * Link with libchecker_c.a. All functions are proved to meet their contracts,
 * for every day, every file and whatever else they are lent (Exported.antt,
 * ExportedForm.antt, ExportedWith.antt, ExportedReadout.antt,
 * ExportedCovers.antt, ExportedMerge.antt, ExportedTrim.antt and, of
 * checker_to_new and checker_to_old, ExportedConversion.antt in specs/ of the
 * crates exported, exported_readout, exported_covers, exported_merge,
 * exported_trim and exported_conversion).
 * They never fail, never block, ask for no memory and keep nothing between calls.
 * The contracts of the board are ExportedOpening, of checker_board_open, and
 * ExportedCall, of the other two, in ExportedBoard.antt in specs/ of the crate
 * board_c.
 *
 * That they come to an end asks for a stack of 8 MiB: call them on a thread
 * that has that much left. An ordinary file takes less than 1.5 MiB of it, and
 * the deepest files known up to 4 MiB; for the readouts it is half a MiB
 * more. No proof says how much a call takes. With a workspace
 * (checker_check_with) it is some 24 KiB, and up to 2.6 MiB; the rule is the
 * same. */
#ifndef CHECKER_H
#define CHECKER_H

#include <stddef.h>
#include <stdint.h>

#ifdef __cplusplus
extern "C" {
#endif

/* The least lengths of the tables, of the answers and of the progress, in
 * cells. */
#define CHECKER_SYMBOLS 4096
#define CHECKER_ROWS 4096
#define CHECKER_CLAUSES 20480
#define CHECKER_BINDINGS 32768
#define CHECKER_ANSWER 7
#define CHECKER_PROGRESS 3
#define CHECKER_COVERING 10
#define CHECKER_MERGED 4
#define CHECKER_CONVERTED 4
#define CHECKER_TRIMMED 4
#define CHECKER_BOARD_ANSWER 3

/* The least length of a board, in cells: one for each clause that a file can
 * have, and the day. */
#define CHECKER_BOARD 4097

/* The lengths of the three parts of a workspace, in cells. */
#define CHECKER_NODES 32768
#define CHECKER_ORIGINS 32768
#define CHECKER_VALUES 524416

/* Bytes of output that have room for every line of a readout. */
#define CHECKER_OUTPUT 131072

/* The least length of an output for a merged or a converted file, in bytes: that
 * of the longest file. */
#define CHECKER_FILE 65536

/* The two forms of a file, by the bytes of a record. Every function but
 * checker_check_form and checker_to_old takes files of the old form.
 *
 * Old: records of 16 bytes, at most 4,096 of them. The days of an input clause
 *   are in records of kind 8.
 * New: records of 20 bytes, at most 3,276 of them: the old 16, then for kind 4
 *   the first day and the last, two bytes each, low byte first (0 and 65,535 for
 *   a clause that is in force always), and for every other kind zeros. There is
 *   no kind 8. */
enum { CHECKER_OLD_FORM = 16, CHECKER_NEW_FORM = 20 };

/* The first number of an answer: of a check, of which clause covers which, of a
 * merge or a conversion, of a board. Whatever is none of these names, take as a
 * refusal. */
enum { CHECKER_OPEN = 0, CHECKER_ACCEPTED = 1, CHECKER_REFUSED = 2 };
enum { CHECKER_NO = 0, CHECKER_YES = 1 };
enum { CHECKER_WRITTEN = 0 };
enum { CHECKER_NONE = 0, CHECKER_CLAUSE = 1 };

/* The first number of the progress of a readout. */
enum { CHECKER_COMPLETE = 0, CHECKER_MORE = 1, CHECKER_TOO_SHORT = 2 };

/* Why something is refused. The format may get further numbers: treat an unknown
 * one as a refusal too. 6 is never given. 15 is given by checker_covers alone, 17
 * to 19 by checker_merge alone, 20 and 21 by checker_board_withdraw and
 * checker_board_return alone, 22 by checker_to_new and checker_to_old alone, 23 by
 * checker_trim alone. */
enum {
    CHECKER_REASON_LENGTH = 1,           /* too long, or not whole records */
    CHECKER_REASON_TABLE = 2,            /* a table, board or output too short */
    CHECKER_REASON_KIND = 3,             /* a kind that there is not */
    CHECKER_REASON_RANGE = 4,            /* out of range, or not zero */
    CHECKER_REASON_MISSING = 5,          /* named, but not there */
    CHECKER_REASON_VARIABLE_LITERAL = 7, /* a literal's row is a variable */
    CHECKER_REASON_SIGNS = 8,            /* unfit signs, or one literal twice */
    CHECKER_REASON_TOO_LARGE = 9,        /* over 128 literals or index 4,096 */
    CHECKER_REASON_CLASH = 10,           /* two different symbols meet */
    CHECKER_REASON_OCCURS = 11,          /* a variable in its own value */
    CHECKER_REASON_WORK = 12,            /* a step would do over 16,384 */
    CHECKER_REASON_BINDINGS = 13,        /* over 8,192 bindings */
    CHECKER_REASON_ORDER = 14,           /* right literals do not rise */
    CHECKER_REASON_NO_COMPARISON = 15,   /* nothing to compare */
    CHECKER_REASON_CROSSED = 16,         /* first day after last */
    CHECKER_REASON_MERGED_STEP = 17,     /* a file to be merged has a step */
    CHECKER_REASON_MERGED_SYMBOLS = 18,  /* neither symbol list begins the other */
    CHECKER_REASON_MERGED_LENGTH = 19,   /* over 4,096 records when merged */
    CHECKER_REASON_NOT_AN_INPUT = 20,    /* no input clause of that number */
    CHECKER_REASON_ALREADY = 21,         /* in that condition already */
    CHECKER_REASON_CONVERTED_LENGTH = 22, /* too many records when converted */
    CHECKER_REASON_NOT_ACCEPTED = 23     /* not accepted on the day */
};

/* Checks a proof file on a day, writes the answer and fills four tables.
 *
 *   day       the day by which input clauses are in force or not: a clause
 *             that has a record of kind 8 is in force from its first day to its
 *             last, by the last such record in the file, and one without is
 *             always. What day 0 is, the users of the files agree on
 *   file      the bytes of the file
 *   symbols   a cell for each symbol: its record; at least 4,096 cells
 *   rows      a cell for each row: its record, or that of the earliest equal
 *             row; at least 4,096 cells
 *   clauses   five cells for each clause: record, literals, maximum index,
 *             first binding, bindings; at least 20,480 cells
 *   bindings  four cells for each binding: row and index of the variable, row
 *             and index of its value; at least 32,768 cells
 *   answer    seven numbers; at least 7 cells
 *
 * Lengths are counted in elements, not in bytes. Each pointer must be valid for
 * its length, aligned and not null, also where the length is 0, and none of the
 * six parts may overlap another.
 *
 * The numbers of the answer:
 *   answer[0]  0 open, 1 accepted, 2 refused
 *   answer[1]  accepted: the number of the first empty clause whose derivation
 *              uses only input clauses in force on the day; refused: the
 *              reason, 1 to 14 and never 6, or 16; open: 0
 *   answer[2]  refused: the record; otherwise 0
 *   answer[3], answer[4], answer[5], answer[6]
 *              how many symbols, rows, clauses and bindings there are; the
 *              last is the sum of the clauses' fifth cells
 *
 * If answer has fewer than 7 cells, nothing at all is touched. Cells of answer
 * past the seventh are left alone, as are the cells of each table past its
 * least length. A file whose length is over 65,536 or no multiple of 16 is
 * refused with reason 1, and a table that is too short with reason 2; the
 * tables are then left alone. In all other cases the least length of each table
 * is filled: the entries first, then zeros. Whether a file is refused, the
 * counts and the tables do not depend on the day. */
void checker_check(uint16_t day,
                   const uint8_t *file, size_t file_len,
                   uint16_t *symbols, size_t symbols_len,
                   uint16_t *rows, size_t rows_len,
                   uint16_t *clauses, size_t clauses_len,
                   uint16_t *bindings, size_t bindings_len,
                   uint16_t *answer, size_t answer_len);

/* The same check for a file of either form, which the caller tells.
 *
 *   form      CHECKER_OLD_FORM or CHECKER_NEW_FORM: 16 or 20, the bytes of a
 *             record. With any other number nothing at all is touched, as with
 *             an answer that is too short
 *   day, file, symbols, rows, clauses, bindings, answer
 *             as for checker_check. With 16 the same is written to them; with 20
 *             what follows differs
 *
 * A file of the new form whose length is over 65,520 or no multiple of 20 is
 * refused with reason 1. A kind that is not 1 to 7 is refused with 3, and with 4
 * also a record of any kind but 4 whose last four bytes are not all zero. An input
 * clause whose first day is after its last is refused with 16, which comes after 4
 * and 5 and before 7; otherwise it is in force on the days that stand beside it.
 * Records are numbered in either form from 0. */
void checker_check_form(uint16_t form, uint16_t day,
                        const uint8_t *file, size_t file_len,
                        uint16_t *symbols, size_t symbols_len,
                        uint16_t *rows, size_t rows_len,
                        uint16_t *clauses, size_t clauses_len,
                        uint16_t *bindings, size_t bindings_len,
                        uint16_t *answer, size_t answer_len);

/* The same check for services: checker_check has arrays of 1.2 MB on its stack
 * and fills them for each file, this one takes a workspace that the caller
 * lends and keeps between files. A small file is checked several times as fast.
 *
 *   day, file, symbols, rows, clauses, bindings, answer
 *             as for checker_check, which writes the same to them
 *   nodes     CHECKER_NODES cells
 *   origins   CHECKER_ORIGINS cells
 *   values    CHECKER_VALUES cells
 *
 * The three parts of the workspace have exactly these lengths, which are not
 * passed: the caller must see to it that there are so many cells. They must be
 * aligned and not null, and none of the nine parts may overlap another.
 *
 * What the workspace holds before a call does not matter: it needs no clearing,
 * neither before the first file nor between files. It may be lent again for any
 * file and with any tables. One workspace serves one call at a time; threads
 * that check at the same time have one each.
 *
 * Afterwards:
 *   nodes     eight cells for each row: 1 and the number of a variable; 2 plus
 *             the number of arguments, the symbol and the arguments; or 0 and
 *             the earliest equal row, for a row that repeats it; then zeros
 *   origins   eight cells for each clause: 1 and the literals of an input
 *             clause; 2 and the numbers of a factoring step; or 2 plus the
 *             number of right literals, and the numbers of a resolution step,
 *             each as its record has them; then zeros
 *   values    is left to the library: it may hold anything
 *
 * Arguments and literals in nodes and origins are on earliest rows, also where
 * the file names a repeat. With reasons 1 and 2 nodes and origins are left
 * alone. If answer has fewer than 7 cells, nothing at all is touched. */
void checker_check_with(uint16_t day,
                        const uint8_t *file, size_t file_len,
                        uint16_t *symbols, size_t symbols_len,
                        uint16_t *rows, size_t rows_len,
                        uint16_t *clauses, size_t clauses_len,
                        uint16_t *bindings, size_t bindings_len,
                        uint16_t *nodes, uint16_t *origins, uint16_t *values,
                        uint16_t *answer, size_t answer_len);

/* Checks a proof file on a day and writes as many whole lines of its readout as
 * fit, from a clause on. Only the line of the verdict goes by the day.
 *
 *   day       as for checker_check; the same in all calls for one readout
 *   file      the bytes of the file
 *   symbols, rows, clauses, bindings
 *             the tables, as for checker_check, which leaves them the same; what
 *             they held before does not matter
 *   clause    the clause whose line comes first; 0 to begin with: the line of
 *             the verdict goes before that of clause 0, or stands alone where
 *             there are no clauses
 *   output    bytes for the text, of any length
 *   progress  three numbers; at least 3 cells
 *
 * What checker_check says of lengths and pointers holds here too, and none of
 * the seven parts may overlap another.
 *
 * The numbers of the progress:
 *   progress[0]  0 all is written, 1 there is more, 2 the output is too short
 *                for the line of the clause to begin with
 *   progress[1]  how many bytes of output were written; none with 2
 *   progress[2]  with 1 the clause to go on with, which is past the one that
 *                this call began with; with 2 the clause that it is too short
 *                for; with 0 it is 0
 *
 * The pieces of calls that go on so, put together, are the readout. An output
 * of CHECKER_OUTPUT bytes is never too short. A clause past the last has no
 * line: all is written.
 *
 * If progress has fewer than 3 cells, nothing at all is touched. Cells of
 * progress past the third and bytes of output past those written are left
 * alone. */
void checker_readout(uint16_t day,
                     const uint8_t *file, size_t file_len,
                     uint16_t *symbols, size_t symbols_len,
                     uint16_t *rows, size_t rows_len,
                     uint16_t *clauses, size_t clauses_len,
                     uint16_t *bindings, size_t bindings_len,
                     uint16_t clause,
                     uint8_t *output, size_t output_len,
                     uint64_t *progress, size_t progress_len);

/* The second readout, with the parameters, the progress and the pieces of
 * checker_readout. It is like the first in every byte but for variables: in each
 * line they are numbered from 0 by first printed appearance, from the first
 * literal of the line on, and are v and that number, without index (v0, v1). A
 * literal that is printed as ~ shows no variable and takes no number. So clauses
 * with the same literals in the same order, up to a one-to-one renaming of
 * variables, print the same literals, and any two that print the same without ~
 * are so related. */
void checker_canonical_readout(uint16_t day,
                               const uint8_t *file, size_t file_len,
                               uint16_t *symbols, size_t symbols_len,
                               uint16_t *rows, size_t rows_len,
                               uint16_t *clauses, size_t clauses_len,
                               uint16_t *bindings, size_t bindings_len,
                               uint16_t clause,
                               uint8_t *output, size_t output_len,
                               uint64_t *progress, size_t progress_len);

/* Whether input clause c of a file covers input clause d: one substitution for
 * the variables of c turns every literal of c into a literal of d, signs
 * included. The variables of d stand as constants, and are not those of c, even
 * under one number. With a yes, wherever all variable-free instances of c are
 * true, all those of d are: d says nothing that c does not.
 *
 *   file, symbols, rows, clauses, bindings
 *             as for checker_check; the file is checked first, and the tables
 *             are left as that leaves them. No day is passed: whether a file
 *             stands and which clause covers which do not depend on it
 *   c, d      numbers of input clauses, from 0
 *   answer    ten numbers; at least 10 cells
 *
 * What is said there of lengths and pointers holds here too, and none of the
 * six parts may overlap another.
 *
 * The numbers of the answer:
 *   answer[0]  0 no, 1 yes, 2 refused
 *   answer[1]  refused: the reason, which is 15; otherwise 0
 *   answer[2]  refused: the record, which is 0; otherwise 0
 *   answer[3] to answer[9]
 *              yes: for each literal of c, from the first, the number of the
 *              literal of d that it is turned into, from 1, and zeros after
 *              them; of all choices that work the earliest, compared from the
 *              first literal of c on. A clause without literals covers every
 *              clause, with seven zeros. Otherwise zeros
 *
 * Refused are files that do not stand, whatever the check's own reason, tables
 * that are too short, and clauses that do not exist or are no input clauses.
 *
 * If answer has fewer than 10 cells, nothing at all is touched. Cells of answer
 * past the tenth are left alone. */
void checker_covers(const uint8_t *file, size_t file_len,
                    uint16_t c, uint16_t d,
                    uint16_t *symbols, size_t symbols_len,
                    uint16_t *rows, size_t rows_len,
                    uint16_t *clauses, size_t clauses_len,
                    uint16_t *bindings, size_t bindings_len,
                    uint16_t *answer, size_t answer_len);

/* Merges two files into one: all records of the first, then those of the second
 * with their numbers raised. An argument row is raised by the first's number of
 * rows, a literal by twice that, the clause of a record of kind 8 by the first's
 * number of clauses; symbols, variables and days stay. Of the second's symbol
 * records only those past the end of the first's list are written. The merged
 * file stands, on every day, and its input clauses are the first's and then the
 * second's, term for term, each with the days that it has in its own file.
 *
 *   first, second
 *             the bytes of the two files; they may be the same
 *   symbols, rows, clauses, bindings
 *             as for checker_check: each file is checked, the first one first,
 *             and the tables are left as the last check leaves them
 *   output    at least CHECKER_FILE bytes
 *   answer    four numbers; at least 4 cells
 *
 * What is said there of lengths and pointers holds here too, and none of the
 * tables, the output and the answer may overlap another part.
 *
 * The numbers of the answer:
 *   answer[0]  0 written, 2 refused
 *   answer[1]  written: the length of the merged file, in bytes; refused: the
 *              reason
 *   answer[2]  refused: the file, 1 or 2, or 0 for neither; otherwise 0
 *   answer[3]  refused: the record of that file; otherwise 0
 *
 * The reasons, in this order:
 *   2          the output is shorter than CHECKER_FILE bytes; file 0, record 0.
 *              No table is touched
 *   1 to 16    the check's own, of the first file and then of the second, with
 *              its record; tables that are too short are the first's reason 2
 *   17         a file holds a step: the first one, looking in the first file
 *              first
 *   18         neither symbol list begins the other: the second's first symbol
 *              that differs
 *   19         the merged file would have over 4,096 records; file 0, record 0
 *
 * The output is written only if nothing is refused, and not past the merged
 * file's end. If answer has fewer than 4 cells, nothing at all is touched. Cells
 * of answer past the fourth are left alone. */
void checker_merge(const uint8_t *first, size_t first_len,
                   const uint8_t *second, size_t second_len,
                   uint16_t *symbols, size_t symbols_len,
                   uint16_t *rows, size_t rows_len,
                   uint16_t *clauses, size_t clauses_len,
                   uint16_t *bindings, size_t bindings_len,
                   uint8_t *output, size_t output_len,
                   uint32_t *answer, size_t answer_len);

/* Converts a file to the other form: checker_to_new one of the old form to the new,
 * checker_to_old one of the new form to the old. A file and its conversion have
 * the same verdict on each day.
 *
 * To the new form, records of kind 8 fall away, and each input clause takes the
 * days of the last such record for it, or 0 and 65,535 if there is none. To the
 * old form, each record is written without its days, and straight after each
 * input clause whose days are not 0 and 65,535 comes one record of kind 8 with
 * them. If nothing is refused, a file converted to the old form and back has the
 * same bytes, and one converted to the new form and back the same clauses, steps
 * and days.
 *
 *   file      the bytes of the file
 *   symbols, rows, clauses, bindings
 *             as for checker_check: the file is checked by its own form, and the
 *             tables are left as that leaves them. No day is passed: whether a
 *             file stands does not depend on it
 *   output    at least CHECKER_FILE bytes
 *   answer    four numbers; at least 4 cells
 *
 * What is said there of lengths and pointers holds here too, and none of the
 * seven parts may overlap another.
 *
 * The numbers of the answer:
 *   answer[0]  0 written, 2 refused
 *   answer[1]  written: the length of the converted file, in bytes; refused: the
 *              reason
 *   answer[2]  refused: 1 if the check refuses the file, or else 0; otherwise 0
 *   answer[3]  refused: the record of the file; otherwise 0
 *
 * The reasons, in this order:
 *   2          the output is shorter than CHECKER_FILE bytes; file 0, record 0.
 *              No table is touched
 *   1 to 16    the check's own, with its record, file 1; tables that are too
 *              short are its reason 2
 *   22         the converted file would have over 3,276 records in the new form,
 *              or over 4,096 in the old; file 0, record 0
 *
 * The output is written only if nothing is refused, and not past the converted
 * file's end. If answer has fewer than 4 cells, nothing at all is touched. Cells
 * of answer past the fourth are left alone. */
void checker_to_new(const uint8_t *file, size_t file_len,
                    uint16_t *symbols, size_t symbols_len,
                    uint16_t *rows, size_t rows_len,
                    uint16_t *clauses, size_t clauses_len,
                    uint16_t *bindings, size_t bindings_len,
                    uint8_t *output, size_t output_len,
                    uint32_t *answer, size_t answer_len);

void checker_to_old(const uint8_t *file, size_t file_len,
                    uint16_t *symbols, size_t symbols_len,
                    uint16_t *rows, size_t rows_len,
                    uint16_t *clauses, size_t clauses_len,
                    uint16_t *bindings, size_t bindings_len,
                    uint8_t *output, size_t output_len,
                    uint32_t *answer, size_t answer_len);

/* Trims a file of the old form that is accepted on a day: of its records only
 * those are written that the accepted clause uses. These are the records of its
 * derivation, input clauses and steps; the rows that the literals of these
 * input clauses reach, where a row that repeats an earlier one is replaced by
 * the earliest; the symbols of these rows; and of each of these input clauses
 * the last record of kind 8, if it has any. Records stay in their order, and
 * the numbers of symbols, rows and clauses close up in every field; those of
 * literals and variables and the days stay. The trimmed file is accepted on the
 * same day with its last clause. Each of its clauses has the maximum index that
 * it had, and the line of the readout, up to its own number and those of
 * symbols. Trimming it again gives the same bytes.
 *
 *   day       as for checker_check
 *   file      the bytes of the file
 *   symbols, rows, clauses, bindings
 *             as for checker_check: the file is checked on the day, and the
 *             tables are left as that leaves them
 *   output    at least CHECKER_FILE bytes
 *   answer    four numbers; at least 4 cells
 *
 * What is said there of lengths and pointers holds here too, and none of the
 * seven parts may overlap another.
 *
 * The numbers of the answer:
 *   answer[0]  0 written, 2 refused
 *   answer[1]  written: the length of the trimmed file, in bytes; refused: the
 *              reason
 *   answer[2]  refused: 1 if it is about the file, or 0 if about the output;
 *              otherwise 0
 *   answer[3]  refused: the record of the file; otherwise 0
 *
 * The reasons, in this order:
 *   2          the output is shorter than CHECKER_FILE bytes; file 0, record 0.
 *              No table is touched
 *   1 to 16    the check's own, with its record, file 1; tables that are too
 *              short are its reason 2
 *   23         the file stands but is not accepted on that day; file 1, record 0
 *
 * The output is written only if nothing is refused, and not past the trimmed
 * file's end. If answer has fewer than 4 cells, nothing at all is touched. Cells
 * of answer past the fourth are left alone. */
void checker_trim(uint16_t day,
                  const uint8_t *file, size_t file_len,
                  uint16_t *symbols, size_t symbols_len,
                  uint16_t *rows, size_t rows_len,
                  uint16_t *clauses, size_t clauses_len,
                  uint16_t *bindings, size_t bindings_len,
                  uint8_t *output, size_t output_len,
                  uint32_t *answer, size_t answer_len);

/* The board of a file: each input clause is present or withdrawn. A derived
 * clause stands if all input clauses of its derivation are present, an input
 * clause if it is. The answer is the lowest standing empty clause whose input
 * clauses are all in force on the board's day, or none.
 *
 * A board is 4,097 cells. Cell n, for n under 4,096, is that of clause n: 0 where
 * there is no clause; otherwise 4, and 2 more if all input clauses of its
 * derivation are in force on the day, and 1 more if it stands, and 8 times the
 * number of the last clause that has clause n for a parent, which is 0 if none
 * has; by these a call ends as soon as nothing can change. Cell 4,096 is the day.
 * A board may be longer: cells past the 4,097th are never altered.
 *
 * While nobody else writes board, file or table of clauses between the calls,
 * every answer is the one worked out afresh from the clauses now present, and a
 * call alters no clause but the one that it is about and those that use it.
 *
 * The numbers of the answer, of all three functions:
 *   answer[0]  0 none, 1 a clause, 2 refused
 *   answer[1]  the clause, or the reason; otherwise 0
 *   answer[2]  refused by the check when the board is opened: the record;
 *              otherwise 0
 *
 * If answer has fewer than 3 cells, nothing at all is touched. Cells of answer
 * past the third are left alone.
 *
 * checker_board_open checks a file on a day and opens its board, with every input
 * clause present.
 *
 *   day, file, symbols, rows, clauses, bindings
 *             as for checker_check; the tables are left as the check leaves them
 *   board     at least CHECKER_BOARD cells; what they held does not matter
 *   answer    three numbers; at least 3 cells
 *
 * What is said there of lengths and pointers holds here too, and none of the
 * seven parts may overlap another.
 *
 * A board that is too short is refused with 2 at record 0, before all else, and
 * nothing is touched, no table either. A file that is refused gets no board but
 * the check's reason and record, and the board is left alone. */
void checker_board_open(uint16_t day,
                        const uint8_t *file, size_t file_len,
                        uint16_t *symbols, size_t symbols_len,
                        uint16_t *rows, size_t rows_len,
                        uint16_t *clauses, size_t clauses_len,
                        uint16_t *bindings, size_t bindings_len,
                        uint16_t *board, size_t board_len,
                        uint16_t *answer, size_t answer_len);

/* Withdraws an input clause, or returns one that was withdrawn, and gives the
 * answer anew. The file is not checked again.
 *
 *   file, clauses
 *             the file and the table of clauses, as the opening was lent the one
 *             and left the other; both are only read
 *   board     as the opening and the calls since have left it
 *   clause    the number of the input clause, from 0
 *   answer    three numbers; at least 3 cells
 *
 * Each pointer must be valid for its length, aligned and not null, also where the
 * length is 0, and neither board nor answer may overlap another part.
 *
 * The reasons, in this order, at record 0, with the board unaltered:
 *   2          the board has fewer than CHECKER_BOARD cells
 *   20         there is no input clause of that number: it is derived, or not
 *              there at all
 *   21         it is in that condition already
 *
 * Whatever board, file and table of clauses hold, however long they are, the
 * calls come to an end, stay inside them and alter only the board and the
 * answer: `boardAfter` and `callAnswer` in Cells.antt in specs/ of the crate
 * boards say how. */
void checker_board_withdraw(const uint8_t *file, size_t file_len,
                            const uint16_t *clauses, size_t clauses_len,
                            uint16_t *board, size_t board_len,
                            uint16_t clause,
                            uint16_t *answer, size_t answer_len);

void checker_board_return(const uint8_t *file, size_t file_len,
                          const uint16_t *clauses, size_t clauses_len,
                          uint16_t *board, size_t board_len,
                          uint16_t clause,
                          uint16_t *answer, size_t answer_len);

#ifdef __cplusplus
}
#endif

#endif
