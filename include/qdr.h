/* Warpmaroon for C: reading and writing formulas, dependency rows, checking refutations, evaluating small formulas, and the lines
 * that the two programs print. Link with libcapi.a, which `rt lib` in crates/capi makes for x86-64 Linux.
 *
 * The first nine functions return 0, or the number of a refusal (enum qdr_refusal), and fill all five words of `out`. After 0
 * these are the numbers that the function names below, and zeros; after a refusal they are its place, line, column, variable and
 * block. Line and column, both from 1, are those of a place in a text; they are 0 where the refusal is QDR_OVERSIZED or not about
 * text. LF alone ends a line, every byte is one column, and the place at a text's end is the one just behind its last byte.
 * Variable and block say what blocks a reduction; they are 0 unless the refusal is QDR_BLOCKED. The last two functions return the
 * bytes that they printed.
 *
 * A table or buffer is a pointer and a length. Lengths count elements, not bytes. Where the length is 0 the pointer may be null,
 * and nothing is read or written through it; otherwise it points to that many elements and is aligned for them. `out` is never
 * null. What a function writes (`out` too) overlaps nothing else that it is given; what it only reads may overlap. Nothing is kept
 * after the call, and nothing is allocated. What is declared const is not written; all else is written whole, up to its length,
 * whatever the answer.
 *
 * Tables. The prefix lists the variables from outermost to innermost, an entry of three words for each: the variable, numbered
 * from 1 to 1,024; its quantifier, 1 existential or 2 universal; and its block. The first entry has block 1; a later one has the
 * block before it while the quantifier stays, and one more where it changes. All lengths of a prefix count words, three for an
 * entry. The clause table holds the clauses one after the other, each its literals and then a 0: v or -v. Input clauses are
 * numbered from 1 to C, steps from C + 1.
 *
 * Proof file. An optional note, which is not read; the step words, signed and of 32 bits, little-endian; and a trailer of 12
 * bytes: the distance in bytes from the trailer's start back to the first step word (a multiple of 4) and C, both unsigned and of
 * 32 bits, little-endian, then the bytes 51 44 52 31 (hexadecimal). Steps are as qdr_check has them. */
#ifndef QDR_H
#define QDR_H

#include <stddef.h>
#include <stdint.h>

#ifdef __cplusplus
extern "C" {
#endif

/* The words of `out`. */
#define QDR_OUT_LENGTH 5

/* Bytes that qdr_row and qdr_row_small need for a row; that qdr_row, qdr_check and the last two functions need for scratch; and
 * that qdr_row_small and qdr_check_small need for scratch. */
#define QDR_ROW_LENGTH 1025
#define QDR_SCRATCH_LENGTH 8200
#define QDR_SMALL_SCRATCH_LENGTH 640

/* The bounds: beyond one of the first six the answer is QDR_OVERSIZED. A table as long as its bound never lacks room. */
#define QDR_MAX_VARIABLES 1024     /* entries of a prefix; no variable has a larger number */
#define QDR_MAX_PREFIX_WORDS 3072  /* words of a prefix, three for an entry */
#define QDR_MAX_CLAUSES 8192       /* input clauses */
#define QDR_MAX_CLAUSE_WORDS 65536 /* words of a clause table, the closing zeros too */
#define QDR_MAX_STEP_WORDS 1048576 /* words of a step table */
#define QDR_MAX_TEXT 1048576       /* bytes of a formula's text */
#define QDR_MAX_NUMBERED 270336    /* words of starts: input clauses and steps, a step having at least four words */

/* Bytes that hold every line that qdr_check_line prints, and every text that qdr_dependency_lines prints. */
#define QDR_LINE_LENGTH 160
#define QDR_LINES_LENGTH 1316864

/* Why a function says no, and what its place is. Bytes and words count from 0. */
enum qdr_refusal {
    QDR_HEADLESS = 1,       /* no complete header: the first wrong token's byte, or the text's length */
    QDR_OVERSIZED = 2,      /* a bound is passed: 0 */
    QDR_NO_ROOM = 3,        /* a table or buffer is short (of a prefix, under three words are left for an entry): the token's
                               byte or the clause number that found no room, the text's length for variables added to the
                               prefix, else 0 */
    QDR_BAD_TOKEN = 4,      /* not a number or letter allowed there, an empty set, a negative in a set: the token's byte */
    QDR_OUT_OF_RANGE = 5,   /* a variable above the header's: the token's byte; in tables a variable of the prefix that is not from
                               1 to 1,024, a quantifier that is not 1 or 2, a literal beyond 1,024: the word */
    QDR_BOUND_TWICE = 6,    /* a variable listed again: the token's byte, or the word; in tables also a block other than the one
                               due: its word */
    QDR_UNBOUND = 7,        /* a clause's variable is not in the prefix (of tables, never of a text): the word */
    QDR_CLASH = 8,          /* a literal repeated or opposed in a clause: the later one's byte, or word */
    QDR_UNFINISHED = 9,     /* a closing 0 is missing: the length; in tables also a prefix not in threes: the prefix's length */
    QDR_MISCOUNT = 10,      /* a token after the last clause, or too few clauses: the token's byte, or the length */
    QDR_NO_TRAILER = 11,    /* a proof file without a right trailer: 0 */
    QDR_OTHER_FORMULA = 12, /* a proof file for another number of clauses: 0 */
    QDR_BROKEN_STEP = 13,   /* a step whose kind is not 1 to 4, or is of the other family than the first step's, or without its
                               closing 0: its clause number */
    QDR_NOT_EARLIER = 14,   /* an antecedent is not from 1 to the step's number less 1: its clause number */
    QDR_WRONG_PIVOT = 15,   /* the pivot, or the literal to reduce, is not as the rule says: its clause number */
    QDR_TAUTOLOGY = 16,     /* the result of kind 1 holds both signs of a variable; in kind 3 the clauses oppose each other, apart
                               from e, on a variable that is not a universal right of e: its clause number */
    QDR_BLOCKED = 17,       /* an existential of the clause to reduce depends on the variable to reduce: its clause number, and of
                               these existentials the one that stands leftmost in the prefix, variable and block */
    QDR_MISSTATED = 18,     /* the literals stated are not the result's: its clause number */
    QDR_NO_CONCLUSION = 19, /* no clause is empty: the last clause number, or 0 */
    QDR_NOT_UNIVERSAL = 20, /* a row asked for what is no universal of the prefix: 0 */
    QDR_AFTERWORD = 23      /* a step behind an empty clause, whatever its words: its clause number */
};

/* Checks the tables of a formula.
 * Returns 0, or a refusal: 2; 9 for a prefix not in threes; 5 or 6 at the first wrong word of the prefix; 5, 7 or 8 at the
 * first wrong clause word; 9.
 * out: the number of variables, which are the prefix's entries, and the number of clauses. */
uint32_t qdr_check_tables(const int32_t *prefix, size_t prefix_length,
                          const int32_t *clauses, size_t clauses_length,
                          uint64_t out[QDR_OUT_LENGTH]);

/* Reads a formula's text (QDIMACS) into the two tables. Variables of the clauses that no set lists are put before the prefix,
 * existential, in rising order; the words used of the prefix count them. Tables handed to other functions are never completed.
 * Returns 0, or a refusal: one of 1 to 6 and 8 to 10.
 * out: the prefix words used (three for each variable), the clause words used, the number of clauses C.
 * The tables hold the words used and then zeros; after a refusal zeros alone. */
uint32_t qdr_read(const uint8_t *text, size_t text_length,
                  int32_t *prefix, size_t prefix_length,
                  int32_t *clauses, size_t clauses_length,
                  uint64_t out[QDR_OUT_LENGTH]);

/* Writes the tables as a text, which qdr_read reads back.
 * Returns 0, or a refusal: those of qdr_check_tables, then 3 where the text is short.
 * out: the bytes used.
 * The text holds the bytes used and then zeros; after a refusal zeros alone. */
uint32_t qdr_write(const int32_t *prefix, size_t prefix_length,
                   const int32_t *clauses, size_t clauses_length,
                   uint8_t *text, size_t text_length,
                   uint64_t out[QDR_OUT_LENGTH]);

/* Says which existentials depend on a universal, which is asked for by its number (positive).
 * Returns 0, or a refusal: those of qdr_check_tables, then 20, then 3 where the row has under QDR_ROW_LENGTH bytes or
 * scratch under QDR_SCRATCH_LENGTH.
 * out: zeros alone.
 * The row holds at v the byte 1 where the variable v depends on the universal, and 0 elsewhere, from QDR_ROW_LENGTH on too;
 * after a refusal zeros alone. Scratch ends as zeros always. */
uint32_t qdr_row(const int32_t *prefix, size_t prefix_length,
                 const int32_t *clauses, size_t clauses_length,
                 int32_t variable,
                 uint8_t *row, size_t row_length,
                 uint8_t *scratch, size_t scratch_length,
                 uint64_t out[QDR_OUT_LENGTH]);

/* qdr_row with less scratch: 3 under QDR_SMALL_SCRATCH_LENGTH bytes of it. All else is as above, so that with
 * QDR_SCRATCH_LENGTH bytes or more both answer the same. */
uint32_t qdr_row_small(const int32_t *prefix, size_t prefix_length,
                       const int32_t *clauses, size_t clauses_length,
                       int32_t variable,
                       uint8_t *row, size_t row_length,
                       uint8_t *scratch, size_t scratch_length,
                       uint64_t out[QDR_OUT_LENGTH]);

/* Reads the step words of a proof file, for a formula of clause_count clauses.
 * Returns 0, or a refusal: 11, 2, 12 or 3.
 * out: the step words.
 * The table holds the step words and then zeros; after a refusal zeros alone. */
uint32_t qdr_read_proof(const uint8_t *file, size_t file_length,
                        uint32_t clause_count,
                        int32_t *steps, size_t steps_length,
                        uint64_t out[QDR_OUT_LENGTH]);

/* Checks a refutation: `1 i j e L.. 0` resolves clauses i and j on e, `2 i a L.. 0` takes the universal literal a out of
 * clause i, and L states the result. `3 i j e L.. 0` and `4 i a L.. 0` are the long-distance kinds: kind 3 resolves as kind 1
 * does, and also where one clause holds a literal and the other its opposite, apart from e, if the variable is a universal right
 * of e; both signs are then in the result. A pair that one clause holds whole, the other neither sign, is no hindrance. Kind 4
 * takes both signs of a's variable out of clause i, a being one that is there.
 * A proof has kinds 1 and 2 alone or 3 and 4 alone, as its first step has. 0 says that the formula is false.
 * Returns 0, or a refusal: those of qdr_check_tables, then 2 for too many step words, 3 for scratch under
 * QDR_SCRATCH_LENGTH bytes or for starts, which needs a word for each clause and each step; for each step 23 behind an empty
 * clause, 13, 3 where it has no start, one of 14 to 18; 19.
 * out: the number of the empty clause, which is the last clause, or without steps the first empty one; the number of steps.
 * Scratch and starts end as zeros always. */
uint32_t qdr_check(const int32_t *prefix, size_t prefix_length,
                   const int32_t *clauses, size_t clauses_length,
                   const int32_t *steps, size_t steps_length,
                   uint8_t *scratch, size_t scratch_length,
                   uint32_t *starts, size_t starts_length,
                   uint64_t out[QDR_OUT_LENGTH]);

/* qdr_check with less scratch: 3 under QDR_SMALL_SCRATCH_LENGTH bytes of it. All else is as above, so that with
 * QDR_SCRATCH_LENGTH bytes or more both answer the same. */
uint32_t qdr_check_small(const int32_t *prefix, size_t prefix_length,
                         const int32_t *clauses, size_t clauses_length,
                         const int32_t *steps, size_t steps_length,
                         uint8_t *scratch, size_t scratch_length,
                         uint32_t *starts, size_t starts_length,
                         uint64_t out[QDR_OUT_LENGTH]);

/* Evaluates a formula of up to 16 variables by playing its game to the end.
 * Returns 0, or a refusal: those of qdr_check_tables, then 2 beyond 16 variables.
 * out: 1 where the formula is true and 0 where it is false. */
uint32_t qdr_evaluate(const int32_t *prefix, size_t prefix_length,
                      const int32_t *clauses, size_t clauses_length,
                      uint64_t out[QDR_OUT_LENGTH]);

/* The line that the first program prints for the bytes of its two files: `accepted V C steps empty`, which says that the formula
 * is false, V being the number of variables; or `refused number word place line column`, for QDR_BLOCKED with variable and block
 * behind it; ended by a line feed. A file of more than file_bound bytes is refused as 2, ahead of all else in it (the program
 * passes 65536). The formula is settled before the proof is looked at.
 * Returns the bytes of the line, or 0 where it does not fit; QDR_LINE_LENGTH bytes always do.
 * The line's buffer holds the line and then zeros, or zeros alone. Every other buffer is room to work in, ends as zeros, and where
 * it is short the line is that of refusal 3. */
size_t qdr_check_line(const uint8_t *formula, size_t formula_length,
                      const uint8_t *proof, size_t proof_length,
                      size_t file_bound,
                      int32_t *prefix, size_t prefix_length,
                      int32_t *clauses, size_t clauses_length,
                      int32_t *steps, size_t steps_length,
                      uint8_t *scratch, size_t scratch_length,
                      uint32_t *starts, size_t starts_length,
                      uint8_t *line, size_t line_length);

/* The text that the second program prints for the bytes of its file: for each universal in prefix order a line of its number, a
 * colon, and its dependents in prefix order, a space before each; or the refused line, as above.
 * Returns the bytes of the text, or 0 where it does not fit; QDR_LINES_LENGTH bytes always do. A formula without universals has
 * no line, so that 0 is then its answer too.
 * The text's buffer holds the text and then zeros, or zeros alone. Every other buffer is as above. */
size_t qdr_dependency_lines(const uint8_t *formula, size_t formula_length,
                            size_t file_bound,
                            int32_t *prefix, size_t prefix_length,
                            int32_t *clauses, size_t clauses_length,
                            uint8_t *scratch, size_t scratch_length,
                            uint8_t *text, size_t text_length);

#ifdef __cplusplus
}
#endif

#endif
