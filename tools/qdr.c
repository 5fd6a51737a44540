/* qdr: the two programs on files of any name and with all the room that the bounds of the specification ask for.
 *
 *     qdr check FORMULA PROOF     prints `accepted V C steps empty` or `refused number word place line column`, and behind
 *                                 that of a blocked reduction the variable that blocks it and its block
 *     qdr deps FORMULA            prints each universal and its dependents, or the refused line
 *
 * Here files are read and room is lent; every byte on standard output was put there by a proved function (qdr.h).
 * A formula is read up to its end or up to QDR_MAX_TEXT + 1 bytes: so many are refused as 2, whatever they are and whatever
 * follows, so that the line is that of the whole file. A proof is read up to its end, since its note may have any length.
 * Exit status: 0 accepted, or dependencies printed; 1 refused; 2 trouble, told on standard error: wrong usage, a file
 * that cannot be read so far, no memory, standard output that cannot be written. */
#include "qdr.h"

#include <errno.h>
#include <stdio.h>
#include <stdlib.h>
#include <string.h>

enum { ACCEPTED = 0, REFUSED = 1, TROUBLE = 2 };

/* The most bytes that are read of a formula and of a proof. */
static const size_t formula_limit = QDR_MAX_TEXT + 1;
static const size_t proof_limit = SIZE_MAX;

/* A file's bytes; never a null pointer, once read. */
struct file {
    uint8_t *bytes;
    size_t length;
};

/* The room lent. A step has at least four words, so `starts` holds every clause and step within the bounds. */
static int32_t prefix[QDR_MAX_PREFIX_WORDS];
static int32_t clauses[QDR_MAX_CLAUSE_WORDS];
static int32_t steps[QDR_MAX_STEP_WORDS];
static uint8_t scratch[QDR_SCRATCH_LENGTH];
static uint32_t starts[QDR_MAX_NUMBERED];
static uint8_t line[QDR_LINE_LENGTH];
static uint8_t lines[QDR_LINES_LENGTH];

static int trouble(const char *what, const char *why) {
    fprintf(stderr, "qdr: %s: %s\n", what, why);
    return TROUBLE;
}

/* Doubles the room for a file's bytes, `room` being what there is; 0 where there is no memory for it. */
static int grow(struct file *file, size_t *room) {
    size_t more = *room == 0 ? 65536 : 2 * *room;
    uint8_t *bytes = more > *room ? realloc(file->bytes, more) : NULL;
    if (bytes == NULL) {
        return 0;
    }
    file->bytes = bytes;
    *room = more;
    return 1;
}

/* Reads a stream up to its end, or until there are `limit` bytes. Answers 0, or an error's number. */
static int read_stream(FILE *stream, size_t limit, struct file *file) {
    size_t room = 0;
    while (file->length < limit) {
        if (file->length == room && !grow(file, &room)) {
            return ENOMEM;
        }
        size_t end = room < limit ? room : limit;
        errno = 0;
        file->length += fread(file->bytes + file->length, 1, end - file->length, stream);
        if (ferror(stream)) {
            return errno != 0 ? errno : EIO;
        }
        if (feof(stream)) {
            return 0;
        }
    }
    return 0;
}

/* Reads a file: its end was seen, or there are `limit` bytes, or it is trouble. Answers 0 or TROUBLE. */
static int read_file(const char *path, size_t limit, struct file *file) {
    FILE *stream = fopen(path, "rb");
    if (stream == NULL) {
        return trouble(path, strerror(errno));
    }
    int error = read_stream(stream, limit, file);
    fclose(stream);
    return error == 0 ? 0 : trouble(path, strerror(error));
}

/* Prints what a proved function put into `text`. A refused line is told by its first byte: other lines begin with
 * `accepted` or a number, and no dependencies at all are no bytes. */
static int print(const uint8_t *text, size_t length) {
    errno = 0;
    if (fwrite(text, 1, length, stdout) != length || fclose(stdout) != 0) {
        return trouble("standard output", errno != 0 ? strerror(errno) : "not written");
    }
    return length > 0 && text[0] == 'r' ? REFUSED : ACCEPTED;
}

/* The line for a formula and a proof; files of any length are taken, and the bounds on their contents refuse. */
static int check(const struct file *formula, const struct file *proof) {
    size_t length = qdr_check_line(formula->bytes, formula->length, proof->bytes, proof->length, SIZE_MAX,
                                   prefix, QDR_MAX_PREFIX_WORDS, clauses, QDR_MAX_CLAUSE_WORDS,
                                   steps, QDR_MAX_STEP_WORDS, scratch, QDR_SCRATCH_LENGTH,
                                   starts, QDR_MAX_NUMBERED, line, QDR_LINE_LENGTH);
    if (length == 0) {
        return trouble("the line", "does not fit its buffer");
    }
    return print(line, length);
}

static int deps(const struct file *formula) {
    size_t length = qdr_dependency_lines(formula->bytes, formula->length, SIZE_MAX,
                                         prefix, QDR_MAX_PREFIX_WORDS, clauses, QDR_MAX_CLAUSE_WORDS,
                                         scratch, QDR_SCRATCH_LENGTH, lines, QDR_LINES_LENGTH);
    return print(lines, length);
}

/* Reads the files named and runs the command: `proof_path` is NULL for dependencies. */
static int run(const char *formula_path, const char *proof_path) {
    struct file formula = {NULL, 0};
    struct file proof = {NULL, 0};
    int status = read_file(formula_path, formula_limit, &formula);
    if (status == 0 && proof_path != NULL) {
        status = read_file(proof_path, proof_limit, &proof);
    }
    if (status == 0) {
        status = proof_path != NULL ? check(&formula, &proof) : deps(&formula);
    }
    free(formula.bytes);
    free(proof.bytes);
    return status;
}

int main(int count, char **arguments) {
    if (count == 4 && strcmp(arguments[1], "check") == 0) {
        return run(arguments[2], arguments[3]);
    }
    if (count == 3 && strcmp(arguments[1], "deps") == 0) {
        return run(arguments[2], NULL);
    }
    fputs("usage: qdr check FORMULA PROOF\n       qdr deps FORMULA\n", stderr);
    return TROUBLE;
}
