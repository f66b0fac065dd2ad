/* Converts, reads, wraps and draws each line of the files, or of standard input, and prints what the calls leave.
 *
 *   lines WIDTH MODE [FILE ..]
 *
 *   NUMBER: BYTES bytes, N spans, N rows, N bytes of changes     (FILE:NUMBER: where files are named)
 *     span KIND PLACE LENGTH: its bytes of the converted line
 *     row START END
 *     drawn: the texts of the change list
 *   NUMBER: refused NUMBER: why
 *
 * A line is of any bytes and any length, its newline included. Where one is refused, the next one follows. Bytes that are not
 * 20 to 7E, and 5C, are printed as \xhh. Status 1 where a file cannot be read, 2 for other arguments. */
#define _POSIX_C_SOURCE 200809L
#include <stdio.h>
#include <stdlib.h>
#include <string.h>

#include "console_lines.h"

/* Lent to every call: enough for the longest line. */
static uint8_t conv[CONSOLE_CONV_SIZE(CONSOLE_LINE_MAX)], list[CONSOLE_LIST_SIZE(CONSOLE_LINE_MAX)];
static console_span spans[CONSOLE_SPANS_SIZE(CONSOLE_LINE_MAX)];
static size_t rows[CONSOLE_ROWS_SIZE(CONSOLE_LINE_MAX)];

/* The refusal that ended the calls, or the count of each. */
struct counts {
    size_t refusal, bytes, spans, rows, changes;
};

/* Each call is lent what is enough for this line, since it writes all that it is lent. */
static struct counts make_calls(const uint8_t *line, size_t len, size_t width, size_t mode) {
    size_t n = len < CONSOLE_LINE_MAX ? len : CONSOLE_LINE_MAX;
    size_t conv_len = CONSOLE_CONV_SIZE(n), spans_len = CONSOLE_SPANS_SIZE(n);
    struct counts c = {0, 0, 0, 0, 0};
    console_answer a = console_convert(line, len, conv, conv_len);
    c.bytes = a.count;
    if (a.number == CONSOLE_ACCEPTED) {
        a = console_read(line, len, NULL, 0, conv, conv_len, spans, spans_len);
        c.spans = a.count;
    }
    if (a.number == CONSOLE_ACCEPTED) {
        a = console_rows(line, len, width, mode, conv, conv_len, spans, spans_len, rows, CONSOLE_ROWS_SIZE(n));
        c.rows = a.count;
    }
    if (a.number == CONSOLE_ACCEPTED) {
        a = console_draw_row(CONSOLE_BENCH, line, len, NULL, 0, CONSOLE_NO_MATCH, 0, c.rows, width, mode, conv, conv_len, spans, spans_len, list, CONSOLE_LIST_SIZE(n));
        c.changes = a.count;
    }
    c.refusal = a.number;
    return c;
}

static void print_bytes(const uint8_t *bytes, size_t len) {
    for (size_t i = 0; i < len; i++)
        printf(bytes[i] >= 0x20 && bytes[i] <= 0x7E && bytes[i] != '\\' ? "%c" : "\\x%02x", bytes[i]);
}

/* A little-endian number of the change list. */
static size_t number_at(const uint8_t *bytes, size_t len) { return len == 0 ? 0 : bytes[0] + 256 * number_at(bytes + 1, len - 1); }

/* The texts of a change list, one behind the other. */
static void print_texts(size_t changes) {
    for (size_t at = 0, body; at < changes; at += CONSOLE_CHANGE_HEAD + body) {
        body = number_at(list + at, 4);
        if (number_at(list + at + 4, 2) == CONSOLE_CHANGE_TEXT)
            print_bytes(list + at + CONSOLE_CHANGE_HEAD, body);
    }
}

static void print_line(struct counts c) {
    printf("%zu bytes, %zu spans, %zu rows, %zu bytes of changes\n", c.bytes, c.spans, c.rows, c.changes);
    for (size_t i = 0; i < c.spans; i++) {
        printf("  span %zu %zu %zu: ", spans[i].kind, spans[i].place, spans[i].len);
        print_bytes(conv + spans[i].place, spans[i].len);
        printf("\n");
    }
    for (size_t i = 0; i < c.rows; i++)
        printf("  row %zu %zu\n", rows[2 * i], rows[2 * i + 1]);
    printf("  drawn: ");
    print_texts(c.changes);
    printf("\n");
}

/* The lines of a file; its name is NULL for standard input. Whether it could be read. */
static int print_lines(FILE *file, const char *name, size_t width, size_t mode) {
    char *line = NULL;
    size_t room = 0;
    ssize_t len;
    for (size_t number = 1; (len = getline(&line, &room, file)) >= 0; number++) {
        struct counts c = make_calls((const uint8_t *)line, (size_t)len, width, mode);
        printf("%s%s%zu: ", name == NULL ? "" : name, name == NULL ? "" : ":", number);
        if (c.refusal == CONSOLE_ACCEPTED)
            print_line(c);
        else
            printf("refused %zu: %s\n", c.refusal, console_refusal_words(c.refusal));
    }
    free(line);
    return !ferror(file);
}

static int print_file(const char *name, size_t width, size_t mode) {
    FILE *file = fopen(name, "rb");
    int read = file != NULL && print_lines(file, name, width, mode);
    if (!read)
        fprintf(stderr, "lines: %s: cannot be read\n", name);
    if (file != NULL)
        fclose(file);
    return read;
}

static int is_number(const char *text) { return *text != 0 && text[strspn(text, "0123456789")] == 0; }

int main(int argc, char **argv) {
    int status = 0;
    if (argc < 3 || !is_number(argv[1]) || !is_number(argv[2])) {
        fprintf(stderr, "lines WIDTH MODE [FILE ..]\n");
        return 2;
    }
    size_t width = strtoull(argv[1], NULL, 10), mode = strtoull(argv[2], NULL, 10);
    if (argc == 3 && !print_lines(stdin, NULL, width, mode)) {
        fprintf(stderr, "lines: standard input cannot be read\n");
        status = 1;
    }
    for (int i = 3; i < argc; i++)
        if (!print_file(argv[i], width, mode))
            status = 1;
    if (fflush(stdout) != 0) {
        perror("lines: standard output");
        status = 1;
    }
    return status;
}
