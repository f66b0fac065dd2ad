/* The part of bench/peers that is C: a task on the line that a file holds, by the static library or by a peer.
 *
 *   peers TASK FILE     prints the nanoseconds of processor time of one run, the least of seven samples of 10 ms,
 *                       and what the task counted
 *   peers versions      prints the peers' versions */
#include <stdio.h>
#include <stdlib.h>
#include <string.h>
#include <time.h>
#include <unicode/ubrk.h>
#include <unicode/utext.h>
#include <unigbrk.h>
#include <unilbrk.h>
#include <unistr.h>
#include <unistring/version.h>
#include <uniwidth.h>
#include <utf8proc.h>

#include "../include/console_lines.h"

static uint8_t line[CONSOLE_LINE_MAX];
static size_t line_len;

/* Lent to the library: just enough for each line. */
static uint8_t conv[CONSOLE_CONV_SIZE(CONSOLE_LINE_MAX)];
static console_span spans[CONSOLE_SPANS_SIZE(CONSOLE_LINE_MAX)];
static size_t rows[CONSOLE_ROWS_SIZE(CONSOLE_LINE_MAX)];
static size_t conv_len, spans_len, rows_len;

static size_t library_read(void) {
    return console_read(line, line_len, NULL, 0, conv, conv_len, spans, spans_len).count;
}

static size_t library_rows(void) {
    return console_rows(line, line_len, 80, CONSOLE_BY_WORDS, conv, conv_len, spans, spans_len, rows, rows_len).count;
}

/* The line's columns, as wrapping counts them. */
static size_t library_columns(void) {
    console_rows(line, line_len, CONSOLE_WIDTH_MAX, CONSOLE_BY_CLUSTERS, conv, conv_len, spans, spans_len, rows, rows_len);
    return rows[1];
}

static void lend(void) {
    conv_len = CONSOLE_CONV_SIZE(line_len);
    spans_len = CONSOLE_SPANS_SIZE(line_len);
    rows_len = CONSOLE_ROWS_SIZE(line_len);
    size_t n = library_read(), m = library_rows();
    spans_len = n;
    rows_len = 2 * m;
}

/* Scalars one after the other; a damaged byte is passed over and counts as a cluster of four columns, `<FF>`. */
static size_t utf8proc_walk(int columns) {
    size_t count = 0, at = 0;
    utf8proc_int32_t before = 0, state = 0;
    while (at < line_len) {
        utf8proc_int32_t scalar;
        utf8proc_ssize_t n = utf8proc_iterate(line + at, line_len - at, &scalar);
        if (n < 0) {
            count += columns ? 4 : 1;
            at++;
            before = 0, state = 0;
            continue;
        }
        if (columns)
            count += utf8proc_charwidth(scalar);
        else
            count += before == 0 || utf8proc_grapheme_break_stateful(before, scalar, &state);
        before = scalar;
        at += n;
    }
    return count;
}

static size_t utf8proc_clusters(void) { return utf8proc_walk(0); }
static size_t utf8proc_columns(void) { return utf8proc_walk(1); }

/* ICU takes a damaged byte for U+FFFD. */
static UBreakIterator *breaks;
static UText text = UTEXT_INITIALIZER;

static size_t icu_clusters(void) {
    UErrorCode error = U_ZERO_ERROR;
    utext_openUTF8(&text, (const char *)line, line_len, &error);
    ubrk_setUText(breaks, &text, &error);
    size_t count = 0;
    while (ubrk_next(breaks) != UBRK_DONE)
        count++;
    return U_SUCCESS(error) ? count : 0;
}

/* libunistring wants well-formed text; a damaged byte gives whatever it gives. */
static char marks[CONSOLE_LINE_MAX];

static size_t unistring_clusters(void) {
    u8_grapheme_breaks(line, line_len, marks);
    size_t count = 0;
    for (size_t i = 0; i < line_len; i++)
        count += marks[i] == 1;
    return count;
}

static size_t unistring_columns(void) { return u8_width(line, line_len, "UTF-8"); }

/* Line breaks of UAX #14 at 80 columns. */
static size_t unistring_rows(void) {
    u8_width_linebreaks(line, line_len, 80, 0, 0, NULL, "UTF-8", marks);
    size_t count = 1;
    for (size_t i = 0; i + 1 < line_len; i++)
        count += marks[i] == UC_BREAK_POSSIBLE || marks[i] == UC_BREAK_MANDATORY;
    return count;
}

static const struct {
    const char *name;
    size_t (*run)(void);
} tasks[] = {
    {"read", library_read},
    {"rows", library_rows},
    {"columns", library_columns},
    {"utf8proc-clusters", utf8proc_clusters},
    {"utf8proc-columns", utf8proc_columns},
    {"icu-clusters", icu_clusters},
    {"unistring-clusters", unistring_clusters},
    {"unistring-columns", unistring_columns},
    {"unistring-rows", unistring_rows},
};

static double processor_time(void) {
    struct timespec t;
    clock_gettime(CLOCK_PROCESS_CPUTIME_ID, &t);
    return t.tv_sec * 1e9 + t.tv_nsec;
}

static double sample(size_t (*run)(void), long runs) {
    volatile size_t kept = 0;
    double start = processor_time();
    for (long i = 0; i < runs; i++)
        kept += run();
    return (processor_time() - start) / runs;
}

static double least(size_t (*run)(void)) {
    long runs = 1;
    while (sample(run, runs) * runs < 1e7)
        runs *= 2;
    double best = sample(run, runs);
    for (int i = 1; i < 7; i++) {
        double time = sample(run, runs);
        best = time < best ? time : best;
    }
    return best;
}

static int versions(void) {
    UVersionInfo unicode;
    char text[U_MAX_VERSION_STRING_LENGTH];
    u_getUnicodeVersion(unicode);
    u_versionToString(unicode, text);
    printf("utf8proc %s (Unicode %s), ICU %s (Unicode %s), libunistring %d.%d\n", utf8proc_version(), utf8proc_unicode_version(),
           U_ICU_VERSION, text, _libunistring_version >> 16, _libunistring_version >> 8 & 255);
    return 0;
}

int main(int argc, char **argv) {
    if (argc == 2 && strcmp(argv[1], "versions") == 0)
        return versions();
    FILE *file = argc == 3 ? fopen(argv[2], "rb") : NULL;
    if (file == NULL) {
        fprintf(stderr, "usage: peers TASK FILE\n");
        return 2;
    }
    line_len = fread(line, 1, sizeof line, file);
    fclose(file);
    UErrorCode error = U_ZERO_ERROR;
    breaks = ubrk_open(UBRK_CHARACTER, "", NULL, 0, &error);
    lend();
    for (size_t i = 0; i < sizeof tasks / sizeof *tasks; i++)
        if (strcmp(tasks[i].name, argv[1]) == 0) {
            if (tasks[i].run == library_columns)
                rows_len = CONSOLE_ROWS_SIZE(line_len);
            size_t count = tasks[i].run();
            printf("%.0f %zu\n", least(tasks[i].run), count);
            return 0;
        }
    fprintf(stderr, "peers: no task %s\n", argv[1]);
    return 2;
}
