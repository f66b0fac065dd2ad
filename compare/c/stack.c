/* How much stack each call takes: it is made on a stack that was painted, and the deepest byte that it changed is looked for. What the
 * same takes without the call is subtracted.
 *
 *   stack < crates/vectors/stdout
 *
 * The lines are one in four of the recorded calls', and long ones of each kind of span. Status 1 where a call takes more than CONSOLE_STACK. */
#define _XOPEN_SOURCE 700
#include <stdio.h>
#include <stdlib.h>
#include <string.h>
#include <ucontext.h>

#include "console_lines.h"

#define PAINT 0xA5
static uint8_t stack[4 * CONSOLE_STACK];

static uint8_t line[CONSOLE_LINE_MAX + 1], conv[CONSOLE_CONV_SIZE(CONSOLE_LINE_MAX)], list[CONSOLE_LIST_SIZE(CONSOLE_LINE_MAX)];
static uint8_t out[CONSOLE_CELLS_SIZE(CONSOLE_LINE_MAX, CONSOLE_LIST_SIZE(CONSOLE_LINE_MAX))];
static console_span spans[CONSOLE_SPANS_SIZE(CONSOLE_LINE_MAX)];
static size_t rows[CONSOLE_ROWS_SIZE(CONSOLE_LINE_MAX)], wraps[CONSOLE_WRAPS], n, list_len, width, mode;
static const size_t matches[] = {0, 0, 0, 1, 1, 2};

#define LINE line, n
#define READ conv, sizeof conv, spans, sizeof spans / sizeof spans[0]
#define ROWS rows, sizeof rows / sizeof rows[0]
#define MATCHES matches, sizeof matches / sizeof matches[0]

static void nothing(void) {}
static void convert(void) { console_convert(LINE, conv, sizeof conv); }
static void read_plain(void) { console_read(LINE, NULL, 0, READ); }
static void read_matches(void) { console_read(LINE, MATCHES, READ); }
static void wrap(void) { console_rows(LINE, width, mode, READ, ROWS); }
static void height(void) { console_height(LINE, width, mode, READ); }
static void narrowest(void) { console_narrowest(LINE, 1 + mode % 2, 1, 20, READ); }
static void cached_rows(void) { console_cached_rows(LINE, width, mode, wraps, READ, ROWS); }
static void cached_height(void) { console_cached_height(LINE, width, mode, wraps, READ); }
static void window(void) { list_len = console_draw_window(CONSOLE_BENCH, LINE, NULL, 0, 0, width % 3, 80, READ, list, sizeof list).count; }
static void window_matches(void) { console_draw_window(CONSOLE_CREW, LINE, MATCHES, 1, 0, 80, READ, list, sizeof list); }
static void row(void) { list_len = console_draw_row(CONSOLE_BENCH, LINE, NULL, 0, 0, 0, 3, width, mode, READ, list, sizeof list).count; }
static void row_matches(void) { console_draw_row(CONSOLE_CREW, LINE, MATCHES, 1, 0, 3, width, mode, READ, list, sizeof list); }
static void screen_row(void) { console_screen_row(list, list_len, CONSOLE_SCREEN_WIDTH_MAX, out, sizeof out); }
static void store(void) { console_store(list, list_len, out, sizeof out); }
static void restore(void) { console_restore(list, list_len, out, sizeof out); }
static void write_cells(void) { console_write_cells(LINE, out, sizeof out); }

/* Each call behind those that leave what it reads. */
static struct call {
    const char *name;
    void (*make)(void);
    size_t deepest;
} calls[] = {
    {"nothing", nothing, 0},       {"console_convert", convert, 0},         {"console_read", read_plain, 0},
    {"console_read", read_matches, 0},  {"console_rows", wrap, 0},          {"console_height", height, 0},
    {"console_narrowest", narrowest, 0}, {"console_cached_rows", cached_rows, 0}, {"console_cached_height", cached_height, 0},
    {"console_draw_window", window_matches, 0}, {"console_draw_window", window, 0}, {"console_screen_row", screen_row, 0},
    {"console_draw_row", row_matches, 0}, {"console_draw_row", row, 0},     {"console_screen_row", screen_row, 0},
    {"console_store", store, 0},   {"console_restore", restore, 0},         {"console_write_cells", write_cells, 0},
};
#define CALLS (sizeof calls / sizeof calls[0])

static ucontext_t here, there;

/* The bytes that a function takes on a stack of its own. */
static size_t taken(void (*make)(void)) {
    size_t untouched = 0;
    memset(stack, PAINT, sizeof stack);
    getcontext(&there);
    there.uc_stack.ss_sp = stack;
    there.uc_stack.ss_size = sizeof stack;
    there.uc_link = &here;
    makecontext(&there, make, 0);
    swapcontext(&here, &there);
    while (untouched < sizeof stack && stack[untouched] == PAINT)
        untouched++;
    return sizeof stack - untouched;
}

static void make_calls(void) {
    memset(wraps, 0, sizeof wraps);
    for (size_t i = 0; i < CALLS; i++) {
        size_t bytes = taken(calls[i].make);
        if (bytes > calls[i].deepest)
            calls[i].deepest = bytes;
    }
}

/* The line of a recorded call, its second field. */
static void recorded_line(const char *text) {
    const char *field = strchr(text, ' ');
    unsigned byte;
    for (n = 0; field != NULL && n < sizeof line && sscanf(field + 1 + 2 * n, "%2x", &byte) == 1 && field[1] != '-'; n++)
        line[n] = (uint8_t)byte;
}

static void long_line(const char *pattern) {
    for (n = 0; n < CONSOLE_LINE_MAX; n++)
        line[n] = (uint8_t)pattern[n % strlen(pattern)];
}

int main(void) {
    static const char *const patterns[] = {"a", "a b-", "\t\xFF", "_\ba\baab\bb", "\x1B[1;38;5;9mx\x1B[m", "\x1B]8;;u\a\x1B(0q", "\xCC\x81\b", "\xE1\x84\x80", "a\3"};
    char *text = NULL;
    size_t room = 0, lines = 0, most = 0;
    for (size_t p = 0; p < sizeof patterns / sizeof patterns[0]; p++)
        for (mode = 0; mode <= 4; mode++, lines++) {
            width = 80;
            long_line(patterns[p]);
            make_calls();
        }
    for (size_t recorded = 0; getline(&text, &room, stdin) >= 0; recorded++)
        if (recorded % 4 == 0) {
            recorded_line(text);
            width = lines % 20;
            mode = lines % 5;
            make_calls();
            lines++;
        }
    free(text);
    for (size_t i = 1; i < CALLS; i++) {
        size_t bytes = calls[i].deepest - calls[0].deepest;
        printf("%-22s %6zu\n", calls[i].name, bytes);
        most = bytes > most ? bytes : most;
    }
    printf("the most is %zu bytes, on %zu lines\n", most, lines);
    return most > CONSOLE_STACK;
}
