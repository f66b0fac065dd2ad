/* Lends each call just what the header says is always enough, on short and hostile lines, and looks for the largest need that is met.
 * What is lent ends at a page that may not be touched.
 *
 *   sizes SEED RANDOM_LINES [LESS]
 *
 * Prints, for each size, the call that comes closest to it by what is left over and by its share of the size. Status 1 where a call
 * is refused for want of room. With LESS, a planted fault, so many items fewer are lent. */
#define _DEFAULT_SOURCE
#include <stdio.h>
#include <stdlib.h>
#include <string.h>
#include <sys/mman.h>
#include <unistd.h>

#include "console_lines.h"

/* ---- what was met */

/* A line: a pattern, repeated to n bytes. */
struct line {
    uint8_t bytes[CONSOLE_LINE_MAX];
    size_t n, pattern;
};

struct met {
    size_t need, size, n, pattern;
    uint8_t bytes[40];
    char call[80];
};

enum bound { CONV, SPANS, ROWS, LIST, COLUMNS, CELLS, STORED, RESTORED, WRITTEN, BOUNDS };
static const char *const names[BOUNDS] = {"CONV", "SPANS", "ROWS", "LIST", "COLUMNS", "CELLS", "STORED", "RESTORED", "WRITTEN"};
static struct met least_left[BOUNDS], largest_share[BOUNDS];
static size_t tried[BOUNDS], too_short[BOUNDS], less;

/* What is lent, of a size that is said to be enough. */
static size_t lend(size_t size) { return size > less ? size - less : 0; }

static void keep(struct met *m, size_t need, size_t size, const struct line *line, const char *call) {
    m->need = need;
    m->size = size;
    m->n = line->n;
    m->pattern = line->pattern;
    memcpy(m->bytes, line->bytes, sizeof m->bytes);
    snprintf(m->call, sizeof m->call, "%s", call);
}

static int is_for_room(size_t number) {
    return number == CONSOLE_CONV_TOO_SHORT || number == CONSOLE_SPANS_TOO_FEW || number == CONSOLE_ROWS_TOO_FEW ||
           number == CONSOLE_OUTPUT_TOO_SHORT || number == CONSOLE_REPORT_TOO_SHORT;
}

/* A call that was lent so much and needs so much; one that needs nothing comes close to nothing. */
static void note(enum bound b, console_answer a, size_t need, size_t size, const struct line *line, const char *call) {
    struct met *left = &least_left[b], *share = &largest_share[b];
    tried[b]++;
    if (is_for_room(a.number) && too_short[b]++ == 0)
        printf("TOO SHORT: CONSOLE_%s_SIZE, %s: %zu, refused %zu\n", names[b], call, lend(size), a.number);
    if (need == 0)
        return;
    if (left->size == 0 || size - need <= left->size - left->need)
        keep(left, need, size, line, call);
    if (share->size == 0 || (double)need / (double)size >= (double)share->need / (double)share->size)
        keep(share, need, size, line, call);
}

static void print_met(const char *what, const struct met *m) {
    size_t shown = m->pattern < sizeof m->bytes ? m->pattern : sizeof m->bytes;
    printf("  %s: %zu of %zu, %s, %zu bytes of ", what, m->need, m->size, m->call, m->n);
    for (size_t i = 0; i < shown; i++)
        printf("%02X ", m->bytes[i]);
    printf(shown < m->pattern ? "..\n" : "\n");
}

/* ---- the calls, lent just what is said */

static uint8_t *line_end, *conv_end, *list_end, *given_end, *stored_end, *out_end;
static console_span *spans_end;
static size_t *rows_end, *matches_end;

/* The end of memory for so many bytes. */
static void *fenced(size_t bytes) {
    size_t page = (size_t)sysconf(_SC_PAGESIZE), inner = (bytes / page + 1) * page;
    uint8_t *pages = (uint8_t *)mmap(NULL, inner + page, PROT_READ | PROT_WRITE, MAP_PRIVATE | MAP_ANONYMOUS, -1, 0);
    if (pages == MAP_FAILED || mprotect(pages + inner, page, PROT_NONE) != 0) {
        perror("mmap");
        exit(2);
    }
    return pages + inner;
}

static void fence(void) {
    size_t list = CONSOLE_LIST_SIZE(CONSOLE_LINE_MAX);
    line_end = fenced(CONSOLE_LINE_MAX);
    conv_end = fenced(CONSOLE_CONV_SIZE(CONSOLE_LINE_MAX));
    spans_end = fenced(CONSOLE_SPANS_SIZE(CONSOLE_LINE_MAX) * sizeof(console_span));
    rows_end = fenced(CONSOLE_ROWS_SIZE(CONSOLE_LINE_MAX) * sizeof(size_t));
    matches_end = fenced(2 * CONSOLE_CONV_SIZE(CONSOLE_LINE_MAX) * sizeof(size_t));
    list_end = fenced(list);
    given_end = fenced(list);
    stored_end = fenced(CONSOLE_STORED_SIZE(list));
    out_end = fenced(CONSOLE_CELLS_SIZE(CONSOLE_SCREEN_WIDTH_MAX, list));
}

/* Pointer and length of what is lent. */
#define LENT(end, len) (end) - (len), (len)
#define LINE LENT(line_end, line->n)
#define CONVERTED LENT(conv_end, CONSOLE_CONV_SIZE(line->n))
#define READ CONVERTED, LENT(spans_end, CONSOLE_SPANS_SIZE(line->n))

/* From a change list: its cells in a row of so many columns, its stored form, and that restored. */
static void receive(const struct line *line, const uint8_t *list, size_t len, size_t width, const char *call) {
    size_t cells = lend(CONSOLE_CELLS_SIZE(width, len)), short_form = lend(CONSOLE_STORED_SIZE(len));
    console_answer a;
    memmove(given_end - len, list, len);
    if (width >= 1 && width <= CONSOLE_SCREEN_WIDTH_MAX) {
        a = console_screen_row(LENT(given_end, len), width, LENT(out_end, cells));
        note(CELLS, a, a.count, CONSOLE_CELLS_SIZE(width, len), line, call);
    }
    a = console_store(LENT(given_end, len), LENT(stored_end, short_form));
    note(STORED, a, a.count, CONSOLE_STORED_SIZE(len), line, call);
    size_t stored = a.count, restored = lend(CONSOLE_RESTORED_SIZE(stored));
    memmove(stored_end - stored, stored_end - short_form, stored);
    a = console_restore(LENT(stored_end, stored), LENT(out_end, restored));
    note(RESTORED, a, a.count, CONSOLE_RESTORED_SIZE(stored), line, call);
}

static void window(const struct line *line, size_t matches_len, size_t start, size_t end) {
    char call[80];
    snprintf(call, sizeof call, "draw_window %zu to %zu, %zu matches", start, end, matches_len / 2);
    size_t columns = end - start, size = CONSOLE_COLUMNS_SIZE(line->n, columns), lent = lend(size);
    console_answer a = console_draw_window(CONSOLE_BENCH, LINE, LENT(matches_end, matches_len), 0, start, end, READ, LENT(list_end, lent));
    note(columns < line->n ? COLUMNS : LIST, a, a.count, size, line, call);
    if (a.number == CONSOLE_ACCEPTED)
        receive(line, list_end - lent, a.count, columns < 4096 ? columns : 4096, call);
}

/* The columns of some rows, from the first one's start to the last one's end; none where there is no such row. */
static size_t columns_of(const struct line *line, size_t first, size_t count, size_t width, size_t mode) {
    size_t len = CONSOLE_ROWS_SIZE(line->n), *rows = rows_end - len;
    console_answer a = console_rows(LINE, width, mode, READ, rows, len);
    size_t last = first + count < a.count ? first + count - 1 : a.count - 1;
    return first < a.count ? rows[2 * last + 1] - rows[2 * first] : 0;
}

static void drawn_rows(const struct line *line, size_t matches_len, size_t first, size_t count, size_t width, size_t mode) {
    char call[80];
    snprintf(call, sizeof call, "draw_row %zu, %zu rows, width %zu, mode %zu, %zu matches", first, count, width, mode, matches_len / 2);
    size_t size = CONSOLE_LIST_SIZE(line->n), lent = lend(size);
    console_answer a = console_draw_row(CONSOLE_BENCH, LINE, LENT(matches_end, matches_len), 0, first, count, width, mode, READ, LENT(list_end, lent));
    note(LIST, a, a.count, size, line, call);
    if (matches_len > 0 || a.number != CONSOLE_ACCEPTED)
        return;
    size_t columns = columns_of(line, first, count, width, mode);
    size = CONSOLE_COLUMNS_SIZE(line->n, columns);
    lent = lend(size);
    a = console_draw_row(CONSOLE_BENCH, LINE, NULL, 0, 0, first, count, width, mode, READ, LENT(list_end, lent));
    note(columns < line->n ? COLUMNS : LIST, a, a.count, size, line, call);
    receive(line, list_end - lent, a.count, columns, call);
}

/* The bytes of the text searched: the largest end of a match that is not refused. */
static size_t searched(const struct line *line) {
    size_t end = 0, above = console_convert(LINE, CONVERTED).count + 1;
    while (end + 1 < above) {
        size_t whole[2] = {0, end + (above - end) / 2};
        if (console_read(LINE, whole, 2, READ).number == CONSOLE_MATCHES_NOT_IN_ORDER)
            above = whole[1];
        else
            end = whole[1];
    }
    return end;
}

/* Matches of one byte each, one of so many bytes; how many numbers they are. */
static size_t each_byte(const struct line *line, size_t step) {
    size_t end = searched(line), len = 2 * ((end + step - 1) / step), *at = matches_end - len;
    for (size_t i = 0; i < end; i += step) {
        *at++ = i;
        *at++ = i + 1;
    }
    return len;
}

static void wrap(const struct line *line, size_t width, size_t mode) {
    char call[80];
    snprintf(call, sizeof call, "rows, width %zu, mode %zu", width, mode);
    size_t size = CONSOLE_ROWS_SIZE(line->n), lent = lend(size);
    console_answer a = console_rows(LINE, width, mode, READ, LENT(rows_end, lent));
    note(ROWS, a, 2 * a.count, size, line, call);
}

static void read_spans(const struct line *line, size_t matches_len) {
    char call[80];
    snprintf(call, sizeof call, "read, %zu matches", matches_len / 2);
    size_t size = CONSOLE_SPANS_SIZE(line->n), lent = lend(size);
    console_answer a = console_read(LINE, LENT(matches_end, matches_len), CONVERTED, LENT(spans_end, lent));
    note(SPANS, a, a.count, size, line, call);
}

/* Conversion, reading and wrapping: what depends on what conversion adds. */
static void try_reading(const struct line *line) {
    size_t lent = lend(CONSOLE_CONV_SIZE(line->n));
    memcpy(line_end - line->n, line->bytes, line->n);
    console_answer a = console_convert(LINE, LENT(conv_end, lent));
    note(CONV, a, a.count, CONSOLE_CONV_SIZE(line->n), line, "convert");
    read_spans(line, 0);
    for (size_t step = 1; step <= 2; step++)
        read_spans(line, each_byte(line, step));
    for (size_t mode = 1; mode <= 4; mode++)
        wrap(line, 0, mode);
}

static void try_drawing(const struct line *line) {
    static const size_t windows[][2] = {{0, CONSOLE_WINDOW_MAX}, {1, CONSOLE_WINDOW_MAX}, {0, 1}, {0, 2}, {1, 4}, {3, 11}, {0, 80}, {1, 81}, {0, 4096}};
    static const size_t widths[] = {1, 2, 4, 8, 80};
    memcpy(line_end - line->n, line->bytes, line->n);
    for (size_t step = 0; step <= 2; step++) {
        size_t len = step == 0 ? 0 : each_byte(line, step);
        for (size_t i = 0; i < sizeof windows / sizeof windows[0]; i++)
            window(line, len, windows[i][0], windows[i][1]);
        drawn_rows(line, len, 0, 1, 0, 0);
    }
    for (size_t mode = 1; mode <= 4; mode++)
        for (size_t i = 0; i < sizeof widths / sizeof widths[0]; i++) {
            wrap(line, widths[i], mode);
            drawn_rows(line, 0, 0, 65535, widths[i], mode);
            drawn_rows(line, 0, 1, 1, widths[i], mode);
        }
}

/* ---- the lines */

struct symbols {
    const char *bytes[24];
    size_t lens[24], count, strokes; /* the first `strokes` are those of overstriking */
};

static const struct symbols alphabet = {
    {"a", "_", "\b", "b", "\xCC\x81", "\xFF", "\t", "-", " ", "\x1B", "\x01", "\xE6\xBC\xA2", "\xC2\x85", "\x1B[m", "\x1B(0", "q", "\xE2\x80\x8B", "\xF3\xA0\x84\x80", "\xE1\x84\x80", "\x1B]8;;u\a", "[", "m", "1", "\x1B[K"},
    {1, 1, 1, 1, 2, 1, 1, 1, 1, 1, 1, 3, 2, 3, 3, 1, 3, 4, 3, 7, 1, 1, 1, 3},
    24,
    6,
};

/* The pattern whose symbols are the digits of a number, in a base; 0 where the number has none left. */
static struct line pattern(size_t number, size_t base, size_t symbols) {
    struct line line = {{0}, 0, 0};
    for (size_t i = 0; i < symbols; i++, number /= base) {
        size_t symbol = number % base;
        memcpy(line.bytes + line.n, alphabet.bytes[symbol], alphabet.lens[symbol]);
        line.n += alphabet.lens[symbol];
    }
    line.pattern = line.n;
    return line;
}

static struct line repeated(struct line line, size_t n) {
    for (; line.n < n; line.n++)
        line.bytes[line.n] = line.bytes[line.n - line.pattern];
    return line;
}

static size_t power(size_t base, size_t exponent) { return exponent == 0 ? 1 : base * power(base, exponent - 1); }

static void short_lines(void) {
    for (size_t symbols = 0; symbols <= 7; symbols++)
        for (size_t number = 0; number < power(alphabet.strokes, symbols); number++) {
            struct line line = pattern(number, alphabet.strokes, symbols);
            try_reading(&line);
        }
    for (size_t symbols = 0; symbols <= 3; symbols++)
        for (size_t number = 0; number < power(alphabet.count, symbols); number++) {
            struct line line = pattern(number, alphabet.count, symbols);
            try_reading(&line);
            try_drawing(&line);
        }
}

static void repeated_lines(void) {
    for (size_t symbols = 1; symbols <= 2; symbols++)
        for (size_t number = 0; number < power(alphabet.count, symbols); number++) {
            struct line line = repeated(pattern(number, alphabet.count, symbols), CONSOLE_LINE_MAX);
            try_reading(&line);
            try_drawing(&line);
        }
    for (size_t number = 0; number < power(alphabet.strokes, 6); number++) {
        struct line line = repeated(pattern(number, alphabet.strokes, 6), 512);
        try_reading(&line);
    }
}

static size_t below(size_t limit) { return (size_t)random() % limit; }

/* Lines of random symbols, most of a few kinds each; one of 50 is long. */
static void random_lines(size_t count) {
    for (size_t i = 0; i < count; i++) {
        size_t n = i % 50 == 0 ? below(4090) : below(120), kinds = 1 + below(8), kind[8];
        struct line line = {{0}, 0, 0};
        for (size_t k = 0; k < 8; k++)
            kind[k] = below(k % 2 == 0 ? alphabet.strokes : alphabet.count);
        for (size_t s = kind[0]; line.n + alphabet.lens[s] <= n; s = kind[below(kinds)]) {
            memcpy(line.bytes + line.n, alphabet.bytes[s], alphabet.lens[s]);
            line.n += alphabet.lens[s];
        }
        line.pattern = line.n;
        try_reading(&line);
        try_drawing(&line);
    }
}

/* Lists that are no drawing's. */
static void lists(void) {
    struct line line = {{0}, 0, 0};
    for (size_t len = 0; len <= 4096; len += 6) {
        line.n = line.pattern = len;
        for (size_t i = 0; i < len; i++)
            line.bytes[i] = i % 6 == 4 ? 4 : 0;
        receive(&line, line.bytes, len, 1 + len % 80, "a list of cursor right");
    }
}

static void cells(size_t count) {
    static const uint8_t cell[] = {'a', 3, 'b', 0, 'c', 1, 'd', 2};
    struct line line = {{0}, 0, 0};
    for (size_t i = 0; i <= count; i++) {
        line.n = line.pattern = 2 * (i < 1000 ? i : below(2048));
        size_t kinds = i < 1000 ? 1 : 1 + below(4), size = CONSOLE_WRITTEN_SIZE(line.n), lent = lend(size);
        for (size_t c = 0; c + 1 < line.n; c += 2)
            memcpy(line.bytes + c, cell + 2 * below(kinds), 2);
        memcpy(line_end - line.n, line.bytes, line.n);
        console_answer a = console_write_cells(LENT(line_end, line.n), LENT(out_end, lent));
        note(WRITTEN, a, a.count, size, &line, "write_cells");
    }
}

/* Prints what was met; how many sizes were found too short. */
static int print_sizes(void) {
    int short_sizes = 0;
    for (int b = 0; b < BOUNDS; b++) {
        printf("CONSOLE_%s_SIZE: %zu calls, %zu lent too little\n", names[b], tried[b], too_short[b]);
        print_met("least left over", &least_left[b]);
        print_met("largest share", &largest_share[b]);
        short_sizes += too_short[b] > 0;
    }
    return short_sizes;
}

int main(int argc, char **argv) {
    if (argc != 3 && argc != 4) {
        fprintf(stderr, "sizes SEED RANDOM_LINES [LESS]\n");
        return 2;
    }
    srandom((unsigned)strtoul(argv[1], NULL, 10));
    less = argc == 4 ? strtoul(argv[3], NULL, 10) : 0;
    fence();
    short_lines();
    repeated_lines();
    random_lines(strtoul(argv[2], NULL, 10));
    lists();
    cells(20000);
    return print_sizes() > 0;
}
