/* Makes the recorded calls of the static library and compares number, count and every lent buffer. Each buffer is memory of its
 * own, of just the size that the call is told.
 *
 *   replay [--unfilled] [--null] [--guard behind | --guard before] [--short BUFFER] < crates/vectors/stdout
 *
 *   --unfilled       lent memory is left as malloc gives it; else it is filled with A5, so that every zero found was written
 *   --null           a buffer of length 0 is lent as a null pointer
 *   --guard WHERE    a page that may not be touched stands right behind or before each buffer; what is only read may not be written
 *   --short BUFFER   a planted fault: the buffer (line, matches, conv, spans, rows, list or wraps) has a byte less than is told
 *
 * oracle/README.md has the form of a case. Status 1 where an answer differs. */
#define _DEFAULT_SOURCE
#include <stdio.h>
#include <stdlib.h>
#include <string.h>
#include <sys/mman.h>
#include <unistd.h>

#include "console_lines.h"

/* ---- lent memory */

enum buffer { LINE, MATCHES, CONV, SPANS, ROWS, LIST, WRAPS, BUFFERS };
static const char *const buffer_names[BUFFERS] = {"line", "matches", "conv", "spans", "rows", "list", "wraps"};

enum place { HEAP, BEHIND, BEFORE };

struct lent {
    unsigned char *memory;
    size_t len, bytes; /* what the call is told: items, and their bytes */
    unsigned char *pages;
    size_t pages_bytes;
};

struct lender {
    enum place guard;
    int filled, null;
    enum buffer shorter; /* BUFFERS: none */
    struct lent lent[BUFFERS];
};

static void fail(const char *what) {
    perror(what);
    exit(2);
}

/* Pages with one behind them and one before them that may not be touched; the memory ends or begins at such a page. */
static unsigned char *guarded(struct lent *l, size_t bytes, size_t missing, enum place guard) {
    size_t page = (size_t)sysconf(_SC_PAGESIZE), inner = (bytes / page + 1) * page;
    l->pages_bytes = inner + 2 * page;
    l->pages = (unsigned char *)mmap(NULL, l->pages_bytes, PROT_READ | PROT_WRITE, MAP_PRIVATE | MAP_ANONYMOUS, -1, 0);
    if (l->pages == MAP_FAILED)
        fail("mmap");
    if (mprotect(l->pages, page, PROT_NONE) != 0 || mprotect(l->pages + page + inner, page, PROT_NONE) != 0)
        fail("mprotect");
    return guard == BEHIND ? l->pages + page + inner - bytes + missing : l->pages + page - missing;
}

/* Memory for len items of a size; it is filled where the call is to write it. */
static struct lent *lend(struct lender *r, enum buffer which, size_t len, size_t size) {
    struct lent *l = &r->lent[which];
    size_t missing = r->shorter == which && len > 0;
    l->len = len;
    l->bytes = len * size;
    if (r->null && len == 0)
        l->memory = NULL;
    else if (r->guard != HEAP)
        l->memory = guarded(l, l->bytes, missing, r->guard);
    else if ((l->memory = (unsigned char *)malloc(l->bytes - missing)) == NULL)
        fail("malloc");
    if (r->filled && l->bytes > missing)
        memset(l->memory + (r->guard == BEFORE ? missing : 0), 0xA5, l->bytes - missing);
    return l;
}

/* A copy of what the call reads. */
static struct lent *give(struct lender *r, enum buffer which, const void *items, size_t len, size_t size) {
    struct lent *l = lend(r, which, len, size);
    size_t missing = r->shorter == which && len > 0, first = r->guard == BEFORE ? missing : 0;
    if (l->bytes > missing)
        memcpy(l->memory + first, (const unsigned char *)items + first, l->bytes - missing);
    if (l->pages != NULL && mprotect(l->pages + sysconf(_SC_PAGESIZE), l->pages_bytes - 2 * (size_t)sysconf(_SC_PAGESIZE), PROT_READ) != 0)
        fail("mprotect");
    return l;
}

static void take_back(struct lender *r) {
    for (int i = 0; i < BUFFERS; i++) {
        struct lent *l = &r->lent[i];
        if (l->pages != NULL)
            munmap(l->pages, l->pages_bytes);
        else
            free(l->memory);
        memset(l, 0, sizeof *l);
    }
}

/* ---- fields */

static size_t number(const char *field) { return strcmp(field, "-") == 0 ? CONSOLE_NO_MATCH : (size_t)strtoull(field, NULL, 10); }

/* The bytes of a hexadecimal field, in memory that the caller frees. */
static unsigned char *bytes_of(const char *field, size_t *len) {
    *len = strcmp(field, "-") == 0 ? 0 : strlen(field) / 2;
    unsigned char *bytes = (unsigned char *)malloc(*len + 1);
    if (bytes == NULL)
        fail("malloc");
    for (size_t i = 0; i < *len; i++) {
        char pair[3] = {field[2 * i], field[2 * i + 1], 0};
        bytes[i] = (unsigned char)strtoul(pair, NULL, 16);
    }
    return bytes;
}

/* The numbers of a field parted by commas, the same. */
static size_t *numbers_of(const char *field, size_t *len) {
    size_t *numbers = (size_t *)malloc((strlen(field) + 1) * sizeof *numbers);
    if (numbers == NULL)
        fail("malloc");
    *len = 0;
    for (const char *at = field; strcmp(field, "-") != 0 && at != NULL; at = strchr(at, ',') == NULL ? NULL : strchr(at, ',') + 1)
        numbers[(*len)++] = (size_t)strtoull(at, NULL, 10);
    return numbers;
}

static struct lent *give_bytes(struct lender *r, enum buffer which, const char *field) {
    size_t len;
    unsigned char *bytes = bytes_of(field, &len);
    struct lent *l = give(r, which, bytes, len, 1);
    free(bytes);
    return l;
}

static struct lent *give_matches(struct lender *r, const char *field) {
    size_t len;
    size_t *numbers = numbers_of(field, &len);
    struct lent *l = give(r, MATCHES, numbers, len, sizeof(size_t));
    free(numbers);
    return l;
}

/* ---- comparing */

/* Whether a buffer holds these bytes and zeros after them. */
static int holds(const struct lent *l, const void *items, size_t bytes) {
    if (bytes > l->bytes || (bytes > 0 && memcmp(l->memory, items, bytes) != 0))
        return 0;
    for (size_t i = bytes; i < l->bytes; i++)
        if (l->memory[i] != 0)
            return 0;
    return 1;
}

static int holds_bytes(const struct lent *l, const char *field) {
    size_t len;
    unsigned char *bytes = bytes_of(field, &len);
    int same = holds(l, bytes, len);
    free(bytes);
    return same;
}

static int holds_numbers(const struct lent *l, const char *field) {
    size_t len;
    size_t *numbers = numbers_of(field, &len);
    int same = holds(l, numbers, len * sizeof(size_t));
    free(numbers);
    return same;
}

static int returned(console_answer a, char **wanted) { return a.number == number(wanted[0]) && a.count == number(wanted[1]); }

/* ---- the calls: the fields before ` = ` and those behind it */

#define IN(l) (l)->memory, (l)->len
#define NUMBERS(l) (size_t *)(void *)(l)->memory, (l)->len
#define RECORDS(l) (console_span *)(void *)(l)->memory, (l)->len

static int convert(struct lender *r, char **given, char **wanted) {
    struct lent *line = give_bytes(r, LINE, given[1]), *conv = lend(r, CONV, number(given[2]), 1);
    return returned(console_convert(IN(line), IN(conv)), wanted) && holds_bytes(conv, wanted[2]);
}

static int read_line(struct lender *r, char **given, char **wanted) {
    struct lent *line = give_bytes(r, LINE, given[1]), *matches = give_matches(r, given[2]);
    struct lent *conv = lend(r, CONV, number(given[3]), 1), *spans = lend(r, SPANS, number(given[4]), sizeof(console_span));
    console_answer a = console_read(IN(line), NUMBERS(matches), IN(conv), RECORDS(spans));
    return returned(a, wanted) && holds_bytes(conv, wanted[2]) && holds_numbers(spans, wanted[3]);
}

static int rows(struct lender *r, char **given, char **wanted) {
    struct lent *line = give_bytes(r, LINE, given[1]), *conv = lend(r, CONV, number(given[4]), 1);
    struct lent *spans = lend(r, SPANS, number(given[5]), sizeof(console_span)), *list = lend(r, ROWS, number(given[6]), sizeof(size_t));
    console_answer a = console_rows(IN(line), number(given[2]), number(given[3]), IN(conv), RECORDS(spans), NUMBERS(list));
    return returned(a, wanted) && holds_bytes(conv, wanted[2]) && holds_numbers(spans, wanted[3]) && holds_numbers(list, wanted[4]);
}

static int height(struct lender *r, char **given, char **wanted) {
    struct lent *line = give_bytes(r, LINE, given[1]), *conv = lend(r, CONV, number(given[4]), 1);
    struct lent *spans = lend(r, SPANS, number(given[5]), sizeof(console_span));
    console_answer a = console_height(IN(line), number(given[2]), number(given[3]), IN(conv), RECORDS(spans));
    return returned(a, wanted) && holds_bytes(conv, wanted[2]) && holds_numbers(spans, wanted[3]);
}

static int narrowest(struct lender *r, char **given, char **wanted) {
    struct lent *line = give_bytes(r, LINE, given[1]), *conv = lend(r, CONV, number(given[5]), 1);
    struct lent *spans = lend(r, SPANS, number(given[6]), sizeof(console_span));
    console_width_answer a = console_narrowest(IN(line), number(given[2]), number(given[3]), number(given[4]), IN(conv), RECORDS(spans));
    console_answer first = {a.number, a.count};
    return returned(first, wanted) && a.tried == number(wanted[4]) && holds_bytes(conv, wanted[2]) && holds_numbers(spans, wanted[3]);
}

/* `view_window` has the reader in a last field, `draw_window` is for the bench; the same of `view_row`. */
static size_t reader(char **given, size_t last) { return given[0][0] == 'v' ? number(given[last]) : CONSOLE_BENCH; }

static int draw_window(struct lender *r, char **given, char **wanted) {
    struct lent *line = give_bytes(r, LINE, given[1]), *matches = give_matches(r, given[2]), *conv = lend(r, CONV, number(given[6]), 1);
    struct lent *spans = lend(r, SPANS, number(given[7]), sizeof(console_span)), *list = lend(r, LIST, number(given[8]), 1);
    console_answer a = console_draw_window(reader(given, 9), IN(line), NUMBERS(matches), number(given[3]), number(given[4]),
                                           number(given[5]), IN(conv), RECORDS(spans), IN(list));
    return returned(a, wanted) && holds_bytes(conv, wanted[2]) && holds_numbers(spans, wanted[3]) && holds_bytes(list, wanted[4]);
}

static int draw_row(struct lender *r, char **given, char **wanted) {
    struct lent *line = give_bytes(r, LINE, given[1]), *matches = give_matches(r, given[2]), *conv = lend(r, CONV, number(given[8]), 1);
    struct lent *spans = lend(r, SPANS, number(given[9]), sizeof(console_span)), *list = lend(r, LIST, number(given[10]), 1);
    console_answer a = console_draw_row(reader(given, 11), IN(line), NUMBERS(matches), number(given[3]), number(given[4]), number(given[5]),
                                        number(given[6]), number(given[7]), IN(conv), RECORDS(spans), IN(list));
    return returned(a, wanted) && holds_bytes(conv, wanted[2]) && holds_numbers(spans, wanted[3]) && holds_bytes(list, wanted[4]);
}

static int screen_row(struct lender *r, char **given, char **wanted) {
    struct lent *list = give_bytes(r, LINE, given[1]), *out = lend(r, LIST, number(given[3]), 1);
    return returned(console_screen_row(IN(list), number(given[2]), IN(out)), wanted) && holds_bytes(out, wanted[2]);
}

static int bytes_to_bytes(struct lender *r, char **given, char **wanted) {
    struct lent *bytes = give_bytes(r, LINE, given[1]), *out = lend(r, LIST, number(given[2]), 1);
    console_answer a = given[0][0] == 's'   ? console_store(IN(bytes), IN(out))
                       : given[0][0] == 'r' ? console_restore(IN(bytes), IN(out))
                                            : console_write_cells(IN(bytes), IN(out));
    return returned(a, wanted) && holds_bytes(out, wanted[2]);
}

/* What `read` leaves, to hold the calls with kept wraps to: of these no converted line and no records are recorded. */
struct reading {
    unsigned char *conv;
    console_span *spans;
    size_t conv_len, spans_len;
};

static struct reading reading_of(const struct lent *line) {
    size_t room = CONSOLE_CONV_SIZE(line->len), places = CONSOLE_SPANS_SIZE(line->len);
    struct reading read = {(unsigned char *)malloc(room + 1), (console_span *)malloc((places + 1) * sizeof(console_span)), 0, 0};
    if (read.conv == NULL || read.spans == NULL)
        fail("malloc");
    read.conv_len = console_convert(IN(line), read.conv, room).count;
    read.spans_len = console_read(IN(line), NULL, 0, read.conv, room, read.spans, places).count;
    return read;
}

/* One call with kept wraps: the answer's fields are number, count and, for rows, the pairs. */
static int cached_call(struct lender *r, char **given, char **wanted, const struct reading *read) {
    struct lent *line = &r->lent[LINE], *conv = lend(r, CONV, CONSOLE_CONV_SIZE(line->len), 1);
    struct lent *spans = lend(r, SPANS, read->spans_len, sizeof(console_span));
    size_t width = number(given[1]), mode = number(given[2]), *wraps = (size_t *)(void *)r->lent[WRAPS].memory;
    int same = 1;
    console_answer a;
    if (given[0][0] == 'h') {
        a = console_cached_height(IN(line), width, mode, wraps, IN(conv), RECORDS(spans));
    } else {
        struct lent *list = lend(r, ROWS, 2 * number(wanted[1]), sizeof(size_t));
        a = console_cached_rows(IN(line), width, mode, wraps, IN(conv), RECORDS(spans), NUMBERS(list));
        same = holds_numbers(list, wanted[2]);
    }
    size_t accepted = a.number == 0;
    return same && returned(a, wanted) && holds(conv, read->conv, accepted * read->conv_len) &&
           holds(spans, read->spans, accepted * read->spans_len * sizeof(console_span));
}

static void release(struct lender *r, enum buffer which) {
    struct lender one = {HEAP, 0, 0, BUFFERS, {{NULL, 0, 0, NULL, 0}}};
    one.lent[which] = r->lent[which];
    memset(&r->lent[which], 0, sizeof r->lent[which]);
    take_back(&one);
}

/* The calls of the fields behind the line, in turn with the same wraps; the last field has the wraps' first 20 numbers. */
static int cached(struct lender *r, char **given, char **wanted) {
    static const size_t none[CONSOLE_WRAPS];
    struct lent *line = give_bytes(r, LINE, given[1]), *wraps = lend(r, WRAPS, CONSOLE_WRAPS, sizeof(size_t));
    struct reading read = reading_of(line);
    size_t missing = r->shorter == WRAPS, first = r->guard == BEFORE ? missing : 0, heads;
    int same = 1;
    memcpy(wraps->memory + first, none, sizeof none - missing);
    for (char **call = given + 2; *call != NULL; call += 3) {
        same &= cached_call(r, call, wanted, &read);
        wanted += call[0][0] == 'h' ? 2 : 3;
        release(r, CONV);
        release(r, SPANS);
        release(r, ROWS);
    }
    free(read.conv);
    free(read.spans);
    size_t *kept = numbers_of(*wanted, &heads);
    same &= memcmp(wraps->memory, kept, heads * sizeof *kept) == 0 && memcmp(wraps->memory + heads * sizeof *kept, none, (20 - heads) * sizeof *kept) == 0;
    free(kept);
    return same;
}

static const struct call {
    const char *name;
    int (*make)(struct lender *, char **, char **);
} calls[] = {
    {"convert", convert},
    {"read", read_line},
    {"rows", rows},
    {"height", height},
    {"draw_window", draw_window},
    {"draw_row", draw_row},
    {"view_window", draw_window},
    {"view_row", draw_row},
    {"screen_row", screen_row},
    {"store", bytes_to_bytes},
    {"restore", bytes_to_bytes},
    {"write_cells", bytes_to_bytes},
    {"narrowest", narrowest},
    {"cached", cached},
};

/* ---- the cases */

#define FIELDS 256

/* The fields of a line, parted by spaces, with a null pointer behind the last. */
static void split(char *text, char **fields) {
    size_t count = 0;
    for (char *at = strtok(text, " "); at != NULL && count < FIELDS - 1; at = strtok(NULL, " "))
        fields[count++] = at;
    fields[count] = NULL;
}

/* Whether a case's answer is as recorded; 2 for a line that is no call. */
static int replay(struct lender *r, char *text) {
    char *given[FIELDS], *wanted[FIELDS], *answer = strstr(text, " = ");
    if (answer == NULL)
        return 2;
    *answer = 0;
    split(text, given);
    split(answer + 3, wanted);
    for (size_t i = 0; given[0] != NULL && i < sizeof calls / sizeof calls[0]; i++)
        if (strcmp(calls[i].name, given[0]) == 0) {
            int same = calls[i].make(r, given, wanted);
            take_back(r);
            return same;
        }
    return 2;
}

static enum buffer buffer_named(const char *name) {
    int which = LINE;
    while (which < BUFFERS && strcmp(buffer_names[which], name) != 0)
        which++;
    return (enum buffer)which;
}

static enum place place_named(const char *name) {
    return strcmp(name, "behind") == 0 ? BEHIND : strcmp(name, "before") == 0 ? BEFORE : HEAP;
}

static struct lender options(int argc, char **argv) {
    struct lender r = {HEAP, 1, 0, BUFFERS, {{NULL, 0, 0, NULL, 0}}};
    for (int i = 1; i < argc; i++) {
        const char *value = i + 1 < argc ? argv[i + 1] : "";
        if (strcmp(argv[i], "--unfilled") == 0) {
            r.filled = 0;
        } else if (strcmp(argv[i], "--null") == 0) {
            r.null = 1;
        } else if (strcmp(argv[i], "--guard") == 0 && place_named(value) != HEAP) {
            r.guard = place_named(argv[++i]);
        } else if (strcmp(argv[i], "--short") == 0 && buffer_named(value) != BUFFERS) {
            r.shorter = buffer_named(argv[++i]);
        } else {
            fprintf(stderr, "replay: %s is no option\n", argv[i]);
            exit(2);
        }
    }
    return r;
}

int main(int argc, char **argv) {
    struct lender r = options(argc, argv);
    char *line = NULL, *copy;
    size_t room = 0, cases = 0, differ = 0;
    for (ssize_t len; (len = getline(&line, &room, stdin)) >= 0;) {
        line[len > 0 && line[len - 1] == '\n' ? len - 1 : len] = 0;
        if ((copy = strdup(line)) == NULL)
            fail("strdup");
        int same = replay(&r, line);
        if (same == 0)
            printf("differs: %.200s\n", copy);
        differ += same == 0;
        cases += same != 2;
        free(copy);
    }
    free(line);
    printf("%zu cases, %zu differ\n", cases, differ);
    return cases == 0 || differ > 0;
}
