/* Console lines: the calls of the static library libconsole.a (x86-64 Linux, C99 or C++).
 *
 *     uint8_t conv[CONSOLE_CONV_SIZE(CONSOLE_LINE_MAX)];
 *     console_answer a = console_convert(line, line_len, conv, sizeof conv);
 *     if (a.number != CONSOLE_ACCEPTED)
 *         puts(console_refusal_words(a.number));
 *     else
 *         fwrite(conv, 1, a.count, stdout);
 *
 * cc program.c $(pkg-config --cflags --libs console-lines), after `examples/install PREFIX`.
 * examples/lines.c calls convert, read, rows and draw_row, and takes a change list apart.
 * docs/SCOPE.md has the terms. Byte values are hexadecimal, other figures decimal.
 *
 * Rules of all calls
 *
 * Answer. number is CONSOLE_ACCEPTED and count is what the call tells, or number is that of
 * the first question that is answered no, and count is 0. No call fails otherwise, whatever
 * bytes and numbers it is given.
 *
 * Lent memory. A call allocates nothing; it is lent a pointer and a length for each thing
 * that it reads or writes. Lengths are items, not bytes, where items are numbers or records.
 * Every byte that is lent for writing is written: what the call has for it, zeros after it;
 * zeros throughout where it is refused. So what it held before does not count, and it need
 * not be set. Since zeros take time, lend about what is needed. wraps alone is kept from call
 * to call: a refused call leaves it as it was.
 *
 * Pointers. What is lent for writing must not overlap anything else that is lent to the same
 * call. What is only read (const) may overlap. Numbers and records are aligned as size_t is,
 * bytes need no alignment. A null pointer may be given with length 0, but not for wraps.
 *
 * State and threads. The library has no variables, no locks and no files. Any number of
 * threads may call at once, with memory of their own to write; what is only read may be
 * shared. The same arguments always give the same answer.
 *
 * Stack. At most CONSOLE_STACK bytes for a call, the caller's frame apart (101,745 were measured,
 * by compare/sizes); nothing recurses. */
#ifndef CONSOLE_LINES_H
#define CONSOLE_LINES_H

#include <stddef.h>
#include <stdint.h>

#ifdef __cplusplus
extern "C" {
#endif

/* ---- Limits, and sizes that are always enough
 *
 * The arguments are evaluated more than once. n is the line's bytes, at most 4,096. Only
 * CONSOLE_CONV_SIZE is asked for by a question, whatever the line needs; the other calls
 * take less where less is enough, and the refusal says so. That conv's and rows' room is enough
 * is proved (docs/PROOF.md, convert-size and row-list-size); the others follow from the reasons
 * given and were tried on hostile lines (compare/sizes, docs/NOTES.md).
 *
 * All others rest on this: for each style order that conversion adds it gives up at least one
 * byte of the line. A cluster that is struck over gives up two, and has at most one order added
 * before it and one behind it; where backspaces break an order, more is given up than is left
 * of it. So the orders added, each counted as one, and all other bytes of the converted line
 * are together at most n. */
#define CONSOLE_LINE_MAX 4096
#define CONSOLE_WIDTH_MAX 65535
#define CONSOLE_WINDOW_MAX 1048576
#define CONSOLE_SCREEN_WIDTH_MAX 4096
#define CONSOLE_STACK 131072

/* conv, in bytes: question 2 asks for just this. */
#define CONSOLE_CONV_SIZE(n) (8 * (n))

/* spans, in records, with and without matches: a span is an added order, or has at least one
 * other byte, and no byte is in two spans. n tabs are n spans. */
#define CONSOLE_SPANS_SIZE(n) (n)

/* rows, in numbers, two for each row: a cluster, tab or mark has at least one byte, and ends
 * at most one row, and a word at most one more before its first cluster; the last row is one
 * more. n hyphens have 2 n rows at width 0 by words, and the empty line has one. */
#define CONSOLE_ROWS_SIZE(n) (4 * (n) + 2)

/* list of a drawing, in bytes: for a byte of the line at most attributes (31), the head of a
 * text (6) and its body: 8 for a tab, 4 for the mark <FF>, 8 for <U+0301>, which has two
 * bytes, 3 in line drawing. 151 are both arrows (69 and 51) and the last attributes (31). */
#define CONSOLE_LIST_SIZE(n) (45 * (n) + 151)

/* The same where few columns are drawn, in place of CONSOLE_LIST_SIZE: end - start of a window,
 * or from the start of the first row drawn to the end of the last (by console_rows, where it is
 * drawn without matches). Each text has at least one of the columns, and a byte for each column
 * where it is spaces or a mark; other bytes are at most three for one of the line. */
#define CONSOLE_COLUMNS_SIZE(n, columns) ((columns) < (n) ? 38 * (columns) + 3 * (n) + 151 : CONSOLE_LIST_SIZE(n))

/* out of console_screen_row, in bytes: 29 a cell, and its cluster, which is a space or stands
 * in the list. */
#define CONSOLE_CELLS_SIZE(width, list_len) (30 * (width) + (list_len))

/* out of console_store, in bytes: each change has at least one fewer. */
#define CONSOLE_STORED_SIZE(list_len) (list_len)

/* out of console_restore, in bytes: each change has two more, and at least four stored. */
#define CONSOLE_RESTORED_SIZE(stored_len) ((stored_len) + (stored_len) / 2)

/* out of console_write_cells, in bytes: at most five for a cell, and no more than a line. */
#define CONSOLE_WRITTEN_SIZE(cells_len) ((cells_len) / 2 < CONSOLE_LINE_MAX / 5 ? (cells_len) / 2 * 5 : CONSOLE_LINE_MAX)

/* wraps of the calls with kept wraps, in numbers: neither more nor fewer. */
#define CONSOLE_WRAPS 8212

/* ---- Refusals: the questions by their numbers. A call puts those that are named with it, in
 * the order in which they are named there; the first no decides. */
enum console_refusal {
    CONSOLE_ACCEPTED = 0,
    CONSOLE_LINE_TOO_LONG = 1,
    CONSOLE_CONV_TOO_SHORT = 2,
    CONSOLE_MATCHES_NOT_IN_ORDER = 3,
    CONSOLE_SPANS_TOO_FEW = 4,
    CONSOLE_OUT_OF_RANGE = 5,
    CONSOLE_ROWS_TOO_FEW = 6,
    CONSOLE_WINDOW_EMPTY = 7,
    CONSOLE_CLUSTER_WIDER_THAN_WINDOW = 8,
    CONSOLE_OUTPUT_TOO_SHORT = 9,
    CONSOLE_LIST_MALFORMED = 10,
    CONSOLE_TEXT_PASSES_LAST_COLUMN = 11,
    CONSOLE_BODY_TOO_LONG = 12,
    CONSOLE_CELLS_MALFORMED = 16,
    CONSOLE_REPORT_TOO_SHORT = 17,
    CONSOLE_NO_SUCH_READER = 18
};

/* What a refusal says, for people. */
static inline const char *console_refusal_words(size_t number) {
    switch (number) {
    case CONSOLE_ACCEPTED: return "accepted";
    case CONSOLE_LINE_TOO_LONG: return "the line has more than 4,096 bytes";
    case CONSOLE_CONV_TOO_SHORT: return "the conversion buffer has fewer than 8 times the line's bytes";
    case CONSOLE_MATCHES_NOT_IN_ORDER: return "the matches are not pairs in order inside the text searched";
    case CONSOLE_SPANS_TOO_FEW: return "more spans than the list has places";
    case CONSOLE_OUT_OF_RANGE: return "a mode, width, row or window number beyond its limit";
    case CONSOLE_ROWS_TOO_FEW: return "more rows than the list has places";
    case CONSOLE_WINDOW_EMPTY: return "the window's start + 1 is above its end";
    case CONSOLE_CLUSTER_WIDER_THAN_WINDOW: return "a cluster wider than the window";
    case CONSOLE_OUTPUT_TOO_SHORT: return "the output does not fit";
    case CONSOLE_LIST_MALFORMED: return "the change list is malformed";
    case CONSOLE_TEXT_PASSES_LAST_COLUMN: return "a text passes the last column";
    case CONSOLE_BODY_TOO_LONG: return "a body has more than 65,535 bytes";
    case CONSOLE_CELLS_MALFORMED: return "these are not whole cells of a byte 20 to 7E except 5F and a style 0 to 3";
    case CONSOLE_REPORT_TOO_SHORT: return "the output buffer is too short";
    case CONSOLE_NO_SUCH_READER: return "the reader is neither bench nor crew";
    default: return "no question has this number";
    }
}

/* ---- What is returned, and the values of arguments */

typedef struct console_answer {
    size_t number;
    size_t count;
} console_answer;

/* A record of the span list: the span's kind; place and length, in the converted line, of the
 * bytes it was read from; the number of its match, from 0, and 0 where the kind is not Match. */
typedef struct console_span {
    size_t kind;
    size_t place;
    size_t len;
    size_t matched;
} console_span;

enum console_span_kind {
    CONSOLE_SPAN_TEXT = 1,
    CONSOLE_SPAN_MATCH = 2,        /* text of a match; its tabs, marks and sequences have their own kinds */
    CONSOLE_SPAN_CONTROL = 3,      /* one control byte, drawn as <1B> */
    CONSOLE_SPAN_INVALID = 4,      /* one damaged byte, drawn as <FF> */
    CONSOLE_SPAN_UNPRINTABLE = 5,  /* a cluster without width, drawn as <U+0301>, each of its scalars */
    CONSOLE_SPAN_STYLE = 6,        /* ESC [ .. m */
    CONSOLE_SPAN_HYPERLINK = 7,    /* ESC ] 8 ; .. ; URI, and 07 or ESC and 5C behind it */
    CONSOLE_SPAN_LINE_DRAWING = 8, /* on or off: ESC ( 0, ESC ( B */
    CONSOLE_SPAN_IGNORED = 9,      /* a sequence that draws nothing */
    CONSOLE_SPAN_TAB = 10,
    CONSOLE_SPAN_CR_LF = 11,
    CONSOLE_SPAN_LF = 12,
    CONSOLE_SPAN_ERASE = 13        /* to the row's end: ESC [ K, ESC [ 0 K */
};

/* Modes 3 and 4 are 1 and 2 with an Unprintable span as wide as it is drawn, where 1 and 2 count
 * 8 columns: choose these, unless you compare with the Rust (docs/SCOPE.md, "Rows"). */
enum console_mode {
    CONSOLE_UNWRAPPED = 0, /* one row, from 0 to SIZE_MAX */
    CONSOLE_BY_CLUSTERS = 1,
    CONSOLE_BY_WORDS = 2, /* a word wider than the row is broken between clusters */
    CONSOLE_BY_CLUSTERS_AS_DRAWN = 3,
    CONSOLE_BY_WORDS_AS_DRAWN = 4
};

/* current of a drawing without a current match; the readers of a drawing. */
#define CONSOLE_NO_MATCH SIZE_MAX
#define CONSOLE_BENCH 0
#define CONSOLE_CREW 1

/* ---- From the raw line
 *
 * line is what a receiver sent, with or without a newline at its end; 00 is a byte as any
 * other. conv: CONSOLE_CONV_SIZE(line_len). spans: CONSOLE_SPANS_SIZE(line_len). */

/* The converted line: overstrikes turned into style orders.
 * Count: its bytes. Leaves it in conv.
 * Questions: CONSOLE_LINE_TOO_LONG, CONSOLE_CONV_TOO_SHORT. */
console_answer console_convert(const uint8_t *line, size_t line_len,
                               uint8_t *conv, size_t conv_len);

/* The converted line and its spans.
 * Takes matches: start and end of each, in turn, as numbers of bytes in the text searched,
 * which is the converted line without its last newline and without each style order (ESC [,
 * up to 32 of the bytes 0-9 : ; [ ? ! " ' # % ( ) * + and space, m). None: NULL and 0.
 * matches_len is the numbers, two for each match.
 * Count: the spans. Leaves conv and spans.
 * Questions: CONSOLE_LINE_TOO_LONG, CONSOLE_CONV_TOO_SHORT, CONSOLE_MATCHES_NOT_IN_ORDER (an
 * odd number, a start above its end or below the end before it, an end behind the text
 * searched), CONSOLE_SPANS_TOO_FEW. */
console_answer console_read(const uint8_t *line, size_t line_len,
                            const size_t *matches, size_t matches_len,
                            uint8_t *conv, size_t conv_len,
                            console_span *spans, size_t spans_len);

/* The rows of the line at a width in columns, 0 to 65,535, and a mode.
 * Count: the rows, at least 1. Leaves conv, spans and, in rows, the first column of each row
 * and the column after its last. A row is wider than the width where one cluster or mark is,
 * and where a tab that does not fit ends it, after the tab's own columns, 8 at most.
 * Lend rows: CONSOLE_ROWS_SIZE(line_len); rows_len is the numbers, two for each row.
 * Questions: CONSOLE_LINE_TOO_LONG, CONSOLE_CONV_TOO_SHORT, CONSOLE_SPANS_TOO_FEW,
 * CONSOLE_OUT_OF_RANGE (mode above 4, width above 65,535), CONSOLE_ROWS_TOO_FEW. */
console_answer console_rows(const uint8_t *line, size_t line_len,
                            size_t width, size_t mode,
                            uint8_t *conv, size_t conv_len,
                            console_span *spans, size_t spans_len,
                            size_t *rows, size_t rows_len);

/* How many rows the line has: console_rows without a row list.
 * Count: the rows. Leaves conv and spans.
 * Questions: as console_rows, without CONSOLE_ROWS_TOO_FEW. */
console_answer console_height(const uint8_t *line, size_t line_len,
                              size_t width, size_t mode,
                              uint8_t *conv, size_t conv_len,
                              console_span *spans, size_t spans_len);

/* The narrowest screen that will do: the least width from 1 up to greatest at which the line
 * takes at most `wanted` rows, by mode 1 or 2. It tries one width after the other, so its time
 * is that of so many console_height, the line read once.
 * Count: the width, 0 where there is none. tried: the widths tried, which is the width found or
 * greatest; 0 where it is refused. Leaves conv and spans.
 * Questions: CONSOLE_LINE_TOO_LONG, CONSOLE_CONV_TOO_SHORT, CONSOLE_SPANS_TOO_FEW,
 * CONSOLE_OUT_OF_RANGE (mode not 1 or 2; wanted or greatest not 1 to 65,535). */
typedef struct console_width_answer {
    size_t number;
    size_t count;
    size_t tried;
} console_width_answer;

console_width_answer console_narrowest(const uint8_t *line, size_t line_len,
                                       size_t mode, size_t wanted, size_t greatest,
                                       uint8_t *conv, size_t conv_len,
                                       console_span *spans, size_t spans_len);

/* console_rows and console_height for a line that is asked again and again. Up to four wraps
 * of it, of at most 1,024 rows each, are kept in wraps, found by width and mode, the least
 * recently used giving way. A kept wrap is answered as it is kept, and the line is not
 * wrapped; it is still converted and read, and every question is asked.
 * wraps: CONSOLE_WRAPS numbers, zeros for none kept. Set them to zeros for each new line: what
 * is kept is not compared with the line. A refused call leaves them as they were. Height with
 * mode 0, always 1, is neither kept nor looked for.
 * Count, what is left and questions: as console_rows and console_height. */
console_answer console_cached_rows(const uint8_t *line, size_t line_len,
                                   size_t width, size_t mode, size_t wraps[CONSOLE_WRAPS],
                                   uint8_t *conv, size_t conv_len,
                                   console_span *spans, size_t spans_len,
                                   size_t *rows, size_t rows_len);
console_answer console_cached_height(const uint8_t *line, size_t line_len,
                                     size_t width, size_t mode, size_t wraps[CONSOLE_WRAPS],
                                     uint8_t *conv, size_t conv_len,
                                     console_span *spans, size_t spans_len);

/* ---- Drawings
 *
 * A drawing leaves conv, spans and a change list; the count is the list's bytes. Lend list:
 * CONSOLE_LIST_SIZE(line_len) or CONSOLE_COLUMNS_SIZE(line_len, columns).
 *
 * A change is a 4-byte length of its body, a 2-byte kind and the body, all little-endian; no
 * change is aligned. A colour is 4 bytes: 0 default; 1 and an index; 2, red, green and blue;
 * unused bytes 0.
 *
 * matches is as in console_read; current is the number of the match that is drawn as the
 * current one, CONSOLE_NO_MATCH for none. reader is CONSOLE_BENCH, or CONSOLE_CREW, to whom no
 * link is named: place and length of the URI are 0 in every attribute body, and nothing else
 * differs. conv and spans are the same for both: do not hand them on to the crew. */
enum console_change_kind {
    CONSOLE_CHANGE_TEXT = 1,        /* in UTF-8; 08, which stands alone, moves the cursor left by one */
    CONSOLE_CHANGE_ATTRIBUTES = 2,  /* of the texts that follow: CONSOLE_ATTRIBUTES bytes, below */
    CONSOLE_CHANGE_CLEAR = 3,       /* clear to the end of the row: one colour */
    CONSOLE_CHANGE_CURSOR_RIGHT = 4 /* by one: no body */
};

/* The head of a change; the body of attributes, and the place of each field in it. */
#define CONSOLE_CHANGE_HEAD 6
#define CONSOLE_ATTRIBUTES 25
enum console_attribute_place {
    CONSOLE_AT_INTENSITY = 0,         /* 0 normal, 1 bold, 2 half */
    CONSOLE_AT_UNDERLINE = 1,         /* 0 none, 1 single, 2 double */
    CONSOLE_AT_BLINK = 2,             /* 0 none, 1 slow, 2 rapid */
    CONSOLE_AT_FLAGS = 3,             /* 1 italic, 2 reverse, 4 invisible, 8 strike, 16 overline */
    CONSOLE_AT_FOREGROUND = 4,        /* a colour, and so the next two */
    CONSOLE_AT_BACKGROUND = 8,
    CONSOLE_AT_UNDERLINE_COLOUR = 12,
    CONSOLE_AT_URI_PLACE = 16,        /* of the link's URI in conv, 4 bytes; 0 and length 0 for none */
    CONSOLE_AT_URI_LENGTH = 20,       /* 4 bytes */
    CONSOLE_AT_ALIGNMENT = 24         /* 0 baseline, 1 raised, 2 lowered */
};

/* The columns from start up to end, each at most 1,048,576. Where start is above 0, its column
 * has an arrow and the window begins behind it; where the line goes on behind end, the last
 * column has one.
 * Questions: CONSOLE_NO_SUCH_READER, CONSOLE_LINE_TOO_LONG, CONSOLE_CONV_TOO_SHORT,
 * CONSOLE_MATCHES_NOT_IN_ORDER, CONSOLE_SPANS_TOO_FEW, CONSOLE_OUT_OF_RANGE (start or end above
 * 1,048,576), CONSOLE_WINDOW_EMPTY (start above 0 and not below end),
 * CONSOLE_CLUSTER_WIDER_THAN_WINDOW, CONSOLE_OUTPUT_TOO_SHORT (list). */
console_answer console_draw_window(size_t reader,
                                   const uint8_t *line, size_t line_len,
                                   const size_t *matches, size_t matches_len, size_t current,
                                   size_t start, size_t end,
                                   uint8_t *conv, size_t conv_len,
                                   console_span *spans, size_t spans_len,
                                   uint8_t *list, size_t list_len);

/* count rows of the line, from row first on, wrapped as by console_rows but with the matches.
 * The rows stand behind one another in one list; draw them one by one to have a list for each.
 * Questions: as console_draw_window, without CONSOLE_WINDOW_EMPTY; CONSOLE_OUT_OF_RANGE where
 * mode is above 4, first, count or width above 65,535, or count 0. Without matches,
 * CONSOLE_CLUSTER_WIDER_THAN_WINDOW comes in modes 1 and 2 alone. */
console_answer console_draw_row(size_t reader,
                                const uint8_t *line, size_t line_len,
                                const size_t *matches, size_t matches_len, size_t current,
                                size_t first, size_t count, size_t width, size_t mode,
                                uint8_t *conv, size_t conv_len,
                                console_span *spans, size_t spans_len,
                                uint8_t *list, size_t list_len);

/* ---- From a change list */

/* The receiving side: a row of `width` columns, 1 to 4,096, blank at first, after the changes
 * of a list.
 * Count: the bytes. Leaves in out, for each cell, a 4-byte little-endian length of its cluster,
 * the cluster and its attribute body of 25 bytes; the later cells of a wide cluster have
 * length 0 and the same body; a blank is a space.
 * Lend out: CONSOLE_CELLS_SIZE(width, list_len).
 * Questions: CONSOLE_OUT_OF_RANGE (width), CONSOLE_LIST_MALFORMED (also: a text that is not
 * UTF-8, or has a cluster of width 0 other than 08; attributes of 24 bytes),
 * CONSOLE_TEXT_PASSES_LAST_COLUMN, CONSOLE_OUTPUT_TOO_SHORT. The list of a drawing is never
 * refused as malformed, and passes no column in as many as were drawn, up to 4,096. The row
 * shows all of a window in end - start columns, and all of drawn rows in the larger of their
 * columns and width times count (where that is above 4,096, in any width above their columns):
 * in fewer, a clear may blank the last column (docs/SCOPE.md, "A printed row"). */
console_answer console_screen_row(const uint8_t *list, size_t list_len,
                                  size_t width,
                                  uint8_t *out, size_t out_len);

/* The stored form of a change list, for the journal: each change a 2-byte length of its body,
 * a 2-byte kind and the body. Old attributes of 24 bytes, mixed with others or not, get
 * baseline alignment, a last byte 0.
 * Count: the bytes, 2 fewer for each change, 1 fewer for each with old attributes.
 * Lend out: CONSOLE_STORED_SIZE(list_len).
 * Questions: CONSOLE_LIST_MALFORMED (cluster widths are not asked), CONSOLE_BODY_TOO_LONG,
 * CONSOLE_OUTPUT_TOO_SHORT. */
console_answer console_store(const uint8_t *list, size_t list_len,
                             uint8_t *out, size_t out_len);

/* The change list of a stored form. What was stored comes back byte for byte, old attributes
 * as they were lengthened.
 * Count: the bytes, 2 more for each change.
 * Lend out: CONSOLE_RESTORED_SIZE(stored_len).
 * Questions: CONSOLE_LIST_MALFORMED (attributes of other than 25 bytes are), CONSOLE_OUTPUT_TOO_SHORT. */
console_answer console_restore(const uint8_t *stored, size_t stored_len,
                               uint8_t *out, size_t out_len);

/* ---- From cells */

/* A report for printers that take overstrike. A cell is two bytes: one 20 to 7E except 5F, then
 * its style, the number and not its digit: 0 normal, the byte is written; 1 bold, the byte,
 * 08, the byte; 2 underline, 5F, 08, the byte; 3 both, 5F, 08, the byte, 08, the byte.
 * console_convert turns what was written into the cells' bytes with style orders between them,
 * ending in normal.
 * Count: the bytes written. cells_len is bytes.
 * Lend out: CONSOLE_WRITTEN_SIZE(cells_len).
 * Questions: CONSOLE_CELLS_MALFORMED (another byte or style in any cell, or half a cell),
 * CONSOLE_LINE_TOO_LONG (more than 4,096 bytes would be written), CONSOLE_REPORT_TOO_SHORT. */
console_answer console_write_cells(const uint8_t *cells, size_t cells_len,
                                   uint8_t *out, size_t out_len);

#ifdef __cplusplus
}
#endif

#endif
