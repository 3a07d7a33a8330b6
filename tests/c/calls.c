/* Tries each call of timeforms.h, and the rows of the tables that are named as words. Silent where all is as it must be.
 * The values are from README.md, from the tables of crates/conformance and by hand. */
#include "timeforms.h"

#include <stdint.h>
#include <stdio.h>
#include <stdlib.h>
#include <string.h>

static int failed = 0;

#define CHECK(holds)                                                          \
    do {                                                                      \
        if (!(holds)) {                                                       \
            fprintf(stderr, "%s:%d: %s\n", __FILE__, __LINE__, #holds);       \
            failed = 1;                                                       \
        }                                                                     \
    } while (0)

/* A block of just so many bytes, so that a sanitizer sees each access beyond it. */
static char *block(size_t len) {
    char *bytes = malloc(len ? len : 1);
    if (!bytes) abort();
    memset(bytes, '#', len ? len : 1);
    return bytes;
}

/* Whether a call answered this text, or this code where the text is null, with a buffer of so many bytes. */
static int reply_is(const char *from, const char *to, const char *text, size_t text_len, size_t room, const char *want, int32_t code) {
    char *out = block(room), *given = block(text_len);
    if (text_len) memcpy(given, text, text_len);
    int32_t by_name = timeforms_reply_by_name(from, strlen(from), to, strlen(to), given, text_len, out, room);
    int holds = by_name == (want ? (int32_t)strlen(want) : code);
    if (want) {
        holds = holds && !memcmp(out, want, strlen(want));
        for (size_t at = strlen(want); at < room; at++) holds = holds && out[at] == '#';
    } else {
        for (size_t at = 0; at < room; at++) holds = holds && out[at] == '#';
    }
    int32_t by_number = timeforms_reply(timeforms_form_by_name(from, strlen(from)), timeforms_form_by_name(to, strlen(to)), given, text_len,
                                        out, room);
    free(out);
    free(given);
    return holds && by_number == by_name;
}

static int answers(const char *from, const char *to, const char *text, const char *want) {
    return reply_is(from, to, text, strlen(text), TIMEFORMS_TEXT_MAX, want, 0);
}

static int refuses(const char *from, const char *to, const char *text, int32_t code) {
    return reply_is(from, to, text, strlen(text), TIMEFORMS_TEXT_MAX, NULL, code);
}

static void test_forms(void) {
    static const char *names[] = {"FileTime", "IsoDateTime", "IsoDate", "IsoDuration", "Toml",
                                  "Fancy",    "PgIso",       "Postgres", "PgVerbose",  "PgSql", "IsoStrict",
                                  "Unix",     "PgTimestamp", "HttpDate", "MailDate", "XsdDuration"};
    for (int32_t form = TIMEFORMS_FILE_TIME; form <= TIMEFORMS_XSD_DURATION; form++) {
        size_t len = strlen(names[form]);
        char *out = block(len);
        CHECK(timeforms_form_by_name(names[form], len) == form);
        CHECK(timeforms_form_name(form, out, len) == (int32_t)len && !memcmp(out, names[form], len));
        CHECK(timeforms_form_name(form, out, len - 1) == TIMEFORMS_NO_ROOM);
        CHECK(timeforms_form_by_name(names[form], len - 1) == TIMEFORMS_NO_SUCH_FORM);
        free(out);
    }
    CHECK(timeforms_form_by_name("pgiso", 5) == TIMEFORMS_NO_SUCH_FORM);
    CHECK(timeforms_form_by_name("PgIso\0", 6) == TIMEFORMS_NO_SUCH_FORM);
    CHECK(timeforms_form_by_name("\xff", 1) == TIMEFORMS_NO_SUCH_FORM);
    CHECK(timeforms_form_by_name(NULL, 0) == TIMEFORMS_NO_SUCH_FORM);
    CHECK(timeforms_form_name(-1, NULL, 0) == TIMEFORMS_NO_SUCH_FORM);
    CHECK(timeforms_form_name(INT32_MAX, NULL, 0) == TIMEFORMS_NO_SUCH_FORM);
    CHECK(timeforms_form_name(TIMEFORMS_TOML, NULL, 0) == TIMEFORMS_NO_ROOM);
}

static void test_replies_to_texts(void) {
    CHECK(answers("PgIso", "PgIso", "P1Y1Y", "P2Y"));
    CHECK(answers("FileTime", "IsoDateTime", "125962560000000000", "2000-02-29T00:00:00.000+00:00"));
    CHECK(answers("Fancy", "Postgres", "36h", "1 day 12:00:00"));
    CHECK(refuses("PgIso", "PgIso", "P", TIMEFORMS_SYNTAX));
    CHECK(refuses("IsoDate", "IsoDate", "2015-09-31", TIMEFORMS_NO_SUCH_MOMENT));
    CHECK(refuses("FileTime", "FileTime", "18446744073709551616", TIMEFORMS_RANGE));
    CHECK(refuses("Toml", "FileTime", "12:00:00", TIMEFORMS_KIND));
    CHECK(refuses("Fancy", "PgIso", "1ns", TIMEFORMS_PRECISION));
    CHECK(refuses("Fancy", "Fancy", "30d", TIMEFORMS_AMBIGUOUS));
    CHECK(refuses("Fancy", "fancy", "1s", TIMEFORMS_NO_SUCH_FORM));
    CHECK(refuses("", "Fancy", "1s", TIMEFORMS_NO_SUCH_FORM));
    CHECK(refuses("Fancy\xff", "Fancy", "\xff", TIMEFORMS_NO_SUCH_FORM));
    CHECK(refuses("Fancy", "Fancy", "1s\xff", TIMEFORMS_NOT_UTF8));
    /* a byte that is cut off its letter, and a half of a pair */
    CHECK(refuses("PgIso", "PgIso", "\xc3", TIMEFORMS_NOT_UTF8));
    CHECK(refuses("PgIso", "PgIso", "\xed\xa0\x80", TIMEFORMS_NOT_UTF8));
    CHECK(reply_is("PgIso", "PgIso", "P1Y\0", 4, 96, NULL, TIMEFORMS_SYNTAX));
    /* the buffer is as long as the text, or one byte too small; a cause comes before want of room */
    CHECK(reply_is("PgIso", "PgIso", "P1Y1Y", 5, 3, "P2Y", 0));
    CHECK(reply_is("PgIso", "PgIso", "P1Y1Y", 5, 2, NULL, TIMEFORMS_NO_ROOM));
    CHECK(reply_is("PgIso", "PgIso", "P1Y1Y", 5, 0, NULL, TIMEFORMS_NO_ROOM));
    CHECK(reply_is("PgIso", "PgIso", "P", 1, 0, NULL, TIMEFORMS_SYNTAX));
    CHECK(timeforms_reply(TIMEFORMS_PG_ISO, TIMEFORMS_PG_ISO, NULL, 0, NULL, 0) == TIMEFORMS_SYNTAX);
    /* the text of no counts is no time in `Postgres` */
    CHECK(timeforms_reply(TIMEFORMS_POSTGRES, TIMEFORMS_PG_ISO, NULL, 0, NULL, 0) == TIMEFORMS_NO_ROOM);
    CHECK(timeforms_reply_by_name(NULL, 0, NULL, 0, NULL, 0, NULL, 0) == TIMEFORMS_NO_SUCH_FORM);
    CHECK(timeforms_reply(-1, TIMEFORMS_TOML, NULL, 0, NULL, 0) == TIMEFORMS_NO_SUCH_FORM);
    CHECK(timeforms_reply(TIMEFORMS_TOML, 1000, NULL, 0, NULL, 0) == TIMEFORMS_NO_SUCH_FORM);
}

/* `P`, so many zeros and `1D`: one day. */
static void test_long_texts(void) {
    size_t len = 16u << 20;
    char *text = block(len), out[TIMEFORMS_REPLY_MAX];
    memset(text, '0', len);
    text[0] = 'P';
    memcpy(text + len - 2, "1D", 2);
    CHECK(timeforms_reply(TIMEFORMS_PG_ISO, TIMEFORMS_PG_ISO, text, len, out, 3) == 3 && !memcmp(out, "P1D", 3));
    text[len - 1] = 'd';
    CHECK(timeforms_reply(TIMEFORMS_PG_ISO, TIMEFORMS_PG_ISO, text, len, out, 3) == TIMEFORMS_SYNTAX);
    text[len - 1] = (char)0xff;
    CHECK(timeforms_reply(TIMEFORMS_PG_ISO, TIMEFORMS_PG_ISO, text, len, out, 3) == TIMEFORMS_NOT_UTF8);
    CHECK(timeforms_form_by_name(text, len) == TIMEFORMS_NO_SUCH_FORM);
    memcpy(text, "PgIso PgIso P", 13);
    memcpy(text + len - 3, "1D\n", 3);
    size_t used = 1;
    CHECK(timeforms_replies(text, len - 1, out, sizeof out, &used) == 0 && used == 0);
    CHECK(timeforms_replies(text, len, out, sizeof out, &used) == 4 && used == len && !memcmp(out, "P1D\n", 4));
    free(text);
}

static void test_replies_to_lines(void) {
    const char *lines = "PgIso PgIso P1Y1Y\n\nFancy Fancy 30d\nPgIso PgIso P1";
    size_t len = strlen(lines), used = 7;
    char *out = block(37);
    /* all whole lines: 4, 13 and 18 bytes; the last one has no line feed */
    CHECK(timeforms_replies(lines, len, out, 37, &used) == 35 && used == 35);
    CHECK(!memcmp(out, "P2Y\nrefused Line\nrefused Ambiguous\n##", 37));
    memset(out, '#', 37);
    CHECK(timeforms_replies(lines, len, out, 34, &used) == 17 && used == 19 && !memcmp(out, "P2Y\nrefused Line\n#", 18));
    CHECK(timeforms_replies(lines, len, out, 4, &used) == 4 && used == 18);
    memset(out, '#', 37);
    CHECK(timeforms_replies(lines, len, out, 3, &used) == 0 && used == 0 && out[0] == '#');
    CHECK(timeforms_replies(lines, 17, out, 37, &used) == 0 && used == 0 && out[0] == '#');
    used = 7;
    CHECK(timeforms_replies(NULL, 0, NULL, 0, &used) == 0 && used == 0);
    used = 7;
    CHECK(timeforms_replies("\n", 1, NULL, 0, &used) == 0 && used == 0);
    CHECK(timeforms_replies("PgIso PgIso \xff\n", 14, out, 37, &used) == 13 && used == 14 && !memcmp(out, "refused Line\n", 13));
    free(out);
}

static int interval_is(int32_t form, const char *text, int32_t months, int32_t days, int64_t microseconds) {
    timeforms_interval interval = {7, 7, 7};
    return timeforms_interval_from_text(form, text, strlen(text), &interval) == 0 && interval.months == months && interval.days == days &&
           interval.microseconds == microseconds;
}

static int interval_refuses(int32_t form, const char *text, size_t len, int32_t code) {
    timeforms_interval interval = {7, 8, 9};
    return timeforms_interval_from_text(form, text, len, &interval) == code && interval.months == 7 && interval.days == 8 &&
           interval.microseconds == 9;
}

static int interval_text_is(int32_t form, timeforms_interval interval, const char *want) {
    size_t len = strlen(want);
    char *out = block(len);
    int holds = timeforms_interval_to_text(form, &interval, out, len) == (int32_t)len && !memcmp(out, want, len);
    holds = holds && timeforms_interval_to_text(form, &interval, out, len - 1) == TIMEFORMS_NO_ROOM;
    free(out);
    return holds;
}

static void test_intervals(void) {
    timeforms_interval some = {14, -3, 14706000000}, least = {INT32_MIN, INT32_MIN, INT64_MIN};
    CHECK(interval_is(TIMEFORMS_PG_ISO, "P1Y2M-3DT4H5M6S", 14, -3, 14706000000));
    CHECK(interval_is(TIMEFORMS_POSTGRES, "1 year 2 mons -3 days 04:05:06", 14, -3, 14706000000));
    CHECK(interval_is(TIMEFORMS_PG_VERBOSE, "@ 1 hour 2 mins 3 secs ago", 0, 0, -3723000000));
    CHECK(interval_is(TIMEFORMS_PG_SQL, "+1-2 -3 +4:05:06", 14, -3, 14706000000));
    CHECK(interval_is(TIMEFORMS_ISO_STRICT, "P1Y2M-3DT4H5M6S", 14, -3, 14706000000));
    CHECK(interval_refuses(TIMEFORMS_ISO_STRICT, "P1D1Y", 5, TIMEFORMS_SYNTAX));
    CHECK(interval_is(TIMEFORMS_POSTGRES, "", 0, 0, 0));
    CHECK(interval_refuses(TIMEFORMS_PG_ISO, NULL, 0, TIMEFORMS_SYNTAX));
    CHECK(interval_refuses(TIMEFORMS_PG_ISO, "P2147483648D", 12, TIMEFORMS_RANGE));
    CHECK(interval_refuses(TIMEFORMS_POSTGRES, "1 day 2 day", 11, TIMEFORMS_SYNTAX));
    CHECK(interval_refuses(TIMEFORMS_PG_ISO, "P1D\xff", 4, TIMEFORMS_NOT_UTF8));
    CHECK(interval_refuses(TIMEFORMS_FANCY, "1h", 2, TIMEFORMS_NO_SUCH_FORM));
    CHECK(interval_refuses(TIMEFORMS_ISO_DURATION, "P1D", 3, TIMEFORMS_NO_SUCH_FORM));
    CHECK(interval_refuses(-1, "\xff", 1, TIMEFORMS_NO_SUCH_FORM));
    CHECK(interval_text_is(TIMEFORMS_PG_ISO, some, "P1Y2M-3DT4H5M6S"));
    CHECK(interval_text_is(TIMEFORMS_POSTGRES, some, "1 year 2 mons -3 days 04:05:06"));
    CHECK(interval_text_is(TIMEFORMS_PG_VERBOSE, some, "@ 1 year 2 mons -3 days 4 hours 5 mins 6 secs"));
    CHECK(interval_text_is(TIMEFORMS_PG_SQL, some, "+1-2 -3 +4:05:06"));
    CHECK(interval_text_is(TIMEFORMS_ISO_STRICT, some, "P1Y2M-3DT4H5M6S"));
    CHECK(interval_text_is(TIMEFORMS_PG_ISO, least, "P-178956970Y-8M-2147483648DT-2562047788H-54.775808S"));
    CHECK(timeforms_interval_to_text(TIMEFORMS_TOML, &some, NULL, 0) == TIMEFORMS_NO_SUCH_FORM);
    CHECK(timeforms_interval_to_text(TIMEFORMS_PG_SQL, &some, NULL, 0) == TIMEFORMS_NO_ROOM);
}

/* The arrays of a column of so many cells, each a block of just its size. */
typedef struct rooms {
    size_t cells, bytes, done;
    char *out;
    uint32_t *offsets;
    int32_t *codes, *months, *days;
    int64_t *microseconds;
} rooms;

static rooms rooms_of(size_t cells, size_t bytes) {
    rooms r = {cells, bytes, 77, block(bytes), NULL, NULL, NULL, NULL, NULL};
    r.offsets = (uint32_t *)(void *)block((cells + 1) * sizeof *r.offsets);
    r.codes = (int32_t *)(void *)block(cells * sizeof *r.codes);
    r.months = (int32_t *)(void *)block(cells * sizeof *r.months);
    r.days = (int32_t *)(void *)block(cells * sizeof *r.days);
    r.microseconds = (int64_t *)(void *)block(cells * sizeof *r.microseconds);
    return r;
}

static void free_rooms(rooms *r) {
    free(r->out);
    free(r->offsets);
    free(r->codes);
    free(r->months);
    free(r->days);
    free(r->microseconds);
}

static int32_t convert_into(rooms *r, int32_t from, int32_t to, const char *data, size_t data_len, const uint32_t *offsets, size_t offsets_len) {
    return timeforms_convert_column(from, to, data, data_len, offsets, offsets_len, r->out, r->bytes, r->offsets, r->cells + 1, r->codes,
                                    r->cells, &r->done);
}

static int32_t read_into(rooms *r, int32_t form, const char *data, size_t data_len, const uint32_t *offsets, size_t offsets_len) {
    return timeforms_intervals_from_column(form, data, data_len, offsets, offsets_len, r->months, r->cells, r->days, r->cells, r->microseconds,
                                           r->cells, r->codes, r->cells, &r->done);
}

/* Whether a cell has this code and this answer. */
static int cell_is(const rooms *r, size_t cell, int32_t code, const char *want) {
    size_t len = r->offsets[cell + 1] - r->offsets[cell];
    return r->codes[cell] == code && len == strlen(want) && !memcmp(r->out + r->offsets[cell], want, len);
}

/* Whether a cell has this code and these parts. */
static int parts_are(const rooms *r, size_t cell, int32_t code, int32_t months, int32_t days, int64_t microseconds) {
    return r->codes[cell] == code && r->months[cell] == months && r->days[cell] == days && r->microseconds[cell] == microseconds;
}

/* Whether so many bytes are those that `block` left. */
static int is_untouched(const void *bytes, size_t len) {
    const char *at = bytes;
    while (len && *at == '#') at++, len--;
    return !len;
}

static void test_columns(void) {
    /* a text, no text, a line feed, half a letter, a moment of another form, a text with a zero byte */
    static const char data[] = "P1Y1YP1D\nPgIso\xc3P\0P2147483648DP3W";
    static const uint32_t offsets[] = {0, 5, 5, 14, 15, 17, 29, 32};
    size_t len = sizeof data - 1;
    rooms r = rooms_of(9, 96);
    CHECK(convert_into(&r, TIMEFORMS_PG_ISO, TIMEFORMS_POSTGRES, data, len, offsets, 8) == 0 && r.done == 7);
    CHECK(cell_is(&r, 0, 0, "2 years") && cell_is(&r, 1, TIMEFORMS_SYNTAX, "") && cell_is(&r, 2, TIMEFORMS_SYNTAX, ""));
    CHECK(cell_is(&r, 3, TIMEFORMS_NOT_UTF8, "") && cell_is(&r, 4, TIMEFORMS_SYNTAX, "") && cell_is(&r, 5, TIMEFORMS_RANGE, ""));
    CHECK(cell_is(&r, 6, 0, "21 days") && r.offsets[0] == 0 && r.offsets[7] == 14);
    CHECK(is_untouched(r.out + 14, 82) && is_untouched(r.offsets + 8, 8) && is_untouched(r.codes + 7, 8));
    CHECK(read_into(&r, TIMEFORMS_PG_ISO, data, len, offsets, 8) == 0 && r.done == 7);
    CHECK(parts_are(&r, 0, 0, 24, 0, 0) && parts_are(&r, 1, TIMEFORMS_SYNTAX, 0, 0, 0) && parts_are(&r, 3, TIMEFORMS_NOT_UTF8, 0, 0, 0));
    CHECK(parts_are(&r, 5, TIMEFORMS_RANGE, 0, 0, 0) && parts_are(&r, 6, 0, 0, 21, 0));
    CHECK(is_untouched(r.months + 7, 8) && is_untouched(r.days + 7, 8) && is_untouched(r.microseconds + 7, 16));
    free_rooms(&r);
}

static void test_bad_offsets(void) {
    /* the data end behind 5 bytes: offsets that fall, that lie behind it by a byte, at the end of 32 bits, and good ones between them */
    static const char data[] = "P1DP2";
    static const uint32_t offsets[] = {3, 0, 3, 6, 0, 3, UINT32_MAX, 4, 5, UINT32_MAX, UINT32_MAX};
    rooms r = rooms_of(10, 9);
    CHECK(convert_into(&r, TIMEFORMS_PG_ISO, TIMEFORMS_PG_ISO, data, 5, offsets, 11) == 0 && r.done == 10);
    CHECK(read_into(&r, TIMEFORMS_PG_ISO, data, 5, offsets, 11) == 0 && r.done == 10);
    for (size_t cell = 0; cell < 10; cell++) {
        int good = cell == 1 || cell == 4, one = cell == 7;
        CHECK(cell_is(&r, cell, good ? 0 : one ? TIMEFORMS_SYNTAX : TIMEFORMS_BAD_OFFSETS, good ? "P1D" : ""));
        CHECK(parts_are(&r, cell, good ? 0 : one ? TIMEFORMS_SYNTAX : TIMEFORMS_BAD_OFFSETS, 0, good, 0));
    }
    CHECK(is_untouched(r.out + 6, 3));
    free_rooms(&r);
}

static void test_rooms_of_columns(void) {
    static const char data[] = "P1DP2DP3D";
    static const uint32_t offsets[] = {0, 3, 6, 9};
    rooms r = rooms_of(3, 8);
    /* the third answer is one byte too long; with one byte more it isn't */
    CHECK(convert_into(&r, TIMEFORMS_PG_ISO, TIMEFORMS_PG_ISO, data, 9, offsets, 4) == 0 && r.done == 2);
    CHECK(!memcmp(r.out, "P1DP2D##", 8) && r.offsets[2] == 6 && is_untouched(r.offsets + 3, 4) && is_untouched(r.codes + 2, 4));
    CHECK(convert_into(&r, TIMEFORMS_PG_ISO, TIMEFORMS_PG_ISO, data, 9, offsets + 2, 2) == 0 && r.done == 1 && cell_is(&r, 0, 0, "P3D"));
    free_rooms(&r);
    /* an array that has fewer places, or none */
    r = rooms_of(3, 9);
    uint32_t first = 7;
    CHECK(timeforms_convert_column(6, 6, data, 9, offsets, 4, r.out, 9, r.offsets, 3, r.codes, 3, &r.done) == 0 && r.done == 2);
    CHECK(timeforms_convert_column(6, 6, data, 9, offsets, 4, r.out, 9, r.offsets, 4, r.codes, 1, &r.done) == 0 && r.done == 1);
    CHECK(timeforms_convert_column(6, 6, data, 9, offsets, 4, NULL, 0, &first, 1, NULL, 0, &r.done) == 0 && r.done == 0 && first == 0);
    CHECK(timeforms_convert_column(6, 6, data, 9, offsets, 4, NULL, 0, r.offsets, 4, r.codes, 3, &r.done) == 0 && r.done == 0);
    r.done = 77;
    CHECK(timeforms_convert_column(6, 6, data, 9, offsets, 4, r.out, 9, NULL, 0, r.codes, 3, &r.done) == TIMEFORMS_NO_ROOM && r.done == 77);
    CHECK(timeforms_convert_column(1000, 6, data, 9, offsets, 4, r.out, 9, NULL, 0, r.codes, 3, &r.done) == TIMEFORMS_NO_SUCH_FORM);
    CHECK(timeforms_convert_column(6, -1, data, 9, offsets, 4, r.out, 9, r.offsets, 4, r.codes, 3, &r.done) == TIMEFORMS_NO_SUCH_FORM);
    CHECK(r.done == 77);
    /* no cells: no offsets, or one */
    first = 7;
    CHECK(timeforms_convert_column(6, 6, NULL, 0, NULL, 0, NULL, 0, &first, 1, NULL, 0, &r.done) == 0 && r.done == 0 && first == 0);
    CHECK(timeforms_convert_column(6, 6, NULL, 0, offsets, 1, NULL, 0, &first, 1, NULL, 0, &r.done) == 0 && r.done == 0);
    CHECK(timeforms_intervals_from_column(6, NULL, 0, NULL, 0, NULL, 0, NULL, 0, NULL, 0, NULL, 0, &r.done) == 0 && r.done == 0);
    CHECK(timeforms_intervals_from_column(6, data, 9, offsets, 4, r.months, 3, r.days, 2, r.microseconds, 3, r.codes, 3, &r.done) == 0);
    CHECK(r.done == 2 && is_untouched(r.months + 2, 4));
    CHECK(timeforms_intervals_from_column(5, data, 9, offsets, 4, r.months, 3, r.days, 3, r.microseconds, 3, r.codes, 3, &r.done) ==
          TIMEFORMS_NO_SUCH_FORM);
    free_rooms(&r);
}

static int is_interval(timeforms_interval t, int32_t months, int32_t days, int64_t microseconds) {
    return t.months == months && t.days == days && t.microseconds == microseconds;
}

static void test_arithmetic(void) {
    timeforms_interval a = {1, -2, 3}, b = {4, 5, -6}, most = {INT32_MAX, INT32_MAX, INT64_MAX}, least = {INT32_MIN, INT32_MIN, INT64_MIN};
    timeforms_interval out = {7, 8, 9}, month = {1, 0, 0}, days = {0, 30, 0}, hours = {0, 0, 30 * 86400000000};
    CHECK(timeforms_interval_add(most, (timeforms_interval){1, 0, 0}, &out) == TIMEFORMS_RANGE && is_interval(out, 7, 8, 9));
    CHECK(timeforms_interval_add(most, (timeforms_interval){0, 1, 0}, &out) == TIMEFORMS_RANGE && is_interval(out, 7, 8, 9));
    CHECK(timeforms_interval_add(most, (timeforms_interval){0, 0, 1}, &out) == TIMEFORMS_RANGE && is_interval(out, 7, 8, 9));
    CHECK(timeforms_interval_subtract(least, (timeforms_interval){0, 0, 1}, &out) == TIMEFORMS_RANGE && is_interval(out, 7, 8, 9));
    CHECK(timeforms_interval_negate((timeforms_interval){0, 0, INT64_MIN}, &out) == TIMEFORMS_RANGE && is_interval(out, 7, 8, 9));
    CHECK(timeforms_interval_negate((timeforms_interval){INT32_MIN, 0, 0}, &out) == TIMEFORMS_RANGE && is_interval(out, 7, 8, 9));
    CHECK(timeforms_interval_add(most, least, &out) == 0 && is_interval(out, -1, -1, -1));
    CHECK(timeforms_interval_add(a, b, &out) == 0 && is_interval(out, 5, 3, -3));
    CHECK(timeforms_interval_subtract(a, b, &out) == 0 && is_interval(out, -3, -7, 9));
    CHECK(timeforms_interval_negate(most, &out) == 0 && is_interval(out, -INT32_MAX, -INT32_MAX, -INT64_MAX));
    CHECK(timeforms_interval_compare(a, a) == 0 && timeforms_interval_compare(least, most) == -1);
    CHECK(timeforms_interval_compare(hours, days) == -1 && timeforms_interval_compare(days, month) == -1);
    CHECK(timeforms_interval_compare(month, hours) == 1);
    hours.microseconds++;
    CHECK(timeforms_interval_compare(month, hours) == -1);
    CHECK(timeforms_interval_from_seconds(129600, 1999, &out) == 0 && is_interval(out, 0, 1, 43200000001));
    CHECK(timeforms_interval_from_seconds(-129600, 0, &out) == 0 && is_interval(out, 0, -1, -43200000000));
    CHECK(timeforms_interval_from_seconds(-1, 500000000, &out) == 0 && is_interval(out, 0, 0, -500000));
    CHECK(timeforms_interval_from_seconds(-1, 999999999, &out) == 0 && is_interval(out, 0, 0, 0));
    CHECK(timeforms_interval_from_seconds(0, 1000000000, &out) == TIMEFORMS_RANGE && is_interval(out, 0, 0, 0));
    CHECK(timeforms_interval_from_seconds(INT64_MAX, 0, &out) == TIMEFORMS_RANGE && is_interval(out, 0, 0, 0));
    CHECK(timeforms_interval_from_seconds(INT64_MIN, 0, &out) == TIMEFORMS_RANGE && is_interval(out, 0, 0, 0));
}

static void test_file_times(void) {
    uint64_t ticks = 7;
    int64_t seconds = 7, nanos = 7;
    uint32_t beyond = 7;
    CHECK(timeforms_file_time_from_nanoseconds(0, &ticks) == 0 && ticks == 116444736000000000u);
    CHECK(timeforms_file_time_from_nanoseconds(-1, &ticks) == 0 && ticks == 116444735999999999u);
    CHECK(timeforms_file_time_from_nanoseconds(199, &ticks) == 0 && ticks == 116444736000000001u);
    /* -9,223,372,036,854,775,808 and 9,223,372,036,854,775,807 nanoseconds, in ticks rounded down */
    CHECK(timeforms_file_time_from_nanoseconds(INT64_MIN, &ticks) == 0 && ticks == 24211015631452241u);
    CHECK(timeforms_file_time_to_nanoseconds(ticks, &nanos) == TIMEFORMS_RANGE && nanos == 7);
    CHECK(timeforms_file_time_to_nanoseconds(ticks + 1, &nanos) == 0 && nanos == INT64_MIN + 8);
    CHECK(timeforms_file_time_from_nanoseconds(INT64_MAX, &ticks) == 0 && ticks == 208678456368547758u);
    CHECK(timeforms_file_time_to_nanoseconds(ticks, &nanos) == 0 && nanos == INT64_MAX - 7);
    CHECK(timeforms_file_time_to_nanoseconds(ticks + 1, &nanos) == TIMEFORMS_RANGE && nanos == INT64_MAX - 7);
    CHECK(timeforms_file_time_to_unix_time(116444735999999999u, &seconds, &beyond) == 0 && seconds == -1 && beyond == 999999900);
    CHECK(timeforms_file_time_to_unix_time(0, &seconds, &beyond) == 0 && seconds == -11644473600 && beyond == 0);
    CHECK(timeforms_file_time_to_unix_time(UINT64_MAX, &seconds, &beyond) == 0 && seconds == 1833029933770 && beyond == 955161500);
    CHECK(timeforms_file_time_from_unix_time(1833029933770, 955161599, &ticks) == 0 && ticks == UINT64_MAX);
    ticks = 7;
    CHECK(timeforms_file_time_from_unix_time(1833029933770, 955161600, &ticks) == TIMEFORMS_RANGE && ticks == 7);
    CHECK(timeforms_file_time_from_unix_time(-11644473601, UINT32_MAX, &ticks) == TIMEFORMS_RANGE && ticks == 7);
    CHECK(timeforms_file_time_from_unix_time(-11644473600, 0, &ticks) == 0 && ticks == 0);
    CHECK(timeforms_file_time_from_unix_time(0, 1000000000, &ticks) == 0 && ticks == 116444736010000000u);
}

static void test_instants(void) {
    int64_t seconds = 7, at = 7;
    uint32_t nanos = 7, beyond = 7;
    char out[TIMEFORMS_TEXT_MAX];
    CHECK(timeforms_instant_from_text(TIMEFORMS_ISO_DATE_TIME, "2015-06-26", 10, &seconds, &nanos) == TIMEFORMS_SYNTAX);
    CHECK(timeforms_instant_from_text(TIMEFORMS_TOML, "2015-06-26", 10, &seconds, &nanos) == TIMEFORMS_KIND);
    CHECK(timeforms_instant_from_text(TIMEFORMS_ISO_DATE_TIME, "2015-09-31T00:00:00Z", 20, &seconds, &nanos) == TIMEFORMS_NO_SUCH_MOMENT);
    CHECK(timeforms_instant_from_text(TIMEFORMS_TOML, "\xff", 1, &seconds, &nanos) == TIMEFORMS_NOT_UTF8);
    CHECK(timeforms_instant_from_text(1000, "\xff", 1, &seconds, &nanos) == TIMEFORMS_NO_SUCH_FORM && seconds == 7 && nanos == 7);
    CHECK(timeforms_instant_from_text(TIMEFORMS_FILE_TIME, "116444735999999999", 18, &seconds, &nanos) == 0);
    CHECK(seconds == -1 && nanos == 999999900);
    CHECK(timeforms_instant_from_text(TIMEFORMS_TOML, "2024-01-31T12:00:00Z", 20, &seconds, &nanos) == 0);
    CHECK(seconds == 1706702400 && nanos == 0);
    CHECK(timeforms_instant_to_text(TIMEFORMS_FILE_TIME, -1, 999999900, out, 18) == 18 && !memcmp(out, "116444735999999999", 18));
    CHECK(timeforms_instant_to_text(TIMEFORMS_FILE_TIME, -1, 999999900, out, 17) == TIMEFORMS_NO_ROOM);
    CHECK(timeforms_instant_to_text(TIMEFORMS_FILE_TIME, 0, 1, out, 96) == TIMEFORMS_PRECISION);
    CHECK(timeforms_instant_to_text(TIMEFORMS_FILE_TIME, 0, 1000000000, out, 96) == TIMEFORMS_RANGE);
    CHECK(timeforms_instant_to_text(TIMEFORMS_TOML, INT64_MAX, 0, out, 96) == TIMEFORMS_RANGE);
    CHECK(timeforms_instant_to_text(TIMEFORMS_TOML, INT64_MIN, 0, out, 96) == TIMEFORMS_RANGE);
    CHECK(timeforms_instant_to_text(TIMEFORMS_PG_ISO, 0, 0, out, 96) == TIMEFORMS_KIND);
    CHECK(timeforms_instant_to_text(-1, 0, 0, out, 96) == TIMEFORMS_NO_SUCH_FORM);
    /* from January 31st, by months: February 29th, March 31st, and February 28th of the next year */
    timeforms_interval month = {1, 0, 0}, least = {INT32_MIN, INT32_MIN, INT64_MIN}, day = {0, 1, 1};
    CHECK(timeforms_recurrence_at(seconds, 5, month, 0, &at, &beyond) == 0 && at == seconds && beyond == 5);
    CHECK(timeforms_recurrence_at(seconds, 0, month, 1, &at, &beyond) == 0 && at == 1709208000 && beyond == 0);
    CHECK(timeforms_recurrence_at(seconds, 0, month, 2, &at, &beyond) == 0 && at == 1711886400 && beyond == 0);
    CHECK(timeforms_recurrence_at(seconds, 0, month, 13, &at, &beyond) == 0 && at == 1740744000 && beyond == 0);
    CHECK(timeforms_recurrence_at(-1, 999999999, day, 2, &at, &beyond) == 0 && at == 172800 && beyond == 1999);
    at = 7, beyond = 8;
    CHECK(timeforms_recurrence_at(seconds, 1000000000, month, 0, &at, &beyond) == TIMEFORMS_RANGE);
    CHECK(timeforms_recurrence_at(seconds, 0, least, UINT32_MAX, &at, &beyond) == TIMEFORMS_RANGE);
    CHECK(timeforms_recurrence_at(INT64_MIN, 0, month, 0, &at, &beyond) == TIMEFORMS_RANGE && at == 7 && beyond == 8);
    /* the last second of 9999, and the first of -9999 */
    CHECK(timeforms_recurrence_at(253402300799, 0, month, 0, &at, &beyond) == 0 && at == 253402300799);
    CHECK(timeforms_recurrence_at(253402300799, 0, month, 1, &at, &beyond) == TIMEFORMS_RANGE);
    CHECK(timeforms_recurrence_at(-377705116800, 0, month, 0, &at, &beyond) == 0 && at == -377705116800 && beyond == 0);
    CHECK(timeforms_recurrence_at(-377705116801, 999999999, month, 1, &at, &beyond) == TIMEFORMS_RANGE);
}

/* Room for so many slots, of which a sanitizer sees each access beyond it. */
static timeforms_slot *room_for(size_t slots) {
    return (timeforms_slot *)(void *)block(slots * sizeof(timeforms_slot));
}

/* Whether the check of a schedule answers this, with the number of lines and the two lines that it names; 7 is what was there before. */
static int checks_as(const char *lines, size_t len, timeforms_slot *slots, size_t room, int32_t code, size_t count, uint64_t first,
                     uint64_t second) {
    char *given = block(len);
    if (len) memcpy(given, lines, len);
    size_t counted = 7;
    uint64_t one = 7, other = 7;
    int32_t answer = timeforms_schedule_check(given, len, slots, room, &counted, &one, &other);
    free(given);
    return answer == code && counted == count && one == first && other == second;
}

static int refuses_line(const char *lines, int32_t code, size_t count, uint64_t line) {
    timeforms_slot *slots = room_for(count + 1);
    int holds = checks_as(lines, strlen(lines), slots, count + 1, code, count, line, 7) && is_untouched(slots + count, sizeof *slots);
    free(slots);
    return holds;
}

static int slot_is(const timeforms_slot *slot, uint64_t start, uint64_t end, uint64_t line) {
    return slot->start == start && slot->end == end && slot->line == line;
}

/* The shifts of docs/COMMANDS.md, and rows of crates/conformance/data/schedule.tsv. */
static void test_schedules(void) {
    const char *planned = "2026-03-30T06:00:00+02:00\t8h\n2026-03-30T22:00:00+02:00\t8h\n2026-03-30T14:00:00+02:00\t8h\n";
    const char *shifts = "2026-03-30T06:00:00+02:00\t8h\n2026-03-30T22:00:00+02:00\t8h\n2026-03-30T13:30:00+02:00\t8h 30m\n";
    timeforms_slot *slots = room_for(3), *more = room_for(4);
    CHECK(checks_as(planned, strlen(planned), NULL, 0, TIMEFORMS_NO_ROOM, 3, 7, 7));
    CHECK(checks_as(planned, strlen(planned), slots, 2, TIMEFORMS_NO_ROOM, 3, 7, 7) && is_untouched(slots, 3 * sizeof *slots));
    CHECK(checks_as(planned, strlen(planned), slots, 3, 0, 3, 7, 7));
    CHECK(slot_is(slots, 134193168000000000u, 134193456000000000u, 1) && slot_is(slots + 1, 134193456000000000u, 134193744000000000u, 3));
    CHECK(slot_is(slots + 2, 134193744000000000u, 134194032000000000u, 2));
    CHECK(checks_as(shifts, strlen(shifts), more, 4, TIMEFORMS_CLASH, 3, 1, 3) && is_untouched(more + 3, sizeof *more));
    CHECK(more[0].line == 1 && slot_is(more + 1, 134193438000000000u, 134193744000000000u, 3) && more[2].line == 2);
    CHECK(checks_as(NULL, 0, NULL, 0, 0, 0, 7, 7));
    CHECK(checks_as("x\n\xff", 3, slots, 1, TIMEFORMS_NO_ROOM, 2, 7, 7));
    CHECK(checks_as("1970-01-01T00:00:00Z\t1h\xff", 25, slots, 3, TIMEFORMS_BAD_LINE, 1, 1, 7));
    CHECK(refuses_line("1970-01-01T00:00:00Z\t1h\n\nx\n", TIMEFORMS_BAD_LINE, 3, 2));
    CHECK(refuses_line("1970-01-01T00:00:00Z\t1h\n1970-01-01T00:00:00Z\t1h\nx\n", TIMEFORMS_BAD_LINE, 3, 3));
    CHECK(refuses_line("1970-01-01T00:00:00Z \t1h\n", TIMEFORMS_BAD_START + TIMEFORMS_SYNTAX, 1, 1));
    CHECK(refuses_line("1970-01-01T23:59:60Z\t1h\n", TIMEFORMS_BAD_START + TIMEFORMS_NO_SUCH_MOMENT, 1, 1));
    CHECK(refuses_line("1600-12-31T23:59:59.9999999Z\t1h\n", TIMEFORMS_BAD_START + TIMEFORMS_RANGE, 1, 1));
    CHECK(refuses_line("2222-02-02T00:00:00Z\t1h\n1970-01-01T00:00:00\t1h\n", TIMEFORMS_BAD_START + TIMEFORMS_KIND, 2, 2));
    CHECK(refuses_line("1970-01-01T00:00:00.00000001Z\t0\n", TIMEFORMS_BAD_START + TIMEFORMS_PRECISION, 1, 1));
    CHECK(refuses_line("1970-01-01T00:00:00Z\t 1h\n", TIMEFORMS_BAD_LENGTH + TIMEFORMS_SYNTAX, 1, 1));
    CHECK(refuses_line("1970-01-01T00:00:00Z\t18446744073709551616s 1ns\n", TIMEFORMS_BAD_LENGTH + TIMEFORMS_RANGE, 1, 1));
    CHECK(refuses_line("1601-01-01T00:00:00Z\t1844674407370955161600ns\n", TIMEFORMS_BAD_LENGTH + TIMEFORMS_RANGE, 1, 1));
    CHECK(refuses_line("1970-01-01T00:00:00Z\t1ns\n1970-01-01T00:00:00\t1h\n\n", TIMEFORMS_BAD_LENGTH + TIMEFORMS_PRECISION, 3, 1));
    CHECK(refuses_line("1970-01-01T00:00:00Z\t1h\n1970-01-01T00:00:00Z\t0\nx\n", TIMEFORMS_EMPTY_LENGTH, 3, 2));
    /* the last code of each kind, as a number that never changes */
    CHECK(refuses_line("1970-01-01T00:00:00Z\t1ns\n", -305, 1, 1) && refuses_line("1970-01-01\t1h\n", -204, 1, 1));
    free(slots);
    free(more);
}

static void test_durations(void) {
    uint64_t seconds = 7;
    uint32_t nanos = 7;
    char out[TIMEFORMS_TEXT_MAX];
    CHECK(timeforms_duration_from_text("1.5h", 4, &seconds, &nanos) == TIMEFORMS_SYNTAX && seconds == 7 && nanos == 7);
    CHECK(timeforms_duration_from_text(NULL, 0, &seconds, &nanos) == TIMEFORMS_SYNTAX && seconds == 7 && nanos == 7);
    CHECK(timeforms_duration_from_text("\xff", 1, &seconds, &nanos) == TIMEFORMS_NOT_UTF8 && seconds == 7 && nanos == 7);
    CHECK(timeforms_duration_from_text("18446744073709551616s", 21, &seconds, &nanos) == TIMEFORMS_RANGE && seconds == 7 && nanos == 7);
    CHECK(timeforms_duration_from_text("3m 5s", 5, &seconds, &nanos) == 0 && seconds == 185 && nanos == 0);
    CHECK(timeforms_duration_from_text("18446744073709551615s 999999999ns", 33, &seconds, &nanos) == 0);
    CHECK(seconds == UINT64_MAX && nanos == 999999999);
    CHECK(timeforms_duration_to_text(185, 0, out, 5) == 5 && !memcmp(out, "3m 5s", 5));
    CHECK(timeforms_duration_to_text(185, 0, out, 4) == TIMEFORMS_NO_ROOM);
    CHECK(timeforms_duration_to_text(0, 0, out, 96) == 1 && out[0] == '0');
    CHECK(timeforms_duration_to_text(UINT64_MAX, 999999999, out, 96) == 47);
    CHECK(!memcmp(out, "593066617596y 1m 1w 4d 7h 15s 999ms 999us 999ns", 47));
    CHECK(timeforms_duration_to_text(30 * 86400, 0, out, 96) == TIMEFORMS_AMBIGUOUS);
    CHECK(timeforms_duration_to_text(0, 1000000000, NULL, 0) == TIMEFORMS_RANGE);
}

static void test_version(void) {
    char out[8];
    CHECK(timeforms_version(out, sizeof out) == (int32_t)strlen(TIMEFORMS_VERSION));
    CHECK(!memcmp(out, TIMEFORMS_VERSION, strlen(TIMEFORMS_VERSION)));
    CHECK(timeforms_version(NULL, 0) == TIMEFORMS_NO_ROOM);
    int major = 0, minor = 0, patch = 0;
    CHECK(sscanf(TIMEFORMS_VERSION, "%d.%d.%d", &major, &minor, &patch) == 3);
    CHECK(TIMEFORMS_VERSION_NUMBER == 10000 * major + 100 * minor + patch && TIMEFORMS_ABI == major);
}

/* Writes the bytes that a field of a table spells over the field, where \x0A is one byte: how many they are. */
static size_t spelled(char *field) {
    size_t len = 0;
    for (char *at = field; *at; len++) {
        unsigned byte = (unsigned char)*at;
        int is_code = at[0] == '\\' && at[1] == 'x' && sscanf(at + 2, "%2X", &byte) == 1;
        at += is_code ? 4 : 1;
        field[len] = (char)byte;
    }
    return len;
}

/* Whether the calls for one text agree with a row: its line without its line feed, and its reply. */
static int row_agrees(const char *line, size_t len, const char *reply, size_t reply_len) {
    static const char *const causes[] = {"Syntax", "NoSuchMoment", "Range", "Kind", "Precision", "Ambiguous"};
    const char *end = line + len, *to = memchr(line, ' ', len);
    if (!to++) return reply_len == 12 && !memcmp(reply, "refused Line", 12);
    const char *text = memchr(to, ' ', (size_t)(end - to));
    size_t to_len = (size_t)((text ? text : end) - to);
    text = text ? text + 1 : end;
    char out[TIMEFORMS_TEXT_MAX];
    int32_t got = timeforms_reply_by_name(line, (size_t)(to - line) - 1, to, to_len, text, (size_t)(end - text), out, sizeof out);
    if (got >= 0) return (size_t)got == reply_len && !memcmp(out, reply, reply_len);
    const char *cause = got == TIMEFORMS_NO_SUCH_FORM || got == TIMEFORMS_NOT_UTF8 ? "Line" : got >= -6 ? causes[-got - 1] : "";
    return reply_len == 8 + strlen(cause) && !memcmp(reply, "refused ", 8) && !memcmp(reply + 8, cause, strlen(cause));
}

/* Each row of a table by both calls: the line with its line feed alone, and its text. */
static void test_table(const char *path) {
    static char row[1 << 16];
    FILE *table = fopen(path, "r");
    size_t rows = 0;
    CHECK(table != NULL);
    while (table && fgets(row, sizeof row, table)) {
        char *line = row, *tab = strchr(row, '\t'), *next = tab ? strchr(tab + 1, '\t') : NULL, out[TIMEFORMS_REPLY_MAX];
        if (row[0] == '#' || !next) continue;
        *tab = *next = 0;
        size_t reply_len = spelled(tab + 1), len = spelled(line), used;
        line[len] = '\n';
        size_t put = timeforms_replies(line, len + 1, out, sizeof out, &used);
        int agrees = used == len + 1 && put == reply_len + 1 && !memcmp(out, tab + 1, reply_len) && out[reply_len] == '\n';
        if (!agrees || !row_agrees(line, len, tab + 1, reply_len)) {
            fprintf(stderr, "%s disagrees: %.*s\n", path, (int)len, line);
            failed = 1;
        }
        rows++;
    }
    CHECK(rows > 0);
    if (table) fclose(table);
}

int main(int argc, char **argv) {
    test_forms();
    test_replies_to_texts();
    test_replies_to_lines();
    test_long_texts();
    test_intervals();
    test_columns();
    test_bad_offsets();
    test_rooms_of_columns();
    test_arithmetic();
    test_file_times();
    test_instants();
    test_schedules();
    test_durations();
    test_version();
    for (int table = 1; table < argc; table++) test_table(argv[table]);
    return failed;
}
