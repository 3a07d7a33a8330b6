/* Timestamps, durations and intervals between written forms: the proved calls, for C99 and C++.
 *
 * Every call answers a number: 0 or more where it has an answer, and else one of the codes below. Where it answers a code, what the
 * caller passed to be filled is as it was, unless the call says otherwise. Nothing is allocated, nothing is kept between calls, no call
 * stops its caller, and calls in several threads don't meet.
 *
 * A text is a pointer and a length in bytes. It ends with no zero byte, and none is written. Where the length is 0 the pointer may be
 * null; all other pointers must be valid, and what a call fills must not overlap what it reads. Texts are UTF-8; what isn't is
 * answered by a code, and a line that isn't by `refused Line`.
 */
#ifndef TIMEFORMS_H
#define TIMEFORMS_H

#include <stddef.h>
#include <stdint.h>

#ifdef __cplusplus
extern "C" {
#endif

/* The version of this header. `timeforms_version` tells that of the library. */
#define TIMEFORMS_VERSION "1.1.0"

/* The same as a number, for `#if`: 10000 times the first part, 100 times the second, and the third. */
#define TIMEFORMS_VERSION_NUMBER 10100

/* Programs that were built with a header of this number run with each library of it: the 1 of `libtimeforms.so.1`. It changes where a
 * call or a type changes; further calls, codes and forms leave it. */
#define TIMEFORMS_ABI 1

/* No text that a call puts into a buffer has more bytes than this. */
#define TIMEFORMS_TEXT_MAX 96

/* No reply to a line has more bytes than this, with its line feed. */
#define TIMEFORMS_REPLY_MAX 97

/* The forms, by number. A number never changes; further forms have further ones. docs/FORMS.md says what each is. */
enum timeforms_form {
    TIMEFORMS_FILE_TIME = 0,     /* `FileTime`: ticks of 100 nanoseconds since 1601, `125962560000000000` */
    TIMEFORMS_ISO_DATE_TIME = 1, /* `IsoDateTime`: `2015-06-26T16:43:23.5+02:30` */
    TIMEFORMS_ISO_DATE = 2,      /* `IsoDate`: `2015-06-26` */
    TIMEFORMS_ISO_DURATION = 3,  /* `IsoDuration`: `P1Y2M3DT4H5M6.789S` */
    TIMEFORMS_TOML = 4,          /* `Toml`: `1979-05-27T07:32:00Z` */
    TIMEFORMS_FANCY = 5,         /* `Fancy`: `1h 20m 30s` */
    TIMEFORMS_PG_ISO = 6,        /* `PgIso`, an interval form: `P1Y2M3DT4H5M6S` */
    TIMEFORMS_POSTGRES = 7,      /* `Postgres`, an interval form: `1 year 2 mons 3 days 04:05:06` */
    TIMEFORMS_PG_VERBOSE = 8,    /* `PgVerbose`, an interval form: `@ 1 year 2 mons 3 days 4 hours 5 mins 6 secs` */
    TIMEFORMS_PG_SQL = 9,        /* `PgSql`, an interval form: `+1-2 -3 +4:05:06` */
    TIMEFORMS_ISO_STRICT = 10,   /* `IsoStrict`, an interval form: `P1Y2M3W4DT5H6M7S`, its units in one order */
    TIMEFORMS_UNIX = 11,         /* `Unix`: seconds since 1970, `1796167471.051677` */
    TIMEFORMS_PG_TIMESTAMP = 12, /* `PgTimestamp`: `2026-12-01 23:24:31.051677+00`, `2026-12-01 23:24:31`, `2026-12-01` */
    TIMEFORMS_HTTP_DATE = 13,    /* `HttpDate`: `Sun, 06 Nov 1994 08:49:37 GMT` */
    TIMEFORMS_MAIL_DATE = 14,    /* `MailDate`: `Sun, 06 Nov 1994 08:49:37 +0000` */
    TIMEFORMS_XSD_DURATION = 15  /* `XsdDuration`: `-P1Y2M3DT4H5M6.5S` */
};

/* What a call answers in place of an answer. The causes come in the order in which they are judged. */
enum timeforms_code {
    TIMEFORMS_SYNTAX = -1,         /* the text isn't in the form */
    TIMEFORMS_NO_SUCH_MOMENT = -2, /* its fields name no day or no time of day, or an offset of a day or more */
    TIMEFORMS_RANGE = -3,          /* a number, or the value, leaves the bounds of its form */
    TIMEFORMS_KIND = -4,           /* the second form has no values of this kind */
    TIMEFORMS_PRECISION = -5,      /* the value is no whole number of the second form's least unit */
    TIMEFORMS_AMBIGUOUS = -6,      /* the written text would be read as another value */
    TIMEFORMS_NO_SUCH_FORM = -101, /* a number or a name that is no form's, or no interval form's where one is asked for */
    TIMEFORMS_NOT_UTF8 = -102,     /* the text isn't UTF-8 */
    TIMEFORMS_NO_ROOM = -103,      /* the answer is longer than the buffer */
    TIMEFORMS_BAD_OFFSETS = -104,  /* the offsets of a cell fall, or leave the bytes of the column */
    TIMEFORMS_CLASH = -105,        /* two slots clash: each starts before the other ends */
    TIMEFORMS_BAD_LINE = -106,     /* a line of a schedule isn't UTF-8, or has no tab */
    TIMEFORMS_EMPTY_LENGTH = -107, /* a slot has the length 0 */
    TIMEFORMS_BAD_START = -200,    /* with the code of a cause added to it: the start of a slot has no file time, for this cause */
    TIMEFORMS_BAD_LENGTH = -300    /* with the code of a cause added to it: the length of a slot isn't one, for this cause */
};

/* An interval as PostgreSQL keeps it: a month is no number of days, and a day no number of hours. */
typedef struct timeforms_interval {
    int32_t months;       /* whole months, 12 a year */
    int32_t days;         /* whole days */
    int64_t microseconds; /* 3,600,000,000 an hour */
} timeforms_interval;

/* The time that a line of a schedule takes, in ticks of 100 nanoseconds since 1601-01-01 00:00:00 UTC. */
typedef struct timeforms_slot {
    uint64_t start; /* when it starts */
    uint64_t end;   /* when it ends, later than the start; that tick is no more part of it */
    uint64_t line;  /* the number of its line, from 1 on */
} timeforms_slot;

/* ---- Forms ---- */

/* The number of the form of exactly this name, as in `PgIso`. NO_SUCH_FORM. The other calls take a code in place of a form's number
 * as no form, so the answer need not be looked at first. */
int32_t timeforms_form_by_name(const char *name, size_t name_len);

/* Puts the name of a form into the buffer: how many bytes it has. NO_SUCH_FORM, NO_ROOM. */
int32_t timeforms_form_name(int32_t form, char *out, size_t out_len);

/* ---- One text ---- */

/* Puts what a text of the form `from` is in the form `to` into the buffer: how many bytes that are. 96 bytes always suffice. Else the
 * first of these that holds: NO_SUCH_FORM, NOT_UTF8, the six causes, NO_ROOM. */
int32_t timeforms_reply(int32_t from, int32_t to, const char *text, size_t text_len, char *out, size_t out_len);

/* The same with the names of the forms. */
int32_t timeforms_reply_by_name(const char *from, size_t from_len, const char *to, size_t to_len, const char *text, size_t text_len,
                                char *out, size_t out_len);

/* ---- Lines ---- */

/* Answers whole lines such as `PgIso Postgres P1Y2M`, as many at the front of `lines` as the buffer has room for, each by one line in
 * the buffer: how many bytes were put there. `*used` is how many bytes of `lines` were answered. A line that can't be answered has
 * the reply `refused` and why, as docs/CONVERSIONS.md says, so there is no code here.
 *
 * Call it again with what wasn't used. A last line without its line feed is never used: keep it in front of the bytes that come next,
 * or at the end of all put a line feed behind it. With a buffer of 97 bytes or more each call answers a line where there is a whole
 * one, so nothing used means that there is none. */
size_t timeforms_replies(const char *lines, size_t lines_len, char *out, size_t out_len, size_t *used);

/* ---- Intervals ---- */

/* The interval that a text denotes in an interval form: 0. Else the first of these that holds: NO_SUCH_FORM, NOT_UTF8, SYNTAX,
 * RANGE. */
int32_t timeforms_interval_from_text(int32_t form, const char *text, size_t text_len, timeforms_interval *interval);

/* Puts the text of an interval in an interval form into the buffer: how many bytes it has, 96 at most. Each interval has one.
 * NO_SUCH_FORM, NO_ROOM. */
int32_t timeforms_interval_to_text(int32_t form, const timeforms_interval *interval, char *out, size_t out_len);

/* The sum of two intervals, part by part: 0. RANGE exactly where a part leaves its type. */
int32_t timeforms_interval_add(timeforms_interval a, timeforms_interval b, timeforms_interval *sum);

/* The first interval less the second, part by part: 0. RANGE exactly where a part leaves its type. */
int32_t timeforms_interval_subtract(timeforms_interval a, timeforms_interval b, timeforms_interval *difference);

/* The interval with the sign of each part turned: 0. RANGE exactly where a part is the least of its type. */
int32_t timeforms_interval_negate(timeforms_interval a, timeforms_interval *negated);

/* How two intervals are ordered: -1 where the first is before the second, 0 where they are equal, 1 where it is behind. A month counts 30
 * days and a day 24 hours; intervals that are as long as each other go by months, days and microseconds. There is no code. */
int32_t timeforms_interval_compare(timeforms_interval a, timeforms_interval b);

/* The interval of so many seconds and the nanoseconds beyond them, cut toward zero to microseconds: no months, as many days of 24 hours as
 * there are, toward zero, and the rest: 0. Half a second before is -1 and 500,000,000. RANGE at 1,000,000,000 nanoseconds and more, and
 * exactly where a part leaves its type. */
int32_t timeforms_interval_from_seconds(int64_t seconds, uint32_t nanoseconds, timeforms_interval *interval);

/* ---- Columns ---- */

/* A column is texts side by side in `data`, and offsets of 32 bits, one more than there are cells: cell n has the bytes from `offsets[n]`
 * up to `offsets[n + 1]`. That is the layout of strings in Apache Arrow and pandas, whose offsets have these very bits. No byte stands
 * between two cells, so a cell may hold any, a line feed too, and no cell can shift another one. A missing cell is none that these calls
 * know of: they take it for the text that its offsets name.
 *
 * Each array crosses as a pointer and how many elements it has. A call goes over the cells from the first on, as far as each array has
 * places: `*done` is how many cells it answered, and behind their places all is as it was. For the rest call it again with
 * `offsets + *done`. The code of a cell is 0 or says why it has no answer. Offsets that fall or that lie behind the end of `data` cost the
 * cells that they bound their answer, by BAD_OFFSETS; no byte beyond `data` is read, and other cells are answered as ever. */

/* Answers the cells of a column by what `timeforms_reply` puts for their texts, as a column of the same layout: the answers side by side
 * in `out`, and where they start and end, from 0 on, in `out_offsets`, which has one place more than there are cells. A cell whose code
 * isn't 0 has an empty answer. Its code is the first of these that holds: BAD_OFFSETS, NOT_UTF8, the six causes.
 *
 * A call stops in front of the first answer that is longer than what is left of `out`, of which it fills 2,147,483,647 bytes at most, so
 * that the offsets fit signed numbers too. 96 bytes a cell always suffice, and with 96 or more a call answers one cell at least, where
 * there is one and the arrays have a place for it: 0. Else the first of these that holds, and all is as it was: NO_SUCH_FORM, NO_ROOM
 * where `out_offsets` has no place at all. */
int32_t timeforms_convert_column(int32_t from, int32_t to, const char *data, size_t data_len, const uint32_t *offsets, size_t offsets_len,
                                 char *out, size_t out_len, uint32_t *out_offsets, size_t out_offsets_len, int32_t *codes,
                                 size_t codes_len, size_t *done);

/* Reads the cells of a column as intervals in an interval form: their months, days and microseconds, each into an array of its own. A cell
 * whose code isn't 0 has three zeros. Its code is the first of these that holds: BAD_OFFSETS, NOT_UTF8, SYNTAX, RANGE. Answers 0, or
 * NO_SUCH_FORM, and then all is as it was. */
int32_t timeforms_intervals_from_column(int32_t form, const char *data, size_t data_len, const uint32_t *offsets, size_t offsets_len,
                                        int32_t *months, size_t months_len, int32_t *days, size_t days_len, int64_t *microseconds,
                                        size_t microseconds_len, int32_t *codes, size_t codes_len, size_t *done);

/* ---- File times: ticks of 100 nanoseconds since 1601-01-01 00:00:00 UTC ---- */

/* The nanoseconds since 1970 of so many ticks: 0. RANGE where 64 bits don't hold them, before 1677-09-21 and after 2262-04-11. */
int32_t timeforms_file_time_to_nanoseconds(uint64_t ticks, int64_t *nanoseconds);

/* The latest tick that is not after so many nanoseconds since 1970, for any number of them: 0. */
int32_t timeforms_file_time_from_nanoseconds(int64_t nanoseconds, uint64_t *ticks);

/* The same as whole seconds since 1970, rounded down, and the nanoseconds beyond them, 0 to 999,999,900, for any number of ticks: 0. */
int32_t timeforms_file_time_to_unix_time(uint64_t ticks, int64_t *seconds, uint32_t *nanoseconds);

/* The latest tick that is not after so many seconds and nanoseconds since 1970, where the nanoseconds may be a second and more: 0.
 * RANGE where the seconds are before 1601, or the whole ticks of the sum are past the last one, in the year 60056. */
int32_t timeforms_file_time_from_unix_time(int64_t seconds, uint32_t nanoseconds, uint64_t *ticks);

/* ---- Instants: whole seconds since 1970 in UTC, rounded down, and the nanoseconds beyond them, below 1,000,000,000 ---- */

/* The instant that a text of a form stands for: 0. Else the first of these that holds: NO_SUCH_FORM, NOT_UTF8, the cause why the text
 * stands for nothing, KIND where it stands for no instant, as a date or a time of day alone. */
int32_t timeforms_instant_from_text(int32_t form, const char *text, size_t text_len, int64_t *seconds, uint32_t *nanoseconds);

/* Puts the text of an instant in a form into the buffer: how many bytes it has, 96 at most. Else the first of these that holds:
 * NO_SUCH_FORM, RANGE at 1,000,000,000 nanoseconds and more and for an instant farther than 10^13 seconds from 1970, the cause why the form
 * has no text for it, NO_ROOM. */
int32_t timeforms_instant_to_text(int32_t form, int64_t seconds, uint32_t nanoseconds, char *out, size_t out_len);

/* The instant of a recurrence that lies so many steps behind its start: 0. All months of the steps at once lead to a month, in which the day
 * of the month is held, so that a step of a month leads from January 31st to February 29th and to March 31st; then the days, of 24 hours,
 * and the microseconds are added. RANGE at 1,000,000,000 nanoseconds and more, and exactly where the start's own day, the year to which
 * the months lead, or the day at the end isn't of the years -9999 to 9999. */
int32_t timeforms_recurrence_at(int64_t seconds, uint32_t nanoseconds, timeforms_interval step, uint32_t steps, int64_t *at_seconds,
                                uint32_t *at_nanoseconds);

/* ---- Schedules ---- */

/* The slots of lines, in the order of their starts and then of their lines, where no two clash: 0. Slots that touch don't. A line is a start,
 * a tab and a length, a date-time of the form `Toml` with an offset and a length of the form `Fancy`; lines are divided by line feeds, and
 * the last one needs none. It is the program's command `schedule`, without its limit of bytes.
 *
 * `*count` is how many lines there are, whatever is answered. The slots stand in the first so many places of `slots`; behind these all is as
 * it was. Else the first of these that holds:
 *
 *   NO_ROOM   there are more lines than places, and `*count` alone is changed; so a call with no places tells how many are needed
 *   the code of the first line that has a fault, whose number is put into `*first`, and the places of the lines hold nothing of use:
 *             BAD_LINE; BAD_START + SYNTAX and so on; BAD_LENGTH + SYNTAX, RANGE; EMPTY_LENGTH; BAD_LENGTH + PRECISION where the length
 *             is no whole number of ticks, BAD_LENGTH + RANGE where the end passes the last tick
 *   CLASH     the lines of the first two slots that clash are put into `*first` and `*second`: of all pairs that clash the one whose second
 *             slot comes first in the order. All slots stand in order all the same
 *
 * `*first` and `*second` are changed by these codes alone, and `*second` by CLASH alone. */
int32_t timeforms_schedule_check(const char *lines, size_t lines_len, timeforms_slot *slots, size_t slots_len, size_t *count,
                                 uint64_t *first, uint64_t *second);

/* ---- Short durations, the form `Fancy` ---- */

/* The length that a text denotes, in whole seconds and the nanoseconds beyond them, below 1,000,000,000: 0. NOT_UTF8, SYNTAX, and
 * RANGE at 2^64 seconds and more. */
int32_t timeforms_duration_from_text(const char *text, size_t text_len, uint64_t *seconds, uint32_t *nanoseconds);

/* Puts the text of a length into the buffer: how many bytes it has, 96 at most. RANGE at 1,000,000,000 nanoseconds and more,
 * AMBIGUOUS where the text would be read as another length, as the `1m` of 30 days, NO_ROOM. */
int32_t timeforms_duration_to_text(uint64_t seconds, uint32_t nanoseconds, char *out, size_t out_len);

/* ---- The library ---- */

/* Puts the version of the library into the buffer, as in `1.1.0`: how many bytes it has. NO_ROOM. */
int32_t timeforms_version(char *out, size_t out_len);

#ifdef __cplusplus
}
#endif

#endif
