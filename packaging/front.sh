# shellcheck shell=sh disable=SC2154 # who reads this sets version, program and more
# What stands in front of the program, in a checkout and where it is installed: it answers words that begin with `-`, starts the program, and
# says what a status left undone. Who reads this sets `version`, `program` and `more`, and has a function `prepare`, which makes the program
# ready or ends.

usage() {
    cat <<END
Usage: timeforms FROM TO TEXT
       timeforms FROM TO [field N | word N] < TEXTS
       timeforms < LINES
       timeforms sample N
       timeforms schedule < PLAN
       timeforms column FORM < ROWS
       timeforms recur < SERIES
       timeforms --help | --version

FROM and TO are names of forms, as in: timeforms PgIso Postgres P1DT2H
    FROM TO TEXT       answers the text, which is in the form FROM, as the form TO writes it
    FROM TO            answers each line of standard input, whose text is the line
    FROM TO field N    the same for the N-th field of each line, between tabs: its reply stands in its place, all else stays
    FROM TO word N     the same for the N-th word of each line, between spaces and tabs

Without words each line of standard input asks for one text in another form, and has one line of reply on standard output:

    FORM FORM TEXT    the text, which is in the first form, as the second form writes it

A form is one of
    FileTime       Windows file times, ticks of 100 nanoseconds since 1601: 125962560000000000
    IsoDateTime    date-times of ISO 8601: 2015-06-26T16:43:23.5+02:30
    IsoDate        dates of ISO 8601: 2015-06-26, 2015-W26-5, 2015-177
    IsoDuration    durations of ISO 8601: P1Y2M3DT4H5M6.789S, P5W
    Toml           date-times of TOML: 1979-05-27T07:32:00Z, 1979-05-27, 07:32:00
    Fancy          short durations: 1h 20m 30s
    PgIso          PostgreSQL's intervals in its style iso_8601: P1Y2M3DT4H5M6S
    Postgres       the same in its style postgres: 1 year 2 mons 3 days 04:05:06
    PgVerbose      the same in its style postgres_verbose: @ 1 year 2 mons 3 days 4 hours 5 mins 6 secs
    PgSql          the same in its style sql_standard: +1-2 -3 +4:05:06
    IsoStrict      intervals as in PgIso, their units in one order and each at most once: P1Y2M3W4DT5H6M7S
    Unix           seconds since 1970, with at most nine digits behind the point: 1796167471.051677
    PgTimestamp    PostgreSQL's timestamps and dates: 2026-12-01 23:24:31.051677+00, 2026-12-01 23:24:31, 2026-12-01
    HttpDate       dates of HTTP: Sun, 06 Nov 1994 08:49:37 GMT
    MailDate       dates of mail: Sun, 6 Nov 1994 08:49:37 +0000
    XsdDuration    durations of XML Schema, with one sign for the whole: -P1Y2M3DT4H5M6.5S

A line without an answer has the reply \`refused\` and the first of these causes that holds, and nothing stops:
    Line            it isn't UTF-8, or isn't two names of forms, a space between, and then its end or a space and a text; with
                    FROM TO, the text isn't UTF-8, or its line has no N-th field or word, or more than 1048576 bytes
    Syntax          the text isn't in the first form
    NoSuchMoment    its fields name no day or no time of day, or an offset of a day or more
    Range           a number leaves the bounds of the first form, or, behind Kind, of the second
    Kind            the second form has no values of this kind
    Precision       the value is no whole number of the second form's least unit
    Ambiguous       the second form's text would be read as another value

With \`sample\` and a count from 1 to 100000 it reads nothing, answers so many lines of its own, and tells how many replies there are of
each kind, and how many bytes they have: lines 10 ok 9 refused 1 bytes 378

A command takes its whole input, of 4194304 bytes at most, of 4096 with recur, before it writes:

    schedule    whether slots clash, each line of which is a start, a tab and a length, as 1970-01-01T00:00:00Z and 1h: a date-time of
                Toml with an offset, and a length of Fancy. It writes START END LINE for each slot by its start, in ticks as FileTime
                has them; or \`clash A B\`, the lines of the first two slots that clash, and ends with status 7; or \`line N\` and the
                fault of the first line that has one, and ends with status 8
    column FORM the intervals of all lines in order, each in FORM, which is an interval form. A line is an interval form's name, a
                space and a text. Behind them it writes \`count N\`, and \`least\`, \`greatest\` and \`sum\` with an interval each, or
                \`sum Range\` where a part leaves its type; or \`line N refused\` and Line, Syntax or Range of the first line that has
                a fault, and ends with status 8
    recur       the instants of series. A line is R, a number N up to 10000, a start and a step with a slash before each, as
                R3/2015-01-31T00:00:00Z/P1M: a date-time of IsoDateTime and an interval of PgIso. It writes the start moved by 0 to N
                steps, each instant on a line and each from the start, so the day of the month isn't lost; then \`refused Range at K\`
                where step K leaves the years -9999 to 9999; or \`refused\` and the cause, as \`refused Line\` or \`refused start Syntax\`

The status is 0 where every line has its reply, 8 where with FROM TO a reply is a refusal, 2 for other words on the command line, 3 where
the input can't be read, 4 where the output can't be written, 5 where the input has more bytes than a command may take, 67108864 without
words, 6 where there is no memory. With FROM TO an input may have any length. Standard error tells in a line what 2 to 6 left undone.

$more
END
}

forms='FileTime IsoDateTime IsoDate IsoDuration Toml Fancy PgIso Postgres PgVerbose PgSql IsoStrict Unix PgTimestamp HttpDate MailDate XsdDuration'

# Whether a word is a form's name.
is_form() {
    case " $forms " in
        *" ${1:-?} "*) return 0 ;;
        *) return 1 ;;
    esac
}

# Whether the words have the program read lines.
reads() {
    case ${1-} in
        '' | schedule) return 0 ;;
        *) is_form "$1" && is_form "${2-}" && { [ $# -eq 2 ] || [ "$3" = field ] || [ "$3" = word ]; } ;;
    esac
}

# Says why words ask for nothing, and what there is to ask for.
refuse() {
    if [ "${1-}" != schedule ] && [ "${1-}" != sample ] && ! is_form "${1-}"; then
        echo "timeforms: status 2: there is no form '${1-}'; the forms are $forms"
    elif is_form "${1-}" && [ $# -eq 1 ]; then
        echo "timeforms: status 2: a second form is missing; the forms are $forms"
    elif is_form "$1" && ! is_form "$2"; then
        echo "timeforms: status 2: there is no form '$2'; the forms are $forms"
    elif is_form "$1"; then
        echo "timeforms: status 2: behind '$3' stands one number from 1 to 18446744073709551615"
    else
        echo "timeforms: status 2: '$*' asks for nothing"
    fi
    usage
}

# Says what a status of the program left undone; $1 is the status, and the words follow.
explain() {
    status=$1
    shift
    # the program takes the words joined by spaces
    set -f
    # shellcheck disable=SC2048,SC2086
    set -- $*
    case $status-${1-} in
        2-*) refuse "$@" ;;
        3-schedule) echo "timeforms: status 3: the input can't be read; nothing was written" ;;
        3-*) echo "timeforms: status 3: the input can't be read; the lines that had come whole were answered" ;;
        4-*) echo "timeforms: status 4: the output can't be written; what was written is a prefix of it" ;;
        5-) echo "timeforms: status 5: more than 67108864 bytes came; the lines within them were answered; 'timeforms FROM TO' has no such limit" ;;
        5-*) echo "timeforms: status 5: more bytes came than '$1' takes; nothing was written" ;;
        6-*) echo "timeforms: status 6: there is no memory; nothing was written" ;;
        1[2-9][0-9]-*) echo "timeforms: status $status: the program was stopped by a signal" ;;
    esac
}

# Answers the words of the command line, and ends with the status.
front() {
    # options stand in the first word alone: behind it a minus is part of a text
    case ${1-} in
        --help) usage; exit 0 ;;
        --version) echo "timeforms $version"; exit 0 ;;
        -*) echo "timeforms: there is no option '$1'" >&2; usage >&2; exit 2 ;;
    esac
    prepare
    if [ -t 0 ] && reads "$@"; then echo "timeforms: reading lines from the terminal; Ctrl-D ends them" >&2; fi
    "$program" "$@"
    status=$?
    case $status in
        0 | 7 | 8) ;;
        *) explain "$status" "$@" >&2 ;;
    esac
    exit "$status"
}
