/* Answers one text in another form, as in: convert PgIso Postgres P1Y2M3DT4H5M6S */
#include <stdio.h>
#include <string.h>
#include <timeforms.h>

static const char *why(int32_t code) {
    switch (code) {
    case TIMEFORMS_SYNTAX: return "the text isn't in the first form";
    case TIMEFORMS_NO_SUCH_MOMENT: return "there is no such day or time of day";
    case TIMEFORMS_RANGE: return "a number leaves its bounds";
    case TIMEFORMS_KIND: return "the second form has no values of this kind";
    case TIMEFORMS_PRECISION: return "the second form would have to round it";
    case TIMEFORMS_AMBIGUOUS: return "the second form's text would be read as another value";
    case TIMEFORMS_NO_SUCH_FORM: return "there is no such form";
    case TIMEFORMS_NOT_UTF8: return "the text isn't UTF-8";
    default: return "the buffer is too small";
    }
}

int main(int argc, char **argv) {
    if (argc != 4) {
        fprintf(stderr, "usage: convert FORM FORM TEXT\n");
        return 2;
    }
    int32_t from = timeforms_form_by_name(argv[1], strlen(argv[1]));
    int32_t to = timeforms_form_by_name(argv[2], strlen(argv[2]));
    char out[TIMEFORMS_TEXT_MAX];
    int32_t len = timeforms_reply(from, to, argv[3], strlen(argv[3]), out, sizeof out);
    if (len < 0) {
        fprintf(stderr, "convert: %s\n", why(len));
        return 1;
    }
    printf("%.*s\n", (int)len, out);
    return 0;
}
