/*
 * Prints the keys, items and values of a CONL layout, one on each line: its line, its depth, what
 * it is, and its unescaped text. Build it, in the repository's folder, with
 *
 *     cc -std=c11 -Iinclude -o crates/abi/out/keys examples/keys.c crates/abi/out/libabi.a
 *
 * The status is 1 where the layout is refused, and 2 where it cannot be read or its keys cannot be
 * written.
 */
#include "conl.h"

#include <errno.h>
#include <stdio.h>
#include <stdlib.h>
#include <string.h>

enum status { DONE = 0, REFUSED = 1, FAILED = 2 };

/* How many rows are fetched at a time. */
enum { ROOM = 64 };

struct layout {
    const char *name;
    uint8_t *bytes;
    size_t length;
    uint8_t *out; /* as long as the layout: room for every text of it */
    size_t depth;
};

/* What a refusal says. A layout that is read from its start meets none but those named here. */
static const char *message(size_t number)
{
    switch (number) {
    case CONL_INVALID_UTF8: return "invalid UTF-8";
    case CONL_CHARACTERS_AFTER_QUOTES: return "characters after quotes";
    case CONL_TOO_MANY_OPEN: return "more than 64 sections are open";
    case CONL_MISSING_MULTILINE: return "missing multiline value";
    case CONL_UNEXPECTED_KEY: return "unexpected map key";
    case CONL_UNEXPECTED_ITEM: return "unexpected list item";
    case CONL_UNEXPECTED_INDENT: return "unexpected indent";
    case CONL_INVALID_ESCAPE: return "invalid escape code: ";
    case CONL_ESCAPE_AT_END: return "invalid escape code: end of string";
    case CONL_EXTRA_CHARACTERS: return "extra characters after quotes";
    case CONL_UNCLOSED_QUOTES: return "unclosed quotes";
    case CONL_TOO_LONG: return "more than 16777216 bytes";
    default: return "refused";
    }
}

static enum status fail(const char *what, const char *why)
{
    fprintf(stderr, "keys: %s: %s\n", what, why);
    return FAILED;
}

/* A text on one line: control characters become escapes, and a backslash what is given for it. */
static void print_text(FILE *file, const uint8_t *text, size_t length, const char *backslash)
{
    for (size_t i = 0; i < length; i++) {
        uint8_t byte = text[i];
        switch (byte) {
        case '\n': fputs("\\n", file); break;
        case '\r': fputs("\\r", file); break;
        case '\t': fputs("\\t", file); break;
        case '\\': fputs(backslash, file); break;
        default:
            if (byte < ' ' || byte == 0x7F)
                fprintf(file, "\\{%X}", (unsigned)byte);
            else
                putc(byte, file);
        }
    }
}

/* Says a refusal, which shows the layout from one place to another. */
static enum status refuse(const struct layout *layout, size_t number, size_t line, size_t start,
                          size_t end)
{
    fflush(stdout);
    fprintf(stderr, "keys: %s, line %zu: %s", layout->name, line, message(number));
    print_text(stderr, layout->bytes + start, end - start, "\\");
    putc('\n', stderr);
    return REFUSED;
}

static enum status print_token(const struct layout *layout, const size_t *row, const char *what)
{
    size_t answer[CONL_ANSWER_WORDS];
    if (!conl_unescape(layout->bytes, layout->length, row, CONL_ROW_WORDS, layout->out,
                       layout->length, answer, CONL_ANSWER_WORDS))
        return fail("conl_unescape", "the row is not a token's");

    size_t start = answer[CONL_ANSWER_START], end = answer[CONL_ANSWER_END];
    if (answer[CONL_ANSWER_KIND] == CONL_TEXT_REFUSED)
        return refuse(layout, answer[CONL_ANSWER_NUMBER], answer[CONL_ANSWER_LINE], start, end);

    bool written = answer[CONL_ANSWER_KIND] == CONL_TEXT_WRITTEN;
    printf("%zu %zu %s%s", row[CONL_ROW_LINE], layout->depth, what, start == end ? "" : " ");
    print_text(stdout, (written ? layout->out : layout->bytes) + start, end - start, "\\\\");
    putchar('\n');
    return DONE;
}

static enum status print_row(struct layout *layout, const size_t *row)
{
    switch (row[CONL_ROW_NUMBER]) {
    case CONL_INDENT: layout->depth++; return DONE;
    case CONL_OUTDENT: layout->depth--; return DONE;
    case CONL_MAP_KEY: return print_token(layout, row, "key");
    case CONL_LIST_ITEM: printf("%zu %zu item\n", row[CONL_ROW_LINE], layout->depth); return DONE;
    case CONL_VALUE:
    case CONL_MULTILINE_VALUE: return print_token(layout, row, "value");
    default:
        if (row[CONL_ROW_NUMBER] < CONL_REFUSED)
            return DONE;
        return refuse(layout, row[CONL_ROW_NUMBER] - CONL_REFUSED, row[CONL_ROW_LINE], 0, 0);
    }
}

static enum status print_layout(struct layout *layout)
{
    static size_t state[CONL_PARSER_WORDS], rows[ROOM * CONL_ROW_WORDS];
    if (!conl_fresh_parser(state, CONL_PARSER_WORDS))
        return fail("conl_fresh_parser", "too few words");

    size_t count;
    do {
        count = conl_parse(layout->bytes, layout->length, state, CONL_PARSER_WORDS, rows,
                           ROOM * CONL_ROW_WORDS);
        if (count >= CONL_NO_STEP)
            return refuse(layout, count - CONL_NO_STEP, 0, 0, 0);
        for (size_t i = 0; i < count; i++) {
            enum status status = print_row(layout, rows + i * CONL_ROW_WORDS);
            if (status != DONE)
                return status;
        }
    } while (count == ROOM);
    return DONE;
}

/*
 * A layout that is too long is read one byte too far, and so refused. No slice may have a null
 * pointer: a buffer has a byte even where the layout has none.
 */
static enum status read_layout(struct layout *layout, FILE *file)
{
    layout->bytes = malloc(CONL_MAX_DOCUMENT + 1);
    if (layout->bytes == NULL)
        return fail("no memory", strerror(errno));
    layout->length = fread(layout->bytes, 1, CONL_MAX_DOCUMENT + 1, file);
    if (ferror(file))
        return fail(layout->name, strerror(errno));
    layout->out = malloc(layout->length + 1);
    if (layout->out == NULL)
        return fail("no memory", strerror(errno));
    return DONE;
}

int main(int argc, char **argv)
{
    if (argc > 2) {
        fputs("usage: keys [FILE]\n", stderr);
        return FAILED;
    }

    struct layout layout = {.name = argc == 2 ? argv[1] : "standard input"};
    FILE *file = argc == 2 ? fopen(argv[1], "rb") : stdin;
    if (file == NULL)
        return fail(layout.name, strerror(errno));

    enum status status = read_layout(&layout, file);
    if (status == DONE)
        status = print_layout(&layout);
    if (fflush(stdout) != 0 || ferror(stdout))
        status = fail("standard output", strerror(errno));
    free(layout.out);
    free(layout.bytes);
    fclose(file);
    return status;
}
