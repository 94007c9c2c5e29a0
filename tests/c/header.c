/*
 * Tries every function, constant and word of conl.h against the library. What is expected follows
 * from the rules and examples of document 01, never from the library's own answers. Values that a
 * wrong header could confuse differ from each other. `tests/c/run header` builds and runs it, and
 * sees that it names everything that the header names.
 */
#include "conl.h"

#include <stdio.h>
#include <stdlib.h>
#include <string.h>

static int failures;

#define CHECK(fact) check((fact), #fact, __LINE__)

static void check(bool holds, const char *fact, int line)
{
    if (!holds) {
        printf("header.c:%d: not so: %s\n", line, fact);
        failures++;
    }
}

#define TEXT(literal) (const uint8_t *)literal, sizeof literal - 1

typedef bool fresh_function(size_t *, size_t);
typedef size_t step_function(const uint8_t *, size_t, size_t *, size_t, size_t *, size_t);

struct reader {
    fresh_function *fresh;
    step_function *steps;
    size_t words;
};

static const struct reader tokenizer = {conl_fresh_tokenizer, conl_tokenize, CONL_TOKENIZER_WORDS};
static const struct reader parser = {conl_fresh_parser, conl_parse, CONL_PARSER_WORDS};

/* A reading: each row as its number, line, start, end, the indentation's start and end, and the line that closes. */
struct reading {
    const struct reader *reader;
    const uint8_t *doc;
    size_t doc_len;
    size_t expected[9][7];
};

static const struct reading readings[] = {
    {&tokenizer, TEXT(""), {{0}}},
    {&tokenizer, TEXT("a = \"\"\"\"b"),
     {{CONL_MAP_KEY, 1, 0, 1},
      {CONL_REFUSED + CONL_CHARACTERS_AFTER_QUOTES, 1},
      {CONL_MAP_KEY, 1, 4, 9}}},
    {&tokenizer, TEXT("a = \"\"\"\n;x"),
     {{CONL_MAP_KEY, 1, 0, 1},
      {CONL_MULTILINE_HINT, 1, 7, 7},
      {CONL_NEWLINE, 1},
      {CONL_MAP_KEY, 2, 8, 8},
      {CONL_COMMENT, 2, 9, 10}}},
    {&tokenizer, TEXT("k\n a = \"\"\"\n  x"),
     {{CONL_MAP_KEY, 1, 0, 1},
      {CONL_NEWLINE, 1},
      {CONL_INDENT, 2},
      {CONL_MAP_KEY, 2, 3, 4},
      {CONL_MULTILINE_HINT, 2, 10, 10},
      {CONL_NEWLINE, 2},
      {CONL_MULTILINE_VALUE, 3, 13, 14, 11, 13},
      {CONL_OUTDENT, 4}}},
    {&parser, TEXT("a\n  = \"x\"\n"),
     {{CONL_MAP_KEY, 1, 0, 1},
      {CONL_NEWLINE, 1},
      {CONL_INDENT, 2},
      {CONL_LIST_ITEM, 2},
      {CONL_VALUE, 2, 6, 9},
      {CONL_NEWLINE, 2},
      {CONL_OUTDENT, 3, 0, 0, 0, 0, 1}}},
    {&parser, TEXT("a"), {{CONL_MAP_KEY, 1, 0, 1}, {CONL_NO_VALUE, 1}}},
    {&parser, TEXT("a\n\xFF"),
     {{CONL_MAP_KEY, 1, 0, 1}, {CONL_NEWLINE, 1}, {CONL_REFUSED + CONL_INVALID_UTF8, 2}}},
    {&parser, TEXT("a = \"\"\"\n;x"),
     {{CONL_MAP_KEY, 1, 0, 1},
      {CONL_MULTILINE_HINT, 1, 7, 7},
      {CONL_NEWLINE, 1},
      {CONL_REFUSED + CONL_MISSING_MULTILINE, 1}}},
    {&parser, TEXT("=1\na"),
     {{CONL_LIST_ITEM, 1},
      {CONL_VALUE, 1, 1, 2},
      {CONL_NEWLINE, 1},
      {CONL_REFUSED + CONL_UNEXPECTED_KEY, 2}}},
    {&parser, TEXT("a=1\n="),
     {{CONL_MAP_KEY, 1, 0, 1},
      {CONL_VALUE, 1, 2, 3},
      {CONL_NEWLINE, 1},
      {CONL_REFUSED + CONL_UNEXPECTED_ITEM, 2}}},
    {&parser, TEXT(" a"), {{CONL_REFUSED + CONL_UNEXPECTED_INDENT, 1}}},
};

static bool is_row(const size_t *row, const size_t *expected)
{
    return row[CONL_ROW_NUMBER] == expected[0] && row[CONL_ROW_LINE] == expected[1]
        && row[CONL_ROW_START] == expected[2] && row[CONL_ROW_END] == expected[3]
        && row[CONL_ROW_INDENT_START] == expected[4] && row[CONL_ROW_INDENT_END] == expected[5]
        && row[CONL_ROW_OPENED] == expected[6];
}

/* Two rows at a time: a word less than a third row has is no room for it. */
static bool is_read(const struct reading *reading)
{
    const struct reader *reader = reading->reader;
    const size_t (*expected)[7] = reading->expected;
    size_t state[CONL_PARSER_WORDS + CONL_TOKENIZER_WORDS], rows[3 * CONL_ROW_WORDS - 1], count;
    if (!reader->fresh(state, reader->words))
        return false;
    do {
        count = reader->steps(reading->doc, reading->doc_len, state, reader->words, rows,
                              3 * CONL_ROW_WORDS - 1);
        if (count > 2)
            return false;
        for (size_t i = 0; i < count; i++)
            if (!is_row(rows + i * CONL_ROW_WORDS, *expected++))
                return false;
    } while (count == 2);
    return (*expected)[0] == 0;
}

static void try_readings(void)
{
    for (size_t i = 0; i < sizeof readings / sizeof readings[0]; i++)
        if (!is_read(readings + i)) {
            printf("header.c: reading %zu gives other rows\n", i + 1);
            failures++;
        }
}

/* A state has just as many words as the header says; words that encode none are refused. */
static void try_states(const struct reader *reader)
{
    size_t state[CONL_PARSER_WORDS + CONL_TOKENIZER_WORDS] = {0}, row[CONL_ROW_WORDS];
    CHECK(!reader->fresh(state, reader->words - 1));
    CHECK(reader->steps(TEXT("a"), state, reader->words, row, CONL_ROW_WORDS)
          == CONL_NO_STEP + CONL_UNFIT_STATE);
    CHECK(reader->fresh(state, reader->words));
    CHECK(reader->steps(TEXT("a"), state, reader->words - 1, row, CONL_ROW_WORDS)
          == CONL_NO_STEP + CONL_UNFIT_STATE);
    CHECK(reader->steps(TEXT("a"), state, reader->words, row, CONL_ROW_WORDS) == 1);
}

/* The last row of a document of keys, each on a line of its own and deeper than the one before. */
static bool ends_nested(size_t keys, const size_t *expected)
{
    static uint8_t doc[(CONL_MAX_OPEN + 2) * (CONL_MAX_OPEN + 4)];
    static size_t state[CONL_PARSER_WORDS], rows[6 * (CONL_MAX_OPEN + 2) * CONL_ROW_WORDS];
    size_t length = 0, count;
    for (size_t i = 0; i < keys; i++) {
        memset(doc + length, ' ', i);
        length += i;
        doc[length++] = 'a';
        doc[length++] = '\n';
    }
    count = conl_fresh_parser(state, CONL_PARSER_WORDS)
        ? conl_parse(doc, length, state, CONL_PARSER_WORDS, rows, sizeof rows / sizeof rows[0]) : 0;
    return 0 < count && count <= 6 * (CONL_MAX_OPEN + 2)
        && is_row(rows + (count - 1) * CONL_ROW_WORDS, expected);
}

static void try_sections(void)
{
    const size_t closed[7] = {CONL_OUTDENT, CONL_MAX_OPEN + 2, 0, 0, 0, 0, 1};
    const size_t refused[7] = {CONL_REFUSED + CONL_TOO_MANY_OPEN, CONL_MAX_OPEN + 2};
    CHECK(ends_nested(CONL_MAX_OPEN + 1, closed));
    CHECK(ends_nested(CONL_MAX_OPEN + 2, refused));
}

static bool is_answer(const size_t *answer, size_t kind, size_t number, size_t line, size_t start,
                      size_t end)
{
    return answer[CONL_ANSWER_KIND] == kind && answer[CONL_ANSWER_NUMBER] == number
        && answer[CONL_ANSWER_LINE] == line && answer[CONL_ANSWER_START] == start
        && answer[CONL_ANSWER_END] == end;
}

/* Unescaping of the bytes from `start` to `end` of the document, as a token's on line 7. */
struct text {
    const uint8_t *doc;
    size_t doc_len;
    size_t kind, start, end, indent_start, indent_end, room;
    size_t answer[5];
    const char *written;
};

static const struct text texts[] = {
    {TEXT("k = v"), CONL_INDENT, 4, 5, 0, 0, 9, {CONL_TEXT_PLAIN, 0, 0, 0, 0}, ""},
    {TEXT("k = v"), CONL_VALUE, 4, 5, 0, 0, 0, {CONL_TEXT_PLAIN, 0, 0, 4, 5}, ""},
    {TEXT("k = \"\""), CONL_VALUE, 4, 6, 0, 0, 0, {CONL_TEXT_PLAIN, 0, 0, 5, 5}, ""},
    {TEXT("k = \"\\{0010FFFF}\""), CONL_VALUE, 4, 17, 0, 0, 4,
     {CONL_TEXT_WRITTEN, 0, 0, 0, 4}, "\xF4\x8F\xBF\xBF"},
    {TEXT("k = \"\\{0010FFFF}\""), CONL_VALUE, 4, 17, 0, 0, 3,
     {CONL_TEXT_REFUSED, CONL_SHORT_BUFFER, 7, 0, 0}, ""},
    {TEXT("k = \"\\{00110000}\""), CONL_VALUE, 4, 17, 0, 0, 9,
     {CONL_TEXT_REFUSED, CONL_INVALID_ESCAPE, 7, 5, 16}, ""},
    {TEXT("k = \"\\{+41}\""), CONL_VALUE, 4, 12, 0, 0, 9,
     {CONL_TEXT_REFUSED, CONL_INVALID_ESCAPE, 7, 5, 11}, ""},
    {TEXT("k = \"a\\"), CONL_VALUE, 4, 7, 0, 0, 9,
     {CONL_TEXT_REFUSED, CONL_ESCAPE_AT_END, 7, 0, 0}, ""},
    {TEXT("k = \"a\"b"), CONL_VALUE, 4, 8, 0, 0, 9,
     {CONL_TEXT_REFUSED, CONL_EXTRA_CHARACTERS, 7, 0, 0}, ""},
    {TEXT("k = \""), CONL_VALUE, 4, 5, 0, 0, 9,
     {CONL_TEXT_REFUSED, CONL_UNCLOSED_QUOTES, 7, 0, 0}, ""},
    {TEXT("k = v"), CONL_VALUE, 4, 6, 0, 0, 9,
     {CONL_TEXT_REFUSED, CONL_UNFIT_TOKEN, 7, 0, 0}, ""},
    {TEXT("\"\"\"\n  x\r\n   y\n \n  z"), CONL_MULTILINE_VALUE, 6, 19, 4, 6, 9,
     {CONL_TEXT_WRITTEN, 0, 0, 0, 7}, "x\n y\n\nz"},
};

static bool is_unescaped(const struct text *text)
{
    size_t row[CONL_ROW_WORDS] = {0}, answer[CONL_ANSWER_WORDS];
    uint8_t out[9] = {0};
    row[CONL_ROW_NUMBER] = text->kind;
    row[CONL_ROW_LINE] = 7;
    row[CONL_ROW_START] = text->start;
    row[CONL_ROW_END] = text->end;
    row[CONL_ROW_INDENT_START] = text->indent_start;
    row[CONL_ROW_INDENT_END] = text->indent_end;
    return conl_unescape(text->doc, text->doc_len, row, CONL_ROW_WORDS, out, text->room, answer,
                         CONL_ANSWER_WORDS)
        && is_answer(answer, text->answer[0], text->answer[1], text->answer[2], text->answer[3],
                     text->answer[4])
        && strcmp((const char *)out, text->written) == 0;
}

static void try_unescape(void)
{
    size_t row[CONL_ROW_WORDS] = {0}, answer[CONL_ANSWER_WORDS];
    uint8_t out[1];
    for (size_t i = 0; i < sizeof texts / sizeof texts[0]; i++)
        if (!is_unescaped(texts + i)) {
            printf("header.c: text %zu has another answer\n", i + 1);
            failures++;
        }
    row[CONL_ROW_NUMBER] = CONL_NO_VALUE;
    CHECK(conl_unescape(TEXT(""), row, CONL_ROW_OPENED, out, 1, answer, CONL_ANSWER_WORDS));
    CHECK(!conl_unescape(TEXT(""), row, CONL_ROW_OPENED - 1, out, 1, answer, CONL_ANSWER_WORDS));
    CHECK(!conl_unescape(TEXT(""), row, CONL_ROW_WORDS, out, 1, answer, CONL_ANSWER_WORDS - 1));
    row[CONL_ROW_NUMBER] = CONL_REFUSED + CONL_INVALID_UTF8;
    CHECK(!conl_unescape(TEXT(""), row, CONL_ROW_WORDS, out, 1, answer, CONL_ANSWER_WORDS));
}

/* Texts that stand in no document: the kind, the line and the indentation each change the answer. */
static void try_unescape_text(void)
{
    size_t answer[CONL_ANSWER_WORDS];
    uint8_t out[8] = {0};
    CHECK(conl_unescape_text(CONL_COMMENT, 7, TEXT("\"\\n\""), TEXT(""), out, 8, answer,
                             CONL_ANSWER_WORDS));
    CHECK(is_answer(answer, CONL_TEXT_PLAIN, 0, 0, 0, 4));
    CHECK(conl_unescape_text(CONL_MAP_KEY, 7, TEXT("\"a\\n\""), TEXT(""), out, 8, answer,
                             CONL_ANSWER_WORDS));
    CHECK(is_answer(answer, CONL_TEXT_WRITTEN, 0, 0, 0, 2) && memcmp(out, "a\n", 3) == 0);
    CHECK(conl_unescape_text(CONL_VALUE, 7, TEXT("\"\\x\""), TEXT("  "), out, 8, answer,
                             CONL_ANSWER_WORDS));
    CHECK(is_answer(answer, CONL_TEXT_REFUSED, CONL_INVALID_ESCAPE, 7, 1, 3));
    CHECK(conl_unescape_text(CONL_MULTILINE_VALUE, 7, TEXT("x\n   y"), TEXT("  "), out, 3, answer,
                             CONL_ANSWER_WORDS));
    CHECK(is_answer(answer, CONL_TEXT_REFUSED, CONL_SHORT_BUFFER, 7, 0, 0));
    CHECK(conl_unescape_text(CONL_MULTILINE_VALUE, 7, TEXT("x\n   y"), TEXT("  "), out, 4, answer,
                             CONL_ANSWER_WORDS));
    CHECK(is_answer(answer, CONL_TEXT_WRITTEN, 0, 0, 0, 4) && memcmp(out, "x\n y", 5) == 0);
    CHECK(!conl_unescape_text(CONL_NO_VALUE + 1, 7, TEXT(""), TEXT(""), out, 8, answer,
                              CONL_ANSWER_WORDS));
    CHECK(!conl_unescape_text(CONL_VALUE, 7, TEXT(""), TEXT(""), out, 8, answer,
                              CONL_ANSWER_WORDS - 1));
}

static void try_look_up(void)
{
    size_t answer[CONL_ANSWER_WORDS];
    CHECK(!conl_look_up(TEXT("a"), TEXT("a"), answer, CONL_ANSWER_WORDS - 1));
    CHECK(conl_look_up(TEXT("x=1\nab=2\nc=3"), TEXT("ab"), answer, CONL_ANSWER_WORDS));
    CHECK(is_answer(answer, CONL_FOUND_AT, 0, 2, 4, 9));
    CHECK(conl_look_up(TEXT("x=1\nab=2\nc=3"), TEXT("b"), answer, CONL_ANSWER_WORDS));
    CHECK(is_answer(answer, CONL_FOUND_NOTHING, 0, 0, 0, 0));
    CHECK(conl_look_up(TEXT("\"width\" = 40"), TEXT("width"), answer, CONL_ANSWER_WORDS));
    CHECK(is_answer(answer, CONL_FOUND_AT, 0, 1, 0, 12));
    CHECK(conl_look_up(TEXT("\"width\" = 40"), TEXT("\"width\""), answer, CONL_ANSWER_WORDS));
    CHECK(is_answer(answer, CONL_FOUND_NOTHING, 0, 0, 0, 0));
    CHECK(conl_look_up(TEXT("\"\\q\"=1\na=2"), TEXT("a"), answer, CONL_ANSWER_WORDS));
    CHECK(is_answer(answer, CONL_FOUND_AT, 0, 2, 7, 10));
    CHECK(conl_look_up(TEXT("x=1\n\n b"), TEXT("x"), answer, CONL_ANSWER_WORDS));
    CHECK(is_answer(answer, CONL_FOUND_REFUSED, CONL_UNEXPECTED_INDENT, 3, 0, 0));
}

/* The most bytes of a document, and one more: all spaces, so that no token is in them. */
static void try_document_limit(void)
{
    size_t state[CONL_PARSER_WORDS], row[CONL_ROW_WORDS] = {0}, answer[CONL_ANSWER_WORDS];
    uint8_t *doc = malloc(CONL_MAX_DOCUMENT + 1), out[1];
    if (doc == NULL) {
        puts("header.c: no memory");
        failures++;
        return;
    }
    memset(doc, ' ', CONL_MAX_DOCUMENT + 1);
    CHECK(conl_fresh_tokenizer(state, CONL_TOKENIZER_WORDS));
    CHECK(conl_tokenize(doc, CONL_MAX_DOCUMENT, state, CONL_TOKENIZER_WORDS, row, CONL_ROW_WORDS)
          == 0);
    CHECK(conl_fresh_parser(state, CONL_PARSER_WORDS));
    CHECK(conl_parse(doc, CONL_MAX_DOCUMENT + 1, state, CONL_PARSER_WORDS, row, CONL_ROW_WORDS)
          == CONL_NO_STEP + CONL_TOO_LONG);
    row[CONL_ROW_NUMBER] = CONL_VALUE;
    row[CONL_ROW_LINE] = 7;
    CHECK(conl_unescape(doc, CONL_MAX_DOCUMENT + 1, row, CONL_ROW_WORDS, out, 1, answer,
                        CONL_ANSWER_WORDS));
    CHECK(is_answer(answer, CONL_TEXT_REFUSED, CONL_TOO_LONG, 0, 0, 0));
    CHECK(conl_unescape_text(CONL_MULTILINE_VALUE, 7, TEXT("a\nb"), doc, CONL_MAX_DOCUMENT + 1, out, 1,
                             answer, CONL_ANSWER_WORDS));
    CHECK(is_answer(answer, CONL_TEXT_REFUSED, CONL_TOO_LONG, 0, 0, 0));
    CHECK(conl_look_up(doc, CONL_MAX_DOCUMENT + 1, TEXT("a"), answer, CONL_ANSWER_WORDS));
    CHECK(is_answer(answer, CONL_FOUND_REFUSED, CONL_TOO_LONG, 0, 0, 0));
    free(doc);
}

static void try_text(void)
{
    size_t part[2] = {8, 9};
    CHECK(conl_is_utf8(TEXT("a\xC3\xA4")));
    CHECK(!conl_is_utf8((const uint8_t *)"a\xC3\xA4", 2));
    CHECK(!conl_is_utf8(TEXT("\xED\xA0\x80")));
    CHECK(!conl_trim(TEXT("\t a b \n"), true, part, 1));
    CHECK(part[0] == 8 && part[1] == 9);
    CHECK(conl_trim(TEXT("\t a b \n"), false, part, 2));
    CHECK(part[0] == 2 && part[1] == 7);
    CHECK(conl_trim(TEXT("\t a b \n"), true, part, 2));
    CHECK(part[0] == 2 && part[1] == 5);
}

int main(void)
{
    CHECK(conl_version() == CONL_VERSION);
    try_states(&tokenizer);
    try_states(&parser);
    try_readings();
    try_sections();
    try_unescape();
    try_unescape_text();
    try_look_up();
    try_document_limit();
    try_text();
    return failures != 0;
}
