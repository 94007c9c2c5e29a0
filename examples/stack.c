/*
 * Measures how many bytes of stack each function of the library uses on a layout: it is called in
 * a thread whose stack was painted before. Fails where one uses more than README says. Build it, in
 * the repository's folder, with
 *
 *     cc -std=c11 -Iinclude -o crates/abi/out/stack examples/stack.c crates/abi/out/libabi.a -lpthread
 */
#define _POSIX_C_SOURCE 200809L
#include "conl.h"

#include <pthread.h>
#include <stdbool.h>
#include <stdio.h>
#include <stdlib.h>
#include <string.h>

/* PROMISED is the figure of README. */
enum { STACK = 1 << 18, PAINT = 0xA5, MOST = 1 << 16, ROOM = 64, PROMISED = 6 << 10 };

static _Alignas(4096) uint8_t stack[STACK];
static uint8_t layout[MOST], out[MOST];
static size_t length, tokens[CONL_TOKENIZER_WORDS], parser[CONL_PARSER_WORDS];
static size_t rows[ROOM * CONL_ROW_WORDS], answer[CONL_ANSWER_WORDS];

static void *nothing(void *unused) { return unused; }

static void *is_utf8(void *unused)
{
    conl_is_utf8(layout, length);
    return unused;
}

static void *trim(void *unused)
{
    conl_trim(layout, length, true, answer, CONL_ANSWER_WORDS);
    return unused;
}

static void *fresh(void *unused)
{
    conl_fresh_tokenizer(tokens, CONL_TOKENIZER_WORDS);
    conl_fresh_parser(parser, CONL_PARSER_WORDS);
    return unused;
}

static void *tokenize(void *unused)
{
    conl_fresh_tokenizer(tokens, CONL_TOKENIZER_WORDS);
    while (conl_tokenize(layout, length, tokens, CONL_TOKENIZER_WORDS, rows, ROOM * CONL_ROW_WORDS) == ROOM)
        continue;
    return unused;
}

static void *parse(void *unused)
{
    conl_fresh_parser(parser, CONL_PARSER_WORDS);
    while (conl_parse(layout, length, parser, CONL_PARSER_WORDS, rows, ROOM * CONL_ROW_WORDS) == ROOM)
        continue;
    return unused;
}

/* Lends each row to unescaping: the whole of it, or its text and indentation alone. */
static void unescape_rows(bool whole)
{
    size_t n;
    conl_fresh_parser(parser, CONL_PARSER_WORDS);
    do {
        n = conl_parse(layout, length, parser, CONL_PARSER_WORDS, rows, ROOM * CONL_ROW_WORDS);
        for (size_t i = 0; i < n && i < ROOM; i++) {
            const size_t *row = rows + i * CONL_ROW_WORDS;
            if (whole)
                conl_unescape(layout, length, row, CONL_ROW_WORDS, out, MOST, answer, CONL_ANSWER_WORDS);
            else
                conl_unescape_text(row[CONL_ROW_NUMBER], row[CONL_ROW_LINE],
                                   layout + row[CONL_ROW_START], row[CONL_ROW_END] - row[CONL_ROW_START],
                                   layout + row[CONL_ROW_INDENT_START],
                                   row[CONL_ROW_INDENT_END] - row[CONL_ROW_INDENT_START],
                                   out, MOST, answer, CONL_ANSWER_WORDS);
        }
    } while (n == ROOM);
}

static void *unescape(void *unused)
{
    unescape_rows(true);
    return unused;
}

static void *unescape_text(void *unused)
{
    unescape_rows(false);
    return unused;
}

static void *look_up(void *unused)
{
    conl_look_up(layout, length, (const uint8_t *)"?", 1, answer, CONL_ANSWER_WORDS);
    return unused;
}

static size_t used(void *(*call)(void *))
{
    pthread_attr_t attributes;
    pthread_t thread;
    size_t untouched = 0;
    memset(stack, PAINT, STACK);
    if (pthread_attr_init(&attributes) || pthread_attr_setstack(&attributes, stack, STACK)
        || pthread_create(&thread, &attributes, call, NULL) || pthread_join(thread, NULL)) {
        fputs("stack: a thread cannot be made\n", stderr);
        exit(2);
    }
    while (untouched < STACK && stack[untouched] == PAINT)
        untouched++;
    return STACK - untouched;
}

int main(void)
{
    static const struct {
        const char *name;
        void *(*call)(void *);
    } calls[] = {
        {"conl_is_utf8", is_utf8},
        {"conl_trim", trim},
        {"conl_fresh_tokenizer, conl_fresh_parser", fresh},
        {"conl_tokenize", tokenize},
        {"conl_parse", parse},
        {"conl_parse, conl_unescape", unescape},
        {"conl_parse, conl_unescape_text", unescape_text},
        {"conl_look_up", look_up},
    };
    length = fread(layout, 1, MOST, stdin);
    size_t thread = used(nothing), most = 0;
    for (size_t i = 0; i < sizeof calls / sizeof *calls; i++) {
        size_t bytes = used(calls[i].call) - thread;
        printf("%s: %zu\n", calls[i].name, bytes);
        most = bytes > most ? bytes : most;
    }
    if (most > PROMISED)
        fprintf(stderr, "stack: %zu bytes, and README says that %d will do\n", most, PROMISED);
    return most > PROMISED;
}
