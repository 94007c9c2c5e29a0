/*
 * The sanitizers that this is built with watch this program and not the library, which is not
 * instrumented. A stray access of the library is caught by the pages: of each slice one end is at a
 * page that faults, in one call the first byte and in the other the last; a const slice is on pages
 * that are only for reading; and the bytes behind the other end are painted, in each call otherwise.
 */
#define _GNU_SOURCE
#include "lending.h"

#include <signal.h>
#include <stdio.h>
#include <stdlib.h>
#include <string.h>
#include <sys/mman.h>
#include <unistd.h>

struct trial trial;

enum placement { BEHIND, BEFORE };

/* Pages between two that must not be touched, and the slice in them. */
static struct room {
    uint8_t *pages, *slice;
    size_t size, bytes;
} rooms[MOST_SLICES];

static size_t page;
static uint8_t *painted[2]; /* a page of the bytes that are put beside a slice, for each placement */

/* The seconds that a case may take: more means a call that does not return. */
#ifndef PATIENCE
#define PATIENCE 60
#endif

static const char *const names[FUNCTIONS] = {
    [VERSION] = "conl_version", [FRESH_TOKENIZER] = "conl_fresh_tokenizer",
    [TOKENIZE] = "conl_tokenize", [FRESH_PARSER] = "conl_fresh_parser", [PARSE] = "conl_parse",
    [UNESCAPE] = "conl_unescape", [UNESCAPE_VALUE] = "conl_unescape_text, of a value",
    [UNESCAPE_LINES] = "conl_unescape_text, of lines", [LOOK_UP] = "conl_look_up", [IS_UTF8] = "conl_is_utf8",
    [TRIM_BLANKS] = "conl_trim", [TRIM_BREAKS] = "conl_trim, with breaks",
};

static _Noreturn void fail(const char *what)
{
    char text[300];
    int length = snprintf(text, sizeof text, "guarded: seed %llu, case %llu, %s: %s\n",
                          (unsigned long long)trial.seed, (unsigned long long)trial.number,
                          names[trial.function], what);
    _exit(write(STDOUT_FILENO, text, (size_t)length) == length ? 1 : 2);
}

void expect(bool holds, const char *fact)
{
    if (!holds)
        fail(fact);
}

static void on_signal(int signal)
{
    fail(signal == SIGALRM ? "does not return" : "touches memory that it must not");
}

static void *pages(size_t size)
{
    void *made = mmap(NULL, size, PROT_NONE, MAP_PRIVATE | MAP_ANONYMOUS, -1, 0);
    if (made == MAP_FAILED) {
        perror("guarded: no memory");
        exit(2);
    }
    return made;
}

/* Allows this use of the pages that these bytes are on. */
static void allow(uint8_t *from, size_t bytes, int protection)
{
    size_t before = (uintptr_t)from % page;
    if (bytes > 0 && mprotect(from - before, before + bytes, protection)) {
        perror("guarded: mprotect");
        exit(2);
    }
}

static void make_room(struct room *room, size_t size)
{
    room->size = (size + page - 1) / page * page;
    room->pages = (uint8_t *)pages(room->size + 2 * page) + page;
    allow(room->pages, room->size, PROT_READ | PROT_WRITE);
}

void make_rooms(size_t first)
{
    page = (size_t)sysconf(_SC_PAGESIZE);
    for (enum placement placement = BEHIND; placement <= BEFORE; placement++) {
        painted[placement] = pages(page);
        allow(painted[placement], page, PROT_READ | PROT_WRITE);
        memset(painted[placement], placement == BEHIND ? '"' : '\n', page);
    }
    for (size_t i = 0; i < MOST_SLICES; i++)
        make_room(rooms + i, i == 0 ? first : page);
    struct sigaction action = {.sa_handler = on_signal};
    sigaction(SIGSEGV, &action, NULL);
    sigaction(SIGBUS, &action, NULL);
    sigaction(SIGALRM, &action, NULL);
}

/* The bytes beside the slice that are painted: what is left of its room, and at most a page. */
static size_t margin(const struct room *room, enum placement placement, uint8_t **at)
{
    size_t left = room->size - room->bytes, bytes = left < page ? left : page;
    *at = placement == BEHIND ? room->slice + room->bytes : room->slice - bytes;
    return bytes;
}

static void place(struct room *room, const struct lent *lent, enum placement placement)
{
    uint8_t *beside;
    expect(lent->bytes <= room->size, "a slice is too long for its room");
    room->bytes = lent->bytes;
    room->slice = placement == BEHIND ? room->pages : room->pages + room->size - lent->bytes;
    size_t bytes = margin(room, placement, &beside);
    memcpy(room->slice, lent->from, lent->bytes);
    memcpy(beside, painted[placement], bytes);
    if (lent->after == NULL)
        allow(room->slice, room->bytes, PROT_READ);
}

static void take_back(struct room *room, const struct lent *lent, enum placement placement)
{
    uint8_t *beside;
    size_t bytes = margin(room, placement, &beside);
    expect(memcmp(beside, painted[placement], bytes) == 0, "writes beside a slice");
    if (lent->after == NULL) {
        allow(room->slice, room->bytes, PROT_READ | PROT_WRITE);
    } else if (placement == BEHIND) {
        memcpy(lent->after, room->slice, room->bytes);
    } else {
        expect(memcmp(lent->after, room->slice, room->bytes) == 0, "leaves something else elsewhere");
    }
}

#define BYTES(i) rooms[i].slice, rooms[i].bytes
#define WORDS(i) (size_t *)(void *)rooms[i].slice, rooms[i].bytes / sizeof(size_t)

static size_t apply(enum function function)
{
    switch (function) {
    case VERSION: return conl_version();
    case FRESH_TOKENIZER: return conl_fresh_tokenizer(WORDS(0));
    case TOKENIZE: return conl_tokenize(BYTES(0), WORDS(1), WORDS(2));
    case FRESH_PARSER: return conl_fresh_parser(WORDS(0));
    case PARSE: return conl_parse(BYTES(0), WORDS(1), WORDS(2));
    case UNESCAPE: return conl_unescape(BYTES(0), WORDS(1), BYTES(2), WORDS(3));
    case UNESCAPE_VALUE: return conl_unescape_text(CONL_VALUE, 7, BYTES(0), BYTES(1), BYTES(2), WORDS(3));
    case UNESCAPE_LINES:
        return conl_unescape_text(CONL_MULTILINE_VALUE, 7, BYTES(0), BYTES(1), BYTES(2), WORDS(3));
    case LOOK_UP: return conl_look_up(BYTES(0), BYTES(1), WORDS(2));
    case IS_UTF8: return conl_is_utf8(BYTES(0));
    case TRIM_BLANKS: return conl_trim(BYTES(0), false, WORDS(1));
    case TRIM_BREAKS: return conl_trim(BYTES(0), true, WORDS(1));
    default: fail("no such function");
    }
}

void begin_case(uint64_t number)
{
    trial.number = number;
    alarm(PATIENCE);
}

size_t call(enum function function, const struct lent *lent, size_t slices)
{
    size_t results[2];
    trial.function = function;
    for (enum placement placement = BEHIND; placement <= BEFORE; placement++) {
        for (size_t i = 0; i < slices; i++)
            place(rooms + i, lent + i, placement);
        results[placement] = apply(function);
        for (size_t i = 0; i < slices; i++)
            take_back(rooms + i, lent + i, placement);
        trial.calls[function]++;
    }
    expect(results[0] == results[1], "answers otherwise elsewhere");
    return results[0];
}
