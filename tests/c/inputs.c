#include "inputs.h"

#include <stdbool.h>
#include <string.h>

#define COUNT(array) (sizeof array / sizeof array[0])

static uint64_t state;

/* splitmix64, by Sebastiano Vigna. */
static uint64_t next(void)
{
    uint64_t z = state += 0x9E3779B97F4A7C15;
    z = (z ^ (z >> 30)) * 0xBF58476D1CE4E5B9;
    z = (z ^ (z >> 27)) * 0x94D049BB133111EB;
    return z ^ (z >> 31);
}

void start_random(uint64_t seed, uint64_t number)
{
    state = seed;
    state = next() + number;
    state = next();
}

size_t below(size_t bound) { return next() % bound; }

/* What a document is made of. */
static const char *const pieces[] = {
    "\n", "\r", "\r\n", " ", "  ", "\t", "a", "key", "=", " = ", ";", "; c", "\"", "\"\"\"",
    "\"\"\"\"", "\\", "\\\"", "\\n", "\\q", "\\{41}", "\\{10FFFF}", "\\{110000}", "\\{", "}", "\xC3\xA4",
    "\xE2\x82\xAC", "\xF0\x9F\x98\x80", "\xED\xA0\x80", "\xC3", "\xFF",
};

static const char *const lines[] = {
    "a", "a = 1", "= 1", "=", "= b = c", "; c", "a ; c", "a = b ; c", "\"a b\" = \"c;d\"", "a = \"\\{41}\\n\"",
    "a = \"\\\\\" ;", "a = \"b", "a = \"b\" c", "a = \"\\", "a = \"\\x\"", "a = \"\"\"", "a = \"\"\"md", "a = \"\"\"\"",
    "= \"\"\"", "x y", "\xC3\xA4 = \xE2\x82\xAC", "\xFF", "a = \xC3", "",
};

static const char *const breaks[] = {"\n", "\n", "\n", "\r\n", "\r", ""};

static void add(struct document *document, const char *text)
{
    size_t length = strlen(text), left = MOST_BYTES - document->length;
    if (length > left)
        length = left;
    memcpy(document->bytes + document->length, text, length);
    document->length += length;
}

static void add_blanks(struct document *document, size_t count)
{
    while (count-- > 0)
        add(document, below(60) == 0 ? "\t" : " ");
}

static void make_pieces(struct document *document)
{
    size_t kinds = 1 + below(COUNT(pieces)), first = below(COUNT(pieces));
    for (size_t left = below(40); left > 0; left--)
        add(document, pieces[(first + below(kinds)) % COUNT(pieces)]);
}

static void make_lines(struct document *document)
{
    size_t depth = 0;
    for (size_t left = below(20); left > 0; left--) {
        depth = below(4) == 0 ? below(4) : depth + (below(3) == 0);
        add_blanks(document, depth);
        add(document, lines[below(COUNT(lines))]);
        add(document, breaks[below(COUNT(breaks))]);
    }
}

/* A value on lines of its own, of a key or an item of that depth. */
static void add_multiline(struct document *document, size_t depth)
{
    add(document, below(2) ? " \"\"\"md\n" : " \"\"\"\r\n");
    for (size_t left = 1 + below(3); left > 0; left--) {
        add_blanks(document, depth + 1 + below(2));
        add(document, left > 1 ? "x\n" : "x");
    }
}

/* A value of a key or an item of that depth, or none: a section may open then. */
static bool add_value(struct document *document, size_t depth)
{
    static const char *const values[] = {" b", " \"b;c\"", " \"\\{41}\\t\" ; c", " \xC3\xA4"};
    size_t value = below(8);
    if (value < COUNT(values))
        add(document, values[value]);
    else if (value < 6)
        add_multiline(document, depth);
    return value < 6;
}

/* Keys and items with their values in sections, as they should be. */
static void make_layout(struct document *document)
{
    const char *entries[8] = {"a ="};
    size_t depth = 0;
    bool has_value = true;
    for (size_t left = below(25); left > 0; left--) {
        if (!has_value && depth < 7 && below(3))
            entries[++depth] = below(2) ? "=" : "key =";
        else if (below(3) == 0)
            depth = below(depth + 1);
        for (size_t blanks = 0; blanks < depth; blanks++)
            add(document, " ");
        add(document, entries[depth]);
        has_value = add_value(document, depth);
        add(document, "\n");
    }
}

/* About as many sections as may be open. */
static void make_sections(struct document *document)
{
    for (size_t i = 0, keys = 62 + below(6); i < keys; i++) {
        for (size_t blanks = 0; blanks < i; blanks++)
            add(document, " ");
        add(document, i % 2 ? "=\n" : "a\n");
    }
}

static void make_bytes(struct document *document)
{
    for (size_t left = below(30); left > 0; left--)
        document->bytes[document->length++] = (uint8_t)next();
}

/* Bytes are changed, or a part is left out. */
static void damage(struct document *document)
{
    for (size_t left = below(4); left > 0 && document->length > 0; left--) {
        size_t at = below(document->length), count = below(2) * below(document->length - at);
        document->bytes[at] = (uint8_t)(below(2) ? next() : (uint64_t)"\n\r \t;=\"\\"[below(8)]);
        memmove(document->bytes + at, document->bytes + at + count, document->length - at - count);
        document->length -= count;
    }
}

void make_document(struct document *document)
{
    document->length = 0;
    switch (below(32)) {
    case 0: make_bytes(document); return;
    case 1: make_sections(document); break;
    case 2: case 3: case 4: case 5: case 6: case 7: make_pieces(document); break;
    case 8: case 9: case 10: case 11: case 12: case 13: make_lines(document); break;
    default: make_layout(document);
    }
    if (below(3) == 0)
        damage(document);
}

size_t any_word(size_t place)
{
    static const size_t limits[] = {64, 65, 66, 256, 257, 271, 16777216, (size_t)1 << 32, (size_t)1 << 63};
    switch (below(6)) {
    case 0: return below(4);
    case 1: return below(13);
    case 2: return place + below(3) - 1;
    case 3: return limits[below(COUNT(limits))] + below(3) - 1;
    case 4: return SIZE_MAX - below(3);
    default: return below(2) ? next() : below(place + 1);
    }
}

void damage_words(size_t *words, size_t count, size_t place)
{
    for (size_t left = 1 + below(3); left > 0 && count > 0; left--) {
        size_t at = below(below(2) ? count : (count < 16 ? count : 16));
        words[at] = below(3) ? any_word(place) : words[at] + below(3) - 1;
    }
}
