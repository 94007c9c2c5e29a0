/*
 * Lends the library documents, states and rows, random, of real readings, and damaged ones of these,
 * and sees that every call keeps what conl.h promises, whatever it is lent.
 *
 *     guarded SECONDS SEED [CASE]        CASE tries that one alone
 *
 * `tests/c/run guarded` builds and runs it.
 */
#include "conl.h"
#include "inputs.h"
#include "lending.h"

#include <inttypes.h>
#include <stdio.h>
#include <stdlib.h>
#include <string.h>
#include <time.h>

enum { MOST_WORDS = 300, SPARE = 9, FEWEST_CASES = 500 };

/* Words that are lent, and what they are after the call. */
struct words {
    size_t count, before[MOST_WORDS], after[MOST_WORDS];
};

#define BYTES(from, length) {(from), (length), NULL}
#define WORDS(words) {(words)->before, (words)->count * sizeof(size_t), (words)->after}

struct reader {
    enum function fresh, steps;
    size_t words, kinds, refusals; /* of its state; the last kind and refusal of its rows */
};

static const struct reader readers[] = {
    {FRESH_TOKENIZER, TOKENIZE, CONL_TOKENIZER_WORDS, CONL_MULTILINE_VALUE, CONL_TOO_MANY_OPEN},
    {FRESH_PARSER, PARSE, CONL_PARSER_WORDS, CONL_NO_VALUE, CONL_UNEXPECTED_INDENT},
};

static struct document document;

/*
 * How often each kind, each refusal and each kind of answer was met, and how often words that no
 * reading need come to were gone on from.
 */
static size_t kinds[CONL_NO_VALUE + 1], refusals[CONL_UNFIT_STATE + 1], strays;
static size_t texts[CONL_TEXT_REFUSED + 1], found[CONL_FOUND_REFUSED + 1];

static bool is_kept(const struct words *words, size_t from)
{
    return memcmp(words->before + from, words->after + from,
                  (words->count - from) * sizeof(size_t)) == 0;
}

static void fill(struct words *words, size_t count)
{
    words->count = count;
    for (size_t i = 0; i < count; i++)
        words->before[i] = any_word(document.length);
}

/* Any words, and a fresh state at their front where there are enough. */
static void make_fresh(const struct reader *reader, struct words *state, size_t count)
{
    fill(state, count);
    const struct lent lent[] = {WORDS(state)};
    bool made = call(reader->fresh, lent, 1);
    expect(made == (count >= reader->words), "a fresh state has other words");
    expect(is_kept(state, made ? reader->words : 0), "a word is written that is not the state's");
    memcpy(state->before, state->after, count * sizeof(size_t));
}

static void check_row(const struct reader *reader, const size_t *row)
{
    size_t number = row[CONL_ROW_NUMBER];
    if (number > CONL_REFUSED) {
        expect(number - CONL_REFUSED <= reader->refusals, "no such refusal");
        refusals[number - CONL_REFUSED]++;
    } else {
        expect(number >= CONL_NEWLINE && number <= reader->kinds, "no such kind");
        kinds[number]++;
    }
    bool closes = reader->steps == PARSE && number == CONL_OUTDENT;
    expect(closes || row[CONL_ROW_OPENED] == 0, "a row that closes nothing carries a line");
}

/* Takes steps: how many; or CONL_NO_STEP and a refusal. The state's words are then those after them. */
static size_t take_steps(const struct reader *reader, struct words *state, struct words *rows)
{
    const struct lent lent[] = {BYTES(document.bytes, document.length), WORDS(state), WORDS(rows)};
    size_t count = call(reader->steps, lent, 3);
    if (count >= CONL_NO_STEP) {
        expect(count == CONL_NO_STEP + CONL_UNFIT_STATE, "no such refusal");
        expect(is_kept(state, 0) && is_kept(rows, 0), "a refused call writes");
        refusals[CONL_UNFIT_STATE]++;
        return count;
    }
    expect(state->count >= reader->words, "a short state is taken");
    expect(count <= rows->count / CONL_ROW_WORDS, "more rows than there is room for");
    expect(is_kept(state, reader->words), "a word behind the state is written");
    expect(is_kept(rows, count * CONL_ROW_WORDS), "a word behind the rows is written");
    for (size_t i = 0; i < count; i++)
        check_row(reader, rows->after + i * CONL_ROW_WORDS);
    memcpy(state->before, state->after, state->count * sizeof(size_t));
    return count;
}

/* Unescapes, and sees to what holds of any row. The answer's words are then in `answer`. */
static bool unescape(const size_t *row, size_t row_len, size_t room, struct words *answer)
{
    static uint8_t before[MOST_BYTES], after[MOST_BYTES];
    memset(before, (int)below(256), room);
    const struct lent lent[] = {BYTES(document.bytes, document.length), BYTES(row, row_len * sizeof(size_t)),
                                {before, room, after}, WORDS(answer)};
    bool answered = call(UNESCAPE, lent, 4);
    bool token = row_len > CONL_ROW_INDENT_END && row[CONL_ROW_NUMBER] - 1 < CONL_NO_VALUE;
    const size_t *words = answer->after;
    expect(answered == (token && answer->count >= CONL_ANSWER_WORDS), "answers by another rule");
    expect(is_kept(answer, answered ? CONL_ANSWER_WORDS : 0), "a word is written that is not the answer's");
    size_t written = answered && words[CONL_ANSWER_KIND] == CONL_TEXT_WRITTEN ? words[CONL_ANSWER_END] : 0;
    expect(written <= room && memcmp(before + written, after + written, room - written) == 0,
           "a byte is written that is not the text's");
    return answered;
}

/* An answer of conl_unescape to this row. */
static void check_text(const size_t *row, size_t room, const size_t *answer)
{
    size_t number = answer[CONL_ANSWER_NUMBER], start = answer[CONL_ANSWER_START];
    size_t end = answer[CONL_ANSWER_END], length = row[CONL_ROW_END] - row[CONL_ROW_START];
    switch (answer[CONL_ANSWER_KIND]) {
    case CONL_TEXT_PLAIN:
        expect(number == 0 && answer[CONL_ANSWER_LINE] == 0, "a plain part has a refusal's words");
        expect(start <= end && end <= document.length, "a plain part is not in the document");
        break;
    case CONL_TEXT_WRITTEN:
        expect(number == 0 && answer[CONL_ANSWER_LINE] == 0 && start == 0, "a text has other words");
        expect(end <= length, "a written text is longer than the row's");
        break;
    case CONL_TEXT_REFUSED:
        expect(CONL_INVALID_ESCAPE <= number && number <= CONL_SHORT_BUFFER && number != CONL_TOO_LONG,
               "no such refusal");
        expect(answer[CONL_ANSWER_LINE] == row[CONL_ROW_LINE], "a refusal is on another line");
        expect(number == CONL_INVALID_ESCAPE ? start < end && end <= document.length : start + end == 0,
               "a refusal shows another part");
        expect(number != CONL_SHORT_BUFFER || room < length, "a buffer as long as the text is refused");
        refusals[number]++;
        break;
    default: expect(false, "no such kind of answer");
    }
    texts[answer[CONL_ANSWER_KIND]]++;
}

static void try_row(const size_t *from, bool fresh)
{
    size_t row[CONL_ROW_WORDS], row_len = below(6) ? CONL_ROW_WORDS : below(CONL_ROW_WORDS);
    size_t length = from[CONL_ROW_END] - from[CONL_ROW_START];
    size_t room = below(2) && length < MOST_BYTES ? length : below(20);
    static struct words answer;
    memcpy(row, from, sizeof row);
    if (!fresh)
        damage_words(row, CONL_ROW_WORDS, document.length);
    fill(&answer, below(6) ? CONL_ANSWER_WORDS + below(SPARE) : below(CONL_ANSWER_WORDS));
    if (unescape(row, row_len, room, &answer)) {
        check_text(row, room, answer.after);
        expect(!fresh || answer.after[CONL_ANSWER_NUMBER] != CONL_UNFIT_TOKEN, "a row of a reading is unfit");
    }
}

/* A row of a reading from the fresh state on. */
static void check_places(const size_t *row)
{
    expect(row[CONL_ROW_LINE] >= 1, "a row is on line 0");
    expect(row[CONL_ROW_START] <= row[CONL_ROW_END] && row[CONL_ROW_END] <= document.length,
           "a text is not in the document");
    expect(row[CONL_ROW_INDENT_START] <= row[CONL_ROW_INDENT_END] && row[CONL_ROW_INDENT_END] <= document.length,
           "an indentation is not in the document");
}

/* Goes on from words that no reading need come to. */
static void stray(const struct reader *reader, const struct words *from)
{
    static struct words state, rows;
    state = *from;
    if (below(8))
        damage_words(state.before, reader->words, document.length);
    else
        fill(&state, below(MOST_WORDS));
    for (size_t left = 1 + below(6); left > 0; left--) {
        fill(&rows, below(5 * CONL_ROW_WORDS));
        size_t count = take_steps(reader, &state, &rows);
        if (count >= CONL_NO_STEP)
            return;
        strays++;
        for (size_t i = 0; i < count; i++)
            try_row(rows.after + i * CONL_ROW_WORDS, false);
    }
}

/* A whole reading, with any room for rows in each call. It has at most two rows for each byte. */
static void read_document(const struct reader *reader)
{
    static struct words state, rows;
    size_t total = 0, room, count;
    make_fresh(reader, &state, reader->words + below(SPARE));
    do {
        if (below(4) == 0)
            stray(reader, &state);
        room = below(8);
        fill(&rows, room * CONL_ROW_WORDS + below(CONL_ROW_WORDS));
        count = take_steps(reader, &state, &rows);
        expect(count <= room, "a reading comes to no fit state");
        for (size_t i = 0; i < count; i++) {
            check_places(rows.after + i * CONL_ROW_WORDS);
            try_row(rows.after + i * CONL_ROW_WORDS, below(2));
        }
        total += count;
        expect(total <= 2 * document.length, "a reading has more rows than two for each byte");
    } while (count == room);
}

static void look_up(const uint8_t *wanted, size_t wanted_len)
{
    static struct words answer;
    fill(&answer, below(6) ? CONL_ANSWER_WORDS + below(SPARE) : below(CONL_ANSWER_WORDS));
    const struct lent lent[] = {BYTES(document.bytes, document.length), BYTES(wanted, wanted_len), WORDS(&answer)};
    bool answered = call(LOOK_UP, lent, 3);
    expect(answered == (answer.count >= CONL_ANSWER_WORDS), "answers by another rule");
    expect(is_kept(&answer, answered ? CONL_ANSWER_WORDS : 0), "a word is written that is not the answer's");
    if (!answered)
        return;
    size_t kind = answer.after[CONL_ANSWER_KIND], number = answer.after[CONL_ANSWER_NUMBER];
    size_t line = answer.after[CONL_ANSWER_LINE], start = answer.after[CONL_ANSWER_START];
    size_t end = answer.after[CONL_ANSWER_END];
    if (kind == CONL_FOUND_AT) {
        expect(number == 0 && line >= 1, "an entry has other words");
        expect(start <= end && end <= document.length, "an entry is not in the document");
        expect(wanted_len <= end - start && memcmp(document.bytes + start, wanted, wanted_len) == 0,
               "an entry begins with another key");
    } else if (kind == CONL_FOUND_REFUSED) {
        expect(1 <= number && number <= CONL_UNEXPECTED_INDENT && line >= 1 && start + end == 0,
               "a refusal has other words");
    } else {
        expect(kind == CONL_FOUND_NOTHING && number + line + start + end == 0, "nothing has words");
    }
    found[kind]++;
}

/* A text that stands in no document, with an indentation, and as much room as comes. */
static void unescape_text(enum function function, const uint8_t *text, size_t length, size_t indent)
{
    static uint8_t before[MOST_BYTES], after[MOST_BYTES];
    static struct words answer;
    size_t room = below(2) && length < MOST_BYTES ? length : below(20);
    memset(before, (int)below(256), room);
    fill(&answer, below(6) ? CONL_ANSWER_WORDS + below(SPARE) : below(CONL_ANSWER_WORDS));
    const struct lent lent[] = {BYTES(text, length), BYTES(text, indent), {before, room, after}, WORDS(&answer)};
    bool answered = call(function, lent, 4);
    const size_t *words = answer.after;
    expect(answered == (answer.count >= CONL_ANSWER_WORDS), "answers by another rule");
    expect(is_kept(&answer, answered ? CONL_ANSWER_WORDS : 0), "a word is written that is not the answer's");
    size_t written = answered && words[CONL_ANSWER_KIND] == CONL_TEXT_WRITTEN ? words[CONL_ANSWER_END] : 0;
    expect(written <= room && memcmp(before + written, after + written, room - written) == 0,
           "a byte is written that is not the text's");
    expect(!answered || words[CONL_ANSWER_KIND] != CONL_TEXT_REFUSED || words[CONL_ANSWER_LINE] == 7,
           "a refusal is on another line");
    expect(!answered || words[CONL_ANSWER_END] <= length, "a part is not in the text");
}

static void trim(enum function function, const uint8_t *text, size_t length)
{
    static struct words part;
    fill(&part, below(6) ? 2 + below(SPARE) : below(2));
    const struct lent lent[] = {BYTES(text, length), WORDS(&part)};
    bool trimmed = call(function, lent, 2);
    expect(trimmed == (part.count >= 2), "answers by another rule");
    expect(is_kept(&part, trimmed ? 2 : 0), "a word is written that is not the part's");
    expect(!trimmed || (part.after[0] <= part.after[1] && part.after[1] <= length), "a part is not in the text");
}

/* A document of one byte more than may be read. */
static void try_limit(void)
{
    static uint8_t doc[CONL_MAX_DOCUMENT + 1], out[1];
    static struct words state, row, answer;
    fill(&row, CONL_ROW_WORDS);
    row.before[CONL_ROW_NUMBER] = CONL_VALUE;
    fill(&answer, CONL_ANSWER_WORDS);
    const struct lent text[] = {BYTES(doc, sizeof doc), BYTES(row.before, CONL_ROW_WORDS * sizeof(size_t)),
                                 {out, 1, out}, WORDS(&answer)};
    const struct lent keys[] = {BYTES(doc, sizeof doc), BYTES(doc, 1), WORDS(&answer)};
    for (size_t i = 0; i < 2; i++) {
        make_fresh(readers + i, &state, readers[i].words);
        const struct lent steps[] = {BYTES(doc, sizeof doc), WORDS(&state), WORDS(&row)};
        expect(call(readers[i].steps, steps, 3) == CONL_NO_STEP + CONL_TOO_LONG, "a long document is read");
        expect(is_kept(&state, 0) && is_kept(&row, 0), "a refused call writes");
        refusals[CONL_TOO_LONG]++;
    }
    expect(call(UNESCAPE, text, 4) && answer.after[CONL_ANSWER_NUMBER] == CONL_TOO_LONG, "a long document is read");
    expect(call(LOOK_UP, keys, 3) && answer.after[CONL_ANSWER_NUMBER] == CONL_TOO_LONG, "a long document is read");
}

static void try_document(void)
{
    static struct words state;
    make_document(&document);
    size_t start = below(document.length + 1), length = below(document.length - start + 1);
    const struct lent text[] = {BYTES(document.bytes + start, length)};
    expect(call(VERSION, text, 0) == CONL_VERSION, "another version");
    call(IS_UTF8, text, 1);
    trim(TRIM_BLANKS, document.bytes + start, length);
    trim(TRIM_BREAKS, document.bytes + start, length);
    unescape_text(UNESCAPE_VALUE, document.bytes + start, length, 0);
    unescape_text(UNESCAPE_LINES, document.bytes + start, length, length < 2 ? length : below(3));
    look_up(document.bytes + start, length < 3 ? length : 3);
    look_up((const uint8_t *)"key", below(2) ? 3 : 0);
    look_up((const uint8_t *)"a", 1);
    for (size_t i = 0; i < 2; i++) {
        make_fresh(readers + i, &state, below(MOST_WORDS));
        read_document(readers + i);
    }
}

static void try_case(uint64_t number)
{
    begin_case(number);
    start_random(trial.seed, number);
    if (number == 0)
        try_limit();
    else
        try_document();
}

/* Prints how often each was met. False where one never was, so that nothing was shown of it. */
static bool report(const char *what, const size_t *met, size_t first, size_t last)
{
    bool all = true;
    printf("guarded: %s:", what);
    for (size_t i = first; i <= last; i++) {
        printf(" %zu: %zu%s", i, met[i], i < last ? "," : "\n");
        all = all && met[i] > 0;
    }
    if (!all)
        puts("guarded: something was never met");
    return all;
}

int main(int argc, char **argv)
{
    if (argc < 3 || argc > 4)
        return 2;
    time_t end = time(NULL) + strtol(argv[1], NULL, 10);
    trial.seed = strtoull(argv[2], NULL, 10);
    make_rooms(CONL_MAX_DOCUMENT + 1);
    if (argc == 4) {
        try_case(strtoull(argv[3], NULL, 10));
        printf("guarded: seed %" PRIu64 ", case %" PRIu64 ": nothing found\n", trial.seed, trial.number);
        return 0;
    }
    printf("guarded: seed %" PRIu64 "\n", trial.seed);
    fflush(stdout);
    uint64_t cases = 0;
    while (time(NULL) < end || cases < FEWEST_CASES)
        try_case(cases++);
    printf("guarded: %" PRIu64 " cases, %zu calls on from words that no reading need come to\n", cases, strays);
    bool all = report("calls, in conl.h's order", trial.calls, VERSION, TRIM_BREAKS);
    all = report("kinds", kinds, CONL_NEWLINE, CONL_NO_VALUE) && all;
    all = report("refusals", refusals, CONL_INVALID_UTF8, CONL_UNFIT_STATE) && all;
    all = report("answers of conl_unescape", texts, CONL_TEXT_PLAIN, CONL_TEXT_REFUSED) && all;
    all = report("answers of conl_look_up", found, CONL_FOUND_NOTHING, CONL_FOUND_REFUSED) && all;
    return all && strays > 0 ? 0 : 1;
}
