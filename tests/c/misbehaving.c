/*
 * What conl_trim and conl_parse must not do, for tests/c/faults: linked with --wrap, these stand
 * for the library's, and FAULT is the one thing that they do wrong.
 */
#include "conl.h"

enum fault {
    READS_BEHIND, READS_BEFORE, WRITES_BEHIND, WRITES_BEFORE, WRITES_CONST, WRITES_MORE_WORDS,
    WRITES_SHORT_PART, NEVER_RETURNS, WRITES_REFUSED_STATE, WRITES_BEHIND_STATE, WRITES_BEHIND_ROWS,
    CARRIES_A_LINE, PLACES_OUTSIDE, ANSWERS_BY_ADDRESS
};

bool __real_conl_trim(const uint8_t *s, size_t s_len, bool breaks, size_t *part, size_t part_len);
size_t __real_conl_parse(const uint8_t *doc, size_t doc_len, size_t *state, size_t state_len,
                         size_t *rows, size_t rows_len);

bool __wrap_conl_trim(const uint8_t *s, size_t s_len, bool breaks, size_t *part, size_t part_len)
{
    volatile uint8_t *text = (uint8_t *)s;
    volatile size_t *words = part;
    bool trimmed = __real_conl_trim(s, s_len, breaks, part, part_len);
    if (FAULT == READS_BEHIND)
        (void)text[s_len];
    if (FAULT == READS_BEFORE)
        (void)text[-1];
    if (FAULT == WRITES_BEHIND)
        words[part_len] = 0;
    if (FAULT == WRITES_BEFORE)
        words[-1] = 0;
    if (FAULT == WRITES_CONST && s_len > 0)
        text[0] = text[0];
    if (FAULT == WRITES_MORE_WORDS && part_len > 2)
        words[2]++;
    if (FAULT == WRITES_SHORT_PART && part_len == 1)
        words[0]++;
    while (FAULT == NEVER_RETURNS)
        (void)text;
    return trimmed;
}

size_t __wrap_conl_parse(const uint8_t *doc, size_t doc_len, size_t *state, size_t state_len,
                         size_t *rows, size_t rows_len)
{
    size_t count = __real_conl_parse(doc, doc_len, state, state_len, rows, rows_len);
    if (count >= CONL_NO_STEP) {
        if (FAULT == WRITES_REFUSED_STATE && state_len > 0)
            state[0]++;
        return count;
    }
    if (FAULT == WRITES_BEHIND_STATE && state_len > CONL_PARSER_WORDS)
        state[CONL_PARSER_WORDS]++;
    if (FAULT == WRITES_BEHIND_ROWS && rows_len > CONL_ROW_WORDS * count)
        rows[CONL_ROW_WORDS * count]++;
    if (FAULT == CARRIES_A_LINE && count > 0)
        rows[CONL_ROW_OPENED]++;
    if (FAULT == PLACES_OUTSIDE && count > 0)
        rows[CONL_ROW_END] = doc_len + 1;
    if (FAULT == ANSWERS_BY_ADDRESS && (uintptr_t)doc % 2 == 1)
        return 0;
    return count;
}
