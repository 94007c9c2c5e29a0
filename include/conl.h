/*
 * The proved reader of CONL, for C: the functions of crates/abi/out/libabi.a, which `rt lib` makes
 * in crates/abi. They need memcpy and memset, and nothing else.
 *
 * A word is a size_t, of 64 bits.
 *
 * A slice is lent as a pointer and a length, in bytes (uint8_t) or in words. The pointer must not
 * be null, even where the length is 0, and a pointer to words must be aligned as a size_t is. A
 * slice that is not const is written to: it must overlap no other slice of the call, and nothing
 * else may use its memory before the call returns. No function keeps a pointer or touches other
 * memory.
 *
 * A document is any bytes; more than CONL_MAX_DOCUMENT of them are refused by number 12. Places are
 * counted in its bytes from 0, and an end is the place behind the last byte. Lines are counted
 * from 1.
 *
 * Nothing more is asked of a caller: every call returns, whatever bytes and words the slices hold.
 *
 * `tests/c/run` holds this header to the library: its declarations are compared with those of
 * crates/abi, tests/c/header.c tries every function and every constant, and tests/c/guarded.c lends
 * random words and documents between guard pages.
 */
#ifndef CONL_H
#define CONL_H

#include <stdbool.h>
#include <stddef.h>
#include <stdint.h>

#if SIZE_MAX != UINT64_MAX
#error "conl.h: the library is made for words of 64 bits"
#endif

#ifdef __cplusplus
extern "C" {
#endif

/*
 * The version of this header, and the library's: raised when the words of a row, a state or an
 * answer change, or what they stand for. Where the two differ, nothing below need be so.
 */
#define CONL_VERSION 2
size_t conl_version(void);

/* The most bytes of a document, and the most sections that may be open. */
#define CONL_MAX_DOCUMENT 16777216
#define CONL_MAX_OPEN 64

/* How many words a tokenizer's state, a parser's state, a row and an answer have. */
#define CONL_TOKENIZER_WORDS 137
#define CONL_PARSER_WORDS 278
#define CONL_ROW_WORDS 7
#define CONL_ANSWER_WORDS 5

/*
 * The words of a row, which one step of a reading gives: each 0 where there is no such thing. In a
 * reading from the fresh state on, a start is at most its end, and an end at most the document's
 * length. From any other words on, places are not bounded by the document: test them before use.
 */
enum conl_row_word {
    CONL_ROW_NUMBER,       /* an enum conl_kind, or CONL_REFUSED and an enum conl_refusal */
    CONL_ROW_LINE,         /* the line that the token starts on, or that is refused */
    CONL_ROW_START,        /* where the text starts */
    CONL_ROW_END,          /* where it ends: where it starts, if it is empty */
    CONL_ROW_INDENT_START, /* where a multiline value's indentation starts */
    CONL_ROW_INDENT_END,   /* where it ends */
    CONL_ROW_OPENED        /* of an Outdent of the parser's: the line of the key or item that closes */
};

/* What a row adds to a refusal's number. */
#define CONL_REFUSED 256

/* The kinds of tokens. Each has a text, without the blanks around it, where one is named. */
enum conl_kind {
    CONL_NEWLINE = 1,         /* a line ends: CR LF, CR or LF */
    CONL_COMMENT = 2,         /* the text behind a ; */
    CONL_INDENT = 3,          /* a section opens */
    CONL_OUTDENT = 4,         /* the innermost section closes */
    CONL_LIST_ITEM = 5,       /* an item; its value comes next */
    CONL_MAP_KEY = 6,         /* the text of a key; its value comes next */
    CONL_VALUE = 7,           /* the text of a value on the line of its key or item */
    CONL_MULTILINE_HINT = 8,  /* the text behind the """ before a multiline value */
    CONL_MULTILINE_VALUE = 9, /* the text of a value on lines of its own; it has an indentation */
    CONL_NO_VALUE = 10        /* the key or item of this line has no value; the parser's alone */
};

/* Why something is refused. */
enum conl_refusal {
    CONL_INVALID_UTF8 = 1,            /* 1 to 3: the tokenizer's, and so the parser's too */
    CONL_CHARACTERS_AFTER_QUOTES = 2, /* a fourth " behind """ */
    CONL_TOO_MANY_OPEN = 3,           /* one section more than CONL_MAX_OPEN */
    CONL_MISSING_MULTILINE = 4,       /* 4 to 7: the parser's */
    CONL_UNEXPECTED_KEY = 5,
    CONL_UNEXPECTED_ITEM = 6,
    CONL_UNEXPECTED_INDENT = 7,
    CONL_INVALID_ESCAPE = 8, /* 8 to 11: of a text that is unescaped */
    CONL_ESCAPE_AT_END = 9,
    CONL_EXTRA_CHARACTERS = 10, /* behind the closing quote */
    CONL_UNCLOSED_QUOTES = 11,
    CONL_TOO_LONG = 12,     /* the document has more bytes than CONL_MAX_DOCUMENT */
    CONL_UNFIT_TOKEN = 13,  /* a row's text or indentation is not in the document, or not UTF-8 */
    CONL_SHORT_BUFFER = 14, /* the buffer has fewer bytes than the text that is to be written */
    CONL_UNFIT_STATE = 15   /* the words encode no state, or one that does not fit the document */
};

/* What a call that takes no step adds to the refusal that it returns: above any count of rows. */
#define CONL_NO_STEP ((size_t)1 << 63)

/*
 * The tokenizer's fresh state: true, with the state in the first CONL_TOKENIZER_WORDS words of
 * `state`; or false, with nothing written, where there are fewer.
 */
bool conl_fresh_tokenizer(size_t *state, size_t state_len);

/*
 * Takes steps of the tokenizer from the state in `state` on, and writes a row for each to the front
 * of `rows`, until the document ends or no room is left for a whole row. Returns how many rows it
 * wrote: fewer than there is room for means that the document has ended. `state` is then the state
 * after these steps, for the next call, with the same document. A refusal is a row among others,
 * and the next step goes on after it. Every word behind the state and behind the rows is as it was.
 *
 * Returns CONL_NO_STEP + CONL_TOO_LONG where the document is too long; else CONL_NO_STEP +
 * CONL_UNFIT_STATE where `state` has fewer than CONL_TOKENIZER_WORDS words, or they encode no
 * state, or one that does not fit the document: no reading from the fresh state on comes to this.
 * Nothing is written then.
 */
size_t conl_tokenize(const uint8_t *doc, size_t doc_len, size_t *state, size_t state_len,
                     size_t *rows, size_t rows_len);

/*
 * The parser's fresh state, as conl_fresh_tokenizer gives the tokenizer's: in CONL_PARSER_WORDS
 * words.
 */
bool conl_fresh_parser(size_t *state, size_t state_len);

/*
 * The same as conl_tokenize with the parser's steps and its state, but that a refusal is the last
 * row of a reading.
 *
 * A state that no reading from the fresh one on comes to may turn out not to fit the document only
 * later. The rows before that are returned, and the next call returns CONL_NO_STEP +
 * CONL_UNFIT_STATE.
 */
size_t conl_parse(const uint8_t *doc, size_t doc_len, size_t *state, size_t state_len,
                  size_t *rows, size_t rows_len);

/* The words of an answer. */
enum conl_answer_word {
    CONL_ANSWER_KIND,   /* conl_unescape: an enum conl_text; conl_look_up: an enum conl_found */
    CONL_ANSWER_NUMBER, /* a refusal's number, or 0 */
    CONL_ANSWER_LINE,   /* a refusal's line, or a key's, or 0 */
    CONL_ANSWER_START,  /* where a part of the document starts, or 0 */
    CONL_ANSWER_END     /* where it ends, or the length of a text that was written, or 0 */
};

/* The kinds of conl_unescape's answers, and the words that each has besides its kind. */
enum conl_text {
    CONL_TEXT_PLAIN = 0,   /* start and end of the text in the document */
    CONL_TEXT_WRITTEN = 1, /* as its end, the length of the text, which is at the front of `out` */
    CONL_TEXT_REFUSED = 2  /* number and line; for 8, start and end of the part that is wrong */
};

/*
 * Unescapes the text of a token of the document: of `row`, as conl_tokenize or conl_parse wrote it,
 * with or without its last word. The text of a kind that has none is the empty part at 0. A key or
 * a value in quotes may have the escapes \" \\ \n \r \t and \{h}, where h is 1 to 8 hexadecimal
 * digits that name a scalar value; any other is refused by 8.
 *
 * Returns true, with the answer in the first CONL_ANSWER_WORDS words of `answer`. A text that is
 * not a part of the document is written to the front of `out`, of which every other byte is as it
 * was; it is never longer than the row's text, so that so long a buffer is never refused by 14.
 * Refusals are, in this order: 12, on line 0, whatever `row` is; 13, which no row of a reading from
 * the fresh state on meets; 8 to 11; 14. All but 12 are on the token's line.
 *
 * Returns false, with nothing written, where `answer` has fewer than CONL_ANSWER_WORDS words, or,
 * where the document is not too long, `row` has fewer than six words or its number is not an enum
 * conl_kind.
 */
bool conl_unescape(const uint8_t *doc, size_t doc_len, const size_t *row, size_t row_len,
                   uint8_t *out, size_t out_len, size_t *answer, size_t answer_len);

/*
 * Unescapes a text that stands in no document, as conl_unescape does: the text of a token of this
 * kind and line, with the indentation of a multiline value; of any other kind the indentation is
 * not looked at. Places are counted from the text's start. `text` and `indent` are not tested for
 * UTF-8: where they are, so is what is answered. Refusals are, in this order: 12, on line 0, where
 * either has more than CONL_MAX_DOCUMENT bytes; 8 to 11; 14. All but 12 are on `line`, and none is
 * 13.
 *
 * Returns false, with nothing written, where `kind` is not an enum conl_kind, or `answer` has fewer
 * than CONL_ANSWER_WORDS words.
 */
bool conl_unescape_text(size_t kind, size_t line, const uint8_t *text, size_t text_len,
                        const uint8_t *indent, size_t indent_len, uint8_t *out, size_t out_len,
                        size_t *answer, size_t answer_len);

/* The kinds of conl_look_up's answers, and the words that each has besides its kind. */
enum conl_found {
    CONL_FOUND_NOTHING = 0, /* there is no such key, and the document is accepted */
    CONL_FOUND_AT = 1,      /* the key's line, and start and end of its entry */
    CONL_FOUND_REFUSED = 2  /* number and line */
};

/*
 * Looks up the first key at top level whose text, unescaped, is `wanted`: `"width"` is found by
 * width. A key that conl_unescape refuses with 8 to 11 has no such text, and is passed over. The
 * entry is the part of the document from the key's first byte, which may be a quote, to the next
 * top-level key's, or to the document's end.
 *
 * Returns true, with the answer in the first CONL_ANSWER_WORDS words of `answer`. A refusal of the
 * parser is the answer where it comes before the entry's end, and anywhere where there is no such
 * key; 12 is on line 0. Returns false, with nothing written, where there are fewer words.
 */
bool conl_look_up(const uint8_t *doc, size_t doc_len, const uint8_t *wanted, size_t wanted_len,
                  size_t *answer, size_t answer_len);

/* Whether `s` is well-formed UTF-8. */
bool conl_is_utf8(const uint8_t *s, size_t s_len);

/*
 * Trims `s` of spaces and tabs at both ends, and with `breaks` of CR and LF too: true, with start
 * and end of what is left in the first two words of `part`, both 0 where nothing is; or false, with
 * nothing written, where there are fewer than two.
 */
bool conl_trim(const uint8_t *s, size_t s_len, bool breaks, size_t *part, size_t part_len);

#ifdef __cplusplus
}
#endif

#endif
