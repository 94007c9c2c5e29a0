//! How a reading by the port ends, and what a refused call leaves: demand 1's bound, End that comes
//! again, and lent words that stay as they are.

use crate::documents::LIMIT;
use crate::tally::Tally;
use conl::port::{ParserState, State, TokenizerState, NO_STEP, WORDS};
use std::mem;

/// For how many rows a call has room, and how many words are left over.
const ROOM: usize = 16;
const OVER: usize = WORDS - 1;

/// What stands in the words for rows before a call.
const BLANK: usize = 0xA5A5;

/// Words that make any state unfit, and where they stand: the place, the line, what is 0 or 1, how
/// many indentations are open.
const UNFIT: [(usize, usize); 7] = [
    (0, usize::MAX),
    (1, 0),
    (2, 2),
    (3, 2),
    (4, 2),
    (5, 2),
    (8, 65),
];

/// The same in the parser's words beside the tokenizer's: whether it refused, what it awaits, what
/// it keeps, the first and the last sort.
const UNFIT_PARSER: [(usize, usize); 5] = [(137, 2), (138, 3), (140, 12), (148, 3), (212, 3)];

const WITHIN_LIMIT: &str = "within the limit";
const OVER_LIMIT: &str = "over the limit";

/// What is wrong about a reading.
type Wrong = Vec<&'static str>;

type Way = (&'static str, fn([&[u8]; 1], &Wrong) -> Wrong);

pub fn start(over_limit: bool) -> Tally {
    let mut outcomes = vec![WITHIN_LIMIT];
    outcomes.extend(over_limit.then_some(OVER_LIMIT));
    Tally::start("ends and refused calls", &outcomes)
}

pub fn compare(tally: &mut Tally, document: &[u8]) {
    let nothing = |_: [&[u8]; 1]| Wrong::new();
    let ways: [Way; 2] = [
        ("tokenizer", |[document], _| {
            wrong::<TokenizerState>(document, &[&UNFIT])
        }),
        ("parser", |[document], _| {
            wrong::<ParserState>(document, &[&UNFIT, &UNFIT_PARSER])
        }),
    ];
    tally.compare_parts([document], |_| true, ("due", nothing), &ways);
    tally.saw(if document.len() > LIMIT {
        OVER_LIMIT
    } else {
        WITHIN_LIMIT
    });
}

/// What is wrong about the reading with states `S`, which the words of `unfit` make unfit.
fn wrong<S: State>(document: &[u8], unfit: &[&[(usize, usize)]]) -> Wrong {
    let mut wrong = Wrong::new();
    let mut state = S::fresh();
    if document.len() > LIMIT {
        wrong.extend(wrong_refusal(&mut state, document, 12));
        return wrong;
    }

    let mut answers = 0;
    let mut rows = [BLANK; ROOM * WORDS + OVER];
    loop {
        rows.fill(BLANK);
        let written = state.advance(document, &mut rows);
        if written > ROOM {
            wrong.push("a refused call, or rows that there is no room for");
            return wrong;
        }
        answers += written;
        if answers > 2 * document.len() {
            wrong.push("more than two answers for each byte");
            return wrong;
        }
        if is_written(&rows[written * WORDS..]) {
            wrong.push("words changed behind the rows");
        }
        if written < ROOM {
            break;
        }
    }

    for _ in 0..2 {
        let before = state.words().to_vec();
        rows.fill(BLANK);
        if state.advance(document, &mut rows) != 0 || is_written(&rows) {
            wrong.push("answers after End");
        }
        if state.words() != before {
            wrong.push("a state changed by End");
        }
    }
    for &(at, word) in unfit.iter().copied().flatten() {
        let fit = mem::replace(&mut state.words()[at], word);
        wrong.extend(wrong_refusal(&mut state, document, 15));
        state.words()[at] = fit;
    }
    wrong
}

/// What is wrong about a call that is to be refused with `number` and to write nothing.
fn wrong_refusal<S: State>(state: &mut S, document: &[u8], number: usize) -> Option<&'static str> {
    let before = state.words().to_vec();
    let mut rows = [BLANK; ROOM * WORDS + OVER];
    if state.advance(document, &mut rows) != NO_STEP + number {
        Some("a call that is not refused, or with another number")
    } else if state.words() != before || is_written(&rows) {
        Some("words changed by a refused call")
    } else {
        None
    }
}

fn is_written(rows: &[usize]) -> bool {
    rows.iter().any(|&word| word != BLANK)
}
