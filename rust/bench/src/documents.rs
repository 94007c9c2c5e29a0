//! The documents: each is made of entries, every one a little different.

/// Writes the entry of a number.
type Entry = fn(usize) -> String;

/// Documents of one sort: one of all the bytes, or of these sizes in turn.
pub struct Class {
    pub name: &'static str,
    /// What stands before the entries.
    head: fn() -> String,
    entry: Entry,
    sizes: &'static [usize],
}

pub const USUAL: [Class; 7] = [
    whole("short entries", short_entry),
    whole("lists", list),
    whole("long comments", long_comment),
    whole("deep nesting", deep_nesting),
    whole("multiline values", multiline_value),
    whole("many scripts", many_scripts),
    Class {
        name: "layouts of 2 to 20 KB",
        head: String::new,
        entry: label,
        sizes: &[2_000, 4_000, 6_000, 8_000, 10_000, 14_000, 20_000],
    },
];

/// What takes the port the longest beside the original: many answers for few bytes, and small
/// documents.
pub const WORST: [Class; 10] = [
    small("line ends, 1 KB", String::new, line_end),
    small("64 open, then line ends, 3 KB", sixty_four_open, line_end),
    small("`=`, then line ends, 1 KB", item, line_end),
    small("alternating indentation, 1 KB", String::new, alternating),
    whole("line ends", line_end),
    Class {
        head: sixty_four_open,
        ..whole("64 open, then line ends", line_end)
    },
    Class {
        head: item,
        ..whole("`=`, then line ends", line_end)
    },
    whole("alternating indentation", alternating),
    Class {
        sizes: &[0],
        ..whole("the empty document", line_end)
    },
    Class {
        sizes: &[20],
        ..whole("20 bytes", short_entry)
    },
];

const fn whole(name: &'static str, entry: Entry) -> Class {
    Class {
        name,
        head: String::new,
        entry,
        sizes: &[],
    }
}

const fn small(name: &'static str, head: fn() -> String, entry: Entry) -> Class {
    Class {
        name,
        head,
        entry,
        sizes: &[1_000],
    }
}

impl Class {
    /// Documents of `bytes` bytes together, or a little more.
    pub fn documents(&self, bytes: usize) -> Vec<Vec<u8>> {
        if self.sizes.is_empty() {
            return vec![self.filled(bytes)];
        }
        let mut documents = Vec::new();
        let mut made = 0;
        for &size in self.sizes.iter().cycle() {
            let document = self.filled(size);
            made += document.len().max(LEAST);
            documents.push(document);
            if made >= bytes {
                break;
            }
        }
        documents
    }

    /// Whether it is one document of all the bytes.
    pub fn is_whole(&self) -> bool {
        self.sizes.is_empty()
    }

    /// The head, and as many entries as `bytes` bytes have room for.
    fn filled(&self, bytes: usize) -> Vec<u8> {
        let head = (self.head)();
        let bytes = bytes + head.len();
        let mut document = head;
        for number in 0.. {
            let next = (self.entry)(number);
            if document.len() + next.len() > bytes {
                break;
            }
            document += &next;
        }
        document.into_bytes()
    }
}

/// What a document counts for at least, so that there are not too many of them.
const LEAST: usize = 50;

const WORDS: [&str; 16] = [
    "x",
    "to",
    "red",
    "cell",
    "donor",
    "volume",
    "leading",
    "position",
    "a b",
    "12.5 mm",
    "left",
    "anticoagulant",
    "O+",
    "2 to 6 C",
    "no",
    "expires",
];

const SCRIPTS: [&str; 8] = [
    "étiquette",
    "группа крови",
    "血液型",
    "فصيلة الدم",
    "ομάδα αίματος",
    "रक्त समूह",
    "혈액형",
    "🩸 label",
];

fn short_entry(number: usize) -> String {
    format!("{} = {}\n", word(number, 1), word(number, 2))
}

fn line_end(_: usize) -> String {
    "\n".to_owned()
}

fn item() -> String {
    "=".to_owned()
}

/// 64 sections, each deeper by a space: some 2,200 bytes.
fn sixty_four_open() -> String {
    (0..=64)
        .map(|depth| format!("{}a\n", " ".repeat(depth)))
        .collect()
}

/// A section opens, and closes, at every other line.
fn alternating(number: usize) -> String {
    ["a\n", " b\n"][number % 2].to_owned()
}

fn list(number: usize) -> String {
    let items: String = (1..10)
        .map(|item| format!("  = {}\n", word(number, item)))
        .collect();
    format!("{}\n{items}", word(number, 0))
}

fn long_comment(number: usize) -> String {
    let words: Vec<&str> = (2..50).map(|place| word(number, place)).collect();
    format!("; {}\n{} = 1\n", words.join(" "), word(number, 1))
}

/// Sections nested 60 deep.
fn deep_nesting(number: usize) -> String {
    (0..=60)
        .map(|depth| format!("{}{}\n", "  ".repeat(depth), word(number, depth)))
        .collect()
}

fn multiline_value(number: usize) -> String {
    let lines: String = (2..14)
        .map(|line| format!("  {} {}\n", word(number, line), word(line, number)))
        .collect();
    format!("{} = \"\"\"text\n{lines}\n", word(number, 1))
}

fn many_scripts(number: usize) -> String {
    let [key, value, note] = [1, 2, 3].map(|place| pick(&SCRIPTS, number, place));
    format!("{key} = {value} ; {note}\n")
}

fn label(number: usize) -> String {
    let [a, b, c, d, e] = [1, 2, 3, 4, 5].map(|place| word(number, place));
    let script = pick(&SCRIPTS, number, 6);
    format!(
        "; {a} {b} {c}
label {number}
  size = 100 x {number} ; {d}
  font = \"Sans \\{{{number:X}}}\"
  fields
    =
      name = {e}
      text = \"{script}: \\\"{a}\\\"\"
    =
      name = {b} {c}
      barcode = code 128
  lines
    = 0, 0, {number}, 0
    = 0, 10, {number}, 10
  notice = \"\"\"
    {script}
    {c} {d} {e}

    {b}

"
    )
}

fn word(number: usize, place: usize) -> &'static str {
    pick(&WORDS, number, place)
}

/// One of `texts`, as if at random.
fn pick(texts: &[&'static str], number: usize, place: usize) -> &'static str {
    let mixed = (number * 64 + place).wrapping_mul(0x9E37_79B9_7F4A_7C15);
    texts[(mixed >> 32) % texts.len()]
}
