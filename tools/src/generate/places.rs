//! Where the byte stands that decided the refusal of a text (W-201): what the
//! histogram counts, and expects, of the numbers 6 to 12 and 15.

use second::loader::Refusal;
use second::text::{is_white_space, lines_of};

/// A place in a text: a line from 0, and how many of its bytes stand before.
struct Place<'a> {
    text: &'a [u8],
    lines: Vec<&'a [u8]>,
    line: usize,
    offset: usize,
}

impl Place<'_> {
    /// The byte, if it is not missing.
    fn byte(&self) -> Option<u8> {
        self.lines[self.line].get(self.offset).copied()
    }

    /// What stands before it on its line.
    fn before(&self) -> &[u8] {
        &self.lines[self.line][..self.offset]
    }

    /// What stands after it on its line.
    fn after(&self) -> &[u8] {
        self.lines[self.line].get(self.offset + 1..).unwrap_or_default()
    }

    fn is_after(&self, byte: u8) -> bool {
        self.before().contains(&byte)
    }

    fn is_after_sign(&self) -> bool {
        self.is_after(b'=') || self.is_after(b':')
    }

    fn is_first(&self) -> bool {
        self.line == 0 && self.lines.len() > 1
    }

    fn is_last(&self) -> bool {
        self.line > 0 && self.line + 1 == self.lines.len()
    }

    fn has_last_newline(&self) -> bool {
        self.text.ends_with(b"\n")
    }
}

/// What can hold of a place, and the numbers of which it can.
struct Aspect {
    words: &'static str,
    numbers: &'static [u64],
    holds: fn(&Place) -> bool,
}

const ALL: &[u64] = &[6, 7, 8, 9, 10, 11, 12, 15];

const ASPECTS: [Aspect; 24] = [
    // 16 dependencies stand before a 17th.
    Aspect {
        words: "on the first line",
        numbers: &[6, 7, 8, 9, 10, 11, 15],
        holds: |place| place.is_first(),
    },
    Aspect {
        words: "on a middle line",
        numbers: ALL,
        holds: |place| place.line > 0 && !place.is_last(),
    },
    Aspect {
        words: "on a last line with a newline",
        numbers: ALL,
        holds: |place| place.is_last() && place.has_last_newline(),
    },
    Aspect {
        words: "on a last line without a newline",
        numbers: ALL,
        holds: |place| place.is_last() && !place.has_last_newline(),
    },
    Aspect {
        words: "before a last line without a newline",
        numbers: ALL,
        holds: |place| place.line + 1 < place.lines.len() && !place.has_last_newline(),
    },
    // A text that is refused with 15 has a type on another line.
    Aspect {
        words: "on the only line",
        numbers: &[6, 7, 8, 9, 10, 11],
        holds: |place| place.lines.len() == 1,
    },
    Aspect {
        words: "after a line that ends in a carriage return",
        numbers: ALL,
        holds: |place| place.lines[..place.line].iter().any(|line| line.ends_with(b"\r")),
    },
    Aspect {
        words: "after a line with a byte from 128 up",
        numbers: ALL,
        holds: |place| place.lines[..place.line].iter().any(|line| !line.is_ascii()),
    },
    // The column of 15 is 1: nothing stands before it.
    Aspect {
        words: "after a tab",
        numbers: &[6, 7, 8, 9, 10, 11, 12],
        holds: |place| place.is_after(b'\t'),
    },
    Aspect {
        words: "after a vertical tab",
        numbers: &[6, 7, 8, 9, 10, 11, 12],
        holds: |place| place.is_after(11),
    },
    Aspect {
        words: "after a form feed",
        numbers: &[6, 7, 8, 9, 10, 11, 12],
        holds: |place| place.is_after(12),
    },
    Aspect {
        words: "after a carriage return",
        numbers: &[6, 7, 8, 9, 10, 11, 12],
        holds: |place| place.is_after(b'\r'),
    },
    Aspect {
        words: "past column 255",
        numbers: &[6, 7, 8, 9, 10, 11, 12],
        holds: |place| place.offset >= 255,
    },
    // Before a name, and from a sign to its value, stands white space alone.
    Aspect {
        words: "after a byte from 128 up",
        numbers: &[6, 7, 8, 9],
        holds: |place| !place.before().is_ascii(),
    },
    Aspect {
        words: "at a byte from 128 up",
        numbers: &[7, 11],
        holds: |place| place.byte().is_some_and(|byte| byte >= 128),
    },
    // A sign can be missing, and a value; a 17th dependency has a name.
    Aspect { words: "at a missing byte", numbers: &[7, 11], holds: |place| place.byte().is_none() },
    Aspect {
        words: "at a missing byte after white space",
        numbers: &[7, 11],
        holds: |place| {
            place.byte().is_none() && place.before().last().is_some_and(|it| is_white_space(*it))
        },
    },
    Aspect {
        words: "at a missing byte after a carriage return",
        numbers: &[7, 11],
        holds: |place| place.byte().is_none() && place.before().ends_with(b"\r"),
    },
    Aspect {
        words: "in the name",
        numbers: &[7],
        holds: |place| place.before().iter().all(|byte| is_white_space(*byte)),
    },
    Aspect {
        words: "at the sign",
        numbers: &[7],
        holds: |place| {
            !place.is_after_sign() && place.before().iter().any(|byte| !is_white_space(*byte))
        },
    },
    Aspect { words: "in the value", numbers: &[7], holds: |place| place.is_after_sign() },
    Aspect {
        words: "between quotes",
        numbers: &[8],
        holds: |place| place.is_after(b'"') && place.after().contains(&b'"'),
    },
    Aspect { words: "at a comment", numbers: &[11], holds: |place| place.byte() == Some(b'#') },
    Aspect {
        words: "at a line that begins with white space",
        numbers: &[15],
        holds: |place| place.byte().is_some_and(is_white_space),
    },
];

fn written(number: u64, words: &str) -> String {
    format!("load refused {number:02} {words}")
}

/// All that must be used.
pub fn expected() -> Vec<String> {
    let mut all = Vec::new();
    for aspect in &ASPECTS {
        all.extend(aspect.numbers.iter().map(|number| written(*number, aspect.words)));
    }
    all
}

/// What is used in the refusal of this text.
pub fn holding(text: &[u8], refusal: &Refusal) -> Vec<String> {
    if !ALL.contains(&refusal.number) {
        return Vec::new();
    }
    let (line, offset) = (refusal.line as usize - 1, refusal.column as usize - 1);
    let place = Place { text, lines: lines_of(text), line, offset };
    ASPECTS
        .iter()
        .filter(|aspect| aspect.numbers.contains(&refusal.number) && (aspect.holds)(&place))
        .map(|aspect| written(refusal.number, aspect.words))
        .collect()
}
