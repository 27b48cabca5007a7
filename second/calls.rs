//! docs/LESSONS.md: a line is a call, or it is none.

use crate::timeslots::Direction;

/// The most samples that a line has.
pub const MOST_SAMPLES: usize = 1100;

/// The most digits of a sample.
pub const MOST_DIGITS: usize = 6;

/// A row of the table of docs/LESSONS.md.
pub struct Form {
    pub call: &'static str,
    pub reply: &'static str,
}

/// The table. Reading a line goes by its first column: after the call's own word, `up|down` stands for a direction,
/// SETTINGS and BITS for words of the digits 0 and 1, `SAMPLE ..` for samples, and every other word for a number.
pub const FORMS: [Form; 20] = [
    Form { call: "open SEAT CELL CASE K LONG SHORT", reply: "ok" },
    Form { call: "book SEAT SLOT up|down TYPE FACTOR INDEX USER TFCI TPC", reply: "ok" },
    Form { call: "cancel SEAT SLOT FACTOR INDEX", reply: "ok" },
    Form { call: "close SEAT", reply: "ok" },
    Form {
        call: "list SEAT",
        reply: "list N, then N lines SLOT up|down TYPE FACTOR INDEX USER TFCI TPC",
    },
    Form {
        call: "summary SEAT SLOT",
        reply: "summary LEAVES up|down|none N, LEAVES being 16 digits with no blanks between",
    },
    Form { call: "chip CELL TYPE COUNT USER I", reply: "chip P" },
    Form {
        call: "midamble CELL TYPE COUNT USER",
        reply: "midamble and the chips as digits 0 to 3 with no blanks between",
    },
    Form {
        call: "block CELL TYPE COUNT USER PLACE LENGTH",
        reply: "block N and, behind a blank, the N chips as digits 0 to 3 with no blanks between; \
                block 0 alone where there are none",
    },
    Form { call: "pair CELL TYPE COUNT USER I LEVEL", reply: "pair RE IM" },
    Form {
        call: "pairs CELL TYPE COUNT USER LEVEL",
        reply: "pairs and the numbers of all chips, RE then IM, parted by blanks",
    },
    Form { call: "hear CELL TYPE COUNT SAMPLE ..", reply: "nobody, or user K RE IM" },
    Form {
        call: "parts TYPE up|down FACTOR TFCI TPC",
        reply: "parts and seven START+LENGTH, then bits B1 B2, on one line",
    },
    Form {
        call: "at TYPE up|down FACTOR TFCI TPC CHIP",
        reply: "data1 N, tfci1 N, midamble N, tpc N, tfci2 N, data2 N or guard N",
    },
    Form { call: "beacon CASE K", reply: "beacon and one or two timeslots" },
    Form { call: "indicator TYPE L F PI", reply: "frame X q Y bits A..B C..D" },
    Form { call: "page TYPE L SETTINGS", reply: "bits and 244 or 276 digits in time order" },
    Form {
        call: "read TYPE L BITS",
        reply: "settings and one digit for each q: 0, 1 or 2 for torn",
    },
    Form { call: "owner TYPE L BIT", reply: "q Y or reserved" },
    Form { call: "help", reply: "the table above" },
];

impl Form {
    /// The call's own word.
    fn name(&self) -> &'static str {
        self.wanted()[0]
    }

    /// The words of the call, its own word being the first.
    fn wanted(&self) -> Vec<&'static str> {
        self.call.split(' ').collect()
    }

    /// The words of the call as they are expected of a line that has so many: `SAMPLE ..` stands for none, one or more
    /// samples, at most 1,100.
    fn wanted_of(&self, words: usize) -> Vec<&'static str> {
        let mut wanted = self.wanted();
        if wanted.ends_with(&["SAMPLE", ".."]) {
            wanted.truncate(wanted.len() - 2);
            let samples = words.saturating_sub(wanted.len()).min(MOST_SAMPLES);
            wanted.extend(vec!["SAMPLE"; samples]);
        }
        wanted
    }
}

/// A word of a call that was read.
enum Value {
    Number(u32),
    Direction(Direction),
    /// Digits 0 and 1, as the numbers 0 and 1.
    Digits(Vec<u8>),
    Sample(i64),
}

/// A call that was read: its own word, and the values of the others in their order.
pub struct Call {
    pub name: &'static str,
    values: Vec<Value>,
}

impl Call {
    /// The call's N numbers, in their order.
    pub fn numbers<const N: usize>(&self) -> [u32; N] {
        let numbers: Vec<u32> = self
            .values
            .iter()
            .filter_map(|value| match value {
                Value::Number(number) => Some(*number),
                _ => None,
            })
            .collect();
        numbers.try_into().expect("as many numbers as its form has")
    }

    /// The call's direction.
    pub fn direction(&self) -> Direction {
        self.values
            .iter()
            .find_map(|value| match value {
                Value::Direction(direction) => Some(*direction),
                _ => None,
            })
            .expect("its form has a direction")
    }

    /// The call's word of digits.
    pub fn digits(&self) -> &[u8] {
        self.values
            .iter()
            .find_map(|value| match value {
                Value::Digits(digits) => Some(digits),
                _ => None,
            })
            .expect("its form has a word of digits")
    }

    /// The call's samples, in their order: all that stand there, few or many.
    pub fn samples(&self) -> Vec<i64> {
        self.values
            .iter()
            .filter_map(|value| match value {
                Value::Sample(sample) => Some(*sample),
                _ => None,
            })
            .collect()
    }
}

/// The words of a line: "`#` starts a comment wherever it stands", "words are parted by blanks: space, tab and CR".
fn words(line: &[u8]) -> Vec<&[u8]> {
    let before_comment =
        line.split(|byte| *byte == b'#').next().expect("split gives at least one part");
    before_comment
        .split(|byte| [b' ', b'\t', b'\r'].contains(byte))
        .filter(|word| !word.is_empty())
        .collect()
}

/// "One or more of the digits 0 to 9, of at most 4294967295; zeros in front change nothing."
fn number(word: &[u8]) -> Option<u32> {
    if word.is_empty() {
        return None;
    }
    let mut value: u32 = 0;
    for byte in word {
        if !byte.is_ascii_digit() {
            return None;
        }
        value = value.checked_mul(10)?.checked_add(u32::from(byte - b'0'))?;
    }
    Some(value)
}

/// A word of the digits 0 and 1.
fn digits(word: &[u8]) -> Option<Vec<u8>> {
    word.iter()
        .map(|byte| match byte {
            b'0' => Some(0),
            b'1' => Some(1),
            _ => None,
        })
        .collect()
}

/// "An optional minus sign and 1 to 6 digits."
fn sample(word: &[u8]) -> Option<i64> {
    let (sign, digits) = match word {
        [b'-', digits @ ..] => (-1, digits),
        digits => (1, digits),
    };
    if digits.len() > MOST_DIGITS {
        return None;
    }
    number(digits).map(|number| sign * i64::from(number))
}

/// What a word of a line is, where its form has the word `wanted`; or what was expected.
fn value(wanted: &str, word: &[u8]) -> Result<Value, String> {
    let (value, expected) = match wanted {
        "up|down" => (
            match word {
                b"up" => Some(Value::Direction(Direction::Up)),
                b"down" => Some(Value::Direction(Direction::Down)),
                _ => None,
            },
            "up or down".to_string(),
        ),
        "SETTINGS" | "BITS" => {
            (digits(word).map(Value::Digits), format!("{wanted} of the digits 0 and 1"))
        }
        "SAMPLE" => (
            sample(word).map(Value::Sample),
            format!("{wanted} as a minus sign or none and 1 to {MOST_DIGITS} digits"),
        ),
        _ => (
            number(word).map(Value::Number),
            format!("{wanted} as a number of at most {}", u32::MAX),
        ),
    };
    value.ok_or(expected)
}

/// The call that a line is; nothing for a line without words; for a line that is no call, what was expected.
pub fn read(line: &[u8]) -> Result<Option<Call>, String> {
    let words = words(line);
    let Some(first) = words.first() else {
        return Ok(None);
    };
    let Some(form) = FORMS.iter().find(|form| form.name().as_bytes() == *first) else {
        let names: Vec<&str> = FORMS.iter().map(Form::name).collect();
        return Err(format!("expected one of the calls {}", names.join(", ")));
    };
    let wanted = form.wanted_of(words.len());
    if words.len() != wanted.len() {
        let most = match form.call.ends_with("SAMPLE ..") {
            true => format!(", at most {MOST_SAMPLES} samples"),
            false => String::new(),
        };
        return Err(format!("expected as many words as in: {}{most}", form.call));
    }
    let mut values = Vec::new();
    for (wanted, word) in wanted.iter().zip(&words).skip(1) {
        let value = value(wanted, word)
            .map_err(|expected| format!("expected {expected} in: {}", form.call))?;
        values.push(value);
    }
    Ok(Some(Call { name: form.name(), values }))
}
