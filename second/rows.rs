//! Document 01, "Training sequences (clause 5.2.3, Annex A)": the basic codes, 128 rows of 114 hexadecimal digits and
//! 128 rows of 48.
//!
//! The rows here are read from source 004 alone. `second rows-from SOURCE_FILE` reads that source and prints them; what
//! it printed is kept in `rows-004.txt`, which the other commands use, so that they run where the source is missing.

/// What `second rows-from` printed for source 004.
const KEPT: &str = include_str!("rows-004.txt");

/// Rows in a table: one for each cell parameter 0 to 127.
pub const ROWS: usize = 128;

/// The two tables; row n, from 0, is a text of hexadecimal digits in capitals.
pub struct Rows {
    pub long: Vec<String>,
    pub short: Vec<String>,
}

/// The long or the short table.
#[derive(Clone, Copy, PartialEq)]
enum Table {
    Long,
    Short,
}

impl Table {
    /// Digits of a row.
    fn digits(self) -> usize {
        match self {
            Table::Long => 114,
            Table::Short => 48,
        }
    }

    /// How source 004 begins the label of a row.
    fn label(self) -> &'static str {
        match self {
            Table::Long => "mPL",
            Table::Short => "mPS",
        }
    }

    /// How a kept row begins.
    fn word(self) -> &'static str {
        match self {
            Table::Long => "long",
            Table::Short => "short",
        }
    }
}

/// A row as found, before anything is checked.
struct Found {
    table: Table,
    label: usize,
    digits: String,
}

/// The rows kept in `rows-004.txt`.
pub fn kept() -> Result<Rows, String> {
    let found = KEPT.lines().map(kept_row).collect::<Result<Vec<Found>, String>>()?;
    checked(&found)
}

/// One kept line: `long 0 DIGITS` or `short 0 DIGITS`.
fn kept_row(line: &str) -> Result<Found, String> {
    let words: Vec<&str> = line.split(' ').collect();
    let table = match words.first() {
        Some(&"long") => Table::Long,
        Some(&"short") => Table::Short,
        _ => return Err(format!("kept row begins neither with long nor with short: {line}")),
    };
    match (words.len(), words.get(1).map(|label| label.parse())) {
        (3, Some(Ok(label))) => Ok(Found { table, label, digits: words[2].to_string() }),
        _ => Err(format!("kept row is not a word, a number and digits: {line}")),
    }
}

/// The rows of the scanned source 004. Each row there is a label (mPL0, mPS0, ..), the digits, and a degradation in dB
/// (a number with a point). Blanks and line ends inside the digits are dropped; nothing is repaired.
pub fn from_source(text: &str) -> Result<Rows, String> {
    let mut found: Vec<Found> = Vec::new();
    let mut inside_a_row = false;
    for word in text.split_whitespace() {
        if let Some((table, label)) = label_of_source(word) {
            found.push(Found { table, label, digits: String::new() });
            inside_a_row = true;
        } else if word.contains('.') {
            inside_a_row = false;
        } else if inside_a_row {
            if let Some(row) = found.last_mut() {
                row.digits.push_str(word);
            }
        }
    }
    checked(&found)
}

/// The table and number of a label as mPL17, or nothing if the word is no label.
fn label_of_source(word: &str) -> Option<(Table, usize)> {
    for table in [Table::Long, Table::Short] {
        if let Some(number) = word.strip_prefix(table.label()) {
            return number.parse().ok().map(|number| (table, number));
        }
    }
    None
}

/// Both tables, or a list of everything that is wrong with them.
fn checked(found: &[Found]) -> Result<Rows, String> {
    let mut damage = Vec::new();
    let long = checked_table(found, Table::Long, &mut damage);
    let short = checked_table(found, Table::Short, &mut damage);
    if damage.is_empty() {
        Ok(Rows { long, short })
    } else {
        Err(damage.join("\n"))
    }
}

/// One table: labels 0 to 127 in order, and each row of the right count of capital hexadecimal digits.
fn checked_table(found: &[Found], table: Table, damage: &mut Vec<String>) -> Vec<String> {
    let rows: Vec<&Found> = found.iter().filter(|row| row.table == table).collect();
    let name = table.word();
    if rows.len() != ROWS {
        damage.push(format!("{name}: {} rows found in place of {ROWS}", rows.len()));
    }
    for (place, row) in rows.iter().enumerate() {
        if row.label != place {
            damage.push(format!("{name}: the row in place {place} is labelled {}", row.label));
        }
        if !row.digits.chars().all(|digit| "0123456789ABCDEF".contains(digit)) {
            damage.push(format!(
                "{name} {}: not all capital hexadecimal digits: {}",
                row.label, row.digits
            ));
        }
        let count = row.digits.chars().count();
        if count != table.digits() {
            damage.push(format!(
                "{name} {}: {count} digits in place of {}: {}",
                row.label,
                table.digits(),
                row.digits
            ));
        }
    }
    rows.iter().map(|row| row.digits.clone()).collect()
}

/// The rows as text: `long 0 DIGITS` .. `long 127 DIGITS`, then `short 0 DIGITS` .. `short 127 DIGITS`.
pub fn as_text(rows: &Rows) -> String {
    let mut text = String::new();
    for (table, digits_of_rows) in [(Table::Long, &rows.long), (Table::Short, &rows.short)] {
        for (label, digits) in digits_of_rows.iter().enumerate() {
            text.push_str(&format!("{} {label} {digits}\n", table.word()));
        }
    }
    text
}
