//! The rows of data/code-rows.txt as bytes, read while this is compiled.

const TEXT: &[u8] = include_bytes!("../data/code-rows.txt");

const fn digit(c: u8) -> u8 {
    match c {
        b'0'..=b'9' => c - b'0',
        b'A'..=b'F' => c - b'A' + 10,
        _ => panic!("not a hexadecimal digit"),
    }
}

const fn starts(at: usize, name: &[u8]) -> bool {
    let mut k = 0;
    while k < name.len() {
        if at + k >= TEXT.len() || TEXT[at + k] != name[k] {
            return false;
        }
        k += 1;
    }
    true
}

/// All rows of a table: lines `NAME NUMBER HEX DB`, in the order of their numbers, `width` bytes each.
pub const fn table<const N: usize>(name: &[u8], width: usize) -> [u8; N] {
    let mut t = [0; N];
    let mut row = 0;
    let mut at = 0;
    while at < TEXT.len() {
        if starts(at, name) {
            at += name.len();
            let mut number = 0;
            while TEXT[at] != b' ' {
                number = number * 10 + digit(TEXT[at]) as usize;
                at += 1;
            }
            assert!(number == row, "a row is missing or out of order");
            at += 1;
            let mut k = 0;
            while k < width {
                t[row * width + k] = digit(TEXT[at]) * 16 + digit(TEXT[at + 1]);
                at += 2;
                k += 1;
            }
            assert!(TEXT[at] == b' ', "a row has more digits");
            row += 1;
        }
        while TEXT[at] != b'\n' {
            at += 1;
        }
        at += 1;
    }
    assert!(row * width == N, "rows are missing");
    t
}
