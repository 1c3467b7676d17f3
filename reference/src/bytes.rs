//! Kinds of bytes, and texts without blanks or case.

pub const CR: u8 = 13;
pub const LF: u8 = 10;
pub const SPACE: u8 = 32;
pub const TAB: u8 = 9;

pub fn is_blank(b: u8) -> bool {
    b == SPACE || b == TAB
}

pub fn is_digit(b: u8) -> bool {
    b.is_ascii_digit()
}

pub fn is_capital(b: u8) -> bool {
    b.is_ascii_uppercase()
}

pub fn is_letter(b: u8) -> bool {
    b.is_ascii_alphabetic()
}

/// What a hexadecimal digit of either case stands for.
pub fn hex_digit(b: u8) -> Option<u8> {
    match b {
        b'0'..=b'9' => Some(b - b'0'),
        b'a'..=b'f' => Some(b - b'a' + 10),
        b'A'..=b'F' => Some(b - b'A' + 10),
        _ => None,
    }
}

/// The plain bytes of RULES.md, section 2.
pub fn is_plain(b: u8) -> bool {
    is_letter(b) || is_digit(b) || b"-_~.!$&'()*+,=:@".contains(&b)
}

pub fn is_name_byte(b: u8) -> bool {
    is_letter(b) || is_digit(b) || b == b'-'
}

pub fn is_value_byte(b: u8) -> bool {
    (33..=126).contains(&b) || is_blank(b)
}

/// The same text without case: A to Z count as a to z, and no other bytes are taken as the same.
pub fn same(a: &[u8], b: &[u8]) -> bool {
    lower(a) == lower(b)
}

pub fn lower(text: &[u8]) -> Vec<u8> {
    text.iter().map(|&b| if is_capital(b) { b + 32 } else { b }).collect()
}

/// The text without the blanks at both ends.
pub fn trimmed(text: &[u8]) -> &[u8] {
    match (text.iter().position(|&b| !is_blank(b)), text.iter().rposition(|&b| !is_blank(b))) {
        (Some(first), Some(last)) => &text[first..=last],
        _ => &[],
    }
}

/// The text with each run of blanks inside made one space.
pub fn squeezed(text: &[u8]) -> Vec<u8> {
    let mut out = Vec::new();
    for (i, &b) in text.iter().enumerate() {
        if !is_blank(b) {
            out.push(b);
        } else if i == 0 || !is_blank(text[i - 1]) {
            out.push(SPACE);
        }
    }
    out
}

/// 1 to 6 decimal digits as a number, zeros in front allowed.
pub fn length_of(value: &[u8]) -> Option<usize> {
    if value.is_empty() || value.len() > 6 || !value.iter().all(|&b| is_digit(b)) {
        return None;
    }
    Some(value.iter().fold(0, |n, &b| n * 10 + usize::from(b - b'0')))
}

/// The bytes as hexadecimal digits in lower case.
pub fn hex(bytes: &[u8]) -> String {
    let digits = b"0123456789abcdef";
    bytes.iter().flat_map(|&b| [digits[usize::from(b / 16)] as char, digits[usize::from(b % 16)] as char]).collect()
}
