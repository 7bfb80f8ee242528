//! Values of JSON: a cell that is written as JSON writes a number is one, any other is a string.
//! What would upset a terminal is escaped, and bytes that are no text become U+FFFD.

/// A cell as a value.
pub fn value(text: &mut String, cell: &[u8]) {
    let cell = String::from_utf8_lossy(cell);
    match is_number(&cell) {
        true => text.push_str(&cell),
        false => string(text, &cell),
    }
}

/// Whether a cell is a number as JSON writes it, of so few digits that every reader keeps them.
fn is_number(cell: &str) -> bool {
    let digits = cell.strip_prefix('-').unwrap_or(cell);
    let (whole, fraction) = digits.split_once('.').unwrap_or((digits, "0"));
    let minus_zero = digits.len() < cell.len() && !digits.contains(|c| ('1'..='9').contains(&c));
    let zero_in_front = whole.starts_with('0') && whole.len() > 1;
    let all = |part: &str| !part.is_empty() && part.bytes().all(|byte| byte.is_ascii_digit());
    digits.len() <= 15 && !minus_zero && !zero_in_front && all(whole) && all(fraction)
}

/// A string. What would upset a terminal is escaped.
pub fn string(text: &mut String, content: &str) {
    text.push('"');
    for c in content.chars() {
        match c {
            '"' => text.push_str("\\\""),
            '\\' => text.push_str("\\\\"),
            '\n' => text.push_str("\\n"),
            '\t' => text.push_str("\\t"),
            _ if mireladle::text::screen::upsets(c) => {
                text.push_str(&format!("\\u{:04x}", u32::from(c)));
            }
            _ => text.push(c),
        }
    }
    text.push('"');
}

#[cfg(test)]
mod tests {
    use super::*;

    #[test]
    fn cells_are_numbers_where_json_writes_them_so() {
        for number in ["0", "7", "-7", "123456789012345", "24.5", "-0.50"] {
            assert!(is_number(number), "{number}");
        }
        for text in ["", "-", "007", "-0", "+7", "1e3", "1234567890123456", "x"] {
            assert!(!is_number(text), "{text}");
        }
    }

    #[test]
    fn strings_are_escaped() {
        let mut text = String::new();
        string(&mut text, "a\"b\\\n\t\u{1B}[2J\u{7F}\u{9B}\u{202E}\u{E9}");
        let expected = r#""a\"b\\\n\t\u001b[2J\u007f\u009b\u202e"#;
        assert_eq!(text, format!("{expected}\u{E9}\""));
    }
}
