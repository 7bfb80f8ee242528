//! The lines of a text: they end in LF, in CR LF, or in CR alone, as some spreadsheets still write
//! them. A line end behind the last line begins no further one. Every reader and every message
//! counts lines by this.

/// The lines in order, without their ends.
pub fn lines(text: &str) -> impl Iterator<Item = &str> {
    let mut left = text;
    std::iter::from_fn(move || {
        if left.is_empty() {
            return None;
        }
        let (line, behind) = first(left);
        left = behind;
        Some(line)
    })
}

/// The first line and what lies behind its end.
fn first(text: &str) -> (&str, &str) {
    let Some((line, _)) = text.split_once(['\r', '\n']) else {
        return (text, "");
    };
    let rest = text.strip_prefix(line).unwrap_or("");
    let ends = ["\r\n", "\n", "\r"];
    let behind = ends.into_iter().find_map(|end| rest.strip_prefix(end));
    (line, behind.unwrap_or(""))
}

#[cfg(test)]
mod tests {
    use super::*;

    fn all(text: &str) -> Vec<&str> {
        lines(text).collect()
    }

    #[test]
    fn every_line_end_ends_one_line() {
        for end in ["\n", "\r\n", "\r"] {
            assert_eq!(all(&format!("a{end}b{end}")), ["a", "b"], "{end:?}");
            assert_eq!(all(&format!("{end}{end}a")), ["", "", "a"], "{end:?}");
        }
        assert_eq!(all("a\rb\nc\r\nd"), ["a", "b", "c", "d"]);
        assert_eq!(all("a\n\rb"), ["a", "", "b"]);
        assert_eq!(all("\u{E9}\r\u{4E00}"), ["\u{E9}", "\u{4E00}"]);
        assert_eq!(all(""), [""; 0]);
    }

    #[test]
    fn without_cr_alone_lines_are_those_of_the_language() {
        for text in ["", "\n", "a", "a\n", "a\r\n\nb", "\r\n", "a\nb"] {
            assert!(lines(text).eq(text.lines()), "{text:?}");
        }
    }
}
