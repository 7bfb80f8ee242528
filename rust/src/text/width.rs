//! How many columns of a screen a text takes: 2 for characters that are wide or fullwidth in
//! Unicode's East Asian Width, 0 for marks that combine with the character before them, 1 for all
//! others. The tables are ranges of Unicode 14. What they leave out counts as 1: marks of rarer
//! scripts, and wide characters that were assigned later. Emoji that are joined to one picture, and
//! flags, are counted character by character, which is how many screens draw them, but not all.

/// The columns that a text takes.
pub fn width(text: &str) -> usize {
    text.chars()
        .map(of_character)
        .fold(0, usize::saturating_add)
}

/// The columns that a character takes.
pub fn of_character(c: char) -> usize {
    // Nearly all text; no range of the tables begins earlier.
    if c < '\u{300}' {
        1
    } else if lies_in(c, &COMBINING) {
        0
    } else if lies_in(c, &WIDE) {
        2
    } else {
        1
    }
}

/// Whether one of the ranges, which stand in order, has the character.
fn lies_in(c: char, ranges: &[(char, char)]) -> bool {
    let behind = ranges.partition_point(|(_, last)| *last < c);
    ranges.get(behind).is_some_and(|(first, _)| *first <= c)
}

/// Marks that take no column, and characters that only steer how others are drawn.
const COMBINING: [(char, char); 71] = [
    ('\u{300}', '\u{36F}'),
    ('\u{483}', '\u{489}'),
    ('\u{591}', '\u{5BD}'),
    ('\u{5BF}', '\u{5BF}'),
    ('\u{5C1}', '\u{5C2}'),
    ('\u{5C4}', '\u{5C5}'),
    ('\u{5C7}', '\u{5C7}'),
    ('\u{610}', '\u{61A}'),
    ('\u{61C}', '\u{61C}'),
    ('\u{64B}', '\u{65F}'),
    ('\u{670}', '\u{670}'),
    ('\u{6D6}', '\u{6DC}'),
    ('\u{6DF}', '\u{6E4}'),
    ('\u{6E7}', '\u{6E8}'),
    ('\u{6EA}', '\u{6ED}'),
    ('\u{8E3}', '\u{902}'),
    ('\u{93A}', '\u{93A}'),
    ('\u{93C}', '\u{93C}'),
    ('\u{941}', '\u{948}'),
    ('\u{94D}', '\u{94D}'),
    ('\u{951}', '\u{957}'),
    ('\u{962}', '\u{963}'),
    ('\u{981}', '\u{981}'),
    ('\u{9BC}', '\u{9BC}'),
    ('\u{9C1}', '\u{9C4}'),
    ('\u{9CD}', '\u{9CD}'),
    ('\u{A3C}', '\u{A3C}'),
    ('\u{A41}', '\u{A42}'),
    ('\u{A47}', '\u{A48}'),
    ('\u{A4B}', '\u{A4D}'),
    ('\u{A70}', '\u{A71}'),
    ('\u{ABC}', '\u{ABC}'),
    ('\u{AC1}', '\u{AC5}'),
    ('\u{AC7}', '\u{AC8}'),
    ('\u{ACD}', '\u{ACD}'),
    ('\u{BC0}', '\u{BC0}'),
    ('\u{BCD}', '\u{BCD}'),
    ('\u{C3E}', '\u{C40}'),
    ('\u{C46}', '\u{C48}'),
    ('\u{C4A}', '\u{C4D}'),
    ('\u{CBF}', '\u{CBF}'),
    ('\u{CCC}', '\u{CCD}'),
    ('\u{D41}', '\u{D44}'),
    ('\u{D4D}', '\u{D4D}'),
    ('\u{DCA}', '\u{DCA}'),
    ('\u{DD2}', '\u{DD4}'),
    ('\u{E31}', '\u{E31}'),
    ('\u{E34}', '\u{E3A}'),
    ('\u{E47}', '\u{E4E}'),
    ('\u{EB1}', '\u{EB1}'),
    ('\u{EB4}', '\u{EBC}'),
    ('\u{EC8}', '\u{ECD}'),
    ('\u{F71}', '\u{F7E}'),
    ('\u{F80}', '\u{F84}'),
    ('\u{F99}', '\u{FBC}'),
    ('\u{102D}', '\u{1030}'),
    ('\u{1032}', '\u{1037}'),
    ('\u{1039}', '\u{103A}'),
    ('\u{1160}', '\u{11FF}'),
    ('\u{17B7}', '\u{17BD}'),
    ('\u{17C9}', '\u{17D3}'),
    ('\u{1AB0}', '\u{1ACE}'),
    ('\u{1DC0}', '\u{1DFF}'),
    ('\u{200B}', '\u{200F}'),
    ('\u{2060}', '\u{2064}'),
    ('\u{20D0}', '\u{20F0}'),
    ('\u{302A}', '\u{302D}'),
    ('\u{3099}', '\u{309A}'),
    ('\u{FE00}', '\u{FE0F}'),
    ('\u{FE20}', '\u{FE2F}'),
    ('\u{E0100}', '\u{E01EF}'),
];

/// Characters that take two columns.
const WIDE: [(char, char); 86] = [
    ('\u{1100}', '\u{115F}'),
    ('\u{231A}', '\u{231B}'),
    ('\u{2329}', '\u{232A}'),
    ('\u{23E9}', '\u{23EC}'),
    ('\u{23F0}', '\u{23F0}'),
    ('\u{23F3}', '\u{23F3}'),
    ('\u{25FD}', '\u{25FE}'),
    ('\u{2614}', '\u{2615}'),
    ('\u{2648}', '\u{2653}'),
    ('\u{267F}', '\u{267F}'),
    ('\u{2693}', '\u{2693}'),
    ('\u{26A1}', '\u{26A1}'),
    ('\u{26AA}', '\u{26AB}'),
    ('\u{26BD}', '\u{26BE}'),
    ('\u{26C4}', '\u{26C5}'),
    ('\u{26CE}', '\u{26CE}'),
    ('\u{26D4}', '\u{26D4}'),
    ('\u{26EA}', '\u{26EA}'),
    ('\u{26F2}', '\u{26F3}'),
    ('\u{26F5}', '\u{26F5}'),
    ('\u{26FA}', '\u{26FA}'),
    ('\u{26FD}', '\u{26FD}'),
    ('\u{2705}', '\u{2705}'),
    ('\u{270A}', '\u{270B}'),
    ('\u{2728}', '\u{2728}'),
    ('\u{274C}', '\u{274C}'),
    ('\u{274E}', '\u{274E}'),
    ('\u{2753}', '\u{2755}'),
    ('\u{2757}', '\u{2757}'),
    ('\u{2795}', '\u{2797}'),
    ('\u{27B0}', '\u{27B0}'),
    ('\u{27BF}', '\u{27BF}'),
    ('\u{2B1B}', '\u{2B1C}'),
    ('\u{2B50}', '\u{2B50}'),
    ('\u{2B55}', '\u{2B55}'),
    ('\u{2E80}', '\u{303E}'),
    ('\u{3041}', '\u{3247}'),
    ('\u{3250}', '\u{4DBF}'),
    ('\u{4E00}', '\u{A4CF}'),
    ('\u{A960}', '\u{A97F}'),
    ('\u{AC00}', '\u{D7A3}'),
    ('\u{F900}', '\u{FAFF}'),
    ('\u{FE10}', '\u{FE19}'),
    ('\u{FE30}', '\u{FE6F}'),
    ('\u{FF01}', '\u{FF60}'),
    ('\u{FFE0}', '\u{FFE6}'),
    ('\u{16FE0}', '\u{16FE3}'),
    ('\u{16FF0}', '\u{16FF1}'),
    ('\u{17000}', '\u{18D08}'),
    ('\u{1AFF0}', '\u{1B2FB}'),
    ('\u{1F004}', '\u{1F004}'),
    ('\u{1F0CF}', '\u{1F0CF}'),
    ('\u{1F18E}', '\u{1F18E}'),
    ('\u{1F191}', '\u{1F19A}'),
    ('\u{1F200}', '\u{1F320}'),
    ('\u{1F32D}', '\u{1F335}'),
    ('\u{1F337}', '\u{1F37C}'),
    ('\u{1F37E}', '\u{1F393}'),
    ('\u{1F3A0}', '\u{1F3CA}'),
    ('\u{1F3CF}', '\u{1F3D3}'),
    ('\u{1F3E0}', '\u{1F3F0}'),
    ('\u{1F3F4}', '\u{1F3F4}'),
    ('\u{1F3F8}', '\u{1F43E}'),
    ('\u{1F440}', '\u{1F440}'),
    ('\u{1F442}', '\u{1F4FC}'),
    ('\u{1F4FF}', '\u{1F53D}'),
    ('\u{1F54B}', '\u{1F54E}'),
    ('\u{1F550}', '\u{1F567}'),
    ('\u{1F57A}', '\u{1F57A}'),
    ('\u{1F595}', '\u{1F596}'),
    ('\u{1F5A4}', '\u{1F5A4}'),
    ('\u{1F5FB}', '\u{1F64F}'),
    ('\u{1F680}', '\u{1F6C5}'),
    ('\u{1F6CC}', '\u{1F6CC}'),
    ('\u{1F6D0}', '\u{1F6D2}'),
    ('\u{1F6D5}', '\u{1F6D7}'),
    ('\u{1F6DD}', '\u{1F6DF}'),
    ('\u{1F6EB}', '\u{1F6EC}'),
    ('\u{1F6F4}', '\u{1F6FC}'),
    ('\u{1F7E0}', '\u{1F7F0}'),
    ('\u{1F90C}', '\u{1F93A}'),
    ('\u{1F93C}', '\u{1F945}'),
    ('\u{1F947}', '\u{1F9FF}'),
    ('\u{1FA70}', '\u{1FAF6}'),
    ('\u{20000}', '\u{2FFFD}'),
    ('\u{30000}', '\u{3FFFD}'),
];

#[cfg(test)]
mod tests {
    use super::*;

    #[test]
    fn widths_of_characters() {
        for (text, columns) in [
            ("", 0),
            ("price", 5),
            ("\u{E9}t\u{E9}", 3),
            ("e\u{301}", 1),
            ("\u{4FA1}\u{683C}", 4),
            ("\u{AC00}\u{FF21}\u{30A2}", 6),
            // Halfwidth katakana, Cyrillic and Greek take one column each.
            ("\u{FF71}\u{416}\u{3BB}", 3),
            ("\u{1F600}", 2),
            ("\u{2764}\u{FE0F}", 1),
            ("\u{E2B}\u{E49}", 1),
            ("\u{1112}\u{1161}\u{11AB}", 2),
            ("\u{20000}\u{FFFD}", 3),
        ] {
            assert_eq!(width(text), columns, "{text}");
        }
    }

    /// What looking a range up relies on.
    #[test]
    fn ranges_stand_in_order() {
        for table in [&COMBINING[..], &WIDE[..]] {
            assert!(table.iter().all(|(first, last)| first <= last));
            assert!(table.windows(2).all(|two| two[0].1 < two[1].0));
            assert!(table[0].0 >= '\u{300}');
        }
    }
}
