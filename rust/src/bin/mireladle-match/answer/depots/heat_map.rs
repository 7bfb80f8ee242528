//! The depot-by-month table as a picture, in SVG 1.1: a row for each depot, a column for each month,
//! a number in each cell, and beside them the cell outside and what is not counted. The colour is
//! one hue that gets darker with the count, so that a print without colours and people who see few
//! of them lose nothing; a number is black or white, whichever stands out more. It uses nothing but
//! rectangles, lines and texts in fonts that every system has, and no script or style sheet.

use mireladle::text::screen::width;
use mireladle::Listed;

use super::{grouped, NAMES};

const FONTS: &str = "Helvetica, Arial, 'Liberation Sans', 'DejaVu Sans', sans-serif";
const MARGIN: f64 = 24.0;
/// Where the head of the months stands, and where the cells begin.
const HEAD: f64 = 98.0;
const TOP: f64 = 108.0;
const ROW: f64 = 34.0;
/// The width of a digit in a cell, and of a letter in a label, at least.
const DIGIT: f64 = 9.0;
const LETTER: f64 = 8.5;
/// The distance of the lines in the list beside the cells.
const LINE: f64 = 17.0;
const PANEL: f64 = 270.0;
/// So many partitions are named at least, where there are so many, and so many letters of each.
const FEWEST_NAMED: usize = 8;
const LONGEST_NAME: usize = 24;

/// The light end, the middle and the dark end of the colours: a blue, by red, green and blue.
const COLORS: [[f64; 3]; 3] = [
    [239.0, 245.0, 252.0],
    [107.0, 174.0, 214.0],
    [8.0, 48.0, 107.0],
];

/// What is drawn.
pub struct HeatMap {
    pub title: &'static str,
    pub about: String,
    /// The name of each depot, and its months.
    pub depots: Vec<(String, Vec<u64>)>,
    pub outside: u64,
    /// The partitions that are refused or stopped, with their names.
    pub not_counted: Vec<(Listed, String)>,
    pub without_number: u64,
}

/// The places of the parts.
struct Places {
    left: f64,
    cell: f64,
    /// Where the sums end, and where the panel begins.
    sums: f64,
    panel: f64,
    bottom: f64,
}

impl HeatMap {
    /// The picture's text.
    pub fn drawn(&self) -> String {
        let places = self.places();
        let mut drawing = Drawing(String::new());
        self.cells(&places, &mut drawing);
        self.legend(&places, &mut drawing);
        let panel_end = self.panel(&places, &mut drawing);
        let (wide, high) = (
            places.panel + PANEL + MARGIN,
            panel_end.max(places.bottom + 56.0) + MARGIN,
        );
        let (title, about) = (escaped(self.title), escaped(&self.about));
        format!(
            "<svg xmlns=\"http://www.w3.org/2000/svg\" viewBox=\"0 0 {wide:.0} {high:.0}\" \
             width=\"{wide:.0}\" height=\"{high:.0}\" role=\"img\" font-family=\"{FONTS}\">\n\
             <title>{title}</title>\n<desc>{about}</desc>\n\
             <rect width=\"100%\" height=\"100%\" fill=\"#ffffff\"/>\n\
             <text x=\"{MARGIN}\" y=\"42\" font-size=\"20\" font-weight=\"bold\">{title}</text>\n\
             <text x=\"{MARGIN}\" y=\"64\" font-size=\"14\" fill=\"#333333\">{about}</text>\n\
             {}</svg>\n",
            drawing.0
        )
    }

    fn places(&self) -> Places {
        let letters = self.depots.iter().map(|(name, _)| width(&cut(name)));
        let letters = letters.max().unwrap_or(0);
        let left = MARGIN + (LETTER * letters as f64).max(48.0) + 12.0;
        let widest = grouped(self.most().max(self.outside)).len();
        let cell = (DIGIT * widest as f64 + 18.0).max(50.0);
        let sums = left + 12.0 * cell + (DIGIT * self.longest_sum() as f64).max(32.0) + 18.0;
        Places {
            left,
            cell,
            sums,
            panel: sums + 36.0,
            bottom: TOP + ROW * self.depots.len().max(1) as f64,
        }
    }

    fn most(&self) -> u64 {
        let cells = self.depots.iter().flat_map(|(_, months)| months).copied();
        cells.max().unwrap_or(0)
    }

    fn longest_sum(&self) -> usize {
        let sums = self.depots.iter().map(|(_, months)| total(months));
        sums.map(|sum| grouped(sum).len()).max().unwrap_or(0)
    }

    fn cells(&self, places: &Places, drawing: &mut Drawing) {
        let middle = |month: usize| places.left + (month as f64 + 0.5) * places.cell;
        for (month, name) in NAMES.iter().enumerate() {
            drawing.text(middle(month), HEAD, "middle", 14, "", name);
        }
        drawing.text(places.sums, HEAD, "end", 14, "", "all");
        if self.depots.is_empty() {
            let at = (places.left, TOP + ROW * 0.5 + 5.0);
            drawing.text(at.0, at.1, "start", 14, "", "no depot has a match");
        }
        for (row, (name, months)) in self.depots.iter().enumerate() {
            let y = TOP + row as f64 * ROW;
            let base = y + ROW * 0.5 + 5.0;
            drawing.text(places.left - 12.0, base, "end", 15, "", &cut(name));
            for (month, count) in months.iter().enumerate() {
                let x = places.left + month as f64 * places.cell;
                drawing.cell(x, y, places.cell, *count, self.most());
            }
            let sum = grouped(total(months));
            drawing.text(places.sums, base, "end", 15, "bold", &sum);
        }
    }

    /// What the colours stand for: a bar of ten fields.
    fn legend(&self, places: &Places, drawing: &mut Drawing) {
        const FIELDS: u64 = 10;
        let most = self.most();
        if most == 0 {
            return;
        }
        let y = places.bottom + 24.0;
        for field in 0..=FIELDS {
            let fill = hex(color(field as f64 / FIELDS as f64));
            let x = places.left + field as f64 * 22.0;
            drawing.rect(x, y, 22.0, 14.0, &fill, &fill);
        }
        let end = places.left + 11.0 * 22.0;
        drawing.rect(places.left, y, 11.0 * 22.0, 14.0, "none", "#666666");
        drawing.text(places.left, y + 30.0, "start", 13, "", "0");
        drawing.text(end, y + 30.0, "end", 13, "", &grouped(most));
        drawing.text(end + 12.0, y + 12.0, "start", 13, "", "matches in a month");
    }

    /// The cell outside and what is not counted; the result is where they end.
    fn panel(&self, places: &Places, drawing: &mut Drawing) -> f64 {
        let x = places.panel;
        drawing.text(x, HEAD, "start", 15, "bold", "outside");
        // No month's count, so it has no colour, and those of the months do not go by it.
        drawing.numbered(x, TOP, places.cell, self.outside, color(0.0));
        let beside = x + places.cell + 12.0;
        for (line, text) in ["depot not 0 to 63,", "or month not 1 to 12"]
            .iter()
            .enumerate()
        {
            let y = TOP + 14.0 + line as f64 * 16.0;
            drawing.text(beside, y, "start", 13, "", text);
        }
        let mut y = TOP + ROW + 30.0;
        drawing.text(x, y, "start", 15, "bold", "refused or stopped, not counted");
        let mut lines = Vec::new();
        let space = ((places.bottom - y) / LINE).max(0.0) as usize;
        let most = space.max(FEWEST_NAMED);
        for (listed, name) in self.not_counted.iter().take(most) {
            let name = match name.is_empty() {
                true => format!("partition {}", listed.partition),
                false => cut(name),
            };
            lines.push(format!("{name}: answer {}", listed.answer));
        }
        let more = self.not_counted.len().saturating_sub(most);
        if more > 0 {
            lines.push(format!(
                "and {} more",
                grouped(u64::try_from(more).unwrap_or(0))
            ));
        }
        if self.without_number > 0 {
            lines.push(format!(
                "behind the 65,535th: {}",
                grouped(self.without_number)
            ));
        }
        if lines.is_empty() {
            lines.push(String::from("none"));
        }
        for line in &lines {
            y += LINE;
            drawing.text(x, y, "start", 13, "", line);
        }
        y
    }
}

fn total(months: &[u64]) -> u64 {
    months
        .iter()
        .fold(0, |sum, count| sum.saturating_add(*count))
}

/// A name that is not too long.
fn cut(name: &str) -> String {
    match name.chars().count() > LONGEST_NAME {
        true => {
            let front: String = name.chars().take(LONGEST_NAME.saturating_sub(1)).collect();
            format!("{front}\u{2026}")
        }
        false => String::from(name),
    }
}

/// The elements that are drawn so far.
struct Drawing(String);

impl Drawing {
    fn rect(&mut self, x: f64, y: f64, wide: f64, high: f64, fill: &str, line: &str) {
        self.0.push_str(&format!(
            "<rect x=\"{x:.1}\" y=\"{y:.1}\" width=\"{wide:.1}\" height=\"{high:.1}\" \
             fill=\"{fill}\" stroke=\"{line}\" stroke-width=\"1\"/>\n"
        ));
    }

    fn text(&mut self, x: f64, y: f64, anchor: &str, size: u8, weight: &str, text: &str) {
        self.colored_text((x, y), anchor, size, weight, "#000000", text);
    }

    fn colored_text(
        &mut self,
        (x, y): (f64, f64),
        anchor: &str,
        size: u8,
        weight: &str,
        fill: &str,
        text: &str,
    ) {
        let weight = match weight {
            "" => String::new(),
            weight => format!(" font-weight=\"{weight}\""),
        };
        let text = escaped(text);
        self.0.push_str(&format!(
            "<text x=\"{x:.1}\" y=\"{y:.1}\" text-anchor=\"{anchor}\" font-size=\"{size}\"{weight} \
             fill=\"{fill}\">{text}</text>\n"
        ));
    }

    /// A month's cell, coloured by its part of the largest one.
    fn cell(&mut self, x: f64, y: f64, wide: f64, count: u64, most: u64) {
        let part = match most {
            0 => 0.0,
            _ => count as f64 / most as f64,
        };
        self.numbered(x, y, wide, count, color(part));
    }

    fn numbered(&mut self, x: f64, y: f64, wide: f64, count: u64, color: [f64; 3]) {
        self.rect(x, y, wide, ROW, &hex(color), "#8c8c8c");
        let middle = (x + wide * 0.5, y + ROW * 0.5 + 5.0);
        let number = grouped(count);
        self.colored_text(middle, "middle", 15, "", ink(color), &number);
    }
}

/// The colour of a part, 0 to 1, of the largest count: 0 is white.
fn color(part: f64) -> [f64; 3] {
    if part <= 0.0 {
        return [255.0; 3];
    }
    let [light, middle, dark] = COLORS;
    let (from, to, part) = match part <= 0.5 {
        true => (light, middle, part * 2.0),
        false => (middle, dark, part * 2.0 - 1.0),
    };
    let mut color = from;
    for (channel, end) in color.iter_mut().zip(to) {
        *channel += (end - *channel) * part.min(1.0);
    }
    color
}

fn hex(color: [f64; 3]) -> String {
    let [red, green, blue] = color.map(|channel| channel.round() as u8);
    format!("#{red:02x}{green:02x}{blue:02x}")
}

/// Black or white, whichever has the higher contrast by WCAG's relative luminance.
fn ink(color: [f64; 3]) -> &'static str {
    match luminance(color) > 0.179 {
        true => "#000000",
        false => "#ffffff",
    }
}

fn luminance(color: [f64; 3]) -> f64 {
    let [red, green, blue] = color.map(|channel| {
        let part = channel / 255.0;
        match part <= 0.04045 {
            true => part / 12.92,
            false => ((part + 0.055) / 1.055).powf(2.4),
        }
    });
    0.2126 * red + 0.7152 * green + 0.0722 * blue
}

/// A text as XML takes it.
fn escaped(text: &str) -> String {
    let mut escaped = String::new();
    for c in text.chars() {
        match c {
            '&' => escaped.push_str("&amp;"),
            '<' => escaped.push_str("&lt;"),
            '>' => escaped.push_str("&gt;"),
            '"' => escaped.push_str("&quot;"),
            // XML 1.0 has no control characters.
            c if c.is_control() || matches!(c, '\u{FFFE}' | '\u{FFFF}') => escaped.push('\u{FFFD}'),
            c => escaped.push(c),
        }
    }
    escaped
}

#[cfg(test)]
mod tests {
    use super::*;

    /// More is darker, in every step, and every number has a contrast of at least 4.5 to its cell.
    #[test]
    fn more_is_darker_and_numbers_stand_out() {
        let mut before = f64::INFINITY;
        for part in 0..=1000 {
            let color = color(f64::from(part) / 1000.0);
            let light = luminance(color);
            assert!(light < before, "{part}");
            before = light;
            let contrast = match ink(color) {
                "#000000" => (light + 0.05) / 0.05,
                _ => 1.05 / (light + 0.05),
            };
            assert!(contrast >= 4.5, "{part}: {contrast}");
        }
        assert_eq!(hex(color(0.0)), "#ffffff");
        assert_eq!(hex(color(1.0)), "#08306b");
    }

    #[test]
    fn texts_are_escaped_and_cut() {
        assert_eq!(escaped("a<b>&\"\u{1B}"), "a&lt;b&gt;&amp;&quot;\u{FFFD}");
        assert_eq!(cut("North"), "North");
        assert_eq!(cut(&"x".repeat(30)).chars().count(), LONGEST_NAME);
    }
}
