//! Tables of text, printed with aligned columns or as Markdown, which is aligned
//! too.

pub struct Table {
    /// A column of names is aligned to the left, one of numbers to the right.
    heads: Vec<(String, Side)>,
    lines: Vec<Vec<String>>,
}

#[derive(Clone, Copy, PartialEq, Eq)]
pub enum Side {
    Left,
    Right,
}

impl Table {
    pub fn new(heads: &[(String, Side)]) -> Table {
        Table {
            heads: heads.to_vec(),
            lines: Vec::new(),
        }
    }

    pub fn push(&mut self, line: Vec<String>) {
        assert_eq!(line.len(), self.heads.len());
        self.lines.push(line);
    }

    pub fn print(&self, markdown: bool) {
        let widths = self.widths();
        let heads: Vec<&str> = self.heads.iter().map(|(head, _)| head.as_str()).collect();
        self.print_line(&heads, &widths, markdown);
        let rule: Vec<String> = widths.iter().map(|&width| "-".repeat(width)).collect();
        self.print_rule(&rule, markdown);
        for line in &self.lines {
            let cells: Vec<&str> = line.iter().map(String::as_str).collect();
            self.print_line(&cells, &widths, markdown);
        }
        println!();
    }

    fn widths(&self) -> Vec<usize> {
        (0..self.heads.len())
            .map(|column| {
                let cells = self.lines.iter().map(|line| line[column].chars().count());
                let head = self.heads[column].0.chars().count();
                // A rule in Markdown takes three characters.
                cells.fold(head.max(3), usize::max)
            })
            .collect()
    }

    fn print_line(&self, cells: &[&str], widths: &[usize], markdown: bool) {
        let padded: Vec<String> = (0..cells.len())
            .map(|column| match self.heads[column].1 {
                Side::Left => format!("{:<1$}", cells[column], widths[column]),
                Side::Right => format!("{:>1$}", cells[column], widths[column]),
            })
            .collect();
        match markdown {
            true => println!("| {} |", padded.join(" | ")),
            false => println!("{}", padded.join("  ").trim_end()),
        }
    }

    fn print_rule(&self, rule: &[String], markdown: bool) {
        if !markdown {
            println!("{}", rule.join("  "));
            return;
        }
        let cells: Vec<String> = (0..rule.len())
            .map(|column| match self.heads[column].1 {
                Side::Left => rule[column].clone(),
                Side::Right => format!("{}:", &rule[column][1..]),
            })
            .collect();
        println!("| {} |", cells.join(" | "));
    }
}
