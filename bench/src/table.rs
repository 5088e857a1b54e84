//! Tables of text, plain or as markdown.
#![forbid(unsafe_code)]

/// A table: the first column stands left, the others right.
pub struct Table {
    pub title: String,
    pub head: Vec<String>,
    pub rows: Vec<Vec<String>>,
}

impl Table {
    /// An empty table with its column heads.
    pub fn new(title: &str, head: &[&str]) -> Self {
        Table {
            title: title.to_string(),
            head: head.iter().map(|text| text.to_string()).collect(),
            rows: Vec::new(),
        }
    }

    /// The table as text.
    pub fn text(&self, markdown: bool) -> String {
        let widths = self.widths();
        let mut lines = Vec::new();
        if markdown {
            lines.push(format!("### {}\n", self.title));
            lines.push(row(&self.head, &widths, "| ", " | ", " |"));
            let rule = |(column, &width): (usize, &usize)| match column {
                0 => "-".repeat(width),
                _ => "-".repeat(width - 1) + ":",
            };
            let rules: Vec<String> = widths.iter().enumerate().map(rule).collect();
            lines.push(row(&rules, &widths, "| ", " | ", " |"));
            let body = self.rows.iter();
            lines.extend(body.map(|cells| row(cells, &widths, "| ", " | ", " |")));
        } else {
            lines.push(self.title.clone());
            let all = std::iter::once(&self.head).chain(&self.rows);
            lines.extend(all.map(|cells| row(cells, &widths, "  ", "  ", "")));
        }
        lines.join("\n") + "\n"
    }

    fn widths(&self) -> Vec<usize> {
        let all = || std::iter::once(&self.head).chain(&self.rows);
        let width = |column: usize| all().map(|cells| cells[column].chars().count()).max();
        (0..self.head.len())
            .map(|column| width(column).unwrap_or(0).max(3))
            .collect()
    }
}

fn row(cells: &[String], widths: &[usize], open: &str, between: &str, close: &str) -> String {
    let pad = |(column, (text, &width)): (usize, (&String, &usize))| match column {
        0 => format!("{text:<width$}"),
        _ => format!("{text:>width$}"),
    };
    let padded: Vec<String> = cells.iter().zip(widths).enumerate().map(pad).collect();
    format!("{open}{}{close}", padded.join(between))
}

/// Nanoseconds with a unit that suits them.
pub fn time(nanoseconds: f64) -> String {
    if nanoseconds < 10.0 {
        format!("{nanoseconds:.1} ns")
    } else if nanoseconds < 1e3 {
        format!("{nanoseconds:.0} ns")
    } else if nanoseconds < 1e6 {
        format!("{:.1} µs", nanoseconds / 1e3)
    } else {
        format!("{:.1} ms", nanoseconds / 1e6)
    }
}

/// A ratio: small ones with two digits after the point, great ones with none.
pub fn ratio(value: f64) -> String {
    if value < 10.0 {
        format!("{value:.2}")
    } else {
        format!("{value:.0}")
    }
}
