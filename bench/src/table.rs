//! Markdown tables, and numbers in them.

pub struct Table {
    lines: Vec<String>,
}

impl Table {
    /// The first column is text, the others are numbers.
    pub fn new(heads: &[String]) -> Table {
        let ruler = "|---|".to_string() + &"---:|".repeat(heads.len() - 1);
        Table { lines: vec![row(heads), ruler] }
    }

    pub fn add(&mut self, cells: &[String]) {
        self.lines.push(row(cells));
    }

    pub fn print(&self, title: &str) {
        println!("\n**{}**\n\n{}", title, self.lines.join("\n"));
    }
}

fn row(cells: &[String]) -> String {
    format!("| {} |", cells.join(" | "))
}

/// Three digits that count, and commas in large numbers.
pub fn number(value: f64) -> String {
    if value >= 100.0 {
        with_commas(value.round() as u64)
    } else if value >= 10.0 {
        format!("{:.1}", value)
    } else {
        format!("{:.2}", value)
    }
}

pub fn with_commas(value: u64) -> String {
    if value < 1000 {
        return value.to_string();
    }
    format!("{},{:03}", with_commas(value / 1000), value % 1000)
}

pub fn texts(cells: &[&str]) -> Vec<String> {
    cells.iter().map(|cell| cell.to_string()).collect()
}
