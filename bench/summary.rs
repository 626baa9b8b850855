//! The least ratios, a line for each group of rows.

use crate::timing::Times;

#[derive(Clone, Copy, PartialEq, Eq)]
pub enum Table {
    Families,
    Single,
    Verify,
    Solve,
}

impl Table {
    /// The single jobs' runs are too short for a difference of times, and the solver reads nothing.
    fn has_column_without_reading(self) -> bool {
        matches!(self, Table::Families | Table::Verify)
    }
}

/// What one row of a table is about, or one of the single jobs, and its times.
pub struct Row {
    pub table: Table,
    pub name: String,
    pub n: usize,
    pub times: Times,
}

impl Row {
    fn is_family(&self, n: usize, start: &str) -> bool {
        self.table == Table::Families && self.n == n && self.name.starts_with(start)
    }

    fn is_path_in_planes(&self) -> bool {
        self.is_family(128, "planes, path")
    }
}

type Group = (&'static str, fn(&Row) -> bool);

const GROUPS: [Group; 7] = [
    ("Pauli families at 128 nodes", |row| row.is_family(128, "Pauli")),
    ("path in planes at 128 nodes", Row::is_path_in_planes),
    ("other families in planes at 128 nodes", |row| row.is_family(128, "planes") && !row.is_path_in_planes()),
    ("all families at 16 nodes", |row| row.is_family(16, "")),
    ("single jobs", |row| row.table == Table::Single),
    ("verifier", |row| row.table == Table::Verify),
    ("solver", |row| row.table == Table::Solve),
];

/// The least of a ratio, and the row that has it.
fn least(rows: &[&Row], ratio: fn(Times) -> f64) -> String {
    let least = rows.iter().min_by(|x, y| ratio(x.times).total_cmp(&ratio(y.times))).expect("each group has rows");
    format!("{:.2} | {}, n = {}", ratio(least.times), least.name, least.n)
}

pub fn print(rows: &[Row]) {
    println!("| group | rows | least Rust / ours | at | least without reading | at |");
    println!("|---|---|---|---|---|---|");
    for (name, belongs) in GROUPS {
        let group: Vec<&Row> = rows.iter().filter(|row| belongs(row)).collect();
        print!("| {name} | {} | {} ", group.len(), least(&group, Times::ratio));
        if group.iter().all(|row| row.table.has_column_without_reading()) {
            println!("| {} |", least(&group, Times::ratio_without_reading));
        } else {
            println!("| - | - |");
        }
    }
}
