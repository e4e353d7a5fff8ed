//! Writes what was measured: a table, and the growth as a plot.

use crate::operations::{Operation, Unit, SIDES};
use crate::timing::Times;

/// The headings of the table.
const HEADINGS: &str = "\
| what | per | ours, ns | original, ns | ratio | lowest | highest | ours, instructions | original, instructions | ratio |
|---|---|---:|---:|---:|---:|---:|---:|---:|---:|";

/// How many signs of the plot the longest time has.
const WIDTH: f64 = 60.0;

/// What was measured of an operation.
pub struct Row {
    pub operation: Operation,
    pub times: Times,
    /// Instructions of each side, where they were counted.
    pub counts: Option<[f64; 2]>,
}

/// Writes the table.
pub fn table(rows: &[Row]) {
    println!("{HEADINGS}");
    for row in rows {
        let ratio = row.times.ratio();
        println!(
            "| {} | {} | {:.2} | {:.2} | {:.3} | {:.3} | {:.3} | {} |",
            row.operation.name,
            match row.operation.unit {
                Unit::Byte => "byte",
                Unit::Each => "call",
            },
            row.times.median(0),
            row.times.median(1),
            ratio.median,
            ratio.lowest,
            ratio.highest,
            counted(row.counts),
        );
    }
}

/// The last cells of a row.
fn counted(counts: Option<[f64; 2]>) -> String {
    match counts {
        Some([ours, original]) => format!("{ours:.1} | {original:.1} | {:.3}", ours / original),
        None => "- | - | -".into(),
    }
}

/// Writes a bar for each side of each operation: the longer, the more time a byte takes.
pub fn plot(rows: &[Row]) {
    let medians = |row: &Row| [0, 1].map(|side| row.times.median(side));
    let longest = rows.iter().flat_map(medians).fold(0.0, f64::max);
    println!("nanoseconds for a byte of a query text of this length:");
    for row in rows {
        let bytes = row.operation.bytes();
        for (side, median) in SIDES.iter().zip(medians(row)) {
            let bar = "#".repeat((median / longest * WIDTH).ceil() as usize);
            println!("{bytes:>6}  {side:<8}  {bar} {median:.2}");
        }
    }
}

/// Writes which of some operations has the highest ratio.
pub fn least_gain(rows: &[Row]) {
    let ratio = |row: &Row| row.times.ratio().median;
    let highest = rows.iter().max_by(|a, b| ratio(a).total_cmp(&ratio(b)));
    let row = highest.expect("an operation at least");
    println!(
        "of {} queries, each by itself, the highest ratio is {:.3}, of {:?}",
        rows.len(),
        ratio(row),
        row.operation.name,
    );
}
