//! Times promql-parser's functions and ours side by side, counts their instructions, and writes a table.
//! With `--brief` it only shows that it works: it times for a moment, and counts nothing.

mod calls;
mod count;
mod operations;
mod table;
mod timing;

use calls::Room;
use operations::{Operation, SIDES};
use std::env;
use std::io;
use std::process;
use std::time::Duration;
use table::Row;
use timing::Plan;

/// The word that asks for a moment's timing.
const BRIEF: &str = "--brief";

/// The exit status of a call with other words.
const USAGE: i32 = 2;

/// How long is timed.
const WHOLE_PLAN: Plan = Plan {
    rounds: 41,
    slot: Duration::from_millis(1),
};
const BRIEF_PLAN: Plan = Plan {
    rounds: 3,
    slot: Duration::from_micros(100),
};
/// How long each query is timed by itself.
const SINGLE_PLAN: Plan = Plan {
    rounds: 7,
    slot: Duration::from_micros(100),
};

fn main() -> io::Result<()> {
    let words: Vec<String> = env::args().skip(1).collect();
    let words: Vec<&str> = words.iter().map(|word| &**word).collect();
    match words[..] {
        [] => measure(WHOLE_PLAN, count::is_at_hand()),
        [BRIEF] => measure(BRIEF_PLAN, false),
        [count::PASSES, name, side, passes] => {
            run(name, side, passes);
            Ok(())
        }
        _ => {
            eprintln!("usage: bench [{BRIEF}]");
            process::exit(USAGE)
        }
    }
}

/// Does some passes of one side of an operation.
fn run(name: &str, side: &str, passes: &str) {
    let mut all = operations::usual().into_iter().chain(operations::growing());
    let operation = all.find(|operation| operation.name == name);
    let operation = operation.expect("the name of an operation");
    let side = SIDES.iter().position(|named| *named == side);
    let side = side.expect("the name of a side");
    let passes: u32 = passes.parse().expect("a number of passes");
    let mut room = Room::new();
    for _ in 0..passes {
        operation.pass(side, &mut room);
    }
}

/// Measures everything, and writes it.
fn measure(plan: Plan, with_counts: bool) -> io::Result<()> {
    let usual = rows(operations::usual(), plan, with_counts)?;
    let growing = rows(operations::growing(), plan, with_counts)?;
    println!("{} rounds, slots of {:?}", plan.rounds, plan.slot);
    println!();
    table::table(&usual);
    println!();
    table::table(&growing);
    println!();
    table::plot(&growing);
    println!();
    table::least_gain(&rows(operations::single(), SINGLE_PLAN, false)?);
    Ok(())
}

/// Measures some operations, once both sides agree on all of their inputs.
fn rows(operations: Vec<Operation>, plan: Plan, with_counts: bool) -> io::Result<Vec<Row>> {
    let mut room = Room::new();
    for operation in &operations {
        let disagreement = operation.disagreement(&mut room);
        assert_eq!(disagreement, None, "{}", operation.name);
    }
    let times = timing::time(&operations, plan);
    let row = |(operation, times)| {
        let counts = with_counts.then(|| count::count(&operation)).transpose()?;
        Ok(Row {
            operation,
            times,
            counts,
        })
    };
    operations.into_iter().zip(times).map(row).collect()
}
