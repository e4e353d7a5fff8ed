//! Compares functions on many inputs, counts the differences, and shrinks the first difference of each function.

use crate::input::Input;
use compare::oracle::Answer;
use std::borrow::Borrow;
use std::fmt::Debug;

/// How many smaller inputs are tried at most, to shrink one.
const MOST_TRIES: usize = 20_000;

/// Progress is shown each time that so many inputs were compared.
const STEP: u64 = 500_000;

/// What a call answered and did.
#[derive(Debug, PartialEq)]
pub struct Outcome<W> {
    /// The number that it returned.
    pub answer: u64,
    /// What stands where it may write.
    pub written: W,
    /// Whether all else is as it was.
    pub untouched: bool,
}

impl<W> Outcome<W> {
    /// What a call must answer and do.
    pub fn of(answer: Answer, written: W) -> Self {
        Outcome {
            answer: answer.packed(),
            written,
            untouched: true,
        }
    }
}

/// A call with two outcomes, ours and the one that it must have.
pub struct Difference {
    call: String,
    ours: String,
    must: String,
}

impl Difference {
    /// The difference between the outcomes of a call, where there is one.
    pub fn between<W: Debug + PartialEq>(
        call: impl FnOnce() -> String,
        ours: &Outcome<W>,
        must: &Outcome<W>,
    ) -> Option<Self> {
        (ours != must).then(|| Difference {
            call: call(),
            ours: format!("{ours:x?}"),
            must: format!("{must:x?}"),
        })
    }
}

/// A function of ours.
pub struct Function<I: ?Sized> {
    pub name: &'static str,
    /// Where it differs on an input from what it must do.
    pub difference: fn(&I) -> Option<Difference>,
    /// Whether the Rust is known to do otherwise on an input than we must.
    pub known: fn(&I) -> bool,
}

impl<I: Input + ?Sized> Function<I> {
    /// Prints a difference on this input, or on a smaller one where one can be found.
    fn show(&self, input: &I) {
        let owned = self.shrunk(input);
        let input = owned.borrow();
        if let Some(Difference { call, ours, must }) = (self.difference)(input) {
            println!("{} differs on {}: {call}", self.name, input.shown());
            println!("  ours: {ours}");
            println!("  must: {must}");
        }
    }

    /// The smallest input found, from this one, on which there is a difference.
    fn shrunk(&self, input: &I) -> I::Owned {
        let differs = |smaller: &I::Owned| (self.difference)(smaller.borrow()).is_some();
        let mut smallest = input.to_owned();
        let mut tries = 0..MOST_TRIES;
        loop {
            let tried = smallest.borrow().smaller().zip(&mut tries);
            let found = tried.map(|(smaller, _)| smaller).find(differs);
            match found {
                Some(smaller) => smallest = smaller,
                None => return smallest,
            }
        }
    }
}

/// For a function without known differences.
pub fn nowhere<I: ?Sized>(_input: &I) -> bool {
    false
}

/// Compares the functions on each input, prints a line for each function, and gives the number of differences.
pub fn compare<I: Input + ?Sized>(
    functions: &[Function<I>],
    inputs: impl Iterator<Item = I::Owned>,
) -> u64 {
    let mut compared: u64 = 0;
    let mut counts = vec![(0, 0); functions.len()];
    for owned in inputs {
        let input = owned.borrow();
        for (function, (differences, known)) in functions.iter().zip(&mut counts) {
            if (function.difference)(input).is_some() {
                if *differences == 0 {
                    function.show(input);
                }
                *differences += 1;
            }
            *known += u64::from((function.known)(input));
        }
        compared += 1;
        if compared % STEP == 0 {
            eprintln!("compared {compared} {}", I::NAMES);
        }
    }
    for (function, (differences, known)) in functions.iter().zip(&counts) {
        let (name, inputs) = (function.name, I::NAMES);
        print!("{name}: {compared} {inputs}, {differences} differences");
        match known {
            0 => println!(),
            known => println!(", {known} known ones beside"),
        }
    }
    counts.iter().map(|(differences, _)| differences).sum()
}
