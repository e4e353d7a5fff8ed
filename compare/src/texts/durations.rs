//! Duration texts, and texts that are nearly such; seconds with nanoseconds.

use super::numbers::{any_decimal, any_exact, digits, near, padded, spelled, spoiled};
use super::{cut_characters, numbers, sequences, short, table_ends, well_formed};
use crate::oracle::MOST_NUMBER_BYTES;
use crate::random::Random;
use std::iter;

/// The units, in their order.
pub const UNITS: [&str; 7] = ["y", "w", "d", "h", "m", "s", "ms"];

/// The seconds of a year, a week, and so on; milliseconds have none.
const SECONDS: [u64; 6] = [31_536_000, 604_800, 86_400, 3_600, 60, 1];

/// Bytes that durations are made of.
const BYTES: [u8; 12] = *b"019.e-ywdhms";

/// What stands for a unit in each place: nothing, or a number of it.
const COUNTS: [&str; 6] = ["", "0", "1", "0012", "4294967295", "4294967296"];

/// Numbers of a unit: at the bound of what counts, with zeros, far above the bound; and what is none.
const NUMBERS: [&str; 14] = [
    "",
    "0",
    "1",
    "00",
    "59",
    "4294967294",
    "4294967295",
    "4294967296",
    "00004294967295",
    "00004294967296",
    "18446744073709551616",
    "1.5",
    "-1",
    "1e2",
];

/// The units, and what is none.
const NAMES: [&str; 16] = [
    "", "y", "w", "d", "h", "m", "s", "ms", "Y", "M", "S", "mS", "us", "\u{b5}s", "n", " s",
];

/// Parts in every order.
const PARTS: [&str; 10] = ["1y", "2w", "3d", "4h", "5m", "6s", "7ms", "0m", "8", "-"];

/// What durations are made of, and what is like that.
const PIECES: [&str; 26] = [
    "0",
    "1",
    "5",
    "9",
    "y",
    "w",
    "d",
    "h",
    "m",
    "s",
    "ms",
    "M",
    "S",
    "e",
    "E",
    ".",
    "+",
    "-",
    "_",
    " ",
    "\n",
    "\u{2003}",
    "\u{661}",
    "\u{17f}",
    "inf",
    "4294967296",
];

/// Durations of each kind.
const SAMPLES: [&str; 16] = [
    "0",
    "00",
    "-0",
    "5m",
    "1h30m",
    "10ms",
    "1m2s3ms",
    "1y2w3d4h5m6s7ms",
    "4294967295y4294967295ms",
    "1d5000000000ms",
    "15",
    "-1.5",
    "+.5",
    "2e19",
    "5e-10",
    "inf",
];

/// Numbers of nanoseconds at their bounds, and above.
const NANOS: [u32; 12] = [
    0,
    1,
    999_999,
    1_000_000,
    1_000_001,
    500_000_000,
    998_999_999,
    999_000_000,
    999_999_999,
    1_000_000_000,
    1_000_000_001,
    u32::MAX,
];

/// Four numbers of each unit and of what is under a millisecond: none, one, and the last of those that are below the next unit.
const IN_NEXT: [[u64; 4]; 8] = [
    [0, 1, 2, 584_942_417_354],
    [0, 1, 51, 52],
    [0, 1, 5, 6],
    [0, 1, 10, 23],
    [0, 1, 10, 59],
    [0, 1, 10, 59],
    [0, 1, 10, 999],
    [0, 1, 500_000, 999_999],
];

/// How many seconds, and how many of each unit, are written one after the other; and how many at a bound.
const IN_A_ROW: u64 = 200_000;
const OF_EACH: u64 = 1_500;
const AT_A_BOUND: u64 = 150;

/// The greatest number of a unit that is read.
const MOST_READ: u64 = 4_294_967_295;

/// Every text of at most two bytes, and of at most six of durations; texts of units; decimals at half nanoseconds and around
/// 2^64, and those of numbers; names; every character as a unit; durations with a byte changed; texts of any length, and
/// around the limit.
pub fn fixed() -> impl Iterator<Item = Vec<u8>> {
    let texts = units()
        .chain(parts())
        .chain(halves())
        .chain(great())
        .chain(numbers::decimals())
        .chain(numbers::names())
        .chain(characters())
        .chain(long());
    short()
        .chain(sequences(&BYTES, 6))
        .chain(texts.map(String::into_bytes))
        .chain(samples())
        .chain(not_utf8())
        .chain(padded(&SAMPLES))
}

/// Each count, or nothing, of every unit.
fn units() -> impl Iterator<Item = String> {
    let all = COUNTS.len().pow(UNITS.len() as u32);
    (0..all).map(|number| {
        let parts = (0..).zip(UNITS).map(|(place, unit)| {
            match COUNTS[number / COUNTS.len().pow(place) % COUNTS.len()] {
                "" => String::new(),
                count => format!("{count}{unit}"),
            }
        });
        parts.collect()
    })
}

/// Every number of every name, alone and before another; parts in every order.
fn parts() -> impl Iterator<Item = String> {
    let one = || {
        NUMBERS
            .iter()
            .flat_map(|number| NAMES.map(|name| [number, name].concat()))
    };
    let two = one().flat_map(move |front| one().map(move |back| [&front[..], &back].concat()));
    let ordered = sequences(&PARTS, 5).map(|parts| parts.concat());
    two.chain(ordered)
}

/// Decimals of nanoseconds and a half: those that their `f64` is, and those that it is not; then both with a little more and
/// less.
fn halves() -> impl Iterator<Item = String> {
    let odd = |most: u64| {
        let powers = (10..30).flat_map(|bit| [(1 << bit) - 1, (1 << bit) + 1]);
        (0..most).map(|half| 2 * half + 1).chain(powers)
    };
    let ties = odd(6_000).map(|number| number * 9_765_625);
    let others = odd(6_000).map(|number| number * 5);
    ties.chain(others).flat_map(half)
}

/// The decimal of so many tenths of a nanosecond, in three spellings, and decimals next to it, with both signs.
fn half(tenths: u64) -> Vec<String> {
    let digits = tenths.to_string();
    let mut texts = vec![
        spelled(&digits, -10, [0, 0], None),
        spelled(&digits, -10, [12, 0], Some(10)),
        spelled(&digits, -10, [0, 2], Some(1)),
    ];
    for more in [1, 3, 6] {
        let near = u128::from(tenths) * 10_u128.pow(more);
        let scale = -10 - i64::from(more);
        let next = [near - 1, near + 1].map(|digits| digits.to_string());
        texts.extend(next.map(|digits| spelled(&digits, scale, [0, 0], None)));
    }
    let negative = format!("-{}", texts[0]);
    texts.push(negative);
    texts
}

/// Decimals around 2^64, and 2^63, in 16 digits and in more; whole seconds with nines behind them.
fn great() -> impl Iterator<Item = String> {
    let around = [1 << 63, 1 << 64].into_iter().flat_map(|power: u128| {
        (0..6).flat_map(move |cut| {
            let digits = power / 10_u128.pow(cut);
            (digits - 40..digits + 40).flat_map(move |digits| {
                let text = digits.to_string();
                let point = text.len() - 1;
                [None, Some(point)].map(|point| spelled(&text, cut.into(), [0, 0], point))
            })
        })
    });
    let wholes = [0, 1, 59, 4_294_967_295, 900_719_925_474];
    let nines = wholes.into_iter().flat_map(|whole: u64| {
        (0..20).flat_map(move |count| {
            let nines = "9".repeat(count);
            ["", "4", "49", "5", "50", "51", "6", "8"].map(|end| format!("{whole}.{nines}{end}"))
        })
    });
    around.chain(nines)
}

/// Every character of the first plane as a unit, and before one.
fn characters() -> impl Iterator<Item = String> {
    let plane = (0..=0xffff).filter_map(char::from_u32);
    plane.flat_map(|c| [format!("1{c}"), format!("1{c}s")])
}

/// Runs of each length up to the limit, whole and with something behind them.
fn long() -> impl Iterator<Item = String> {
    let ends = ["", "s", "ms", "0", "."];
    let runs = (0..=MOST_NUMBER_BYTES).flat_map(runs);
    runs.flat_map(move |text| ends.map(|end| [&text, end].concat()))
}

/// So many times the same digit, at each place of a duration.
fn runs(count: usize) -> [String; 16] {
    let [zeros, ones, nines] = ["0", "1", "9"].map(|digit| digit.repeat(count));
    let more = count + 1;
    [
        zeros.clone(),
        ones.clone(),
        nines.clone(),
        format!("{zeros}1"),
        format!("{zeros}4294967295"),
        format!("{zeros}4294967296"),
        format!("1h{zeros}5"),
        format!("1h{nines}m5"),
        format!("{ones}y{zeros}1"),
        format!("1{zeros}e-{count}"),
        format!("0.{zeros}1e{more}"),
        format!("-0.{zeros}1"),
        format!("-{zeros}.{zeros}"),
        format!("1e{nines}"),
        format!("-1e-{nines}"),
        format!("5e-{zeros}10"),
    ]
}

/// The samples with a byte changed.
fn samples() -> impl Iterator<Item = Vec<u8>> {
    let samples = SAMPLES.iter();
    samples.flat_map(|sample| near(sample.as_bytes(), &PIECES))
}

/// What is not UTF-8, alone and in a duration.
fn not_utf8() -> impl Iterator<Item = Vec<u8>> {
    let texts = table_ends().into_iter().chain(cut_characters());
    texts.flat_map(|text| {
        let around = [["", ""], ["1", "s"], ["5m", ""], ["\u{2003}1", "ms"]];
        around.map(|[front, back]| [front.as_bytes(), &text, back.as_bytes()].concat())
    })
}

/// Random texts without end: rounds of durations of each kind, whole and spoiled, and of what is hardly one.
pub fn random(seed: u64) -> impl Iterator<Item = Vec<u8>> {
    let mut random = Random::new(seed);
    iter::repeat_with(move || round(&mut random)).flatten()
}

/// One round of random texts.
fn round(random: &mut Random) -> Vec<Vec<u8>> {
    let durations = [
        any_units(random),
        any_units(random),
        any_half(random),
        any_exact(random),
        any_decimal(random),
    ];
    let mut texts = Vec::new();
    for duration in durations {
        texts.push(spoiled(random, duration.as_bytes(), &PIECES));
        texts.push(duration.into_bytes());
    }
    let count = random.below(12);
    let row: String = (0..count).map(|_| random.one_of(&PIECES)).collect();
    texts.push(row.into_bytes());
    let parts = (0..count / 2).map(|_| random.one_of(&NUMBERS).to_string() + random.one_of(&NAMES));
    texts.push(parts.collect::<String>().into_bytes());
    texts.push((0..count).map(|_| random.byte()).collect());
    texts.push(well_formed(random));
    texts
}

/// Some units in their order, each with a number, most of which count.
pub(super) fn any_units(random: &mut Random) -> String {
    let mut text = String::new();
    let often = 1 + random.below(4);
    for unit in UNITS {
        if random.below(often) == 0 {
            let number = (random.number() >> (31 + random.below(33))).to_string();
            let near = (u64::from(u32::MAX) - 4 + random.below(8) as u64).to_string();
            let digits = digits(random, 12) + "0";
            text += random.one_of(&[&number, &number, &near, &digits]);
            text += unit;
        }
    }
    text
}

/// Nanoseconds and a half, or a little more or less.
fn any_half(random: &mut Random) -> String {
    let odd = (random.number() >> (38 + random.below(26))) * 2 + 1;
    let tenths = odd * random.one_of(&[5, 9_765_625, 9_765_625]);
    let texts = half(tenths);
    texts[random.below(texts.len())].clone()
}

/// Seconds and nanoseconds: each number of each unit, and those on both sides of what is read, with one less and one more; the
/// units together; a row of seconds; every millisecond; the greatest.
pub fn fixed_pairs() -> impl Iterator<Item = (u64, u32)> {
    let secs = SECONDS
        .into_iter()
        .flat_map(|unit| {
            let last = u64::MAX / unit;
            (0..OF_EACH)
                .chain(MOST_READ - AT_A_BOUND..=MOST_READ + AT_A_BOUND)
                .chain(last - AT_A_BOUND..=last)
                .flat_map(move |count| around(count * unit))
        })
        .chain((0..64).flat_map(|bit| around(1 << bit)))
        .chain(around(u64::MAX));
    let bounds = secs.flat_map(|secs| NANOS.map(|nanos| (secs, nanos)));
    let row = (0..IN_A_ROW).flat_map(|secs| [0, 1, 1_000_000].map(|nanos| (secs, nanos)));
    bounds.chain(row).chain(together()).chain(milliseconds())
}

/// A number with one less and one more.
fn around(number: u64) -> [u64; 3] {
    [number.saturating_sub(1), number, number.saturating_add(1)]
}

/// Four numbers of each unit, with four of each other.
fn together() -> impl Iterator<Item = (u64, u32)> {
    (0..4_u32.pow(8)).map(|number| {
        let counts: Vec<u64> = (0..)
            .zip(IN_NEXT)
            .map(|(place, counts)| counts[(number >> (2 * place) & 3) as usize])
            .collect();
        let secs = counts.iter().zip(SECONDS).map(|(count, unit)| count * unit);
        (secs.sum(), (counts[6] * 1_000_000 + counts[7]) as u32)
    })
}

/// Every millisecond, with a nanosecond less and more, behind some seconds.
fn milliseconds() -> impl Iterator<Item = (u64, u32)> {
    let secs = [0, 1, 59, 60, 3_600, 86_399, 604_800, 31_536_000, u64::MAX];
    secs.into_iter().flat_map(|secs| {
        (1..1_000).flat_map(move |millis| {
            let nanos = millis * 1_000_000;
            [nanos - 1, nanos, nanos + 1].map(|nanos| (secs, nanos))
        })
    })
}

/// Random seconds and nanoseconds without end.
pub fn random_pairs(seed: u64) -> impl Iterator<Item = (u64, u32)> {
    let mut random = Random::new(seed);
    iter::repeat_with(move || {
        let secs = random.number() >> random.below(64);
        let unit = random.one_of(&SECONDS);
        let nanos = random.number() as u32;
        let below = nanos % 1_000_000_000;
        (
            random.one_of(&[secs, secs / unit * unit]),
            random.one_of(&[0, nanos, below, below, below / 1_000_000 * 1_000_000]),
        )
    })
}
