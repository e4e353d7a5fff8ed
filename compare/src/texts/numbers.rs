//! Number texts, and texts that are nearly such.

use super::{
    cut_characters, grouped, replaced, separated, sequences, short, table_ends, well_formed,
};
use crate::oracle::MOST_NUMBER_BYTES;
use crate::random::Random;
use std::iter;

/// The characters of White_Space.
pub const WHITE_SPACE: [char; 25] = [
    '\t', '\n', '\u{b}', '\u{c}', '\r', ' ', '\u{85}', '\u{a0}', '\u{1680}', '\u{2000}',
    '\u{2001}', '\u{2002}', '\u{2003}', '\u{2004}', '\u{2005}', '\u{2006}', '\u{2007}', '\u{2008}',
    '\u{2009}', '\u{200a}', '\u{2028}', '\u{2029}', '\u{202f}', '\u{205f}', '\u{3000}',
];

/// Characters next to these or like them.
pub const NO_WHITE_SPACE: [char; 24] = [
    '\0', '\u{8}', '\u{e}', '\u{1c}', '\u{1f}', '!', '\u{84}', '\u{86}', '\u{9f}', '\u{a1}',
    '\u{ad}', '\u{167f}', '\u{180e}', '\u{1fff}', '\u{200b}', '\u{2027}', '\u{202a}', '\u{202e}',
    '\u{2030}', '\u{205e}', '\u{2060}', '\u{2fff}', '\u{3001}', '\u{feff}',
];

/// Bytes that numbers are made of.
const BYTES: [u8; 10] = *b"0178.e+-xf";

/// What numbers are made of, and what is like that.
const PIECES: [&str; 25] = [
    "0",
    "1",
    "5",
    "7",
    "8",
    "9",
    "00",
    "22",
    "a",
    "F",
    "g",
    "x",
    "X",
    "e",
    "E",
    ".",
    "+",
    "-",
    "_",
    " ",
    "\u{2003}",
    "i",
    "inf",
    "NaN",
    "9007199254740993",
];

/// Numbers of each kind.
const SAMPLES: [&str; 24] = [
    "0",
    "-0",
    "+00",
    "-017",
    "0-17",
    "08",
    "15",
    "-1.5",
    "+.5",
    "5.",
    "0.25e1",
    "1e5",
    "1E+22",
    "-2e-22",
    "0e8",
    "0x1f",
    "-0XFF",
    "+0x-a",
    "-0-7",
    "inf",
    "-Infinity",
    "nan",
    "9007199254740992",
    "0x7fffffffffffffff",
];

/// Bytes that numbers with separators are made of.
const SEPARATED_BYTES: [u8; 9] = *b"018f_.ex-";

/// Numbers with separators, and what is nearly one.
const SEPARATED: [&str; 24] = [
    "1_000",
    "1 _ 0",
    "1_\u{2003}0",
    "-1_0.2_5e-1_0",
    "+.5_0",
    "5_0.",
    "1_0E+2_2",
    "0_17",
    "-0-1_7",
    "0_8",
    "0_0",
    "0x_5",
    "-0X_f_F",
    "0x-5_0",
    "9_007_199_254_740_992",
    "9_007_199_254_740_993",
    "0x7fff_ffff_ffff_ffff",
    "0x-_5",
    "0_x5",
    "1_e5",
    "1_.5",
    "1__0",
    "i_nf",
    "na_n",
];

/// The names of numbers.
const NAMES: [&str; 3] = ["inf", "infinity", "nan"];

/// Signs, and what is none.
const SIGNS: [&str; 6] = ["", "+", "-", "+-", "-+", "--"];

/// Digits on both sides of 2^53, and of numbers as long; few digits; 2^54, 2^63, 2^64; digits that end in zeros.
const DIGITS: [&str; 20] = [
    "0",
    "1",
    "5",
    "25",
    "12345678",
    "900719925474099",
    "8999999999999999",
    "9007199254740991",
    "9007199254740992",
    "9007199254740993",
    "9007199254740994",
    "9007199254741001",
    "9999999999999999",
    "10000000000000001",
    "18014398509481984",
    "9223372036854775808",
    "18446744073709551616",
    "10",
    "9007199254740990",
    "90071992547409920",
];

/// Exponents on both sides of the bounds of `f64`.
const FAR: [i64; 8] = [-400, -324, -308, -45, 45, 308, 309, 400];

/// How many zeros stand before and behind the digits of a decimal.
const ZEROS: [[usize; 2]; 4] = [[0, 0], [1, 0], [0, 1], [2, 6]];

/// Bits around which integers are taken, and how far from them: on both sides of where an `f64` of 63 bits is rounded to.
const BITS: [u32; 12] = [0, 3, 32, 52, 53, 54, 55, 62, 63, 64, 65, 100];
const AWAY: [i128; 18] = [
    -1025, -1024, -1023, -513, -512, -511, -2, -1, 0, 1, 2, 3, 511, 512, 513, 1535, 1536, 1537,
];

/// Every text of at most two bytes, of at most six of numbers, and of at most four pieces; decimals and integers at their
/// bounds; names; numbers with each character between them, and with a byte changed; texts of any length, and around the limit.
pub fn fixed() -> impl Iterator<Item = Vec<u8>> {
    let pieces = sequences(&PIECES, 4).map(|pieces| pieces.concat());
    let texts = pieces
        .chain(decimals())
        .chain(integers())
        .chain(names())
        .chain(characters())
        .chain(long());
    short()
        .chain(sequences(&BYTES, 6))
        .chain(texts.map(String::into_bytes))
        .chain(
            SAMPLES
                .iter()
                .flat_map(|sample| near(sample.as_bytes(), &PIECES)),
        )
        .chain(not_utf8())
        .chain(padded(&SAMPLES))
}

/// Texts with separators: every one of at most six bytes; numbers of each kind, and decimals and integers at their bounds, with
/// separators between all their digits; the samples with one or two more at every place; runs of digits of any length, and
/// texts around the limit; and each character behind a separator.
pub fn fixed_separated() -> impl Iterator<Item = Vec<u8>> {
    let sequences = sequences(&SEPARATED_BYTES, 6).filter(|bytes| bytes.contains(&b'_'));
    let samples = || SAMPLES.into_iter().chain(SEPARATED);
    let numbers = samples()
        .map(String::from)
        .chain(decimals().step_by(5))
        .chain(integers().step_by(5))
        .map(|number| grouped(&number));
    let spoiled = samples().flat_map(|sample| {
        let once = near(sample.as_bytes(), &["_", "__", " _", "0_0", "x_"]);
        once.into_iter().flat_map(|text| near(&text, &["_"]))
    });
    let runs = (0..=MOST_NUMBER_BYTES / 2 + 1).flat_map(|count| {
        let run = |piece: &str| piece.repeat(count);
        [
            format!("1{}", run("_0")),
            format!("{}8", run("0_")),
            format!("0{}", run("_7")),
            format!("0x{}", run("_f")),
            format!("-0x{}", run("f_")),
            format!(".{}5e{count}", run("0_")),
            format!("1e{}22", run("0_")),
            format!("1{}", run("_")),
        ]
    });
    let plane = (0..=0xffff).filter_map(char::from_u32);
    let texts = numbers.chain(runs).chain(plane.map(|c| format!("1_{c}5")));
    sequences
        .chain(texts.map(String::into_bytes))
        .chain(spoiled)
        .chain(padded(&SEPARATED))
}

/// Random texts without end, with separators in what has digits.
pub fn random_separated(seed: u64) -> impl Iterator<Item = Vec<u8>> {
    let mut places = Random::new(!seed);
    random(seed).map(move |text| separated(&mut places, &text))
}

/// Decimals in many spellings, exact ones and others.
pub(super) fn decimals() -> impl Iterator<Item = String> {
    let scales = || (-24..=24).chain(FAR);
    let values = DIGITS
        .iter()
        .flat_map(move |digits| scales().map(move |scale| (digits, scale)));
    values.flat_map(|(digits, scale)| {
        ZEROS.into_iter().flat_map(move |zeros| {
            let length = zeros[0] + digits.len() + zeros[1];
            let points = iter::once(None).chain((0..=length).map(Some));
            points.flat_map(move |point| {
                let text = spelled(digits, scale, zeros, point);
                ["", "-"].map(|sign| format!("{sign}{text}"))
            })
        })
    })
}

/// The decimal of some digits times 10^scale, with zeros before and behind them, and a point before so many of the last.
pub(super) fn spelled(digits: &str, scale: i64, zeros: [usize; 2], point: Option<usize>) -> String {
    let [before, behind] = zeros.map(|count| "0".repeat(count));
    let mut text = [&before, digits, &behind].concat();
    let mut exponent = scale - behind.len() as i64;
    if let Some(decimals) = point {
        text.insert(text.len() - decimals, '.');
        exponent += decimals as i64;
    }
    if exponent != 0 {
        text += &format!("e{exponent}");
    }
    text
}

/// Integers in hex, octal and decimal, with signs before them and of their own, and with zeros.
fn integers() -> impl Iterator<Item = String> {
    let values = BITS
        .into_iter()
        .flat_map(|bit| AWAY.map(|away| (1 << bit) + away));
    let written = values
        .filter(|&value| value >= 0)
        .flat_map(|value| integer(value as u128));
    written.flat_map(|[prefix, digits]| {
        let signs = SIGNS[..3].iter();
        signs.flat_map(move |sign| {
            let front = [sign, &prefix[..]].concat();
            let digits = digits.clone();
            SIGNS
                .into_iter()
                .flat_map(move |own| ["", "0", "00000000"].map(|zeros| [own, zeros].concat()))
                .map(move |own| [&front[..], &own, &digits].concat())
        })
    })
}

/// An integer in each notation: what stands before its own sign, and its digits.
fn integer(value: u128) -> [[String; 2]; 4] {
    let written = [
        ("0x", format!("{value:x}")),
        ("0X", format!("{value:X}")),
        ("0", format!("{value:o}")),
        ("", value.to_string()),
    ];
    written.map(|(prefix, digits)| [prefix.into(), digits])
}

/// The names in every case, with each sign.
pub(super) fn names() -> impl Iterator<Item = String> {
    NAMES.iter().flat_map(|name| {
        (0..1 << name.len()).flat_map(move |upper| {
            let cased = name.chars().enumerate().map(|(place, c)| {
                let cases = [c, c.to_ascii_uppercase()];
                cases[upper >> place & 1]
            });
            let cased: String = cased.collect();
            SIGNS.map(|sign| [sign, &cased].concat())
        })
    })
}

/// White space, and what is like it, at every place of each sample; every character of the first plane between two digits.
fn characters() -> impl Iterator<Item = String> {
    let spaced = WHITE_SPACE.into_iter().chain(NO_WHITE_SPACE).flat_map(|c| {
        SAMPLES.iter().flat_map(move |sample| {
            (0..=sample.len()).map(move |place| {
                let (front, back) = sample.split_at(place);
                format!("{front}{c}{back}")
            })
        })
    });
    let plane = (0..=0xffff).filter_map(char::from_u32);
    spaced.chain(plane.map(|c| format!("1{c}5")))
}

/// The text with a byte removed and doubled, and with each piece in its place and before it, at each place.
pub(super) fn near(text: &[u8], pieces: &[&str]) -> Vec<Vec<u8>> {
    let mut texts = vec![text.to_vec()];
    for place in 0..=text.len() {
        let part = place..text.len().min(place + 1);
        let doubled = text[part.clone()].repeat(2);
        texts.push(replaced(text, part.clone(), &[]));
        texts.push(replaced(text, part.clone(), &doubled));
        for piece in pieces {
            texts.push(replaced(text, part.clone(), piece.as_bytes()));
            texts.push(replaced(text, place..place, piece.as_bytes()));
        }
    }
    texts
}

/// Runs of each length up to the limit, whole and with something behind them.
fn long() -> impl Iterator<Item = String> {
    let ends = ["", " ", "0", "8", "x", "."];
    let runs = (0..=MOST_NUMBER_BYTES).flat_map(runs);
    runs.flat_map(move |text| ends.map(|end| [&text, end].concat()))
}

/// So many times the same digit or white space, at each place of a number.
fn runs(count: usize) -> [String; 24] {
    let run = |piece: &str| piece.repeat(count);
    let (zeros, nines, more) = (run("0"), run("9"), count + 1);
    [
        zeros.clone(),
        nines.clone(),
        format!("-{zeros}8"),
        format!("{zeros}1"),
        format!("1{zeros}"),
        format!("1{zeros}e-{count}"),
        format!("-9007199254740993{zeros}e-{count}"),
        format!("{zeros}.{zeros}"),
        format!("{zeros}9.5"),
        format!("0.{zeros}1e{more}"),
        format!("-.{zeros}25e+{count}"),
        format!("9007199254740992.{zeros}"),
        format!("1e{zeros}22"),
        format!("1e-{zeros}23"),
        format!("1e{nines}"),
        format!("1.5e-{nines}"),
        format!("0e+{nines}"),
        format!("-0.0e-{nines}"),
        format!("0x{zeros}1f"),
        format!("-0x-{}", run("F")),
        format!("-0{zeros}17"),
        format!("0-{}", run("7")),
        format!("1{}5", run(" ")),
        format!("-{}0x5", run("\u{3000}")),
    ]
}

/// What is not UTF-8, alone and in a number.
fn not_utf8() -> impl Iterator<Item = Vec<u8>> {
    let texts = table_ends().into_iter().chain(cut_characters());
    texts.flat_map(|text| {
        let around = [["", ""], ["1", "5"], ["0x", ""], ["\u{2003}1", "\u{2003}"]];
        around.map(|[front, back]| [front.as_bytes(), &text, back.as_bytes()].concat())
    })
}

/// Samples, filled up to lengths around the limit; whole, and with a byte that is wrong.
pub(super) fn padded(samples: &'static [&str]) -> impl Iterator<Item = Vec<u8>> {
    (MOST_NUMBER_BYTES - 6..=MOST_NUMBER_BYTES + 2).flat_map(move |length| {
        samples.iter().flat_map(move |sample| {
            let missing = length - sample.len();
            let filled = [
                " ".repeat(missing) + sample,
                "0".repeat(missing) + sample,
                "\u{2003}".repeat(missing / 3) + &" ".repeat(missing % 3) + sample,
                sample.to_string() + &"0".repeat(missing),
                sample.to_string() + &"\u{a0}".repeat(missing / 2) + &" ".repeat(missing % 2),
            ];
            filled.into_iter().flat_map(|text| {
                let text = text.into_bytes();
                let places = [0, text.len() / 2, text.len() - 1];
                let broken = places.map(|place| replaced(&text, place..place + 1, b"\xff"));
                iter::once(text).chain(broken)
            })
        })
    })
}

/// Random texts without end: rounds of numbers of each kind, with random white space and case, whole and spoiled, and of what
/// is hardly one.
pub fn random(seed: u64) -> impl Iterator<Item = Vec<u8>> {
    let mut random = Random::new(seed);
    iter::repeat_with(move || round(&mut random)).flatten()
}

/// One round of random texts.
fn round(random: &mut Random) -> Vec<Vec<u8>> {
    let numbers = [
        any_decimal(random),
        any_exact(random),
        any_exact(random),
        any_integer(random),
        any_integer(random),
    ];
    let mut texts = Vec::new();
    for number in numbers {
        texts.push(spoiled(random, number.as_bytes(), &PIECES));
        texts.push(dressed(random, &number).into_bytes());
        texts.push(number.into_bytes());
    }
    let count = random.below(12);
    let row: String = (0..count).map(|_| random.one_of(&PIECES)).collect();
    texts.push(row.into_bytes());
    texts.push((0..count).map(|_| random.byte()).collect());
    texts.push(well_formed(random));
    texts
}

/// Up to so many decimal digits; one in 16 times up to 120.
pub(super) fn digits(random: &mut Random, most: usize) -> String {
    let most = if random.below(16) == 0 { 120 } else { most };
    let count = random.below(most + 1);
    let digit = |_| char::from(random.one_of(b"0123456789"));
    (0..count).map(digit).collect()
}

/// A decimal with digits in any number, with or without a point and an exponent.
pub(super) fn any_decimal(random: &mut Random) -> String {
    let sign = random.one_of(&SIGNS[..3]);
    let whole = digits(random, 18);
    let point = random.one_of(&["", "."]);
    let part = digits(random, 6);
    let mark = random.one_of(&["", "e", "e-", "e+"]);
    let exponent = match mark {
        "" => String::new(),
        _ => digits(random, 2),
    };
    [sign, &whole, point, &part, mark, &exponent].concat()
}

/// A decimal with a value in or near the exact range, in any spelling.
pub(super) fn any_exact(random: &mut Random) -> String {
    let near = (1 << 53) - 8 + random.below(16) as u64;
    let number = random.number() >> (8 + random.below(56));
    let digits = random.one_of(&[near, number, number]).to_string();
    let most = random.one_of(&[1, 4, 60]);
    let zeros = [random.below(most), random.below(most)];
    let length = zeros[0] + digits.len() + zeros[1];
    let point = random.below(length + 1);
    let point = random.one_of(&[None, Some(point)]);
    let scale = random.below(52) as i64 - 26;
    let sign = random.one_of(&SIGNS[..3]);
    sign.to_string() + &spelled(&digits, scale, zeros, point)
}

/// An integer in hex or octal, with signs.
fn any_integer(random: &mut Random) -> String {
    let value = u128::from(random.number() >> random.below(64)) << random.below(3);
    let [prefix, digits] = integer(value)[random.below(3)].clone();
    let signs = [3, SIGNS.len()].map(|most| random.one_of(&SIGNS[..most]));
    [signs[0], &prefix, signs[1], &digits].concat()
}

/// The text with letters of random case, and with white space at random places.
fn dressed(random: &mut Random, text: &str) -> String {
    let often = 1 + random.below(8);
    let mut dressed = String::new();
    for c in text.chars() {
        if random.below(often) == 0 {
            dressed.push(random.one_of(&WHITE_SPACE));
        }
        dressed.push(random.one_of(&[c, c.to_ascii_uppercase()]));
    }
    dressed
}

/// The text with up to three bytes changed, removed, or put in.
pub(super) fn spoiled(random: &mut Random, text: &[u8], pieces: &[&str]) -> Vec<u8> {
    let mut spoiled = text.to_vec();
    for _ in 0..1 + random.below(3) {
        let place = random.below(spoiled.len() + 1);
        let end = spoiled.len().min(place + random.below(2));
        let piece = random.one_of(pieces).as_bytes();
        let byte = &[random.byte()][..];
        let bytes = random.one_of(&[&[][..], byte, piece, piece]);
        spoiled = replaced(&spoiled, place..end, bytes);
    }
    spoiled
}
