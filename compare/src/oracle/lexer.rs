//! Lexing by the Rust's lex.rs, and what document 01 has beside it: the limit, the room, the number of each refusal, and which
//! of the places that the Rust comes to is its place. Every lexeme and every place is the Rust's; the depths are counted from its
//! kinds (`depth`). There are no known differences.

use super::depth::depths;
use super::utf8::admitted;
use super::{Answer, NO_ROOM};
use promql::{Place, Stopped};

/// Which of the places that the Rust comes to is that of a refusal.
type At = fn(&mut Stopped) -> Place;

/// The number of a refusal, and what the Rust says. There `{}` stands for the character at the refusal's place, `{:?}` for that
/// as Rust shows it, `{text}` for the lexeme up to and with that character, and `{sign}` for the lexeme's first.
type Row = (u8, &'static str);

/// The number of the refusal of what is neither a number nor a duration, and what the Rust says of it.
const BAD_NUMERAL: u8 = 20;
const SAID_OF_NUMERAL: &str = "bad number or duration syntax: {text}";

/// The refusals of the reading, by their places.
const REFUSALS: [(At, &[Row]); 4] = [
    (
        Stopped::end,
        &[
            (10, "unclosed left parenthesis"),
            (13, "'!' can not be at the end"),
            (22, "escape sequence not terminated"),
            (23, "unterminated quoted string {sign}"),
            (27, "unexpected end of input inside braces"),
            (32, "unexpected end of input inside brackets"),
        ],
    ),
    (
        Stopped::next,
        &[
            (11, "unexpected character after '=': '{}'"),
            (14, "unexpected character after '.': '{}'"),
        ],
    ),
    (
        Stopped::last,
        &[
            (12, "unexpected character after '!': '{}'"),
            (15, "unexpected character: '.'"),
            (16, "unexpected right parenthesis '{}'"),
            (17, "unexpected right brace '{}'"),
            (18, "unexpected right bracket '{}'"),
            (19, "unexpected character: {:?}"),
            (21, "unknown escape sequence '{}'"),
            (24, "unexpected character after '!' inside braces: '{}'"),
            (25, "unexpected left brace '{}' inside braces"),
            (26, "unexpected character inside braces: '{}'"),
            (28, "unexpected second colon({}) in brackets"),
            (29, "expect duration before first colon({}) in brackets"),
            (30, "unexpected left brace '{}' inside brackets"),
            (31, "unexpected character inside brackets: '{}'"),
        ],
    ),
    (Stopped::not_taken, &[(BAD_NUMERAL, SAID_OF_NUMERAL)]),
];

/// What a query is read as: the kind, start, length and depth of each lexeme, and the refusal behind these where there is one.
#[derive(Default, PartialEq)]
pub struct Lexed {
    pub kinds: Vec<u16>,
    pub starts: Vec<u32>,
    pub lengths: Vec<u32>,
    pub depths: Vec<u32>,
    refused: Option<Answer>,
    said: Option<String>,
    /// Where the text begins that no lexeme has.
    rest: usize,
}

impl Lexed {
    /// What the query of these bytes is read as.
    pub fn new(bytes: &[u8]) -> Self {
        match admitted(bytes) {
            Ok(query) => Lexed::of(query),
            Err(refused) => Lexed {
                refused: Some(refused),
                ..Lexed::default()
            },
        }
    }

    /// What a query is read as that is UTF-8 within the limit. The steps must come to what the Rust's public function gives.
    pub(super) fn of(query: &str) -> Self {
        let steps = promql::steps(query);
        let rest = steps.stopped.as_ref().map_or(0, Stopped::start);
        let stepped = match &steps.stopped {
            Some(stopped) => Err(&stopped.said),
            None => Ok(&steps.lexemes),
        };
        assert_eq!(promql::lexemes(query).as_ref(), stepped, "{query:?}");
        let said = stepped.err().cloned();
        let lexemes = steps.lexemes.iter();
        let kinds: Vec<u16> = lexemes.clone().map(|lexeme| lexeme.0).collect();
        Lexed {
            depths: depths(&kinds),
            kinds,
            starts: lexemes.clone().map(|lexeme| lexeme.1 as u32).collect(),
            lengths: lexemes.map(|lexeme| lexeme.2 as u32).collect(),
            refused: steps.stopped.map(|stopped| refusal(query, stopped)),
            said,
            rest,
        }
    }

    /// Where what is neither a number nor a duration begins, and where it goes wrong; none where nothing is refused for that.
    pub(super) fn bad_numeral(&self) -> Option<(usize, usize)> {
        match self.refused {
            Some(Answer::Refused(BAD_NUMERAL, byte, _)) => Some((self.rest, byte.into())),
            _ => None,
        }
    }

    /// Where the text begins that no lexeme has; none where the query is accepted.
    pub(super) fn rest(&self) -> Option<usize> {
        self.refused.map(|_| self.rest)
    }

    /// The same lexemes, and behind them, from byte `start` of a query, what is neither and goes wrong at another place.
    pub(super) fn with_bad_numeral(
        self,
        query: &str,
        start: usize,
        byte: usize,
        character: u64,
    ) -> Self {
        let said = filled(SAID_OF_NUMERAL, query, start, byte);
        Lexed {
            refused: Some(Answer::Refused(BAD_NUMERAL, byte as u16, character as u16)),
            said: Some(said),
            ..self
        }
    }

    /// How many lexemes there are, or are before the refusal.
    pub fn count(&self) -> usize {
        self.kinds.len()
    }

    /// What the Rust says of a bad query.
    pub fn said(&self) -> Option<&str> {
        self.said.as_deref()
    }

    /// The answer where there is room for so many.
    pub fn answer(&self, room: u64) -> Answer {
        let count = self.count() as u64;
        match self.refused {
            Some(refused) => refused,
            None if count > room => Answer::refused(NO_ROOM),
            None => Answer::Value(count),
        }
    }

    /// Writes the lexemes to the fronts of the lists: how many they are.
    pub fn write(
        &self,
        kinds: &mut [u16],
        starts: &mut [u32],
        lengths: &mut [u32],
        depths: &mut [u32],
    ) -> Answer {
        let rooms = [kinds.len(), starts.len(), lengths.len(), depths.len()];
        let room = rooms.into_iter().fold(usize::MAX, usize::min);
        let answer = self.answer(room as u64);
        if let Answer::Value(_) = answer {
            kinds[..self.count()].copy_from_slice(&self.kinds);
            starts[..self.count()].copy_from_slice(&self.starts);
            lengths[..self.count()].copy_from_slice(&self.lengths);
            depths[..self.count()].copy_from_slice(&self.depths);
        }
        answer
    }
}

/// The refusal of a query that the Rust stopped in. What the Rust says must be what it says of that place.
fn refusal(query: &str, mut stopped: Stopped) -> Answer {
    let said = stopped.said.clone();
    let found = REFUSALS.iter().find_map(|(at, rows)| {
        let row = rows.iter().find(|(_, says)| may_be(says, &said))?;
        Some((at, row))
    });
    let (at, (number, says)) =
        found.unwrap_or_else(|| panic!("the Rust says {said:?} of {query:?}"));
    let start = stopped.start();
    let (byte, character) = at(&mut stopped);
    assert_eq!(said, filled(says, query, start, byte), "{query:?}");
    Answer::Refused(*number, byte as u16, character as u16)
}

/// Whether something said begins and ends as a row does.
fn may_be(row: &str, said: &str) -> bool {
    let front = row.split('{').next().unwrap_or_default();
    let back = row.rsplit('}').next().unwrap_or_default();
    said.starts_with(front) && said.ends_with(back)
}

/// A row, filled for a lexeme that begins at byte `start` of a query, and for a place at byte `at`.
fn filled(row: &str, query: &str, start: usize, at: usize) -> String {
    let first = query[start..].chars().next();
    let named = query[at..].chars().next();
    let end = at + named.map_or(0, char::len_utf8);
    row.replace("{}", &query[at..end])
        .replace("{:?}", &named.map_or(String::new(), |c| format!("{c:?}")))
        .replace("{sign}", &first.map_or(String::new(), String::from))
        .replace("{text}", &query[start..end])
}
