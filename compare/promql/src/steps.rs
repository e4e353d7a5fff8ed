//! The Rust's lexer, step by step, with the places of its own. This is a module of lex.rs, and so sees what is private there.

use super::Lexer;

/// A byte offset and a character number, the lexer's `pos` and `idx`.
pub type Place = (usize, usize);

/// What the lexer makes of a query.
pub struct Steps {
    /// The kind, start and length of each lexeme; with an error, of those before it.
    pub lexemes: Vec<(u16, usize, usize)>,
    pub stopped: Option<Stopped>,
}

/// The steps of a query: those that `lexer` collects.
pub fn steps(query: &str) -> Steps {
    let mut lexer = Lexer::new(query);
    let mut lexemes = Vec::new();
    while let Some(step) = lexer.next() {
        match step {
            Ok(lexeme) => lexemes.push((lexeme.kind, lexeme.start, lexeme.len)),
            Err(said) => {
                let stopped = Some(Stopped { said, lexer });
                return Steps { lexemes, stopped };
            }
        }
    }
    Steps {
        lexemes,
        stopped: None,
    }
}

/// An error: what the lexer says, and the lexer as it is then.
pub struct Stopped {
    pub said: String,
    lexer: Lexer,
}

impl Stopped {
    /// Where the text begins that no lexeme has yet.
    pub fn start(&self) -> usize {
        self.lexer.ctx.start
    }

    /// Where the lexer has come to: it has looked at the next character, and not taken it.
    pub fn next(&mut self) -> Place {
        (self.lexer.ctx.pos, self.lexer.ctx.idx)
    }

    /// The end, which the lexer has come to.
    pub fn end(&mut self) -> Place {
        assert_eq!(self.lexer.peek(), None, "{:?}", self.said);
        self.next()
    }

    /// The character that the lexer took last.
    pub fn last(&mut self) -> Place {
        assert!(self.lexer.backup(), "{:?}", self.said);
        let last = self.next();
        self.lexer.pop();
        last
    }

    /// Where the lexer came to in what is neither a number nor a duration, before it took one more character to tell of. What
    /// it took is given back, and read again.
    pub fn not_taken(&mut self) -> Place {
        while self.lexer.ctx.pos > self.lexer.ctx.start {
            self.lexer.backup();
        }
        let taken = self.lexer.scan_number() || self.lexer.accept_remaining_duration();
        assert!(!taken, "{:?}", self.said);
        self.next()
    }
}
