//! How deep in parentheses each lexeme stands: a second reading of document 02's sentence (L7). The Rust's lexemes say no depth, so
//! it is counted from their kinds: the `(` before a lexeme, less the `)` up to and with it. That is what is open before it, and for
//! a `)` what is left open after it.

/// The depths of lexemes of these kinds. Which of them are parentheses is told by the Rust's own texts of kinds.
pub fn depths(kinds: &[u16]) -> Vec<u32> {
    let (mut opened, mut closed) = (0, 0);
    let depth = |&kind: &u16| {
        let shown = promql::display(kind);
        closed += u32::from(shown == ")");
        assert!(closed <= opened, "the Rust takes a ) that closes nothing");
        let depth = opened - closed;
        opened += u32::from(shown == "(");
        depth
    };
    kinds.iter().map(depth).collect()
}
