//! What the two programs share: the generated texts, and the answers of the Rust and of Go.
//! Nothing here calls our functions.

// Not among the dependencies: the build script says where it is.
#[cfg(feature = "promql")]
extern crate promql;

pub mod oracle;
pub mod random;
pub mod texts;
