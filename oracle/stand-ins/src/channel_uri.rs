//! Stand-in: a name that `utils/errors/mod.rs` mentions.
#[derive(Debug)]
pub enum State {}
