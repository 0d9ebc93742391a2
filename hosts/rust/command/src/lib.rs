//! What the program `toruxeng` does, command by command. The program itself reads arguments and files and writes the answers.

pub mod check;
pub mod engine;
pub mod orders;
pub mod pack;
pub mod replay;
pub mod show;
mod words;

/// What a command hands back.
pub struct Done {
    /// For standard output.
    pub output: Vec<u8>,
    /// What is not good about the log or the words, where something is.
    pub wrong: Option<String>,
}
