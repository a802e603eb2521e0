//! Texts for the tools: words of AADL, every sequence of some pieces, texts at random from a seed, and families of all of them;
//! and which strings are not closed.
pub mod every;
pub mod families;
pub mod lexer;
pub mod random;
pub mod sections;
pub mod strings;
pub mod values;
pub mod words;
