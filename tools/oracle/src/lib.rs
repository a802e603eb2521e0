//! What 01 and 02 ask for and the given Rust does not tell, from its tokens and events: the token of each event, the tree, the parts of numbers, the values of
//! associations.
pub mod parts;
pub mod pushes;
pub mod tree;
pub mod values;
