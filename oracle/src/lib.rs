//! The Rust as oracle: page texts in, document 01's answers out, with lists of fixed answers.

pub mod call_list;
pub mod compare;
pub mod desk;
pub mod desk_words;
pub mod digest;
pub mod findings;
pub mod layer;
pub mod listing;
pub mod page;
pub mod page_list;
pub mod page_text;
pub mod pages;
pub mod random;
pub mod segments;
