//! A second program for document 01, and K2, K4, K7 and K9 of document 02, written from the papers alone, to check another
//! one against. Straight loops in the order of the document; nothing here is made to be fast.

pub mod calls;
pub mod cases;
pub mod checks;
pub mod crafted;
pub mod damages;
pub mod edges;
pub mod families;
pub mod frames;
pub mod hex;
pub mod history;
pub mod judge;
pub mod lent;
pub mod loops;
pub mod numbers;
pub mod oddities;
pub mod parts;
pub mod read;
pub mod rng;
pub mod script;
pub mod search;
pub mod solve;
pub mod tasks;
pub mod texts;
pub mod ties;
pub mod tile;
pub mod vectors;
pub mod write;
pub mod writer;
pub mod writings;
