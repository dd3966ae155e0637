//! The oracle's parts: the crate's answers, our own models of document 01, and how lists, texts and
//! damaged tables are made. The program beside this library asks them; the comparison with our own
//! static library (`compare/`) uses them too.

pub mod cases;
pub mod cell_walk;
pub mod compare;
pub mod crate_answers;
pub mod damage;
pub mod dice;
pub mod families;
pub mod lent;
pub mod model;
pub mod notation;
pub mod question;
pub mod refusals;
pub mod sample;
pub mod tables;
pub mod wild;
pub mod yard;
