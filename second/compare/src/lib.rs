//! The frame library beside the second program: calls, random inputs and the
//! comparison of both answers.

pub mod both;
pub mod calls;
pub mod changes;
pub mod jobs;
pub mod kinds;
pub mod lent;
pub mod library;
pub mod lister;
pub mod maps;
pub mod prng;
pub mod records;
pub mod small;
pub mod tally;
pub mod terminals;
