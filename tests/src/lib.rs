//! What the proved crates are held to when they are run: models written from document 01 and from requests (a), (b), (d), (e), (f)
//! and (g) of document 02, that share no code and no formula with them, and the little that the tests need to run a program, to lend
//! memory and to draw random numbers.

pub mod array;
pub mod bytewise;
pub mod caller;
pub mod compile;
pub mod contracts;
pub mod definitions;
pub mod documents;
pub mod files;
pub mod flat;
pub mod history;
pub mod images;
pub mod layout;
pub mod memory;
pub mod mentions;
pub mod moves;
pub mod out;
pub mod outage;
pub mod pbm;
pub mod pins;
pub mod points;
pub mod program;
pub mod random;
pub mod reach;
pub mod record;
pub mod replay;
pub mod statements;
pub mod table;
pub mod tally;
pub mod trace;
