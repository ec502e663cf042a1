//! Differential tests: cases made out of a seed are played on two implementations, and every answer, state, image and
//! output byte is compared.

pub mod author;
pub mod case;
pub mod coverage;
pub mod damage;
pub mod draft;
pub mod faults;
pub mod feeding;
pub mod limits;
pub mod line_damage;
pub mod long;
pub mod lookups;
pub mod names;
pub mod pieces;
pub mod play;
pub mod rng;
pub mod run;
pub mod spelling;
pub mod states;
pub mod tape;
pub mod told;
