//! Everything a comparison lends is drawn from one seed: grammars, damage to their images, words and records of them, paths, pairings, code points and written rules.

mod context_texts;
mod continuations;
pub mod damage;
pub mod grammars;
pub mod inputs;
pub mod points;
pub mod prng;
pub mod records;
pub mod rule_faults;
pub mod rule_texts;
mod set_damage;
mod sets;
mod tables;
pub mod targets;
mod way_damage;
