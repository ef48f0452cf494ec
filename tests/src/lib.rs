//! Another implementation of the levelling book, written from documents 01 and 02 alone; the tests compare the proved one with it.
//!
//! The other implementation: `fraction`, `constants`, `station`, `collimation`, `rules`, `plain`, `standing`, `closing`, `adjust`, `figures`, and for texts `text`,
//! `write`, `report`, for the plotter `profile`, for warnings `drift`, for a run shot again `repeat`.
//! Inputs for comparisons: `random`, `lent`, `examples`, `opening`, `fixed`, for lists of calls `wished`, `angles`, `measured`, `caller`, `at_limits`, `mistakes`, `work`,
//! `lifted`, `generate`, `mutate`, and for texts `damage`, `largest`. Both implementations on one of them: `both`. The programs: `programs`.

pub mod adjust;
pub mod angles;
pub mod at_limits;
pub mod both;
pub mod closing;
pub mod collimation;
pub mod constants;
pub mod damage;
pub mod drift;
pub mod examples;
pub mod figures;
pub mod fixed;
pub mod fraction;
pub mod generate;
pub mod largest;
pub mod lent;
pub mod lifted;
pub mod measured;
pub mod mutate;
pub mod opening;
pub mod caller;
pub mod plain;
pub mod profile;
pub mod programs;
pub mod random;
pub mod repeat;
pub mod report;
pub mod rules;
pub mod wished;
pub mod standing;
pub mod station;
pub mod text;
pub mod mistakes;
pub mod work;
pub mod write;
