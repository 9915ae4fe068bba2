//! Tables for comparing engines: a builder, the small tables of documents 01 and 02, benchmark
//! tables, random accepted tables and damaged ones; the transitions that a copied automaton has, and
//! how long piles become along a run.

pub mod bench;
pub mod damage;
pub mod named;
pub mod random;
pub mod searches;
pub mod starts;

mod copies;
mod model;
mod piles;
mod rng;

pub use copies::NARROW;
pub use model::{
    BODY, Group, NO_PART, Process, Rule, Table, Transition, WRITTEN_PLACES, drop_twin, group,
    overlay, restrict,
};
pub use rng::Rng;
