//! Iterators over the runs, the gaps and the members of a set.

mod gaps;
mod members;
mod runs;

pub use gaps::Gaps;
pub use members::{IntoIter, Iter, IterIn};
pub use runs::{IntoRuns, Runs, RunsIn, Spans};
