//! A second judge, written from docs/ alone, as a second reading of the rules.
//!
//! [`judge_stream`] prints what `bankcheck` prints for the same stream. The
//! modules follow the pages: [`file`] and [`pair`] are FORMAT.md, [`runs`] is
//! RUNS.md, [`models`] is MODELS.md, [`steps`] and [`case`] are STEPS.md,
//! [`refusal`] is REFUSALS.md and [`stream`] is STREAM.md.

pub mod case;
pub mod file;
pub mod models;
pub mod pair;
pub mod refusal;
pub mod runs;
pub mod steps;
pub mod stream;

#[cfg(test)]
mod tests;

pub use case::{Case, Report};
pub use models::{Access, Kind, Model, Removal};
pub use pair::{Limits, Pair, Snippet};
pub use refusal::{Cause, Refusal};
pub use runs::{Event, Registers, Run};
pub use steps::{HandIn, Rewrite, Rule, Step};
pub use stream::judge_stream;
