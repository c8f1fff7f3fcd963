//! A second, independent program beside the planner: its own reader, level run and planners,
//! generators of circuits and texts, and the comparison of both programs.

pub mod augmenting;
pub mod circuit;
pub mod compare;
pub mod exhaustive;
pub mod flow;
pub mod format;
pub mod generate;
pub mod levels;
pub mod planner;
pub mod planning;
pub mod printed;
pub mod random;
pub mod refusal;
pub mod report;
pub mod rng;
pub mod routes;
