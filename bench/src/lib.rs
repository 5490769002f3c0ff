//! The proved engine measured against a splitter of the same method tuned by hand, on the same
//! sales in the same run. Rests on the bindings for the engine; `reference` makes the sales.

pub mod cleared;
pub mod clusters;
pub mod plot;
pub mod tuned;
pub mod workloads;
