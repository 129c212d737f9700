//! Lean does what the papers say: against the model, and where runs stop.

mod fields;
mod sides;
mod streams;
