//! docs/GUIDE.md against the tree: its names and links, its tables of refusals and of
//! their order, of the header's bits and of sizes.

mod bits;
mod layers;
mod names;
mod orders;
mod page;
mod refusals;
