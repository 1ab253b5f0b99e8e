//! The library as a program in Rust meets it.

#[cfg(feature = "nodes")]
mod allocator;
mod codecs;
#[cfg(feature = "nodes")]
mod commander;
#[cfg(feature = "nodes")]
mod commanding;
mod common;
#[cfg(feature = "nodes")]
mod link;
mod machines;
#[cfg(feature = "nodes")]
mod memory;
#[cfg(feature = "nodes")]
mod nodes;
mod restarts;
mod shown;
mod telemetry;
mod tool;
