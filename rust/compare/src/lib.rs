//! Runs Ducatbriar against kermit. `main.rs` says how to run them, each file what it compares.
//!
//! What kermit does not have (refusals, damaged words, probes under document 01's halving rule) is held to `model.rs`, which is written from that document,
//! and table files, laid-over tables, tables in another order, recorded listings and joins a window at a time to `model_files.rs`, `model_overlay.rs`,
//! `model_orders.rs`, `model_verdicts.rs` and `model_after.rs`, which are written from document 02.
//! Intended differences stand in docs/DIFFERENCES.md. Any other difference fails.
#[cfg(kermit)]
pub mod after;
#[cfg(kermit)]
pub mod case;
#[cfg(kermit)]
pub mod changes;
#[cfg(kermit)]
pub mod cursors;
#[cfg(kermit)]
pub mod damage;
#[cfg(kermit)]
pub mod files;
#[cfg(kermit)]
pub mod joins;
#[cfg(kermit)]
pub mod kermit;
#[cfg(kermit)]
pub mod model;
#[cfg(kermit)]
pub mod model_after;
#[cfg(kermit)]
pub mod model_files;
#[cfg(kermit)]
pub mod model_orders;
#[cfg(kermit)]
pub mod model_overlay;
#[cfg(kermit)]
pub mod model_verdicts;
#[cfg(kermit)]
pub mod orders;
#[cfg(kermit)]
pub mod overlay;
#[cfg(kermit)]
pub mod overlay_joins;
#[cfg(kermit)]
pub mod rng;
#[cfg(kermit)]
pub mod runs;
#[cfg(kermit)]
pub mod seeks;
#[cfg(kermit)]
pub mod tables;
#[cfg(kermit)]
pub mod verdicts;
