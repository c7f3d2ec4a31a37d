//! The original's five files, from the copy that `host/build` makes.

extern crate alloc;

use tpt_thermo_core::error::ThermoError;

#[path = "../target/original/nrtl.rs"]
pub mod nrtl;
#[path = "../target/original/parameters.rs"]
pub mod parameters;
#[path = "../target/original/unifac.rs"]
pub mod unifac;
#[path = "../target/original/uniquac.rs"]
pub mod uniquac;
#[path = "../target/original/wilson.rs"]
pub mod wilson;

/// The check of a composition that every call of a model makes first. The original keeps it to itself.
pub fn check_composition(x: &[f64]) -> Result<(), ThermoError> {
    parameters::check_composition(x)
}
