//! Stands in for the crate `tpt_thermo_core`: the names of it that the five files use, and no more.

pub mod error {
    /// What a constructor or a call refuses with.
    #[derive(Debug, Clone, Copy, PartialEq, Eq)]
    pub enum ThermoError {
        InvalidInput(&'static str),
    }
}

pub mod quantities {
    /// An absolute temperature in kelvin.
    #[derive(Debug, Clone, Copy)]
    pub struct Temperature {
        pub value: f64,
    }

    /// A pressure in pascal. None of the compared calls takes one.
    #[derive(Debug, Clone, Copy)]
    pub struct Pressure {
        pub value: f64,
    }
}

pub mod mixing {
    use crate::error::ThermoError;
    use crate::quantities::{Pressure, Temperature};

    /// The trait that each model implements. None of the compared calls goes through it.
    pub trait ExcessGibbsModel {
        fn num_components(&self) -> usize;

        fn reduced_excess_gibbs(
            &self,
            t: Temperature,
            p: Pressure,
            x: &[f64],
        ) -> Result<f64, ThermoError>;

        fn ln_gamma(
            &self,
            t: Temperature,
            p: Pressure,
            x: &[f64],
            i: usize,
        ) -> Result<f64, ThermoError>;
    }
}
