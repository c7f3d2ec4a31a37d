//! The exported call that the benchmark measures, in a safe wrapper. Nothing checks the declaration against the
//! Rattle source (crates/repeat/src/exports.rt). A slice of bytes passes as a pointer and then its length.

use crate::bench_inputs::Case;

/// What is done before each query, by the exported call's numbers; `Plain` is the plain call in place of a query.
#[derive(Clone, Copy)]
pub enum Change {
    Nothing = 0,
    Entry = 1,
    Temperature = 2,
    Plain = 3,
}

extern "C" {
    fn kiltgrit_repeat(
        model: u8,
        n: usize,
        ng: usize,
        lens: *const u8,
        lens_len: usize,
        groups: *const u8,
        groups_len: usize,
        values: *const u8,
        values_len: usize,
        x: *const u8,
        x_len: usize,
        asked: u32,
        i: usize,
        change: u32,
        v: f64,
        temperatures: *const u8,
        temperatures_len: usize,
    ) -> f64;
}

fn bytes(all: &[f64]) -> Vec<u8> {
    all.iter().flat_map(|v| v.to_le_bytes()).collect()
}

/// A call as the exported call takes it.
pub struct Prepared {
    model: u8,
    n: usize,
    ng: usize,
    lens: Vec<u8>,
    groups: Vec<u8>,
    values: Vec<u8>,
    x: Vec<u8>,
    asked: u32,
    i: usize,
    v: f64,
    t: f64,
}

impl Prepared {
    pub fn new(case: &Case) -> Self {
        let (asked, i) = case.asked();
        Self {
            model: case.model as u8,
            n: case.n,
            ng: case.ng,
            lens: case.lens.clone(),
            groups: case.groups.clone(),
            values: bytes(&case.values),
            x: bytes(&case.x),
            asked,
            i,
            v: case.entry(),
            t: case.t,
        }
    }

    /// The temperatures of so many turns.
    pub fn temperatures(&self, times: usize) -> Vec<u8> {
        bytes(&vec![self.t; times])
    }

    /// A turn at each temperature; the last value.
    pub fn repeat(&self, change: Change, temperatures: &[u8]) -> f64 {
        // SAFETY: each pointer comes from a slice that outlives the call, with the length of that slice. The
        // call has no `requires`.
        unsafe {
            kiltgrit_repeat(
                self.model,
                self.n,
                self.ng,
                self.lens.as_ptr(),
                self.lens.len(),
                self.groups.as_ptr(),
                self.groups.len(),
                self.values.as_ptr(),
                self.values.len(),
                self.x.as_ptr(),
                self.x.len(),
                self.asked,
                self.i,
                change as u32,
                self.v,
                temperatures.as_ptr(),
                temperatures.len(),
            )
        }
    }
}
