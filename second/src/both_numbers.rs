//! The cases of both numbers, clashes and retries: of a wait, or of a row of a sheet.

use crate::cases::{Case, Cases};

pub struct BothNumbers {
    pub clashes: u64,
    pub retries: u64,
}

impl Cases for BothNumbers {
    const CASES: &'static [Case<BothNumbers>] = &[
        ("clashes and retries that differ", |both| {
            both.clashes != both.retries
        }),
        ("a retry", |both| both.retries > 0),
        ("a retry, and more clashes than retries", |both| {
            both.retries > 0 && both.clashes > both.retries
        }),
        ("several retries", |both| both.retries > 1),
    ];

    /// A retry is booked only where a clash is.
    const NEVER: Case<BothNumbers> = ("more retries than clashes", |both| {
        both.retries > both.clashes
    });
}
