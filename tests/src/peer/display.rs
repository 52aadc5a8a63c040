//! One row as figures for the eye.

use super::ranges::{first_outside, ROW};
use super::{refusals, refuse};
use crate::calls::Refusal;

const THOUSAND: f64 = 1_000.0;
const MILLION: f64 = 1_000_000.0;

/// One row in metres, tonnes and square metres, each from one division.
pub fn display(row: &[u64; 7]) -> Result<[f64; 7], Refusal> {
    if let Some(i) = first_outside(row, &ROW) {
        return refuse(refusals::RANGE, i);
    }
    let mut figures = row.map(|number| number as f64 / THOUSAND);
    figures[6] = row[6] as f64 / MILLION;
    Ok(figures)
}
