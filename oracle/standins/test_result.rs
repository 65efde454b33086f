//! Stands in for the Rust's `test_result.rs`, which is not in docs/src: the fields that
//! `durbin_watson_test` fills, and no others.
use crate::parametric::Alternative;

#[derive(Debug, Clone, Default)]
pub struct TestResult {
    pub method: String,
    pub alternative: Option<Alternative>,
    pub statistic: Option<f64>,
    pub p_value: Option<f64>,
    pub n: Option<usize>,
}
