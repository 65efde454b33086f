//! The port's functions under C names, for measure.c and vectors.c.
use elementary::NormalLaw;

#[no_mangle]
pub extern "C" fn port_exp(x: f64) -> f64 {
    elementary::exp(x)
}
#[no_mangle]
pub extern "C" fn port_ln(x: f64) -> f64 {
    elementary::ln(x)
}
#[no_mangle]
pub extern "C" fn port_ln_1p(x: f64) -> f64 {
    elementary::ln_1p(x)
}
#[no_mangle]
pub extern "C" fn port_atan(x: f64) -> f64 {
    elementary::atan(x)
}
/// Word i of the table that ln_1p and atan share.
#[no_mangle]
pub extern "C" fn port_point(i: usize) -> f64 {
    elementary::points::points()[i]
}
#[no_mangle]
pub extern "C" fn port_sin(x: f64) -> f64 {
    elementary::sin(x)
}
#[no_mangle]
pub extern "C" fn port_lower_tail(mean: f64, variance: f64, x: f64) -> f64 {
    elementary::lower_tail(NormalLaw { mean, variance }, x)
}
#[no_mangle]
pub extern "C" fn port_upper_tail(mean: f64, variance: f64, x: f64) -> f64 {
    elementary::upper_tail(NormalLaw { mean, variance }, x)
}
