//! The port's root and hypot under C names, for measure.c.
#[no_mangle]
pub extern "C" fn port_sqrt(x: f64) -> f64 {
    roots::sqrt(x)
}
#[no_mangle]
pub extern "C" fn port_hypot(x: f64, y: f64) -> f64 {
    roots::hypot(x, y)
}
