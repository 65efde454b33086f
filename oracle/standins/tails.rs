//! The standard normal law's tails by the platform's erfc: P(Z > z) = erfc(z / sqrt 2) / 2.
//! z / sqrt 2 is carried in two parts, since erfc turns a rounding of a large argument into many
//! units in the last place.
extern "C" {
    fn erfc(x: f64) -> f64;
}

/// 1 / sqrt 2 less `FRAC_1_SQRT_2`, its nearest f64.
const HALF_ROOT_REST: f64 = -4.833646656726457e-17;

pub fn upper(z: f64) -> f64 {
    let near = z * std::f64::consts::FRAC_1_SQRT_2;
    // Past 40 the tail is below the smallest f64, and before -40 it rounds to 1.
    if !(near.abs() < 40.0) {
        return 0.5 * unsafe { erfc(near) };
    }
    let rest = z.mul_add(std::f64::consts::FRAC_1_SQRT_2, -near) + z * HALF_ROOT_REST;
    // erfc(t + r) = erfc(t) - r * 2 / sqrt(pi) * exp(-t^2), to the first order.
    let slope = std::f64::consts::FRAC_2_SQRT_PI * (-near * near).exp();
    0.5 * (unsafe { erfc(near) } - rest * slope)
}

pub fn lower(z: f64) -> f64 {
    upper(-z)
}
