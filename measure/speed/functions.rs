//! Calls one function at many arguments. Usage: functions FUNCTION ARGUMENTS CALLS
//! FUNCTION: exp, ln, ln_1p, atan or sin, after `kit_` (the port as the kit compiles it), `rust_` (its sources by rustc) or `platform_` (the
//! C library's); or `same`, which gives its argument back: what it takes is to be taken off.
use std::hint::black_box;

#[link(name = "counted", kind = "static")]
extern "C" {
    fn counted_exp(x: f64) -> f64;
    fn counted_ln(x: f64) -> f64;
    fn counted_ln_1p(x: f64) -> f64;
    fn counted_atan(x: f64) -> f64;
    fn counted_sin(x: f64) -> f64;
}
extern "C" {
    fn exp(x: f64) -> f64;
    fn log(x: f64) -> f64;
    fn log1p(x: f64) -> f64;
    fn atan(x: f64) -> f64;
    fn sin(x: f64) -> f64;
}

fn function(name: &str) -> Option<fn(f64) -> f64> {
    Some(match name {
        "same" => |x| x,
        "kit_exp" => |x| unsafe { counted_exp(x) },
        "kit_ln" => |x| unsafe { counted_ln(x) },
        "kit_ln_1p" => |x| unsafe { counted_ln_1p(x) },
        "kit_atan" => |x| unsafe { counted_atan(x) },
        "kit_sin" => |x| unsafe { counted_sin(x) },
        "rust_exp" => elementary::exp,
        "rust_ln" => elementary::ln,
        "rust_ln_1p" => elementary::ln_1p,
        "rust_atan" => elementary::atan,
        "rust_sin" => elementary::sin,
        "platform_exp" => |x| unsafe { exp(x) },
        "platform_ln" => |x| unsafe { log(x) },
        "platform_ln_1p" => |x| unsafe { log1p(x) },
        "platform_atan" => |x| unsafe { atan(x) },
        "platform_sin" => |x| unsafe { sin(x) },
        _ => return None,
    })
}

/// Numbers from 0 up to 1, the same in each run.
struct Draws(u64);

impl Draws {
    fn next(&mut self) -> f64 {
        self.0 ^= self.0 << 13;
        self.0 ^= self.0 >> 7;
        self.0 ^= self.0 << 17;
        (self.0 >> 11) as f64 / 9007199254740992.0
    }

    fn between(&mut self, low: f64, high: f64) -> f64 {
        low + (high - low) * self.next()
    }

    /// The integrand's v u: a weight from 1e-3 to 4, of both signs, times e^s.
    fn weighted(&mut self, low: f64, high: f64) -> f64 {
        let weight = self.between(1e-3, 4.0);
        let signed = if self.next() < 0.5 { -weight } else { weight };
        signed * elementary::exp(self.between(low, high))
    }
}

/// An argument of the family. `met`: as the integrand meets it, s from -30 to 60. `middle`: s from -3 to 3, where most evaluations are.
fn argument(family: &str, d: &mut Draws) -> Option<f64> {
    Some(match family {
        "weighted" => d.weighted(-30.0, 60.0),
        "weighted_middle" => d.weighted(-3.0, 3.0),
        "squared" => d.weighted(-30.0, 60.0).powi(2),
        "squared_middle" => d.weighted(-3.0, 3.0).powi(2),
        "weight" => d.between(1e-3, 4.0),
        "0_to_3" => d.between(0.0, 3.0),
        "half_to_2" => d.between(0.5, 2.0),
        "3_to_3" => d.between(-3.0, 3.0),
        "30_to_60" => d.between(-30.0, 60.0),
        "1_to_1" => d.between(-1.0, 1.0),
        "256_to_256" => d.between(-256.0, 256.0),
        _ => return None,
    })
}

fn refuse(message: &str) -> ! {
    eprintln!("functions: {message}");
    std::process::exit(2)
}

fn main() {
    let words: Vec<String> = std::env::args().collect();
    if words.len() != 4 {
        refuse("usage: functions FUNCTION ARGUMENTS CALLS");
    }
    let function = function(&words[1]).unwrap_or_else(|| refuse("no such function"));
    let calls: usize = words[3].parse().unwrap_or_else(|_| refuse("the calls are no number"));
    let mut draws = Draws(88172645463325252);
    let arguments: Vec<f64> = (0..calls)
        .map(|_| argument(&words[2], &mut draws).unwrap_or_else(|| refuse("no such arguments")))
        .collect();
    let function = black_box(function);
    let mut sum = 0.0;
    for &x in &arguments {
        sum += function(x);
    }
    println!("{:016x}", sum.to_bits());
}
