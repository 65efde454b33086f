//! Answers a question of measure/imhof/limit. Numbers are given and printed by their bits.
//! limit integral COUNT WEIGHT LOW HIGH: COUNT weights, each WEIGHT, from LOW to HIGH: value, error, bisections, evaluations, small; `broken` where a number is not finite
//! limit small ERROR BISECTIONS: what is_small says of an integral with these
use floats::tally::Tally;
use imhof::adaptive::{integrate, is_small};
use imhof::{Integral, NotFinite};

fn number(word: &str) -> Option<f64> {
    u64::from_str_radix(word, 16).ok().filter(|_| word.len() == 16).map(f64::from_bits)
}

fn answer(words: &[&str]) -> Option<String> {
    match *words {
        ["integral", count, weight, low, high] => {
            let weights = vec![number(weight)?; count.parse().ok()?];
            Some(match integrate(&weights, number(low)?, number(high)?, &mut vec![0.0; 8004]) {
                Ok(i) => {
                    let Tally { bisections, evaluations, .. } = i.tally;
                    format!("{:016x} {:016x} {bisections} {evaluations} {}", i.value.to_bits(), i.error.to_bits(), is_small(i) as u8)
                }
                Err(NotFinite) => "broken".to_string(),
            })
        }
        ["small", error, bisections] => {
            let tally = Tally { sweeps: 0, bisections: bisections.parse().ok()?, evaluations: 0 };
            Some(format!("{}", is_small(Integral { value: 0.0, error: number(error)?, tally }) as u8))
        }
        _ => None,
    }
}

fn main() {
    let words: Vec<String> = std::env::args().skip(1).collect();
    let Some(answer) = answer(&words.iter().map(String::as_str).collect::<Vec<_>>()) else {
        eprintln!("usage: limit integral COUNT WEIGHT LOW HIGH | limit small ERROR BISECTIONS");
        std::process::exit(2);
    };
    println!("{answer}");
}
