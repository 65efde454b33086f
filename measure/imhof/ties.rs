//! Finds sets of weights at which two parts share the greatest error to the bit. usage: ties SETS SEED
//! By chance that is rare: none of 20,000 drawn sets has one (README.md). So one weight of a drawn set is moved until another part comes to be split, the place where
//! that happens is halved down to neighbouring doubles, and the doubles around it are tried. A line has a set's weights by their bits.
use imhof::room::Parts;

/// How many doubles on either side are tried.
const NEAR: u64 = 400;

/// The places of the parts that were split, and how many of these had an equal.
fn walk(weights: &[f64]) -> (Vec<usize>, usize) {
    let mut room = vec![0.0; 8004];
    let (low, high) = (weights::range::low_end(weights), weights::range::high_end(weights));
    let mut parts = Parts { room: &mut room, n: 1 };
    parts.put(0, imhof::rule::gk15(weights, low, high));
    let (mut places, mut ties) = (Vec::new(), 0);
    while parts.n < 200 && parts.error_sum() > 5e-12 {
        let worst = parts.worst();
        let part = parts.part_at(worst);
        places.push(worst);
        ties += (0..parts.n).any(|i| i != worst && parts.part_at(i).error == part.error) as usize;
        let halves = imhof::rule::bisect(weights, part);
        parts.replace(worst, halves.left, halves.right);
    }
    (places, ties)
}

/// Whether two walks part ways before either ends.
fn differ(a: &[usize], b: &[usize]) -> bool {
    a.iter().zip(b).any(|(x, y)| x != y)
}

/// Numbers from 0 up to 1, the same in each run.
struct Draws(u64);

impl Draws {
    fn next(&mut self) -> f64 {
        self.0 ^= self.0 << 13;
        self.0 ^= self.0 >> 7;
        self.0 ^= self.0 << 17;
        (self.0 >> 11) as f64 / 9007199254740992.0
    }
}

/// A set with a tie near a drawn one, or None where there is none.
fn tied(d: &mut Draws) -> Option<Vec<f64>> {
    let m = 2 + (d.next() * d.next() * 12.0) as usize;
    let mut weights: Vec<f64> = (0..m).map(|_| 4.0 * d.next() - 2.0).collect();
    weights[1] = -weights[1].abs();
    weights[0] = 0.1 + d.next();
    let first = walk(&weights).0;
    let mut same = weights[0].to_bits();
    let mut other = (weights[0] * (1.0 + d.next())).to_bits();
    let mut at = |pattern: u64| {
        weights[0] = f64::from_bits(pattern);
        walk(&weights)
    };
    if !differ(&first, &at(other).0) {
        return None;
    }
    while other - same > 1 {
        let middle = same + (other - same) / 2;
        if differ(&first, &at(middle).0) {
            other = middle;
        } else {
            same = middle;
        }
    }
    let found = (same - NEAR..other + NEAR).find(|&pattern| at(pattern).1 > 0)?;
    weights[0] = f64::from_bits(found);
    Some(weights)
}

fn main() {
    let words: Vec<u64> = std::env::args().skip(1).filter_map(|word| word.parse().ok()).collect();
    let [sets, seed] = words[..] else {
        eprintln!("usage: ties SETS SEED");
        std::process::exit(2);
    };
    let mut draws = Draws(88172645463325252 ^ seed << 20);
    for weights in std::iter::repeat_with(|| tied(&mut draws)).flatten().take(sets as usize) {
        let bits: Vec<String> = weights.iter().map(|w| format!("{:016x}", w.to_bits())).collect();
        println!("{}", bits.join(" "));
    }
}
