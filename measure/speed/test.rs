//! Calls the test on drawn sheets: one side of the comparison, chosen when it is compiled: `--cfg kit` is the port as the kit compiles it,
//! `--cfg sources` the port's sources as Rust (measure/elementary/port.py), else the Rust of docs/src as rust.py compiles it.
//!
//! test calls ROWS COLUMNS exact|normal SHEETS CALLS   CALLS calls, sheet after sheet; prints the bits of the sum of the p's
//! test stage ROWS COLUMNS STAGE SHEETS CALLS          the same, each call ended after a stage: 0 the statistic, 1 the inverse, 2 M A M,
//!                                                     3 Householder, 4 QL and order, 5 the integral (not with --cfg sources)
//! test time ROWS COLUMNS exact|normal                 the time of a call on the first drawn sheet, in nanoseconds: the best of a tenth of a second; and p's bits
//! test draw                                           writes a full sheet file of 64 sheets to standard output
//! test file                                           answers a sheet file from standard input (the Rust of docs/src alone; the port's own program does it too)
use std::hint::black_box;
use std::time::Instant;

/// Numbers from 0 up to 1, the same in each run.
struct Draws(u64);

impl Draws {
    fn next(&mut self) -> f64 {
        self.0 ^= self.0 << 13;
        self.0 ^= self.0 >> 7;
        self.0 ^= self.0 << 17;
        (self.0 >> 11) as f64 / 9007199254740992.0
    }
}

struct Sheet {
    residuals: Vec<f64>,
    /// Column after column: ones, the row's number, then draws.
    columns: Vec<f64>,
    k: usize,
}

/// A sheet whose residuals have some autocorrelation, so that p is neither 0 nor 1.
fn sheet(draws: &mut Draws, n: usize, k: usize) -> Sheet {
    let mut residuals = Vec::new();
    let mut last = 0.0;
    for _ in 0..n {
        last = 0.2 * last + draws.next() - 0.5;
        residuals.push(last);
    }
    let mut columns = Vec::new();
    for c in 0..k {
        for t in 0..n {
            columns.push(match c {
                0 => 1.0,
                1 => t as f64,
                _ => draws.next() - 0.5,
            });
        }
    }
    Sheet { residuals, columns, k }
}

#[cfg(kit)]
mod side {
    use super::Sheet;

    #[link(name = "tested", kind = "static")]
    extern "C" {
        fn tested_whole(e: *const f64, n: usize, x: *const f64, kn: usize, k: usize, exact: bool, m: *mut f64, m_len: usize, p: *mut f64, p_len: usize) -> f64;
        fn tested_statistic(e: *const f64, n: usize, x: *const f64, kn: usize, rows: usize, k: usize) -> f64;
        fn tested_inverse(x: *const f64, kn: usize, n: usize, k: usize, inverse: *mut f64);
        fn tested_mam(x: *const f64, kn: usize, n: usize, k: usize, inverse: *const f64, m: *mut f64, m_len: usize) -> bool;
        fn tested_tridiagonal(a: *mut f64, a_len: usize, n: usize, d: *mut f64, d_len: usize, e: *mut f64, e_len: usize);
        fn tested_ql(d: *mut f64, d_len: usize, e: *mut f64, e_len: usize, n: usize, k: usize, kept: *mut f64, kept_len: usize) -> usize;
        fn tested_integral(kept: *const f64, count: usize, statistic: f64, p: *mut f64, p_len: usize) -> f64;
    }

    /// The rooms that the port works in.
    pub struct Side {
        matrix: Vec<f64>,
        parts: Vec<f64>,
        d: Vec<f64>,
        e: Vec<f64>,
        kept: Vec<f64>,
        inverse: Vec<f64>,
    }

    impl Side {
        pub fn new() -> Side {
            let run = |length| vec![0.0; length];
            Side { matrix: run(256 * 257), parts: run(8004), d: run(256), e: run(256), kept: run(256), inverse: run(64) }
        }

        pub fn whole(&mut self, s: &Sheet, exact: bool) -> f64 {
            let (e, x, m, p) = (&s.residuals, &s.columns, &mut self.matrix, &mut self.parts);
            unsafe { tested_whole(e.as_ptr(), e.len(), x.as_ptr(), x.len(), s.k, exact, m.as_mut_ptr(), m.len(), p.as_mut_ptr(), p.len()) }
        }

        pub fn staged(&mut self, s: &Sheet, last: usize) -> f64 {
            let (r, x, n, k) = (&s.residuals, &s.columns, s.residuals.len(), s.k);
            let inverse = self.inverse.as_mut_ptr();
            let (m, m_len, p, p_len) = (self.matrix.as_mut_ptr(), self.matrix.len(), self.parts.as_mut_ptr(), self.parts.len());
            let (d, e, kept) = (self.d.as_mut_ptr(), self.e.as_mut_ptr(), self.kept.as_mut_ptr());
            unsafe {
                let statistic = tested_statistic(r.as_ptr(), n, x.as_ptr(), x.len(), n, k);
                if last >= 1 {
                    tested_inverse(x.as_ptr(), x.len(), n, k, inverse);
                }
                if last >= 2 {
                    tested_mam(x.as_ptr(), x.len(), n, k, inverse, m, m_len);
                }
                if last >= 3 {
                    tested_tridiagonal(m, n * (n + 1) / 2, n, d, 256, e, 256);
                }
                let mut answer = 0.0;
                if last >= 4 {
                    let count = tested_ql(d, 256, e, 256, n, k, kept, 256);
                    if last >= 5 {
                        answer = tested_integral(kept, count, statistic, p, p_len);
                    }
                }
                answer
            }
        }
    }
}

#[cfg(sources)]
mod side {
    use super::Sheet;

    /// The rooms that the port works in.
    pub struct Side {
        matrix: Vec<f64>,
        parts: Vec<f64>,
    }

    impl Side {
        pub fn new() -> Side {
            Side { matrix: vec![0.0; 256 * 257], parts: vec![0.0; 8004] }
        }

        pub fn whole(&mut self, s: &Sheet, exact: bool) -> f64 {
            let choice = if exact { outcome::Choice::Exact } else { outcome::Choice::Normal };
            dwtest::durbin_watson_test(&s.residuals, &s.columns, s.k, outcome::Alternative::Greater, choice, &mut self.matrix, &mut self.parts).p
        }
    }
}

#[cfg(not(any(kit, sources)))]
mod side {
    use super::Sheet;
    use std::sync::atomic::Ordering;

    pub struct Side;

    impl Side {
        pub fn new() -> Side {
            Side
        }

        pub fn whole(&mut self, s: &Sheet, exact: bool) -> f64 {
            let x: Vec<&[f64]> = s.columns.chunks(s.residuals.len()).collect();
            let found = answers::timeseries::dwtest::durbin_watson_test(&s.residuals, &x, answers::parametric::Alternative::Greater, Some(exact));
            found.map_or(0.0, |r| r.p_value.unwrap_or(0.0))
        }

        pub fn staged(&mut self, s: &Sheet, last: usize) -> f64 {
            staged::stage::LAST.store(last, Ordering::Relaxed);
            let x: Vec<&[f64]> = s.columns.chunks(s.residuals.len()).collect();
            let found = staged::timeseries::dwtest::durbin_watson_test(&s.residuals, &x, staged::parametric::Alternative::Greater, Some(true));
            found.map_or(0.0, |r| r.p_value.unwrap_or(0.0))
        }
    }

    fn number(bytes: &[u8], from: usize, count: usize) -> usize {
        bytes[from..from + count].iter().rev().fold(0, |sum, &b| 256 * sum + b as usize)
    }

    /// The statistic's and p's bits of each sheet of a file.
    pub fn answer_file(bytes: &[u8]) -> String {
        use answers::parametric::Alternative;
        let mut text = String::new();
        for index in 0..number(bytes, 0, 4) {
            let entry = 4 + 16 * index;
            let (from, n, k) = (number(bytes, entry, 4), number(bytes, entry + 4, 2), number(bytes, entry + 6, 2));
            let alternative = [Alternative::Greater, Alternative::Less, Alternative::TwoSided][bytes[entry + 8] as usize % 3];
            let exact = [None, Some(true), Some(false)][bytes[entry + 9] as usize % 3];
            let body: Vec<f64> = bytes[from..from + 8 * n * (1 + k)].chunks(8).map(|b| f64::from_le_bytes(b.try_into().unwrap())).collect();
            let columns: Vec<&[f64]> = body[n..].chunks(n).collect();
            let (statistic, p) = match answers::timeseries::dwtest::durbin_watson_test(&body[..n], &columns, alternative, exact) {
                Ok(r) => (r.statistic.unwrap_or(0.0), r.p_value.unwrap_or(0.0)),
                Err(_) => (0.0, 0.0),
            };
            text += &format!("{index} {:016x} {:016x}\n", statistic.to_bits(), p.to_bits());
        }
        text
    }
}

fn refuse(message: &str) -> ! {
    eprintln!("test: {message}");
    std::process::exit(2)
}

fn number(words: &[String], at: usize) -> usize {
    words.get(at).and_then(|word| word.parse().ok()).unwrap_or_else(|| refuse("a number is missing"))
}

fn is_exact(word: &str) -> bool {
    match word {
        "exact" => true,
        "normal" => false,
        _ => refuse("exact or normal?"),
    }
}

fn drawn(words: &[String], sheets: usize) -> Vec<Sheet> {
    let mut draws = Draws(88172645463325252);
    (0..sheets).map(|_| sheet(&mut draws, number(words, 2), number(words, 3))).collect()
}

fn calls(words: &[String], mut call: impl FnMut(&Sheet) -> f64) {
    let sheets = drawn(words, number(words, 5));
    let mut sum = 0.0;
    for index in 0..number(words, 6) {
        sum += call(black_box(&sheets[index % sheets.len()]));
    }
    println!("{:016x}", sum.to_bits());
}

/// The best of many rounds, in nanoseconds a call, and p. A round is as many calls as take some 20 microseconds, so that reading the clock is
/// little of it; the rounds go on for a tenth of a second, and are three at least.
fn time(s: &Sheet, exact: bool) -> (f64, f64) {
    let mut side = side::Side::new();
    let start = Instant::now();
    let p = side.whole(black_box(s), exact);
    let calls = (20e-6 / start.elapsed().as_secs_f64()).ceil();
    let mut best = f64::INFINITY;
    let mut rounds = 0;
    while rounds < 3 || start.elapsed().as_secs_f64() < 0.1 {
        let round = Instant::now();
        for _ in 0..calls as usize {
            black_box(side.whole(black_box(s), exact));
        }
        best = best.min(round.elapsed().as_secs_f64());
        rounds += 1;
    }
    (best * 1e9 / calls, p)
}

/// 64 sheets of 1 to 4 columns and as many rows as fill the file, greater, default.
fn draw_file() -> Vec<u8> {
    let mut draws = Draws(88172645463325252);
    let sheets: Vec<Sheet> = (0..64).map(|i| sheet(&mut draws, 125 / (2 + i % 4), 1 + i % 4)).collect();
    let mut contents = 64u32.to_le_bytes().to_vec();
    let mut bodies = Vec::new();
    for s in &sheets {
        contents.extend((4 + 16 * 64 + bodies.len() as u32).to_le_bytes());
        contents.extend((s.residuals.len() as u16).to_le_bytes());
        contents.extend((s.k as u16).to_le_bytes());
        contents.extend([0; 8]);
        bodies.extend(s.residuals.iter().chain(&s.columns).flat_map(|x| x.to_le_bytes()));
    }
    contents.extend(bodies);
    contents
}

fn main() {
    use std::io::Write;
    let words: Vec<String> = std::env::args().collect();
    let mode = words.get(1).map_or("", String::as_str);
    match (mode, words.len()) {
        ("calls", 7) => {
            let exact = is_exact(&words[4]);
            let mut side = side::Side::new();
            calls(&words, |s| side.whole(s, exact));
        }
        #[cfg(not(sources))]
        ("stage", 7) => {
            let last = number(&words, 4);
            let mut side = side::Side::new();
            calls(&words, |s| side.staged(s, last));
        }
        ("time", 5) => {
            let (nanoseconds, p) = time(&drawn(&words, 1)[0], is_exact(&words[4]));
            println!("{nanoseconds:.0} {:016x}", p.to_bits());
        }
        ("draw", 2) => std::io::stdout().write_all(&draw_file()).unwrap_or_else(|_| refuse("can't write")),
        #[cfg(not(any(kit, sources)))]
        ("file", 2) => {
            let mut bytes = Vec::new();
            std::io::Read::read_to_end(&mut std::io::stdin(), &mut bytes).unwrap_or_else(|_| refuse("can't read"));
            print!("{}", if bytes.is_empty() { String::new() } else { side::answer_file(&bytes) });
        }
        _ => refuse("see the head of test.rs for the use"),
    }
}
