//! The sheet file, read plainly from document 01, and its positions from document 02: contents first, then bodies, little-endian.

/// The most bytes that a sheet file may have.
pub const MOST_BYTES: usize = 65_536;
const MOST_ENTRIES: u32 = 64;
const ENTRY_BYTES: usize = 16;

#[derive(Clone, Copy, PartialEq)]
pub enum Alternative {
    Greater,
    Less,
    TwoSided,
}

#[derive(Clone, Copy, PartialEq)]
pub enum Choice {
    Default,
    Exact,
    Normal,
}

pub struct Sheet {
    /// Where each row was printed, if the file says so. No answer turns on it.
    pub positions: Option<Vec<u64>>,
    pub residuals: Vec<f64>,
    pub columns: Vec<Vec<f64>>,
    pub alternative: Alternative,
    pub choice: Choice,
}

impl Sheet {
    /// Whether each position is above the one before it; so it is where there are none.
    fn rises(&self) -> bool {
        self.positions.iter().all(|run| run.windows(2).all(|pair| pair[0] < pair[1]))
    }
}

/// A file refusal: its number, and an entry's index (0 where none).
pub struct FileRefusal {
    pub number: u32,
    pub index: usize,
}

fn number(file: &[u8], at: usize, bytes: usize) -> u32 {
    (0..bytes).map(|b| u32::from(file[at + b]) << (8 * b)).sum()
}

fn words(bytes: &[u8]) -> impl Iterator<Item = u64> + '_ {
    bytes.chunks_exact(8).map(|b| u64::from_le_bytes(b.try_into().unwrap()))
}

fn floats(bytes: &[u8]) -> Vec<f64> {
    words(bytes).map(f64::from_bits).collect()
}

/// The two codes of an entry and whether it has positions, where these and its spare bytes are as they should be.
fn codes(entry: &[u8]) -> Option<(Alternative, Choice, bool)> {
    let alternative = match entry[8] {
        0 => Alternative::Greater,
        1 => Alternative::Less,
        2 => Alternative::TwoSided,
        _ => return None,
    };
    let choice = match entry[9] {
        0 => Choice::Default,
        1 => Choice::Exact,
        2 => Choice::Normal,
        _ => return None,
    };
    let has_positions = match entry[10] {
        0 => false,
        1 => true,
        _ => return None,
    };
    entry[11..].iter().all(|&b| b == 0).then_some((alternative, choice, has_positions))
}

/// The sheet of the entry that begins at `at`, whose body is due at `body`, and where the body ends; or the number of the file refusal.
fn sheet(file: &[u8], at: usize, body: usize) -> Result<(Sheet, usize), u32> {
    let (alternative, choice, has_positions) = codes(&file[at..at + ENTRY_BYTES]).ok_or(4u32)?;
    if number(file, at, 4) as usize != body {
        return Err(5);
    }
    let rows = number(file, at + 4, 2) as usize;
    let columns = number(file, at + 6, 2) as usize;
    // The body is runs of n words: positions where there are any, residuals, columns.
    let residuals = usize::from(has_positions);
    let start = |run: usize| body + 8 * rows * run;
    let end = start(residuals + 1 + columns);
    if end > file.len() {
        return Err(6);
    }
    let run = |run: usize| &file[start(run)..start(run + 1)];
    let sheet = Sheet {
        positions: has_positions.then(|| words(run(0)).collect()),
        residuals: floats(run(residuals)),
        columns: (0..columns).map(|column| floats(run(residuals + 1 + column))).collect(),
        alternative,
        choice,
    };
    match sheet.rises() {
        true => Ok((sheet, end)),
        false => Err(8),
    }
}

pub fn read(file: &[u8]) -> Result<Vec<Sheet>, FileRefusal> {
    let refuse = |number, index| Err(FileRefusal { number, index });
    if file.len() < 4 || file.len() > MOST_BYTES {
        return refuse(1, 0);
    }
    let count = number(file, 0, 4);
    if count < 1 || count > MOST_ENTRIES {
        return refuse(2, 0);
    }
    let count = count as usize;
    let mut body = 4 + ENTRY_BYTES * count;
    if file.len() < body {
        return refuse(3, 0);
    }
    let mut sheets = Vec::with_capacity(count);
    for index in 0..count {
        match sheet(file, 4 + ENTRY_BYTES * index, body) {
            Ok((sheet, end)) => {
                sheets.push(sheet);
                body = end;
            }
            Err(number) => return refuse(number, index),
        }
    }
    if body != file.len() {
        return refuse(7, 0);
    }
    Ok(sheets)
}
