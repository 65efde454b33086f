//! Answers sheet files by the Rust of docs/src: one line an entry, in the sheet program's fields.
mod answer;
mod calls;
mod document;
mod fields; // written by oracle/build, from tools/line.py
mod lines;
mod sheet_file;
mod spectra;
mod tests;

use document::Rooms;
use std::fs::File;
use std::io::{self, BufReader, BufWriter, Read, Write};
use std::process::ExitCode;

const USAGE: &str = "usage: [--stream] [--document] [--room-rows N] [--comparable] [--eigenvalues] [--dump] [FILE]
       --tests [--comparable] [FILE]
       --spectra [FILE]
       --calls [FILE]
       --about";

/// The most bytes of one sheet file in a stream: far more than a sheet file may have.
const MOST_STREAM_BYTES: usize = 1 << 20;

struct Options {
    /// The input is many sheet files, each after its length in four bytes.
    stream: bool,
    /// Answer as document 01 asks of the port, added refusals too.
    document: bool,
    /// The rows for which the caller lends matrix room; the sheet program lends for 64.
    room_rows: usize,
    comparable: bool,
    eigenvalues: bool,
    dump: bool,
    /// The input is calls of the test, as crates/try_dwtest takes them.
    tests: bool,
    /// The input is designs, as crates/try_eigen takes them.
    spectra: bool,
    calls: bool,
    about: bool,
    file: Option<String>,
}

fn options(mut words: impl Iterator<Item = String>) -> Result<Options, String> {
    let mut options = Options {
        stream: false,
        document: false,
        room_rows: 64,
        comparable: false,
        eigenvalues: false,
        dump: false,
        tests: false,
        spectra: false,
        calls: false,
        about: false,
        file: None,
    };
    while let Some(word) = words.next() {
        match word.as_str() {
            "--stream" => options.stream = true,
            "--document" => options.document = true,
            "--comparable" => options.comparable = true,
            "--eigenvalues" => options.eigenvalues = true,
            "--dump" => options.dump = true,
            "--tests" => options.tests = true,
            "--spectra" => options.spectra = true,
            "--calls" => options.calls = true,
            "--about" => options.about = true,
            "--room-rows" => {
                let rows = words.next().and_then(|rows| rows.parse().ok());
                options.room_rows = rows.ok_or("--room-rows takes a number of rows")?;
            }
            _ if word.starts_with('-') => return Err(format!("no such flag: {word}\n{USAGE}")),
            _ if options.file.is_some() => return Err(format!("one file at most\n{USAGE}")),
            _ => options.file = Some(word),
        }
    }
    let about_files = options.stream || options.document || options.eigenvalues || options.dump;
    let alone = [options.tests, options.spectra, options.calls, options.about].into_iter().filter(|&flag| flag).count();
    if alone > 1 || alone == 1 && (about_files || options.comparable && !options.tests) {
        return Err(format!("--tests, --spectra, --calls and --about stand alone\n{USAGE}"));
    }
    Ok(options)
}

fn open(options: &Options) -> Result<Box<dyn Read>, String> {
    match &options.file {
        None => Ok(Box::new(io::stdin())),
        Some(name) => match File::open(name) {
            Ok(file) => Ok(Box::new(file)),
            Err(error) => Err(format!("{name}: {error}")),
        },
    }
}

/// One sheet file's lines.
fn print_file(file: &[u8], options: &Options, out: &mut impl Write) -> Result<(), String> {
    let failed = |e: io::Error| e.to_string();
    let sheets = match sheet_file::read(file) {
        Ok(sheets) => sheets,
        Err(refusal) => return writeln!(out, "file {} {}", refusal.number, refusal.index).map_err(failed),
    };
    for (index, sheet) in sheets.iter().enumerate() {
        let (rust, record) = answer::answer(sheet).map_err(|e| format!("entry {index}: {e}"))?;
        if options.dump || options.eigenvalues {
            answer::check_steps(sheet, &record).map_err(|e| format!("entry {index}: {e}"))?;
        }
        let comparable = document::is_comparable(sheet, &rust, &record);
        let line = match options.document {
            true => document::line(sheet, rust, &record, Rooms::of_rows(options.room_rows)),
            false => rust,
        };
        lines::print_line(out, index, &line).map_err(failed)?;
        if options.comparable {
            writeln!(out, "comparable {}", u8::from(comparable)).map_err(failed)?;
        }
        if options.dump {
            lines::print_record(out, &record).map_err(failed)?;
        } else if options.eigenvalues {
            lines::print_eigenvalues(out, &record).map_err(failed)?;
        }
    }
    Ok(())
}

/// Fills `bytes` from `input`, and says how many there were.
pub fn fill(input: &mut impl Read, bytes: &mut [u8]) -> Result<usize, String> {
    let mut filled = 0;
    while filled < bytes.len() {
        match input.read(&mut bytes[filled..]) {
            Ok(0) => break,
            Ok(more) => filled += more,
            Err(error) if error.kind() == io::ErrorKind::Interrupted => {}
            Err(error) => return Err(error.to_string()),
        }
    }
    Ok(filled)
}

/// So many numbers from `input`.
pub fn numbers(input: &mut impl Read, count: usize) -> Result<Vec<f64>, String> {
    let mut bytes = vec![0; 8 * count];
    if fill(input, &mut bytes)? < bytes.len() {
        return Err("its numbers are cut off".into());
    }
    Ok(bytes.chunks_exact(8).map(|b| f64::from_le_bytes(b.try_into().unwrap())).collect())
}

/// So many words from `input`, or None where it ends.
pub fn words<const N: usize>(input: &mut impl Read) -> Result<Option<[u64; N]>, String> {
    let mut bytes = vec![0; 8 * N];
    match fill(input, &mut bytes)? {
        0 => Ok(None),
        filled if filled == bytes.len() => {
            Ok(Some(std::array::from_fn(|at| u64::from_le_bytes(bytes[8 * at..8 * at + 8].try_into().unwrap()))))
        }
        _ => Err("its head is cut off".into()),
    }
}

fn print_stream(mut input: impl Read, options: &Options, out: &mut impl Write) -> Result<(), String> {
    for index in 0u64.. {
        let mut length = [0; 4];
        match fill(&mut input, &mut length)? {
            0 => break,
            4 => {}
            _ => return Err(format!("sheet {index}: its length is cut off")),
        }
        let length = u32::from_le_bytes(length) as usize;
        if length > MOST_STREAM_BYTES {
            return Err(format!("sheet {index}: {length} bytes; is this a stream?"));
        }
        let mut file = vec![0; length];
        if fill(&mut input, &mut file)? < file.len() {
            return Err(format!("sheet {index}: cut off"));
        }
        writeln!(out, "sheet {index}").map_err(|e| e.to_string())?;
        print_file(&file, options, out).map_err(|e| format!("sheet {index}: {e}"))?;
    }
    Ok(())
}

fn run(options: &Options) -> Result<(), String> {
    let mut out = BufWriter::with_capacity(1 << 16, io::stdout().lock());
    if options.about {
        writeln!(out, "{}", functions::ABOUT).map_err(|e| e.to_string())?;
    } else if options.calls {
        calls::run(BufReader::new(open(options)?), &mut out)?;
    } else if options.tests {
        tests::run(BufReader::with_capacity(1 << 16, open(options)?), options.comparable, &mut out)?;
    } else if options.spectra {
        spectra::run(BufReader::with_capacity(1 << 16, open(options)?), &mut out)?;
    } else if options.stream {
        print_stream(BufReader::with_capacity(1 << 16, open(options)?), options, &mut out)?;
    } else {
        // One byte more than a file may have is enough to refuse it.
        let mut file = vec![0; sheet_file::MOST_BYTES + 1];
        let length = fill(&mut open(options)?, &mut file)?;
        print_file(&file[..length], options, &mut out)?;
    }
    out.flush().map_err(|e| e.to_string())
}

fn main() -> ExitCode {
    let result = options(std::env::args().skip(1)).and_then(|options| run(&options));
    match result {
        Ok(()) => ExitCode::SUCCESS,
        Err(message) => {
            eprintln!("oracle: {message}");
            ExitCode::from(2)
        }
    }
}
