//! Inputs of a fuzzer as calls of the port. `fuzz-port FILE..` runs these; `fuzz-port --seeds DIR`
//! writes the inputs to begin with. With the feature `afl` and no words, AFL++ hands in one input after another.
//!
//! A difference, and a step outside a lent slice, end the program by a signal.

use compare::port::fuzz;
use std::path::{Path, PathBuf};
use std::process::ExitCode;
use std::{env, fs, io};

/// What one call of spline.rs may store, so that no input is slow.
const MEMORY: u64 = 1 << 22;

fn main() -> ExitCode {
    oracle::set_ln(port::ln);
    model::set_ln(port::ln);
    oracle::set_memory(MEMORY);
    let words: Vec<String> = env::args().skip(1).collect();
    let done = match words.iter().map(String::as_str).collect::<Vec<_>>()[..] {
        [] => fuzzed(),
        ["--seeds", directory] => write_seeds(Path::new(directory)),
        _ => words.iter().try_for_each(|word| replay(Path::new(word))),
    };
    match done {
        Ok(()) => ExitCode::SUCCESS,
        Err(error) => {
            eprintln!("fuzz-port: {error}; usage: fuzz-port FILE.. | --seeds DIR");
            ExitCode::from(2)
        }
    }
}

/// A panic is what a fuzzer sees only as a signal.
fn run(input: &[u8]) {
    if std::panic::catch_unwind(|| fuzz::run(input)).is_err() {
        std::process::abort();
    }
}

fn write_seeds(directory: &Path) -> io::Result<()> {
    fs::create_dir_all(directory)?;
    for (name, input) in fuzz::seeds() {
        fs::write(directory.join(name), input)?;
    }
    Ok(())
}

/// The inputs of a file, or of all files of a directory.
fn replay(path: &Path) -> io::Result<()> {
    let mut files = vec![path.to_path_buf()];
    if path.is_dir() {
        let entries = fs::read_dir(path)?.map(|entry| entry.map(|entry| entry.path()));
        files = entries.collect::<io::Result<Vec<PathBuf>>>()?;
        files.retain(|file| file.is_file());
        files.sort();
    }
    let mut inputs = 0;
    for file in &files {
        for input in inputs_of(file)? {
            run(&input);
            inputs += 1;
        }
    }
    println!("{}: {inputs} inputs, no difference", path.display());
    Ok(())
}

/// A file is one input; of a `.hex` file each line is one, two digits a byte.
fn inputs_of(file: &Path) -> io::Result<Vec<Vec<u8>>> {
    if file.extension().map_or(true, |ending| ending != "hex") {
        return Ok(vec![fs::read(file)?]);
    }
    let text = fs::read_to_string(file)?;
    let byte = |digits: &[u8]| {
        let digits = std::str::from_utf8(digits).unwrap_or("");
        u8::from_str_radix(digits, 16)
            .map_err(|error| io::Error::new(io::ErrorKind::InvalidData, error))
    };
    text.lines()
        .map(|line| line.as_bytes().chunks(2).map(byte).collect())
        .collect()
}

#[cfg(not(feature = "afl"))]
fn fuzzed() -> io::Result<()> {
    Err(io::Error::new(io::ErrorKind::Other, "no input is named"))
}

#[cfg(feature = "afl")]
fn fuzzed() -> io::Result<()> {
    use std::io::Read;

    extern "C" {
        fn __afl_manual_init();
        fn __afl_persistent_loop(most: u32) -> i32;
    }
    // By these the fuzzer knows a program that asks for its inputs itself.
    #[used]
    static ASKS: &[u8] = b"##SIG_AFL_PERSISTENT##\0";
    #[used]
    static BEGINS: &[u8] = b"##SIG_AFL_DEFER_FORKSRV##\0";
    /// Inputs until the program is started again.
    const INPUTS: u32 = 10_000;

    let mut input = Vec::new();
    // SAFETY: plain numbers, as AFL++ documents them.
    unsafe {
        __afl_manual_init();
        while __afl_persistent_loop(INPUTS) != 0 {
            input.clear();
            io::stdin().lock().read_to_end(&mut input)?;
            run(&input);
        }
    }
    Ok(())
}
