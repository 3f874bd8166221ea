//! Runs the search for blame of smt-scope on requests, and prints what comes of it.
//!
//! blame.rs, term.rs, inst.rs, enode.rs and the BoxSlice of mem_dbg/utils.rs are smt-scope's own files,
//! taken in unchanged from the directory that SMT_SCOPE_SRC names when this is compiled. The rest of
//! smt-scope that they lean on is replaced by the small modules here.
//!
//! Usage: oracle [--listed] [--count] [FILE]. The requests have to be such as the port admits.

// smt-scope's files hold much that is not called here.
#![allow(dead_code)]

mod basics;
mod items;
mod parsers;
mod text;

/// smt-scope's own slices.
mod slices {
    include!(concat!(env!("SMT_SCOPE_SRC"), "/mem_dbg/utils.rs"));
}

// smt-scope's files find these at the root of the crate.
pub use basics::{Error, FxHashMap, FxHashSet, IString, NonMaxU32, Result, StringTable};
pub use slices::BoxSlice;

use std::io::{Read, Write};
use std::panic::{catch_unwind, AssertUnwindSafe};
use std::sync::Mutex;
use std::time::Instant;

use parsers::z3::run::{self, Tally};

struct Options {
    listed: bool,
    count: bool,
    file: Option<String>,
}

fn options() -> Options {
    let mut options = Options { listed: false, count: false, file: None };
    for word in std::env::args().skip(1) {
        match word.as_str() {
            "--listed" => options.listed = true,
            "--count" => options.count = true,
            _ => options.file = Some(word),
        }
    }
    options
}

fn input(file: &Option<String>) -> std::io::Result<Vec<u8>> {
    if let Some(file) = file {
        return std::fs::read(file);
    }
    let mut bytes = Vec::new();
    std::io::stdin().read_to_end(&mut bytes)?;
    Ok(bytes)
}

/// Where the last panic was, such as `blame.rs:111`.
static PLACE: Mutex<String> = Mutex::new(String::new());

/// A panic is an answer here: it is noted, and not written out.
fn note_panics() {
    std::panic::set_hook(Box::new(|panic| {
        let place = panic.location().map(|at| {
            let file = at.file().rsplit('/').next().unwrap_or_default();
            format!("{file}:{}", at.line())
        });
        *PLACE.lock().unwrap() = place.unwrap_or_default();
    }));
}

/// The lines of one request. Where smt-scope panics, they end with one that says so.
fn lines_of(lines: &[&[u8]], listed: bool, tally: &mut Tally) -> Vec<String> {
    let mut answered = Vec::new();
    let answer = catch_unwind(AssertUnwindSafe(|| {
        run::answer(&text::read(lines), listed, &mut answered, tally);
    }));
    if answer.is_err() {
        answered.push(format!("oracle panicked at {}", PLACE.lock().unwrap()));
        tally.panics += 1;
    }
    answered
}

fn main() -> std::io::Result<()> {
    let options = options();
    let input = input(&options.file)?;
    let requests = text::split(&input);
    note_panics();
    let begin = Instant::now();
    let mut tally = Tally::default();
    let mut out = std::io::BufWriter::new(std::io::stdout().lock());
    for (number, lines) in requests.iter().enumerate() {
        writeln!(out, "request #{number}")?;
        for line in lines_of(lines, options.listed, &mut tally) {
            writeln!(out, "{line}")?;
        }
    }
    out.flush()?;
    if options.count {
        eprintln!("{} requests in {:?}: {tally:?}", requests.len(), begin.elapsed());
    }
    Ok(())
}
