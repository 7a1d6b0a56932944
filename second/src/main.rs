//! Commands: generate a stream, answer one, count what decided in one, check oneself, list a book.

use std::io::{self, BufReader, BufWriter, Read, Write};
use std::process::ExitCode;

use second::desk::Desk;
use second::generator::{write_stream, Generator};
use second::histogram::Histogram;
use second::listing;
use second::selfcheck;
use second::stream::{Record, Stop, CALLS};

const USAGE: &str = "usage:
  second generate  [--seed S] [--calls N]   a stream of N calls on standard output
      --without WORD,WORD..                 without these calls, but with what they change
  second answer                             answers the stream on standard input, line by line
  second restore                            the stream on standard input, with the book set right after each change
  second histogram [--seed S] [--calls N]   what decided, over the calls of such a stream
      --streams K                           over K streams of successive seeds
      --fewest F                            fails if something came less often than F times
  second selfcheck [--seed S] [--calls N]   worked examples, then N calls checked against the plain rule
  second listing                            the listing of the book on standard input";

fn main() -> ExitCode {
    let arguments: Vec<String> = std::env::args().skip(1).collect();
    let done = match arguments.split_first() {
        None => None,
        Some((command, options)) => Options::of(options).and_then(|options| run(command, &options)),
    };
    match done {
        None => usage(),
        Some(Ok(true)) => ExitCode::SUCCESS,
        Some(Ok(false)) => ExitCode::FAILURE,
        Some(Err(error)) => {
            eprintln!("second: {error}");
            ExitCode::FAILURE
        }
    }
}

/// Whether all went well; nothing if there is no such command, or none with such options.
fn run(command: &str, options: &Options) -> Option<io::Result<bool>> {
    let (seed, calls) = (options.seed.unwrap_or(1), options.calls.unwrap_or(1_000_000));
    let taken: &[&str] = match command {
        "generate" => &["--seed", "--calls", "--without"],
        "histogram" => &["--seed", "--calls", "--streams", "--fewest"],
        "selfcheck" => &["--seed", "--calls"],
        _ => &[],
    };
    if !options.given.iter().all(|name| taken.contains(&name.as_str())) {
        return None;
    }
    Some(match command {
        "generate" => generate(seed, calls, &options.without).map(|()| true),
        "answer" => answer(),
        "restore" => restore().map(|()| true),
        "histogram" => Ok(histogram(seed, calls, options.streams.unwrap_or(1), options.fewest.unwrap_or(0))),
        "selfcheck" => Ok(selfcheck::run(seed, calls)),
        "listing" => list().map(|()| true),
        _ => return None,
    })
}

fn usage() -> ExitCode {
    eprintln!("{USAGE}");
    ExitCode::from(2)
}

/// What stands behind the command.
#[derive(Default)]
struct Options {
    given: Vec<String>,
    seed: Option<u64>,
    calls: Option<u64>,
    streams: Option<u64>,
    fewest: Option<u64>,
    without: Vec<&'static str>,
}

impl Options {
    /// Nothing if an option is unknown or has no lawful value.
    fn of(arguments: &[String]) -> Option<Options> {
        let mut options = Options::default();
        for pair in arguments.chunks(2) {
            let value = pair.get(1)?;
            options.given.push(pair[0].clone());
            match pair[0].as_str() {
                "--seed" => options.seed = Some(value.parse().ok()?),
                "--calls" => options.calls = Some(value.parse().ok()?),
                "--streams" => options.streams = Some(value.parse().ok()?),
                "--fewest" => options.fewest = Some(value.parse().ok()?),
                "--without" => options.without = words_of(value)?,
                _ => return None,
            }
        }
        Some(options)
    }
}

/// Words of calls with commas between. Some call must be left.
fn words_of(list: &str) -> Option<Vec<&'static str>> {
    let known = |word| CALLS.iter().map(|&(_, known)| known).find(|&known| known == word);
    let words: Vec<&str> = list.split(',').map(known).collect::<Option<_>>()?;
    CALLS.iter().any(|(_, word)| !words.contains(word)).then_some(words)
}

fn generate(seed: u64, calls: u64, without: &[&str]) -> io::Result<()> {
    let mut out = BufWriter::with_capacity(1 << 20, io::stdout().lock());
    write_stream(seed, calls, without, &mut out)?;
    out.flush()
}

fn answer() -> io::Result<bool> {
    let mut input = BufReader::with_capacity(1 << 20, io::stdin().lock());
    let mut out = BufWriter::with_capacity(1 << 20, io::stdout().lock());
    let mut desk = Desk::new();
    loop {
        let reply = match Record::read_from(&mut input) {
            Ok(None) => break,
            Ok(Some(record)) => desk.answer(&record).ok(),
            Err(Stop::Malformed) => None,
            Err(Stop::Input(error)) => return Err(error),
        };
        match reply {
            Some(reply) => desk.write_line(&reply, &mut out)?,
            None => {
                writeln!(out, "malformed")?;
                out.flush()?;
                return Ok(false);
            }
        }
    }
    out.flush()?;
    Ok(true)
}

/// Copies a stream and adds records that set the whole book as it ought to be after each call that
/// may change it. A program that answers one call wrongly then finds the right book at the next, so
/// each of its differing answers is a wrong call of its own.
fn restore() -> io::Result<()> {
    let mut input = BufReader::with_capacity(1 << 20, io::stdin().lock());
    let mut out = BufWriter::with_capacity(1 << 20, io::stdout().lock());
    let mut desk = Desk::new();
    let mut changed = false;
    while let Ok(Some(record)) = Record::read_from(&mut input) {
        // What shows the book belongs to the call before it and comes first.
        if changed && !matches!(record, Record::Sum | Record::Book) {
            changed = false;
            let length = desk.book().len() as u32;
            Record::Length(length).write_to(&mut out)?;
            Record::Bytes { offset: 0, bytes: desk.book().to_vec() }.write_to(&mut out)?;
        }
        record.write_to(&mut out)?;
        changed |= record.is_call() && record.may_change();
        if desk.answer(&record).is_err() {
            break;
        }
    }
    out.flush()
}

/// Counts over streams of successive seeds, each with this many calls; tells whether no row came less
/// often than asked.
fn histogram(seed: u64, calls: u64, streams: u64, fewest: u64) -> bool {
    let mut histogram = Histogram::new();
    for seed in seed..seed + streams {
        let mut generator = Generator::new(seed);
        let mut desk = Desk::new();
        let mut made = 0;
        while made < calls {
            let record = generator.next(desk.book(), calls - made);
            let before = desk.book().to_vec();
            let reply = desk.answer(&record).expect("the generator keeps within the buffer");
            made += u64::from(record.is_call());
            histogram.count(&record, &reply, &before, desk.book(), generator.standing());
        }
    }
    print!("{histogram}");
    let rare = histogram.rarer_than(fewest);
    rare.iter().for_each(|label| println!("seen too seldom: {label}"));
    rare.is_empty()
}

/// Reads one byte more than a listing takes, which is enough to see that a book is too long.
fn list() -> io::Result<()> {
    let mut book = Vec::new();
    io::stdin().lock().take(listing::MOST_BYTES as u64 + 1).read_to_end(&mut book)?;
    io::stdout().lock().write_all(&listing::listing(&book))
}
