//! Feeds the same requests to a program and to the oracle, and compares what they print.

use crate::answers::{answer, answer_all, each_request};
use crate::coverage::Coverage;
use crate::generate::Generator;
use crate::listing::list;
use crate::readable::describe;
use std::io::{self, BufRead, BufReader, Write};
use std::process::{Child, Command, ExitStatus, Stdio};
use std::sync::mpsc::{sync_channel, Receiver, SyncSender};
use std::thread;

/// Requests in one chunk, and chunks that may wait.
const CHUNK: u64 = 1000;
const WAITING: usize = 8;

/// Differences that are shown in full.
const SHOWN: usize = 10;

/// The most signs of a line that is shown.
const WIDTH: usize = 4000;

fn start(program: &str) -> io::Result<Child> {
    Command::new("sh").arg("-c").arg(program).stdin(Stdio::piped()).stdout(Stdio::piped()).spawn()
}

/// What the shell ends with where a command can't be run: it is there but no program, or it is not there.
const NOT_RUN: [i32; 2] = [126, 127];

/// A program that printed nothing because it can't be run is no difference: it is an error.
fn was_run(program: &str, status: ExitStatus, printed: bool) -> io::Result<()> {
    if !printed && status.code().is_some_and(|code| NOT_RUN.contains(&code)) {
        return Err(io::Error::other(format!("the program can't be run: {program}")));
    }
    Ok(())
}

/// Octets of some requests.
pub fn chunk(generator: &Generator, first: u64, end: u64) -> Vec<u8> {
    let mut octets = Vec::new();
    (first..end).for_each(|index| generator.request(index).put(&mut octets));
    octets
}

/// Makes all chunks, and hands each to the program's feeder and to the oracle.
fn make(generator: &Generator, count: u64, to_program: SyncSender<Vec<u8>>, to_oracle: SyncSender<Vec<u8>>) {
    let mut first = 0;
    while first < count {
        let end = (first + CHUNK).min(count);
        let octets = chunk(generator, first, end);
        // A feeder that has stopped is one whose program has ended; the oracle then finds lines missing.
        let _ = to_program.send(octets.clone());
        if to_oracle.send(octets).is_err() {
            return;
        }
        first = end;
    }
}

fn feed(mut input: impl Write, chunks: Receiver<Vec<u8>>) {
    for octets in chunks {
        if input.write_all(&octets).is_err() {
            return;
        }
    }
}

fn shortened(line: &[u8]) -> String {
    let text = String::from_utf8_lossy(line);
    let short: String = text.chars().take(WIDTH).collect();
    if short.len() < text.len() {
        short + " .."
    } else {
        short
    }
}

/// What the oracle compares, and what it has found so far.
struct Comparison<R> {
    output: R,
    coverage: Coverage,
    index: u64,
    differences: usize,
}

impl<R: BufRead> Comparison<R> {
    /// Compares the answers to some requests, up to the program's end; whether it has ended.
    fn chunk(&mut self, octets: &[u8]) -> io::Result<bool> {
        let (mut expected, mut got, mut ended) = (Vec::new(), Vec::new(), false);
        each_request(octets, |request| {
            if ended {
                return Ok(());
            }
            expected.clear();
            got.clear();
            let answered = answer(&request, &mut expected);
            expected.push(b'\n');
            if self.output.read_until(b'\n', &mut got)? == 0 {
                ended = true;
                return Ok(());
            }
            self.coverage.count(&request, &answered);
            if got != expected {
                self.differences += 1;
                if self.differences <= SHOWN {
                    let asked = shortened(describe(&request).as_bytes());
                    println!(
                        "request {}: {asked}\n  oracle  {}  program {}",
                        self.index,
                        shortened(&expected),
                        shortened(&got)
                    );
                }
            }
            self.index += 1;
            Ok(())
        })?;
        Ok(ended)
    }

    /// A fault of the whole run.
    fn fault(&mut self, what: String) {
        self.differences += 1;
        println!("{what}");
    }
}

/// Compares on `count` requests; how many answers differ.
pub fn compare(program: &str, generator: Generator, count: u64) -> io::Result<usize> {
    let mut child = start(program)?;
    let input = child.stdin.take().expect("a piped input");
    let output = BufReader::with_capacity(1 << 18, child.stdout.take().expect("a piped output"));
    let (to_program, from_maker) = sync_channel(WAITING);
    let (to_oracle, chunks) = sync_channel(WAITING);
    thread::spawn(move || feed(input, from_maker));
    thread::spawn(move || make(&generator, count, to_program, to_oracle));
    let mut comparison = Comparison { output, coverage: Coverage::default(), index: 0, differences: 0 };
    let mut ended = false;
    for octets in &chunks {
        ended = comparison.chunk(&octets)?;
        if ended {
            break;
        }
    }
    // Whoever still makes requests stops, and the program finds its input ended.
    drop(chunks);
    let mut behind = Vec::new();
    comparison.output.read_until(b'\n', &mut behind)?;
    let status = child.wait()?;
    was_run(program, status, comparison.index > 0 || !behind.is_empty())?;
    if ended {
        comparison.fault(format!("request {} and what follows: no line, the program ended with {status}", comparison.index));
    } else if !behind.is_empty() {
        comparison.fault(format!("the program prints more lines than there were requests: {}", shortened(&behind)));
    } else if !status.success() {
        comparison.fault(format!("the program ended with {status}"));
    }
    print!("{}", comparison.coverage.report());
    println!("differences {}", comparison.differences);
    Ok(comparison.differences)
}

/// All that a program prints for an input, and its status.
fn output_of(program: &str, input: Vec<u8>) -> io::Result<(Vec<u8>, ExitStatus)> {
    let mut child = start(program)?;
    let mut pipe = child.stdin.take().expect("a piped input");
    // A program that ends its run early does not take the rest.
    let feeder = thread::spawn(move || pipe.write_all(&input).is_ok());
    let output = child.wait_with_output()?;
    let _ = feeder.join();
    was_run(program, output.status, !output.stdout.is_empty())?;
    Ok((output.stdout, output.status))
}

/// Whether a run that prints this may end so: with 0, or with 1 where the input is broken. A program by itself ends with 0 always; `bin/program` ends with what
/// its program tells.
fn ends_well(status: ExitStatus, printed: &[u8]) -> bool {
    let last = printed.strip_suffix(b"\n").unwrap_or(printed).rsplit(|octet| *octet == b'\n').next().unwrap_or(&[]);
    let broken = last.starts_with(b"broken at ") || last == b"bad request";
    status.success() || broken && status.code() == Some(1)
}

/// Runs the program once for each input, and compares the whole output and how it ends; how many runs differ.
fn compare_runs(program: &str, count: u64, run: impl Fn(u64) -> (Vec<u8>, Vec<u8>)) -> io::Result<usize> {
    let mut differences = 0;
    for index in 0..count {
        let (input, expected) = run(index);
        let shown = shortened(crate::readable::hex(&input).as_bytes());
        let (got, status) = output_of(program, input)?;
        if got == expected && ends_well(status, &expected) {
            continue;
        }
        differences += 1;
        if differences <= SHOWN {
            let (right, printed) = (shortened(&expected), shortened(&got));
            println!("run {index}: {shown}\n  oracle\n{right}\n  program, which ended with {status}\n{printed}");
        }
    }
    println!("runs {count}\ndifferences {differences}");
    Ok(differences)
}

/// Runs that a bad request ends.
pub fn compare_bad(program: &str, generator: Generator, count: u64) -> io::Result<usize> {
    compare_runs(program, count, |index| {
        let input = generator.bad_run(index);
        let mut expected = Vec::new();
        answer_all(&input[..], &mut expected).expect("a list takes all that is written to it");
        assert!(expected.ends_with(b"bad request\n"), "run {index} is not ended by a bad request");
        (input, expected)
    })
}

/// Caches to be listed, with where their records broke or without.
pub fn compare_list(program: &str, generator: Generator, count: u64, tells_where: bool) -> io::Result<usize> {
    compare_runs(program, count, |index| {
        let cache = generator.cache(index);
        let expected = list(&cache, tells_where).into_bytes();
        (cache, expected)
    })
}
