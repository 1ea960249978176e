//! The oracle: answers requests by the Rust, makes requests from a seed, and compares a program's answers with its own.

mod agreed;
mod answers;
mod cases;
mod compare;
mod coverage;
mod gap_cases;
mod generate;
mod image;
mod listing;
mod model;
mod place;
mod readable;
mod refusal;
mod request;
mod table;
mod where_cases;

use coverage::Coverage;
use generate::Generator;
use std::error::Error;
use std::io::{self, BufWriter, Read, Write};
use std::process::ExitCode;

const USAGE: &str = "usage: oracle answer | describe | encode | dirty | list [--where]        (from standard input)
       oracle generate SEED COUNT [OPS] | sample SEED COUNT | coverage SEED COUNT | sweep-size
       oracle compare PROGRAM SEED COUNT [OPS] | compare-bad PROGRAM SEED COUNT
       oracle compare-list PROGRAM SEED COUNT | compare-where PROGRAM SEED COUNT
       oracle self-check [--mutate K] | case-count
OPS is a list with commas of 1 to 17 and sweep.";

/// Whether all was well.
type Outcome = Result<bool, Box<dyn Error>>;

fn output() -> BufWriter<io::StdoutLock<'static>> {
    BufWriter::with_capacity(1 << 18, io::stdout().lock())
}

/// Each request of the input as a readable line.
fn describe_all() -> Outcome {
    let mut out = output();
    let ended_well = answers::each_request(io::stdin().lock(), |request| writeln!(out, "{}", readable::describe(&request)))?;
    if !ended_well {
        writeln!(out, "bad request")?;
    }
    out.flush()?;
    Ok(ended_well)
}

/// The octets of readable lines.
fn encode_all() -> Outcome {
    let mut octets = Vec::new();
    for line in io::read_to_string(io::stdin())?.lines() {
        readable::request(line).put(&mut octets);
    }
    io::stdout().write_all(&octets)?;
    Ok(true)
}

/// For each writing that is refused with its output changed by the Rust: how many octets, the output, and the request.
fn show_dirty() -> Outcome {
    let mut out = output();
    answers::each_request(io::stdin().lock(), |request| {
        let answered = answers::answer(&request, &mut Vec::new());
        if !answered.dirty.is_empty() {
            let (output, asked) = (readable::hex(&answered.dirty), readable::describe(&request));
            writeln!(out, "{} octets changed: {output}\n  {asked}", answered.changed())?;
        }
        Ok(())
    })?;
    out.flush()?;
    Ok(true)
}

fn list(tells_where: bool) -> Outcome {
    let mut cache = Vec::new();
    io::stdin().read_to_end(&mut cache)?;
    print!("{}", listing::list(&cache, tells_where));
    Ok(true)
}

fn generate(generator: &Generator, count: u64) -> Outcome {
    let mut out = output();
    for index in 0..count {
        out.write_all(&compare::chunk(generator, index, index + 1))?;
    }
    out.flush()?;
    Ok(true)
}

/// Of so many requests those that meet what none before them met.
fn sample(generator: &Generator, count: u64) -> Outcome {
    let mut coverage = Coverage::default();
    let (mut octets, mut line) = (Vec::new(), Vec::new());
    for index in 0..count {
        line.clear();
        let request = generator.request(index);
        if coverage.count(&request, &answers::answer(&request, &mut line)) {
            request.put(&mut octets);
        }
    }
    io::stdout().write_all(&octets)?;
    Ok(true)
}

/// What so many requests meet; not well where something that must be met is missing.
fn cover(generator: &Generator, count: u64) -> Outcome {
    let mut coverage = Coverage::default();
    let (mut octets, mut line) = (Vec::new(), Vec::new());
    for index in 0..count {
        octets.clear();
        line.clear();
        generator.request(index).put(&mut octets);
        let Ok((request, _)) = request::take(&octets) else {
            return Err(format!("request {index} is bad").into());
        };
        coverage.count(&request, &answers::answer(&request, &mut line));
    }
    print!("{}", coverage.report());
    let faults = coverage.faults();
    faults.iter().for_each(|fault| println!("{fault}"));
    Ok(faults.is_empty())
}

fn self_check(mutate: Option<usize>) -> Outcome {
    let failures = cases::failures(mutate);
    failures.iter().for_each(|failure| println!("{failure}"));
    println!("{} cases, {} failed", cases::count(), failures.len());
    Ok(failures.is_empty())
}

/// An argument that must be a number.
fn number(what: &str, text: &str) -> Result<u64, Box<dyn Error>> {
    text.parse().map_err(|_| format!("{what} must be a number from 0 to {}, not '{text}'", u64::MAX).into())
}

fn seeded(seed: &str, ops: Option<&str>) -> Result<Generator, Box<dyn Error>> {
    Ok(Generator::new(number("SEED", seed)?, ops)?)
}

/// Compares with a program; not well where it differs.
fn compared(sort: &str, program: &str, generator: Generator, count: u64) -> Outcome {
    let differences = match sort {
        "compare-bad" => compare::compare_bad(program, generator, count)?,
        "compare-list" => compare::compare_list(program, generator, count, false)?,
        "compare-where" => compare::compare_list(program, generator, count, true)?,
        _ => compare::compare(program, generator, count)?,
    };
    Ok(differences == 0)
}

fn run(arguments: &[&str]) -> Outcome {
    let counted = |count: &str| number("COUNT", count);
    match *arguments {
        ["answer"] => {
            answers::answer_all(io::stdin().lock(), output())?;
            Ok(true)
        }
        ["describe"] => describe_all(),
        ["encode"] => encode_all(),
        ["dirty"] => show_dirty(),
        ["list"] => list(false),
        ["list", "--where"] => list(true),
        ["generate", seed, count] => generate(&seeded(seed, None)?, counted(count)?),
        ["generate", seed, count, ops] => generate(&seeded(seed, Some(ops))?, counted(count)?),
        ["sample", seed, count] => sample(&seeded(seed, None)?, counted(count)?),
        ["coverage", seed, count] => cover(&seeded(seed, None)?, counted(count)?),
        ["-h" | "--help"] => {
            println!("{USAGE}");
            Ok(true)
        }
        ["sweep-size"] => {
            println!("{}", seeded("0", None)?.sweep_size());
            Ok(true)
        }
        [sort @ ("compare" | "compare-bad" | "compare-list" | "compare-where"), program, seed, count] => {
            compared(sort, program, seeded(seed, None)?, counted(count)?)
        }
        ["compare", program, seed, count, ops] => compared("compare", program, seeded(seed, Some(ops))?, counted(count)?),
        ["self-check"] => self_check(None),
        ["self-check", "--mutate", case] => self_check(Some(number("K", case)? as usize)),
        ["case-count"] => {
            println!("{}", cases::count());
            Ok(true)
        }
        _ => Err(USAGE.into()),
    }
}

fn main() -> ExitCode {
    let arguments: Vec<String> = std::env::args().skip(1).collect();
    let arguments: Vec<&str> = arguments.iter().map(String::as_str).collect();
    match run(&arguments) {
        Ok(true) => ExitCode::SUCCESS,
        Ok(false) => ExitCode::from(1),
        Err(error) => {
            eprintln!("{error}");
            ExitCode::from(2)
        }
    }
}
