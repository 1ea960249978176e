//! The cache listing beside a plain one in Rust.
//!
//! listing make: a cache of 800,000 small references (65 MB) to standard output.
//! listing list: lists a cache from standard input, by the Rust that the library replaces.
//! listing race FILE PROGRAM...: PROGRAM and the plain one on FILE, in turn; prints the best time of each.

use broadcast_common::Parse;
use dvb_si::carousel::biop::ior::{Ior, ObjectKind};
use std::fs::File;
use std::io::{self, BufReader, BufWriter, Read, Write};
use std::process::{Command, Stdio};
use std::time::Instant;

const RECORDS: u32 = 800_000;
const BLOCK: usize = 1 << 18;
const ROUNDS: usize = 10;

/// One BIOP profile with a tap and an extra, 77 octets; key and module differ from record to record.
fn reference(number: u32) -> Vec<u8> {
    let kinds = [b"fil\0", b"dir\0", b"srg\0", b"str\0", b"ste\0", b"logo"];
    let mut r = [&[0, 0, 0, 4][..], kinds[number as usize % kinds.len()], &[0, 0, 0, 1]].concat();
    r.extend(b"\x49\x53\x4F\x06\0\0\0\x39\0\x03\x49\x53\x4F\x50\x0D\0\0\0\x01");
    r.extend((number as u16).to_be_bytes());
    r.extend(b"\x01\0\x04");
    r.extend(number.to_be_bytes());
    r.extend(b"\x49\x53\x4F\x40\x12\x01\0\0\0\x16\0\x0B\x0A\0\x01\x80\0\0\x02\xFF\xFF\xFF\xFF");
    r.extend(b"\x49\x53\x4F\x7F\x09navi maps");
    r
}

fn make() -> io::Result<()> {
    let mut out = BufWriter::with_capacity(BLOCK, io::stdout().lock());
    for number in 0..RECORDS {
        let reference = reference(number);
        out.write_all(b"OR")?;
        out.write_all(&(reference.len() as u16).to_be_bytes())?;
        out.write_all(&reference)?;
    }
    out.flush()
}

fn put_row(out: &mut impl Write, number: usize, octets: &[u8]) -> io::Result<()> {
    let Ok(ior) = Ior::parse(octets) else {
        return writeln!(out, "{number} {} - - 1", octets.len());
    };
    let (bytes, profiles) = (octets.len(), ior.profiles.len());
    match ior.object_kind() {
        ObjectKind::Unknown(o) => writeln!(out, "{number} {bytes} {:08x} {profiles} 0", u32::from_be_bytes(o)),
        kind => writeln!(out, "{number} {bytes} {} {profiles} 0", String::from_utf8_lossy(&kind.to_bytes()[..3])),
    }
}

/// As one would write it: buffered, a record at a time into one buffer. It has no refusals of its own: no record of `make` is refused.
fn list() -> io::Result<()> {
    let mut cache = BufReader::with_capacity(BLOCK, io::stdin().lock());
    let mut out = BufWriter::with_capacity(BLOCK, io::stdout().lock());
    let (mut head, mut octets, mut seen) = ([0; 4], vec![0; 65_535], 0);
    writeln!(out, "record bytes kind profiles refusal")?;
    while cache.read_exact(&mut head).is_ok() {
        let n = u16::from_be_bytes([head[2], head[3]]) as usize;
        cache.read_exact(&mut octets[..n])?;
        seen += 1;
        put_row(&mut out, seen, &octets[..n])?;
    }
    writeln!(out, "end {seen}")?;
    out.flush()
}

fn on(file: &str, words: &[String]) -> Command {
    let mut command = Command::new(&words[0]);
    command.args(&words[1..]).stdin(File::open(file).expect("the cache can be read"));
    command
}

fn printed(file: &str, words: &[String]) -> Vec<u8> {
    on(file, words).output().expect("it can be run").stdout
}

fn seconds(file: &str, words: &[String]) -> f64 {
    let start = Instant::now();
    let status = on(file, words).stdout(Stdio::null()).status();
    assert!(status.is_ok_and(|s| s.success()), "{words:?} fails");
    start.elapsed().as_secs_f64()
}

fn race(file: &str, ours: &[String]) {
    let own = std::env::current_exe().expect("a program has a path").display().to_string();
    let theirs = [own, "list".into()];
    assert!(printed(file, ours) == printed(file, &theirs), "the listings differ");
    let (mut a, mut b) = (f64::MAX, f64::MAX);
    for _ in 0..ROUNDS {
        a = a.min(seconds(file, ours));
        b = b.min(seconds(file, &theirs));
    }
    println!(
        "listing of 800,000 records, 65 MB: ours {:.0} ms, a plain Rust listing {:.0} ms, ratio {:.2}",
        a * 1e3,
        b * 1e3,
        a / b
    );
}

fn main() {
    let words: Vec<String> = std::env::args().skip(1).collect();
    match words.first().map(String::as_str) {
        Some("make") => make().expect("the cache can be written"),
        Some("list") => list().expect("the listing can be made"),
        Some("race") if words.len() > 2 => race(&words[1], &words[2..]),
        _ => panic!("listing make | list | race FILE PROGRAM..."),
    }
}
