//! The library beside the Rust it replaces: the same references to both, in one process. Prints ns a reference, the best of several rounds, and the
//! ratio; with a file's name, writes a plot of time against octets there.

use broadcast_common::Serialize;
use dvb_si::carousel::biop::ior::{Ior, ObjectKind};
use std::fmt::Write as _;
use std::hint::black_box;
use std::time::Instant;

const TABLE: usize = 490;
const ANSWER: usize = 6;
const ROUNDS: usize = 40;

#[link(name = "ior_c", kind = "static")]
extern "C" {
    fn ior_read(s: *const u8, n: usize, table: *mut u32, tables: usize, answer: *mut u64, answers: usize) -> u32;
    fn ior_length(table: *const u32, tables: usize, s: *const u8, n: usize, answer: *mut u64, answers: usize) -> u32;
    fn ior_write(
        table: *const u32,
        tables: usize,
        s: *const u8,
        n: usize,
        out: *mut u8,
        room: usize,
        answer: *mut u64,
        answers: usize,
    ) -> u32;
    fn ior_kind(type_id: *const u8, n: usize, kind: *mut u32, kinds: usize) -> u32;
}

fn read(s: &[u8], table: &mut [u32; TABLE], answer: &mut [u64; ANSWER]) -> u32 {
    unsafe { ior_read(s.as_ptr(), s.len(), table.as_mut_ptr(), TABLE, answer.as_mut_ptr(), ANSWER) }
}

fn length(table: &[u32; TABLE], s: &[u8], answer: &mut [u64; ANSWER]) -> u32 {
    unsafe { ior_length(table.as_ptr(), TABLE, s.as_ptr(), s.len(), answer.as_mut_ptr(), ANSWER) }
}

fn write(table: &[u32; TABLE], s: &[u8], out: &mut [u8], answer: &mut [u64; ANSWER]) -> u32 {
    unsafe { ior_write(table.as_ptr(), TABLE, s.as_ptr(), s.len(), out.as_mut_ptr(), out.len(), answer.as_mut_ptr(), ANSWER) }
}

fn kind(type_id: &[u8], number: &mut [u32; 1]) -> u32 {
    unsafe { ior_kind(type_id.as_ptr(), type_id.len(), number.as_mut_ptr(), 1) }
}

// ---- references

struct Random(u64);

impl Random {
    fn octet(&mut self) -> u8 {
        self.0 = self.0.wrapping_mul(6364136223846793005).wrapping_add(1442695040888963407);
        (self.0 >> 56) as u8
    }
    fn octets(&mut self, n: usize) -> Vec<u8> {
        (0..n).map(|_| self.octet()).collect()
    }
}

fn component(tag: u32, data: &[u8]) -> Vec<u8> {
    [&tag.to_be_bytes()[..], &[data.len() as u8], data].concat()
}

/// The extras of a profile, `size` octets each.
fn components(random: &mut Random, extras: usize, size: usize) -> Vec<u8> {
    (0..extras).flat_map(|_| component(0x01020304, &random.octets(size))).collect()
}

fn biop(random: &mut Random, taps: usize, extras: &[u8], count: usize) -> Vec<u8> {
    let mut location = random.octets(6);
    location.extend([1, 0, 4]);
    location.extend(random.octets(4));
    let mut binder = vec![taps as u8];
    for _ in 0..taps {
        binder.extend(random.octets(2));
        binder.extend([0, 0x16]);
        binder.extend(random.octets(2));
        binder.push(10);
        binder.extend(random.octets(10));
    }
    let mut data = vec![0, 2 + count as u8];
    data.extend(component(0x49534F50, &location));
    data.extend(component(0x49534F40, &binder));
    data.extend(extras);
    [&0x49534F06u32.to_be_bytes()[..], &(data.len() as u32).to_be_bytes(), &data].concat()
}

fn lite_options(random: &mut Random, names: usize, extras: &[u8], count: usize) -> Vec<u8> {
    let mut service = vec![20, 0, 0];
    service.extend(random.octets(4));
    service.push(1);
    service.extend(random.octets(9));
    service.extend([0xFF; 4]);
    service.extend((names as u32).to_be_bytes());
    for _ in 0..names {
        service.extend([0, 0, 0, 8]);
        service.extend(random.octets(8));
        service.extend([0, 0, 0, 4]);
        service.extend(random.octets(4));
    }
    service.extend([0, 0, 0, 0]);
    let mut data = vec![0, 1 + count as u8];
    data.extend(0x49534F46u32.to_be_bytes());
    data.extend((service.len() as u32).to_be_bytes());
    data.extend(&service);
    data.extend(extras);
    [&0x49534F05u32.to_be_bytes()[..], &(data.len() as u32).to_be_bytes(), &data].concat()
}

fn reference(profiles: &[Vec<u8>]) -> Vec<u8> {
    let mut r = b"\0\0\0\x04fil\0".to_vec();
    r.extend((profiles.len() as u32).to_be_bytes());
    profiles.iter().for_each(|p| r.extend(p));
    r
}

/// One BIOP profile with one tap and one extra.
fn small(random: &mut Random) -> Vec<u8> {
    let extras = components(random, 1, 8);
    reference(&[biop(random, 1, &extras, 1)])
}

/// n of the eight profiles that fill all tables: 36 taps, 32 names, 32 extras.
fn filled(random: &mut Random, n: usize) -> Vec<u8> {
    let mut profiles = Vec::new();
    for i in 0..n {
        let extras = components(random, 4, 11);
        profiles.push(if i % 2 == 0 { biop(random, 9, &extras, 4) } else { lite_options(random, 8, &extras, 4) });
    }
    reference(&profiles)
}

fn full(random: &mut Random) -> Vec<u8> {
    filled(random, 8)
}

// ---- times

/// ns a reference, the best of all rounds, of each of two ways; rounds alternate, so that both meet the same machine.
fn best(count: usize, turns: usize, ours: &mut dyn FnMut(), theirs: &mut dyn FnMut()) -> (f64, f64) {
    let mut least = (f64::MAX, f64::MAX);
    let time = |run: &mut dyn FnMut()| {
        let start = Instant::now();
        (0..turns).for_each(|_| run());
        start.elapsed().as_nanos() as f64 / (turns * count) as f64
    };
    for _ in 0..ROUNDS {
        least.0 = least.0.min(time(ours));
        least.1 = least.1.min(time(theirs));
    }
    least
}

struct Times {
    read: (f64, f64),
    write: (f64, f64),
    length: (f64, f64),
}

fn times(references: &[Vec<u8>]) -> Times {
    let count = references.len();
    let octets: usize = references.iter().map(Vec::len).sum();
    let turns = (2_000_000 / (octets + 60 * count)).max(1);
    let mut answer = [0u64; ANSWER];
    let mut tables = vec![[0u32; TABLE]; count];
    let values: Vec<Ior> = references.iter().map(|r| Ior::parse_at(r).expect("a reference").0).collect();
    let mut out = vec![0u8; 65_536];
    for ((r, t), v) in references.iter().zip(&mut tables).zip(&values) {
        assert_eq!(read(r, t, &mut answer), 0);
        assert_eq!(answer[4] as usize, r.len());
        assert_eq!(length(t, r, &mut answer), 0);
        assert_eq!(answer[4] as usize, v.serialized_len());
        assert_eq!(write(t, r, &mut out, &mut answer), 0);
        let mut theirs = vec![0u8; r.len()];
        assert_eq!(v.serialize_into(&mut theirs).expect("written"), r.len());
        assert_eq!(out[..r.len()], theirs);
    }
    let mut table = [0u32; TABLE];
    let mut theirs = out.clone();
    let mut a = [0u64; ANSWER];
    let read = best(
        count,
        turns,
        &mut || {
            references.iter().for_each(|r| {
                black_box(read(black_box(r), &mut table, &mut answer));
            })
        },
        &mut || {
            references.iter().for_each(|r| {
                black_box(&Ior::parse_at(black_box(r)));
            })
        },
    );
    let write = best(
        count,
        turns,
        &mut || {
            references.iter().zip(&tables).for_each(|(r, t)| {
                black_box(write(black_box(t), r, &mut out, &mut a));
            })
        },
        &mut || {
            values.iter().for_each(|v| {
                let _ = black_box(black_box(v).serialize_into(&mut theirs));
            })
        },
    );
    let length = best(
        count,
        turns,
        &mut || {
            references.iter().zip(&tables).for_each(|(r, t)| {
                black_box(length(black_box(t), r, &mut a));
            })
        },
        &mut || {
            values.iter().for_each(|v| {
                black_box(black_box(v).serialized_len());
            })
        },
    );
    Times { read, write, length }
}

/// The kind alone, of type ids drawn from the five and an unknown one.
fn kinds(count: usize) -> (f64, f64) {
    let mut random = Random(1);
    let type_ids: [&[u8]; 6] = [b"dir\0", b"fil\0", b"str\0", b"srg\0", b"ste\0", b"logo"];
    let values: Vec<Ior> =
        (0..count).map(|_| Ior { type_id: type_ids[random.octet() as usize % 6], profiles: Vec::new() }).collect();
    let mut number = [0u32; 1];
    for v in &values {
        let theirs = match v.object_kind() {
            ObjectKind::Directory => 0,
            ObjectKind::File => 1,
            ObjectKind::Stream => 2,
            ObjectKind::ServiceGateway => 3,
            ObjectKind::StreamEvent => 4,
            _ => 5,
        };
        assert_eq!(kind(v.type_id, &mut number), theirs);
        assert_eq!(number[0].to_be_bytes()[..], *v.type_id);
    }
    best(
        count,
        (250_000 / count).max(1),
        &mut || {
            values.iter().for_each(|v| {
                black_box(kind(black_box(v.type_id), &mut number));
            })
        },
        &mut || {
            values.iter().for_each(|v| {
                black_box(black_box(v).object_kind());
            })
        },
    )
}

/// Reading alone, of references that do not fit the tables.
fn crowded(octets: &[u8]) -> (f64, f64) {
    let mut table = [0u32; TABLE];
    let mut answer = [0u64; ANSWER];
    let turns = (1_000_000 / octets.len()).max(1);
    best(
        1,
        turns,
        &mut || {
            black_box(read(black_box(octets), &mut table, &mut answer));
        },
        &mut || {
            black_box(&Ior::parse_at(black_box(octets)));
        },
    )
}

fn row(what: &str, octets: usize, t: (f64, f64)) {
    println!("| {what} | {octets} | {:.1} | {:.1} | {:.2} |", t.0, t.1, t.0 / t.1);
}

// ---- the plot

struct Line {
    name: &'static str,
    colour: &'static str,
    points: Vec<(f64, f64)>,
}

fn plot(lines: &[Line]) -> String {
    let (wide, high, left, top) = (640.0, 400.0, 70.0, 30.0);
    let most = |f: fn(&(f64, f64)) -> f64| lines.iter().flat_map(|l| &l.points).map(f).fold(0.0, f64::max);
    let (x, y) = (most(|p| p.0), most(|p| p.1));
    let place = |p: &(f64, f64)| (left + p.0 / x * wide, top + high - p.1 / y * high);
    let mut s = format!(
        "<svg xmlns=\"http://www.w3.org/2000/svg\" width=\"{}\" height=\"{}\" font-family=\"sans-serif\" font-size=\"12\">\n",
        wide + 200.0,
        high + 90.0
    );
    let _ = writeln!(s, "<rect width=\"100%\" height=\"100%\" fill=\"white\"/>");
    for i in 0..=4 {
        let (fx, fy) = (x * i as f64 / 4.0, y * i as f64 / 4.0);
        let (px, py) = (place(&(fx, 0.0)).0, place(&(0.0, fy)).1);
        let _ = writeln!(s, "<line x1=\"{left}\" y1=\"{py:.0}\" x2=\"{:.0}\" y2=\"{py:.0}\" stroke=\"#ddd\"/>", left + wide);
        let _ = writeln!(s, "<text x=\"{px:.0}\" y=\"{:.0}\" text-anchor=\"middle\">{fx:.0}</text>", top + high + 18.0);
        let _ = writeln!(s, "<text x=\"{:.0}\" y=\"{:.0}\" text-anchor=\"end\">{fy:.0}</text>", left - 8.0, py + 4.0);
    }
    for (i, line) in lines.iter().enumerate() {
        let points: Vec<String> = line.points.iter().map(|p| place(p)).map(|(a, b)| format!("{a:.1},{b:.1}")).collect();
        let _ = writeln!(
            s,
            "<polyline fill=\"none\" stroke=\"{}\" stroke-width=\"2\" points=\"{}\"/>",
            line.colour,
            points.join(" ")
        );
        let at = top + 20.0 * i as f64 + 10.0;
        let _ = writeln!(
            s,
            "<line x1=\"{0}\" y1=\"{at}\" x2=\"{1}\" y2=\"{at}\" stroke=\"{2}\" stroke-width=\"2\"/>",
            left + wide + 12.0,
            left + wide + 36.0,
            line.colour
        );
        let _ = writeln!(s, "<text x=\"{}\" y=\"{}\">{}</text>", left + wide + 42.0, at + 4.0, line.name);
    }
    let _ = writeln!(
        s,
        "<text x=\"{}\" y=\"{}\" text-anchor=\"middle\">octets of the reference</text>",
        left + wide / 2.0,
        top + high + 44.0
    );
    let _ = writeln!(s, "<text x=\"{left}\" y=\"18\">ns a reference</text>\n</svg>");
    s
}

fn main() {
    let mut random = Random(1);
    println!("| what | octets | ours, ns | the Rust, ns | ratio |\n|---|---|---|---|---|");
    for (name, count, made) in [
        ("small, 64 references", 64, small as fn(&mut Random) -> Vec<u8>),
        ("small, 2,000 references", 2000, small),
        ("full, 64 references", 64, full),
        ("full, 2,000 references", 2000, full),
    ] {
        let references: Vec<_> = (0..count).map(|_| made(&mut random)).collect();
        let t = times(&references);
        let octets = references[0].len();
        row(&format!("read, {name}"), octets, t.read);
        row(&format!("write, {name}"), octets, t.write);
        row(&format!("length, {name}"), octets, t.length);
    }
    row("kind, 64 type ids", 4, kinds(64));
    row("kind, 2,000 type ids", 4, kinds(2000));

    let colours = ["#1b6ca8", "#e07b39", "#4f9d69", "#b33951"];
    let names = ["ours, read", "the Rust, read", "ours, write", "the Rust, write"];
    let mut lines: Vec<Line> = (0..4).map(|i| Line { name: names[i], colour: colours[i], points: Vec::new() }).collect();
    println!("\n| profiles | octets | read, ns an octet | write, ns an octet | read, the Rust | write, the Rust |\n|---|---|---|---|---|---|");
    for n in 1..=8 {
        let references: Vec<_> = (0..32).map(|_| filled(&mut random, n)).collect();
        let t = times(&references);
        let octets = references[0].len() as f64;
        for (line, time) in lines.iter_mut().zip([t.read.0, t.read.1, t.write.0, t.write.1]) {
            line.points.push((octets, time));
        }
        println!(
            "| {n} | {octets} | {:.3} | {:.3} | {:.3} | {:.3} |",
            t.read.0 / octets,
            t.write.0 / octets,
            t.read.1 / octets,
            t.write.1 / octets
        );
    }

    println!("\n| empty profiles | octets | read, ns an octet | read, the Rust |\n|---|---|---|---|");
    for n in [1000usize, 2000, 4000, 8190] {
        let mut octets = vec![0u8; 8 + 8 * n];
        octets[4..8].copy_from_slice(&(n as u32).to_be_bytes());
        let t = crowded(&octets);
        println!("| {n} | {} | {:.3} | {:.3} |", octets.len(), t.0 / octets.len() as f64, t.1 / octets.len() as f64);
    }
    if let Some(file) = std::env::args().nth(1) {
        std::fs::write(&file, plot(&lines)).expect("the plot is written");
    }
}
