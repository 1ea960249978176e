//! Plans of references: which profiles, and how long each of their parts is. Octets and tables are both made from a plan.

use super::random::Random;

pub enum Part {
    Opaque { tag: u32, data: usize },
    Biop { key: usize, taps: Vec<usize>, extras: Vec<usize> },
    LiteOptions { names: Vec<(usize, usize)>, context: usize, extras: Vec<usize> },
}

/// A type id of any length, or, without `gaps`, of a multiple of 4 octets.
pub struct Plan {
    pub type_id: usize,
    pub gaps: bool,
    pub parts: Vec<Part>,
}

pub const TAG_BIOP: u32 = 0x4953_4F06;
pub const TAG_LITE_OPTIONS: u32 = 0x4953_4F05;

/// How many lengths, each at most so long.
fn lengths(random: &mut Random, count: usize, most: usize) -> Vec<usize> {
    (0..count).map(|_| random.between(0, most)).collect()
}

fn opaque(random: &mut Random, most: usize) -> Part {
    let tag = match random.below(3) {
        0 => random.number(),
        1 => random.pick(&[0, 6, TAG_BIOP + 1, TAG_LITE_OPTIONS - 1, 0x4953_4F50, 0xFFFF_FFFF]),
        _ => random.between(0, 9) as u32,
    };
    Part::Opaque { tag, data: random.between(0, most) }
}

fn selector(random: &mut Random) -> usize {
    if random.one_in(2) {
        10
    } else {
        random.between(0, 12)
    }
}

fn small_part(random: &mut Random) -> Part {
    match random.below(5) {
        0 => opaque(random, 6),
        1 | 2 => {
            let taps = random.between(0, 3);
            let extras = random.between(0, 2);
            Part::Biop {
                key: random.between(0, 6),
                taps: (0..taps).map(|_| selector(random)).collect(),
                extras: lengths(random, extras, 5),
            }
        }
        _ => {
            let names = random.between(0, 3);
            let extras = random.between(0, 2);
            Part::LiteOptions {
                names: (0..names).map(|_| (random.between(0, 5), random.between(0, 5))).collect(),
                context: random.between(0, 5),
                extras: lengths(random, extras, 5),
            }
        }
    }
}

fn type_id(random: &mut Random, gaps: bool) -> usize {
    match random.below(20) {
        _ if !gaps => random.pick(&[4, 4, 4, 4, 4, 0, 0, 8, 12, 16]),
        0 => random.between(250, 260),
        1..=3 => random.between(10, 40),
        _ => random.between(0, 9),
    }
}

/// Few profiles with few entries.
pub fn small(random: &mut Random, gaps: bool) -> Plan {
    let profiles = random.pick(&[0, 1, 1, 2, 2, 2, 3]);
    Plan { type_id: type_id(random, gaps), gaps, parts: (0..profiles).map(|_| small_part(random)).collect() }
}

/// A total split into `shares` counts of at most `most` each.
fn shared(random: &mut Random, total: usize, shares: usize, most: usize) -> Vec<usize> {
    let mut counts = vec![0; shares];
    for _ in 0..total.min(shares * most) {
        let open: Vec<usize> = (0..shares).filter(|share| counts[*share] < most).collect();
        counts[random.pick(&open)] += 1;
    }
    counts
}

/// Puts the parts in some other order.
fn shuffle(random: &mut Random, parts: &mut [Part]) {
    for end in (1..parts.len()).rev() {
        parts.swap(end, random.between(0, end));
    }
}

/// One of the four tables just full, or with one entry too many, or with some more; often two of them at once.
pub fn crowded(random: &mut Random, gaps: bool) -> Plan {
    let full = |random: &mut Random, size: usize| match random.below(3) {
        0 => random.between(0, 3),
        1 => size,
        _ => size + random.pick(&[1, 1, 1, 2, 5]),
    };
    let (biops, lites) = (random.between(1, 3), random.between(0, 3));
    let taps = full(random, 36);
    let taps = shared(random, taps, biops, 36);
    let names = full(random, 32);
    let names = shared(random, names, lites, 40);
    let extras = full(random, 32);
    let mut extras = shared(random, extras, biops + lites, 40).into_iter();
    let mut extra_lengths = |random: &mut Random| {
        let count = extras.next().expect("a share for each part");
        lengths(random, count, 1)
    };
    let mut parts = Vec::new();
    for count in taps {
        parts.push(Part::Biop { key: random.between(0, 4), taps: vec![0; count], extras: extra_lengths(random) });
    }
    for count in names {
        let names = (0..count).map(|_| (random.between(0, 1), random.between(0, 1))).collect();
        parts.push(Part::LiteOptions { names, context: random.between(0, 3), extras: extra_lengths(random) });
    }
    let profiles = full(random, 8);
    while parts.len() < profiles {
        parts.push(opaque(random, 2));
    }
    shuffle(random, &mut parts);
    Plan { type_id: type_id(random, gaps), gaps, parts }
}

/// Components near the longest: keys around 246, ConnBinders around 255 octets, extras around 255.
pub fn long(random: &mut Random, gaps: bool) -> Plan {
    let near = |random: &mut Random, most: usize| most - 2 + random.below(5);
    let key = if random.one_in(2) { near(random, 246) } else { random.between(0, 5) };
    let taps = match random.below(4) {
        0 => vec![0; 36],
        1 => {
            let mut taps = vec![0; 36];
            taps[random.below(36)] = random.between(0, 5);
            taps
        }
        2 => vec![near(random, 247)],
        _ => lengths(random, 2, 10),
    };
    let extra = if random.one_in(2) { near(random, 255) } else { random.between(0, 5) };
    let mut parts = vec![Part::Biop { key, taps, extras: vec![extra] }];
    if random.one_in(2) {
        let extras = vec![near(random, 255)];
        parts.push(Part::LiteOptions { names: vec![(near(random, 255), 3)], context: near(random, 255), extras });
    }
    shuffle(random, &mut parts);
    Plan { type_id: type_id(random, gaps), gaps, parts }
}
