//! Requests one after the other with none left out: short slices, and every small change of some samples.

use super::octets::well_formed;
use super::plan::{Part, Plan, TAG_BIOP, TAG_LITE_OPTIONS};
use super::random::Random;
use super::short::{ADDRESS, KINDS};
use crate::request::{Reading, Request, Rule};

/// Some requests that a number below `size` chooses from.
struct Segment {
    size: usize,
    member: Box<dyn Fn(usize) -> Request + Send>,
}

pub struct Sweep {
    segments: Vec<Segment>,
}

fn segment(size: usize, member: impl Fn(usize) -> Request + Send + 'static) -> Segment {
    Segment { size, member: Box::new(member) }
}

/// How many sequences of at most `most` digits there are over so many digits.
fn sequences(digits: usize, most: u32) -> usize {
    (0..=most).map(|length| digits.pow(length)).sum()
}

/// Sequence `number` in the order of length.
fn sequence(digits: usize, number: usize) -> Vec<usize> {
    let (mut left, mut length) = (number, 0);
    while left >= digits.pow(length) {
        left -= digits.pow(length);
        length += 1;
    }
    (0..length).map(|place| left / digits.pow(place) % digits).collect()
}

/// In how many ways a reference is read, and the request of each.
#[derive(Clone, Copy)]
struct Ways {
    count: usize,
    request: fn(usize, Vec<u8>) -> Request,
}

/// Leading, whole, and with where it broke; whole, since that refuses all that the leading reading does, and leftover octets too.
const PLAIN: Ways = Ways {
    count: 3,
    request: |way, source| match way {
        0 => Request::Read { whole: false, source },
        1 => Request::Read { whole: true, source },
        _ => Request::Where { reading: Reading::Whole, source },
    },
};

/// Leading and whole under each rule.
const BY_RULE: Ways = Ways {
    count: 4,
    request: |way, source| {
        let rule = if way < 2 { Rule::Multiple } else { Rule::Gap };
        Request::ReadBy { rule, whole: way % 2 == 1, source }
    },
};

/// Whole under rule 2.
const BY_GAP: Ways = Ways { count: 1, request: |_, source| Request::ReadBy { rule: Rule::Gap, whole: true, source } };

fn octet_names() -> Segment {
    segment(sequences(256, 2), |number| {
        let source = sequence(256, number).into_iter().map(|digit| digit as u8).collect();
        Request::ReadName { source }
    })
}

fn few_octet_names() -> Segment {
    const OCTETS: [u8; 6] = [0, 1, 2, 3, 4, 0xFF];
    segment(2 * sequences(OCTETS.len(), 5), |number| {
        let source = sequence(OCTETS.len(), number / 2).into_iter().map(|digit| OCTETS[digit]).collect();
        if number % 2 == 0 {
            Request::ReadName { source }
        } else {
            Request::Where { reading: Reading::Name, source }
        }
    })
}

/// Up to four words of a reference, then up to three octets more.
fn words(ways: Ways) -> Segment {
    const WORDS: [u32; 10] = [0, 1, 3, 4, 8, 16, 0xFFFF_FFFF, TAG_BIOP, TAG_LITE_OPTIONS, 0x7372_6700];
    segment(4 * ways.count * sequences(WORDS.len(), 4), move |number| {
        let words = sequence(WORDS.len(), number / 4 / ways.count);
        let mut source: Vec<u8> = words.into_iter().flat_map(|digit| WORDS[digit].to_be_bytes()).collect();
        source.resize(source.len() + number % 4, 0);
        (ways.request)(number / 4 % ways.count, source)
    })
}

/// A type id of up to five octets, up to four octets of a gap, right ones and wrong ones, up to three words, and an octet or none.
fn gaps(ways: Ways) -> Segment {
    const TYPE_ID: [u8; 5] = *b"abcde";
    const OCTETS: [u8; 3] = [0xFF, 0x00, 0xFE];
    const WORDS: [u32; 3] = [0, 1, 0xFFFF_FFFF];
    let sizes = [ways.count, 2, TYPE_ID.len() + 1, sequences(OCTETS.len(), 4), sequences(WORDS.len(), 3)];
    segment(sizes.iter().product(), move |number| {
        let mut left = number;
        let [way, behind, length, gap, words] = sizes.map(|size| {
            let digit = left % size;
            left /= size;
            digit
        });
        let mut source = (length as u32).to_be_bytes().to_vec();
        source.extend_from_slice(&TYPE_ID[..length]);
        source.extend(sequence(OCTETS.len(), gap).into_iter().map(|digit| OCTETS[digit]));
        source.extend(sequence(WORDS.len(), words).into_iter().flat_map(|digit| WORDS[digit].to_be_bytes()));
        source.resize(source.len() + behind, 0);
        (ways.request)(way, source)
    })
}

fn sample_plans() -> Vec<(Plan, Ways)> {
    let plain = |type_id, parts| (Plan { type_id, gaps: false, parts }, PLAIN);
    let gapped = |type_id, parts| (Plan { type_id, gaps: true, parts }, BY_RULE);
    let biop = |key, taps: &[usize], extras: &[usize]| Part::Biop { key, taps: taps.to_vec(), extras: extras.to_vec() };
    let lite = |names: &[(usize, usize)], context, extras: &[usize]| Part::LiteOptions {
        names: names.to_vec(),
        context,
        extras: extras.to_vec(),
    };
    vec![
        plain(4, vec![biop(0, &[], &[])]),
        plain(4, vec![biop(2, &[10, 0], &[0, 2])]),
        plain(0, vec![lite(&[], 0, &[])]),
        plain(8, vec![lite(&[(1, 4), (0, 0)], 2, &[1, 0])]),
        plain(4, vec![Part::Opaque { tag: 6, data: 3 }, biop(1, &[1], &[]), lite(&[(2, 0)], 1, &[])]),
        gapped(5, vec![Part::Opaque { tag: 6, data: 1 }]),
        gapped(6, Vec::new()),
        gapped(7, vec![biop(0, &[], &[])]),
    ]
}

/// All cuts of a sample, each octet with each value, each octet removed, and some octets inserted in each place.
fn changes(sample: Vec<u8>, ways: Ways) -> Segment {
    const INSERTED: [u8; 3] = [0x00, 0x01, 0xFF];
    let length = sample.len();
    let (cuts, values, removals, insertions) = (length + 1, 256 * length, length, INSERTED.len() * (length + 1));
    segment(ways.count * (cuts + values + removals + insertions), move |number| {
        let mut source = sample.clone();
        let mut left = number / ways.count;
        if left < cuts {
            source.truncate(left);
        } else if left < cuts + values {
            left -= cuts;
            source[left / 256] = (left % 256) as u8;
        } else if left < cuts + values + removals {
            source.remove(left - cuts - values);
        } else {
            left -= cuts + values + removals;
            source.insert(left / INSERTED.len(), INSERTED[left % INSERTED.len()]);
        }
        (ways.request)(number % ways.count, source)
    })
}

fn addresses() -> Segment {
    segment(256 * ADDRESS.len(), |number| {
        let mut octets = ADDRESS;
        octets[number / 256] = (number % 256) as u8;
        Request::Address { octets }
    })
}

fn kinds() -> Segment {
    segment(256 * 4 * KINDS.len(), |number| {
        let mut source = KINDS[number / 1024].to_vec();
        source[number / 256 % 4] = (number % 256) as u8;
        Request::Kind { source }
    })
}

impl Sweep {
    pub fn new() -> Sweep {
        let mut segments =
            vec![octet_names(), few_octet_names(), words(PLAIN), addresses(), kinds(), words(BY_GAP), gaps(BY_RULE)];
        for (index, (plan, ways)) in sample_plans().iter().enumerate() {
            segments.push(changes(well_formed(&mut Random::new(0, index as u64), plan), *ways));
        }
        Sweep { segments }
    }

    pub fn size(&self) -> usize {
        self.segments.iter().map(|segment| segment.size).sum()
    }

    /// Request `number` of the sweep; past its end it begins again.
    pub fn member(&self, number: usize) -> Request {
        let mut left = number % self.size();
        for segment in &self.segments {
            if left < segment.size {
                return (segment.member)(left);
            }
            left -= segment.size;
        }
        unreachable!("the segments' sizes add up to the sweep's")
    }
}
