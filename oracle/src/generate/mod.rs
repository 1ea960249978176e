//! Makes requests: a seed and an index determine each, and the ops that were asked for are mixed by weight.

mod bad;
mod octets;
mod plan;
mod random;
mod short;
mod sweep;
mod tables;

use crate::listing::put_record;
use crate::request::{Reading, Request};
use random::Random;
use sweep::Sweep;

/// The word that asks for the sweep among the ops.
const SWEEP: &str = "sweep";

/// What can be asked for, and its weight in the mix, of 120: ops 1 to 17, and requests of the sweep.
const WEIGHTS: [(&str, usize); 18] = [
    ("1", 13),
    ("2", 13),
    ("3", 8),
    ("4", 12),
    ("5", 3),
    ("6", 3),
    ("7", 5),
    ("8", 6),
    ("9", 3),
    ("10", 3),
    ("11", 9),
    ("12", 9),
    ("13", 4),
    ("14", 8),
    ("15", 8),
    ("16", 4),
    ("17", 6),
    (SWEEP, 3),
];

fn read_by(random: &mut Random, whole: bool) -> Request {
    let rule = random.rule();
    Request::ReadBy { rule, whole, source: octets::reference_by(random, rule) }
}

pub struct Generator {
    seed: u64,
    asked: Vec<&'static str>,
    sweep: Sweep,
}

impl Generator {
    /// A generator of the ops that a list with commas names, or of all where there is none.
    pub fn new(seed: u64, ops: Option<&str>) -> Result<Generator, String> {
        let weight = |op: &str| {
            let found = WEIGHTS.iter().find(|(name, _)| *name == op);
            found.copied().ok_or(format!("OPS must be a list with commas of 1 to 17 and {SWEEP}; '{op}' is none of them"))
        };
        let chosen = match ops {
            None => WEIGHTS.to_vec(),
            Some(list) => list.split(',').map(weight).collect::<Result<Vec<_>, String>>()?,
        };
        let asked = chosen.into_iter().flat_map(|(name, weight)| vec![name; weight]).collect();
        Ok(Generator { seed, asked, sweep: Sweep::new() })
    }

    /// How many requests the sweep has.
    pub fn sweep_size(&self) -> usize {
        self.sweep.size()
    }

    /// Where nothing but the sweep is asked for its requests come in order, else at random.
    fn swept(&self, random: &mut Random, index: u64) -> Request {
        let alone = self.asked.iter().all(|op| *op == SWEEP);
        self.sweep.member(if alone { index as usize } else { random.below(self.sweep.size()) })
    }

    pub fn request(&self, index: u64) -> Request {
        let mut random = Random::new(self.seed, index);
        let random = &mut random;
        match random.pick(&self.asked) {
            "1" => Request::Read { whole: false, source: octets::reference(random, false) },
            "2" => Request::Read { whole: true, source: octets::reference(random, false) },
            "3" => tables::measure(random),
            "4" => tables::write(random),
            "5" => short::kind(random),
            "6" => short::tap(random),
            "7" => Request::ReadName { source: short::name(random) },
            "8" => short::write_name(random),
            "9" => tables::first(random),
            "10" => short::address(random),
            "11" => Request::Where { reading: Reading::Leading, source: octets::reference(random, false) },
            "12" => Request::Where { reading: Reading::Whole, source: octets::reference(random, false) },
            "13" => Request::Where { reading: Reading::Name, source: short::name(random) },
            "14" => read_by(random, false),
            "15" => read_by(random, true),
            "16" => tables::measure_by(random),
            "17" => tables::write_by(random),
            _ => self.swept(random, index),
        }
    }

    /// Octets of some requests and a bad one, which is cut, bad in itself, or both. Unless it is cut another follows that must not be
    /// answered.
    pub fn bad_run(&self, index: u64) -> Vec<u8> {
        let mut random = Random::new(!self.seed, index);
        let mut run = Vec::new();
        let next = 4 * index;
        (next..next + index % 3).for_each(|before| self.request(before).put(&mut run));
        let start = run.len();
        let good = random.one_in(3);
        if good {
            self.request(next + 3).put(&mut run);
        } else {
            bad::put(&mut random, &mut run);
        }
        if good || random.one_in(8) {
            run.truncate(random.between(start + 1, (run.len() - 1).max(start + 1)));
        } else {
            self.request(next + 3).put(&mut run);
        }
        run
    }

    /// A cache to be listed: records, and now and then a wrong mark or a cut.
    pub fn cache(&self, index: u64) -> Vec<u8> {
        let mut random = Random::new(self.seed, index);
        let mut cache = Vec::new();
        for _ in 0..random.between(0, 12) {
            let mut reference = octets::reference(&mut random, false);
            reference.truncate(0xFFFF);
            put_record(&mut cache, &reference);
        }
        if !cache.is_empty() && random.one_in(3) {
            cache.truncate(random.between(0, cache.len()));
        }
        if !cache.is_empty() && random.one_in(6) {
            let at = random.below(cache.len());
            cache[at] ^= 1;
        }
        cache
    }
}
