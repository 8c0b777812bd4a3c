//! delay SIMULATE CASES SEED: delays of `simulate` against the exact ones, by whole numbers alone. An opening gives base and fraction; `draw long` the draws of a stream,
//! `latency` the delays that they make, with no spike and nothing on the wire. Prints the largest distance; ends with 1 where one is 1 ns or more.
use std::io::{BufRead, BufReader, BufWriter, Write};
use std::process::{Command, Stdio};

/// Draws of one opening.
const DRAWS: usize = 64;
const MILLISECOND: i128 = 1_000_000;
const LONGEST: u64 = 60_000_000_000;
/// 2^-20 and 1, as bits.
const LEAST: u64 = 0x3eb0_0000_0000_0000;
const ONE: u64 = 0x3ff0_0000_0000_0000;

/// Splitmix64.
struct Random(u64);

impl Random {
    fn next(&mut self) -> u64 {
        self.0 = self.0.wrapping_add(0x9e37_79b9_7f4a_7c15);
        let mut z = self.0;
        z = (z ^ (z >> 30)).wrapping_mul(0xbf58_476d_1ce4_e5b9);
        z = (z ^ (z >> 27)).wrapping_mul(0x94d0_49bb_1331_11eb);
        z ^ (z >> 31)
    }

    fn below(&mut self, n: u64) -> u64 {
        self.next() % n
    }

    /// Bases of every size up to 60 s, round ones, and those around the floor.
    fn base(&mut self) -> u64 {
        match self.below(8) {
            0 => LONGEST - self.below(1000),
            1 => self.below(61) * 1_000_000_000,
            2 => self.below(3_000_000),
            3 => (self.below(LONGEST) + 1) >> self.below(36),
            _ => self.below(LONGEST + 1),
        }
    }

    /// Fractions from 2^-20 to 1 by their bits, their ends, and 0 of either sign.
    fn fraction(&mut self) -> u64 {
        match self.below(16) {
            0 => 0,
            1 => 1 << 63,
            2 => ONE - self.below(4),
            3 => LEAST + self.below(4),
            4 => LEAST + (self.below(21) << 52),
            5 => f64::to_bits((1 + self.below(100)) as f64 / 100.0),
            _ => LEAST + self.below(ONE - LEAST + 1),
        }
    }
}

/// A fraction's exact value, digits / 2^places.
fn value(bits: u64) -> (u64, u32) {
    let field = (bits >> 52 & 0x7ff) as u32;
    let low = bits & ((1 << 52) - 1);
    if field == 0 { (low, 1074) } else { (low + (1 << 52), 1075 - field) }
}

/// The distance of r from the exact delay, as its numerator and the denominator's power of 2.
fn distance(base: u64, bits: u64, k: u64, r: u64) -> (i128, u32) {
    let (digits, places) = value(bits);
    let whole = r as i128 - base as i128;
    if digits == 0 || base == 0 {
        return ((r as i128 - MILLISECOND.max(base as i128)).abs(), 0);
    }
    // the jitter is ±product / 2^shift; product has up to 140 bits: high * 2^64 + low
    let shift = 51 + places;
    let offset = k as i128 - (1 << 51);
    let factor = base as u128 * digits as u128;
    let size = offset.unsigned_abs();
    let first = (factor & u64::MAX as u128) * size;
    let high = (factor >> 64) * size + (first >> 64);
    let low = first & u64::MAX as u128;
    let (units, rest) = (high >> (shift - 64), (high & ((1 << (shift - 64)) - 1)) << 64 | low);
    let one = 1i128 << shift;
    // base + jitter, less 1 ms, in units and a rest
    let (units, rest) = if offset < 0 { (-(units as i128), -(rest as i128)) } else { (units as i128, rest as i128) };
    let over = base as i128 - MILLISECOND + units;
    if over < 0 || over == 0 && rest < 0 {
        return ((r as i128 - MILLISECOND).abs(), 0);
    }
    let apart = whole - units;
    assert!(apart.abs() < 8, "base={base} fraction={bits:016x} k={k}: {r}");
    ((apart * one - rest).abs(), shift)
}

fn main() {
    let words: Vec<String> = std::env::args().collect();
    let cases: usize = words[2].parse().expect("a number of cases");
    let openings = cases.div_ceil(DRAWS);
    let mut random = Random(words[3].parse().expect("a seed"));
    let settings: Vec<(u64, u64, [u64; 4])> = (0..openings).map(|_| (random.base(), random.fraction(), std::array::from_fn(|_| random.next()))).collect();
    let mut child = Command::new(&words[1]).stdin(Stdio::piped()).stdout(Stdio::piped()).spawn().expect("simulate");
    let mut script = BufWriter::new(child.stdin.take().expect("its standard input"));
    let asked = settings.clone();
    let writer = std::thread::spawn(move || {
        let (zero, none) = ("0".repeat(16), "0".repeat(64));
        for (base, bits, key) in asked {
            let key: String = key.iter().map(|w| format!("{w:016x}")).collect();
            let rates = format!("loss={zero} dup={zero} rep={zero} spike={zero}");
            writeln!(script, "open tills=1 seed=1 fkey={none} log=0 lat={base} jit={bits:016x} {rates} regions=none types=none shards=none masks=0 slots=1 seen=1").unwrap();
            writeln!(script, "draw long {key} 0 {DRAWS}\nlatency {key} 0 0 0 0 {DRAWS}").unwrap();
        }
    });
    let mut answers = BufReader::new(child.stdout.take().expect("its standard output")).lines().map(|l| l.expect("an answer"));
    let (mut largest, mut case, mut met, mut wrong) = (0.0, String::new(), 0, 0);
    for &(base, bits, _) in &settings {
        assert_eq!(answers.next().as_deref(), Some("open ok"));
        let draws = answers.next().expect("draws");
        let draws: Vec<u64> = draws.split(' ').skip(2).take(DRAWS).map(|w| u64::from_str_radix(w, 16).expect("a draw")).collect();
        let delays = answers.next().expect("delays");
        let delays: Vec<u64> = delays.split(' ').skip(1).take(DRAWS).map(|w| w.parse().expect("a delay")).collect();
        assert!(draws.len() == DRAWS && delays.len() == DRAWS);
        for (draw, r) in draws.iter().zip(&delays) {
            let (over, shift) = distance(base, bits, draw >> 12, *r);
            let apart = over as f64 / 2f64.powi(shift as i32);
            met += 1;
            wrong += (over >= 1 << shift) as usize;
            if apart > largest {
                (largest, case) = (apart, format!("base {base}, fraction {bits:016x}, k {}: {r}", draw >> 12));
            }
        }
    }
    writer.join().expect("the script");
    println!("{met} delays of {openings} openings, {wrong} of them 1 ns or more from the exact one; the largest distance is {largest:.12} ns ({case})");
    std::process::exit((wrong > 0) as i32);
}
