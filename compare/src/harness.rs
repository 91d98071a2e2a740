//! What all comparisons share: random numbers, lists of boundary values, and
//! the check that holds our answer to the Rust's.

use crate::capi::{Answer, NAN_F32, NAN_F64};
use std::collections::BTreeMap;
use std::fmt::Write;
use std::sync::Mutex;
use std::thread;

/// What a check does.
type Body = Box<dyn FnOnce(&mut Check) + Send>;

/// A run: its settings, and its checks.
pub struct Run {
    pub seed: u64,
    pub scale: u64,
    pub only: Option<String>,
    pub checks: Vec<(&'static str, Body)>,
}

impl Run {
    /// Adds a check, unless `--only` asks for others.
    pub fn check(&mut self, name: &'static str, body: impl FnOnce(&mut Check) + Send + 'static) {
        let asked = |only: &String| name.contains(only.as_str());
        if self.only.as_ref().is_none_or(asked) {
            self.checks.push((name, Box::new(body)));
        }
    }

    /// Runs the checks, as many at a time as there are processors, and prints
    /// in their order what each came to. How many have passed.
    pub fn end(self) -> usize {
        let (seed, scale) = (self.seed, self.scale);
        let workers = thread::available_parallelism().map_or(1, usize::from);
        let checks = Mutex::new(self.checks.into_iter().enumerate());
        let printer = Mutex::new(Printer::default());
        let work = || {
            let next = || checks.lock().expect("no check failed").next();
            while let Some((number, (name, body))) = next() {
                let mut check = Check::new(name, seed, scale);
                body(&mut check);
                let mut printer = printer.lock().expect("no check failed");
                printer.put(number, check.ended());
            }
        };
        thread::scope(|scope| {
            for _ in 0..workers {
                let thread = thread::Builder::new().stack_size(8 << 20);
                thread.spawn_scoped(scope, work).expect("a thread");
            }
        });
        printer.into_inner().expect("no check failed").printed
    }
}

/// What checks came to, those held back that have to wait for others.
#[derive(Default)]
struct Printer {
    printed: usize,
    held: BTreeMap<usize, String>,
}

impl Printer {
    fn put(&mut self, number: usize, text: String) {
        self.held.insert(number, text);
        while let Some(text) = self.held.remove(&self.printed) {
            print!("{text}");
            self.printed += 1;
        }
    }
}

/// One function under comparison.
pub struct Check {
    name: &'static str,
    inputs: u64,
    scale: u64,
    notes: Vec<String>,
    pub rng: Rng,
}

impl Check {
    /// Its random numbers follow from seed and name alone, so that it can be
    /// repeated by itself.
    fn new(name: &'static str, seed: u64, scale: u64) -> Check {
        let mix = |rng: Rng, byte: u8| Rng({ rng }.next() ^ u64::from(byte));
        Check {
            name,
            inputs: 0,
            scale,
            notes: Vec::new(),
            rng: name.bytes().fold(Rng(seed), mix),
        }
    }

    /// What to print of a check that has passed.
    fn ended(self) -> String {
        let mut text = format!("{}: {} inputs, 0 differences\n", self.name, self.inputs);
        for note in self.notes {
            writeln!(text, "    {note}").expect("a string takes it");
        }
        text
    }

    /// `count` at the gate's size, more with `--scale`.
    pub fn times(&self, count: u64) -> std::ops::Range<u64> {
        0..count * self.scale
    }

    /// A line to print below the check's own.
    pub fn note(&mut self, note: String) {
        self.notes.push(note);
    }

    /// Counts one input; ends the run at a difference.
    #[inline(always)]
    pub fn same(&mut self, input: &[u64], ours: &[u64], rust: &[u64]) {
        self.same_of(|| input.to_vec(), ours, rust);
    }

    /// Likewise; the input's words are asked for at a difference only.
    #[inline(always)]
    pub fn same_of(&mut self, input: impl FnOnce() -> Vec<u64>, ours: &[u64], rust: &[u64]) {
        self.inputs += 1;
        if ours != rust {
            self.differs(&input(), ours, rust);
        }
    }

    /// Likewise, of what can't be told in words: `report` says where the
    /// sides differ.
    #[inline(always)]
    pub fn holds(&mut self, same: bool, report: impl FnOnce() -> String) {
        self.inputs += 1;
        if !same {
            println!("{}: differs at input {}", self.name, self.inputs);
            print!("{}", report());
            std::process::exit(1);
        }
    }

    #[cold]
    #[inline(never)]
    fn differs(&self, input: &[u64], ours: &[u64], rust: &[u64]) -> ! {
        println!("{}: differs at input {}", self.name, self.inputs);
        for (what, words) in [("input", input), ("ours", ours), ("Rust", rust)] {
            let words: Vec<String> = words.iter().map(|w| format!("{w:#x}")).collect();
            println!("  {what:5} {}", words.join(" "));
        }
        std::process::exit(1);
    }
}

/// The word that the C interface gives for `x`.
#[inline]
pub fn word32(x: f32) -> u64 {
    u64::from(if x.is_nan() { NAN_F32 } else { x.to_bits() })
}

/// The word that the C interface gives for `x`.
#[inline]
pub fn word64(x: f64) -> u64 {
    if x.is_nan() { NAN_F64 } else { x.to_bits() }
}

/// Signed numbers as words.
pub fn words(list: &[i64]) -> Vec<u64> {
    list.iter().map(|&number| number as u64).collect()
}

/// An answer's words, the unused ones 0.
#[inline]
pub fn answer<const N: usize>(words: [u64; N]) -> Answer {
    std::array::from_fn(|i| words.get(i).copied().unwrap_or(0))
}

/// splitmix64
pub struct Rng(pub u64);

impl Rng {
    #[inline]
    pub fn next(&mut self) -> u64 {
        self.0 = self.0.wrapping_add(0x9E37_79B9_7F4A_7C15);
        let mut z = self.0;
        z = (z ^ (z >> 30)).wrapping_mul(0xBF58_476D_1CE4_E5B9);
        z = (z ^ (z >> 27)).wrapping_mul(0x94D0_49BB_1331_11EB);
        z ^ (z >> 31)
    }

    /// 0 to n - 1.
    #[inline]
    pub fn below(&mut self, n: u64) -> u64 {
        ((u128::from(self.next()) * u128::from(n)) >> 64) as u64
    }

    /// A number of 0 to `bits` bits, each length as likely as another.
    #[inline]
    pub fn sized(&mut self, bits: u32) -> u64 {
        match self.below(u64::from(bits) + 1) {
            0 => 0,
            length => self.next() >> (64 - length) | 1 << (length - 1),
        }
    }

    /// A number of 0 to `bits` bits, likewise, with either sign.
    #[inline]
    pub fn signed(&mut self, bits: u32) -> i64 {
        let size = self.sized(bits) as i64;
        if self.below(2) == 0 { size } else { -size }
    }

    /// One of `list`.
    #[inline]
    pub fn pick<T: Copy>(&mut self, list: &[T]) -> T {
        list[self.below(list.len() as u64) as usize]
    }

    /// 0.0 to 1.0.
    #[inline]
    pub fn unit(&mut self) -> f64 {
        self.next() as f64 / u64::MAX as f64
    }

    /// A word of an f32: any bits, a number of common size, or a whole one.
    #[inline]
    pub fn float32(&mut self) -> u32 {
        match self.below(4) {
            0 => ((self.unit() * 4.0 - 2.0) as f32).to_bits(),
            1 => (self.sized(28) as f32).to_bits(),
            _ => self.next() as u32,
        }
    }

    /// A word of an f64, likewise.
    #[inline]
    pub fn float64(&mut self) -> u64 {
        match self.below(4) {
            0 => (self.unit() * 4.0 - 2.0).to_bits(),
            1 => (self.sized(58) as f64).to_bits(),
            _ => self.next(),
        }
    }

    /// A word up to 4 places from `word`, which is that of the next floats.
    #[inline]
    pub fn near32(&mut self, word: u32) -> u32 {
        word.wrapping_add(self.below(9) as u32).wrapping_sub(4)
    }

    /// Likewise.
    #[inline]
    pub fn near64(&mut self, word: u64) -> u64 {
        word.wrapping_add(self.below(9)).wrapping_sub(4)
    }
}

/// Each word with its neighbours, with and without the sign.
fn around32(words: impl IntoIterator<Item = u32>) -> Vec<u32> {
    let near = |w: u32| [w.wrapping_sub(1), w, w.wrapping_add(1)];
    let signed = |w: u32| [w & 0x7FFF_FFFF, w | 0x8000_0000];
    sorted(words.into_iter().flat_map(near).flat_map(signed))
}

/// Likewise.
fn around64(words: impl IntoIterator<Item = u64>) -> Vec<u64> {
    let near = |w: u64| [w.wrapping_sub(1), w, w.wrapping_add(1)];
    let signed = |w: u64| [w & !(1 << 63), w | 1 << 63];
    sorted(words.into_iter().flat_map(near).flat_map(signed))
}

fn sorted<T: Ord>(words: impl Iterator<Item = T>) -> Vec<T> {
    let mut list: Vec<T> = words.collect();
    list.sort_unstable();
    list.dedup();
    list
}

/// Zero, the ends of the subnormal, normal and NaN words, 1, 1000, a rate and
/// the constants of the reference, with their neighbours and both signs.
pub fn few32() -> Vec<u32> {
    let words = [
        0,
        0x007F_FFFF,
        0x7F80_0000,
        0x7FC0_0000,
        0x7FFF_FFFE,
        0x7FA5_5A5A,
    ];
    let numbers = [
        1e-6_f32,
        1e-3,
        0.15,
        0.5,
        0.8,
        1.0,
        1.25,
        2.0,
        62.5,
        1000.0,
        16_777_216.0,
    ];
    around32(words.into_iter().chain(numbers.map(f32::to_bits)))
}

/// Likewise.
pub fn few64() -> Vec<u64> {
    let words = [
        0,
        (1 << 52) - 1,
        0x7FF << 52,
        NAN_F64,
        i64::MAX as u64 - 1,
        0x7FF5_5A5A << 32,
    ];
    let numbers = [
        1e-6_f64,
        0.5,
        1.0,
        2.0,
        64.0,
        4095.0,
        9_007_199_254_740_992.0,
    ];
    around64(words.into_iter().chain(numbers.map(f64::to_bits)))
}

/// `few32` and every power of two with its neighbours, both signs.
pub fn many32() -> Vec<u32> {
    let subnormal = (0..23).map(|k| 1 << k);
    let normal = (1..=255).map(|k| k << 23);
    sorted(around32(subnormal.chain(normal)).into_iter().chain(few32()))
}

/// Likewise.
pub fn many64() -> Vec<u64> {
    let subnormal = (0..52).map(|k| 1 << k);
    let normal = (1..=2047).map(|k| k << 52);
    sorted(around64(subnormal.chain(normal)).into_iter().chain(few64()))
}

/// Zero and every power of two of at most `bits` bits, each with neighbours.
pub fn whole(bits: u32) -> Vec<u64> {
    let powers = (0..bits).map(|k| 1_u64 << k);
    let top = if bits == 64 {
        u64::MAX
    } else {
        (1 << bits) - 1
    };
    let near = |n: u64| [n.wrapping_sub(1), n, n.wrapping_add(1)];
    let within = |n: &u64| *n <= top;
    sorted(powers.chain([0, top]).flat_map(near).filter(within))
}
