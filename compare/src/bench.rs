//! Both sides on the same inputs in one run, in turn. A small function is
//! called through a pointer to an `extern "C"` function on either side, so
//! that a call costs both the same. The leaves of the library check their
//! arguments too, which the reference's do not.

use crate::capi::{self, Answer};
use crate::harness::Rng;
use audiofp::Reach;
use audiofp::matching::TimeOffset;
use std::cell::{Cell, RefCell};
use std::hint::black_box;
use std::time::{Duration, Instant};

const INPUTS: usize = 1 << 16;
const TURNS: usize = 41;

/// Prints a markdown table: a median over the turns, in ns a call.
pub fn run(only: Option<&str>) {
    let table = Table {
        only,
        begun: Cell::new(false),
    };
    let mut rng = Rng(1);
    u64_to_f32(&table, "below 2,048", || rng.below(2048));
    u64_to_f32(&table, "2^24 to 2^40", || {
        (1 << 24) + rng.below((1 << 40) - (1 << 24))
    });
    u64_to_f32(&table, "any u64", || rng.next());
    from_frames(&table, "frames below 2^20, rate 62.5", || {
        (rng.below(1 << 20) as i64, 62.5)
    });
    from_frames(&table, "any i64, rates below 100", || {
        (rng.next() as i64, (100.0 * rng.unit()) as f32)
    });
    sort(&table, "10,000 votes as gathered", &mut rng, 10_000);
    sort(&table, "1,000,000 votes as gathered", &mut rng, 1_000_000);
    // Bins, their gaps at most, the tolerance, and how far the span's ends lie off the bins.
    for (what, bins, gap, tol, off) in [
        ("3 bins side by side", 3, 1, 1, 1000),
        ("10 bins", 10, 39, 1, 1000),
        ("10 bins, tolerance 30", 10, 39, 30, 1000),
        ("10 bins, ends 1,000,000 off", 10, 39, 1, 1_000_000),
        ("1,000 bins", 1000, 39, 1, 1000),
        ("1,000 bins, tolerance 30", 1000, 39, 30, 1000),
        ("100,000 bins", 100_000, 39, 1, 1000),
    ] {
        let inputs = enough(bins, || Bins::apart(&mut rng, bins, gap));
        sweep(&table, what, &inputs, tol, off);
    }
    hough(&table, "10 bins", &mut rng, 10, 1);
    hough(&table, "24 bins", &mut rng, 24, 1);
    hough(&table, "24 bins, tolerance 4", &mut rng, 24, 4);
    hough(&table, "25 bins", &mut rng, 25, 1);
    hough(&table, "33 bins", &mut rng, 33, 1);
    hough(&table, "1,000 bins", &mut rng, 1000, 1);
    hough(&table, "20,000 bins", &mut rng, 20_000, 1);
    hough(&table, "200,000 bins", &mut rng, 200_000, 1);
    hough(
        &table,
        "200,000 bins, tolerance 65,535",
        &mut rng,
        200_000,
        65_535,
    );
}

struct Table<'a> {
    only: Option<&'a str>,
    /// Whether its head is printed.
    begun: Cell<bool>,
}

impl Table<'_> {
    /// One row. `call` puts one input to one of the two sides, ours first;
    /// what it returns only keeps the call from being left out.
    fn row<I: Copy, S: Copy>(
        &self,
        name: &str,
        what: &str,
        inputs: &[I],
        sides: [S; 2],
        call: impl Fn(S, I) -> u64,
    ) {
        let sides = black_box(sides);
        self.medians(name, what, inputs.len(), |side| {
            let began = Instant::now();
            let sum = inputs
                .iter()
                .fold(0, |sum: u64, &i| sum.wrapping_add(call(sides[side], i)));
            let took = began.elapsed();
            black_box(sum);
            took
        });
    }

    /// One row of what `time` measures: `calls` calls of one side.
    fn medians(
        &self,
        name: &str,
        what: &str,
        calls: usize,
        mut time: impl FnMut(usize) -> Duration,
    ) {
        if self.only.is_some_and(|only| !name.contains(only)) {
            return;
        }
        if !self.begun.replace(true) {
            println!("| function | inputs | ours, ns | Rust, ns | ours / Rust |");
            println!("|---|---|---|---|---|");
        }
        let mut times = [Vec::new(), Vec::new()];
        // The first turn warms the caches and is not counted.
        for turn in 0..=TURNS {
            for (side, times) in times.iter_mut().enumerate() {
                let took = time(side);
                if turn > 0 {
                    times.push(took.as_secs_f64() * 1e9 / calls as f64);
                }
            }
        }
        let [ours, rust] = times.map(|mut times| {
            times.sort_unstable_by(f64::total_cmp);
            times[times.len() / 2]
        });
        let shown = |ns: f64| format!("{ns:.*}", if ns < 1000.0 { 2 } else { 0 });
        println!(
            "| `{name}` | {what} | {} | {} | {:.2} |",
            shown(ours),
            shown(rust),
            ours / rust
        );
    }
}

fn some<I>(input: impl FnMut() -> I) -> Vec<I> {
    std::iter::repeat_with(input).take(INPUTS).collect()
}

fn u64_to_f32(table: &Table<'_>, what: &str, input: impl FnMut() -> u64) {
    extern "C" fn rust(n: u64) -> u32 {
        (n as f32).to_bits()
    }
    let sides: [extern "C" fn(u64) -> u32; 2] = [capi::floats_u64_to_f32, rust];
    table.row("u64_to_f32", what, &some(input), sides, |side, n| {
        side(n).into()
    });
}

fn from_frames(table: &Table<'_>, what: &str, input: impl FnMut() -> (i64, f32)) {
    extern "C" fn rust(frames: i64, rate: u32, answer: &mut [i64; 2]) {
        let offset = TimeOffset::from_frames(frames, f32::from_bits(rate));
        *answer = [offset.frames, offset.ms];
    }
    let sides: [extern "C" fn(i64, u32, &mut [i64; 2]); 2] = [capi::matching_from_frames, rust];
    table.row(
        "TimeOffset::from_frames",
        what,
        &some(input),
        sides,
        |side, (frames, rate)| {
            let mut answer = [0; 2];
            side(frames, rate.to_bits(), &mut answer);
            answer[1] as u64
        },
    );
}

/// Votes of a query of 2,048 hashes, hash by hash, under each key the
/// postings of 1,000 recordings in order of arrival. Sorted by recording and
/// offset: ours as one word a vote, the reference's as it keeps them.
fn sort(table: &Table<'_>, what: &str, rng: &mut Rng, votes: usize) {
    const HASHES: usize = 2048;
    const Q_MAX: i64 = HASHES as i64 - 1;
    let mut gathered: Vec<(u32, i64, u32)> = Vec::new();
    for position in 0..HASHES as u32 {
        let until = votes * (position as usize + 1) / HASHES;
        let mut postings: Vec<[u64; 2]> = (gathered.len()..until)
            .map(|_| [rng.below(1000), rng.below(20_000)])
            .collect();
        postings.sort_unstable();
        gathered.extend(postings.iter().map(|&[id, anchor]| {
            let offset = anchor as i64 - i64::from(position);
            (id as u32, offset, position)
        }));
    }
    let word = |&(id, offset, position): &(u32, i64, u32)| {
        (i64::from(id) << 44) + ((offset + Q_MAX) << 11) + i64::from(position)
    };
    let packed: Vec<i64> = gathered.iter().map(word).collect();
    let mut words = vec![0; 2 * votes];
    let mut tuples = gathered.clone();
    table.medians("sort of votes", what, 1, |side| {
        words[..votes].copy_from_slice(&packed);
        tuples.copy_from_slice(&gathered);
        let began = Instant::now();
        if side == 0 {
            capi::sorting_sort_words(&mut words, votes);
        } else {
            tuples.sort_unstable_by_key(|&(r, d, _)| (r, d));
        }
        let took = began.elapsed();
        black_box((&words, &tuples));
        took
    });
}

/// The same bins for either side.
struct Bins<K, W = Vec<i64>> {
    ours: W,
    rust: Vec<(K, u32)>,
}

/// Enough of them that a turn takes long enough.
fn enough<K, W>(bins: usize, input: impl FnMut() -> Bins<K, W>) -> Vec<Bins<K, W>> {
    let inputs = INPUTS.div_ceil(4 * bins);
    std::iter::repeat_with(input).take(inputs).collect()
}

impl Bins<i64> {
    /// Bins at random gaps of at most `gap`.
    fn apart(rng: &mut Rng, bins: usize, gap: u64) -> Self {
        let mut offset = -10 * bins as i64;
        let rust: Vec<(i64, u32)> = (0..bins)
            .map(|_| {
                offset += 1 + rng.below(gap) as i64;
                (offset, 1 + rng.below(3) as u32)
            })
            .collect();
        let ours = rust.iter().flat_map(|&(d, n)| [d, n.into()]).collect();
        Self { ours, rust }
    }

    /// The span that ends `off` the bins.
    fn span(&self, off: i64) -> (i64, i64) {
        (self.rust[0].0 - off, self.rust[self.rust.len() - 1].0 + off)
    }
}

fn sweep(table: &Table<'_>, what: &str, inputs: &[Bins<i64>], tol: u64, off: i64) {
    type Input = Bins<i64>;
    let ours = |input: &Input, tol, off| {
        let (low, high) = input.span(off);
        capi::consolidate_sparse_wang_box_peak(&input.ours, tol, low, high)
    };
    let rust = |input: &Input, tol: u64, off| {
        let (low, high) = input.span(off);
        let (peak, centre, mode, total) =
            Reach::sparse_wang_box_peak(&input.rust, tol as i64, low, high);
        [1, peak.into(), centre as u64, mode as u64, total, 0, 0, 0]
    };
    let sides: [fn(&Input, u64, i64) -> Answer; 2] = [ours, rust];
    let inputs: Vec<&Input> = inputs.iter().collect();
    table.row("sparse_wang_box_peak", what, &inputs, sides, |side, i| {
        side(i, tol, off)[4]
    });
}

fn hough(table: &Table<'_>, what: &str, rng: &mut Rng, bins: usize, tol: u64) {
    // A call writes the sums behind the bins, and leaves these as they are.
    type Input = Bins<(u32, i64), RefCell<Vec<i64>>>;
    // 24 scale bins; every other offset or so is taken.
    let inputs = enough(bins, || {
        let mut places: Vec<(u32, i64)> = Vec::new();
        let row = bins.div_ceil(24);
        for scale in 0..24 {
            let mut offset = -(row as i64);
            places.extend((0..row).map(|_| {
                offset += 1 + rng.below(3) as i64;
                (scale, offset)
            }));
        }
        places.truncate(bins);
        let rust: Vec<_> = places
            .into_iter()
            .map(|place| (place, 1 + rng.below(3) as u32))
            .collect();
        let words = |&((scale, offset), n): &((u32, i64), u32)| [scale.into(), offset, n.into()];
        let mut ours: Vec<i64> = rust.iter().flat_map(words).collect();
        ours.resize(4 * bins, 0);
        let ours = RefCell::new(ours);
        Bins { ours, rust }
    });
    let reach = RefCell::new(Reach::default());
    let ours = |_: &mut Reach, input: &Input, tol| {
        let n = input.rust.len();
        capi::hough_panako_peak(&mut input.ours.borrow_mut(), n, tol)
    };
    let rust = |reach: &mut Reach, input: &Input, tol: u64| {
        let (bins, tol) = (&input.rust, tol as i64);
        let (votes, at) = reach.panako_hough_peak(bins, tol);
        let offset = reach.panako_peak_offset(bins, at, tol);
        let prominence = reach.panako_prominence(bins, at, tol).to_bits();
        let offset = offset as u64;
        [
            1,
            votes.into(),
            at as u64,
            offset,
            prominence.into(),
            0,
            0,
            0,
        ]
    };
    let sides: [fn(&mut Reach, &Input, u64) -> Answer; 2] = [ours, rust];
    let inputs: Vec<&Input> = inputs.iter().collect();
    let name = "panako_hough_peak, offset, prominence";
    table.row(name, what, &inputs, sides, |side, i| {
        side(&mut reach.borrow_mut(), i, tol)[4]
    });
}
