//! The calls on lent stores, measured beside the reference's: a school card,
//! and depots of several sizes. Both sides hold the same all along.

use crate::account::{built, counted, found, removed, stored};
use crate::builds::Build;
use crate::calls::RATE;
use crate::capi::Answer;
use crate::harness::Rng;
use crate::store::{Content, Index, Panako, Sizes, Store, Wang, is_asked, of_set, write};
use audiofp::matching::MatchResult;
use std::hint::black_box;
use std::time::Duration;

/// The default of the reference's settings.
const LIMIT: u32 = 100;

/// Turns of a query's measurement. The rest of a query is a small difference
/// of two large times at the depots, so they are many.
const QUERY_TURNS: usize = 501;

/// The same, where a candidate has many votes.
const SPREAD_TURNS: usize = 21;

/// Recordings are stored under so many sets in turn.
const SETS: u32 = 10;

fn set_of(id: usize) -> u32 {
    1 + id as u32 % SETS
}

/// `lists` recordings of `hashes` hashes with keys of `bits` bits.
#[derive(Clone, Copy)]
struct Card {
    name: &'static str,
    lists: usize,
    hashes: usize,
    bits: u32,
    /// The shortest span of a Panako hash, and how many lengths there are.
    spans: [u32; 2],
    /// How long a time of a list is when it is heard, in percent.
    percent: u32,
    sizes: Sizes,
    /// Calls that are timed together, and turns.
    batch: usize,
    turns: usize,
}

/// All spans have 20 frames.
const ALIKE: [u32; 2] = [20, 1];

impl Card {
    /// Its lists, their spans where these vary, and the speed where it isn't
    /// theirs.
    fn title(self) -> String {
        let [least, lengths] = self.spans;
        let spans = match self.spans {
            ALIKE => String::new(),
            _ => format!(", spans {least} to {}", least + lengths - 1),
        };
        let times = match self.percent {
            100 => String::new(),
            percent => format!(", times {percent} %"),
        };
        format!("{}{spans}{times}", self.name)
    }
}

const SCHOOL: Card = Card {
    name: "30 × 30, 22 bits",
    lists: 30,
    hashes: 30,
    bits: 22,
    spans: ALIKE,
    percent: 100,
    sizes: Sizes {
        rows: 32,
        postings: 1024,
        stopped: 256,
    },
    batch: 30,
    turns: 300,
};

/// Longer lists, so that a query may be long too.
const CLINIC: Card = Card {
    name: "30 × 300, 22 bits",
    hashes: 300,
    sizes: Sizes {
        rows: 32,
        postings: 16_384,
        stopped: 256,
    },
    ..SCHOOL
};

const fn depot(name: &'static str, lists: usize, bits: u32, postings: usize) -> Card {
    Card {
        name,
        lists,
        hashes: 3000,
        bits,
        spans: ALIKE,
        percent: 100,
        sizes: Sizes {
            rows: 512,
            postings,
            stopped: 65_536,
        },
        batch: 1,
        turns: 41,
    }
}

const LARGE: [Card; 2] = [
    depot("300 × 3,000, 22 bits", 300, 22, 1 << 20),
    depot("300 × 3,000, 17 bits", 300, 17, 1 << 20),
];

pub fn run(only: Option<&str>) {
    calls(only);
    replacements(only);
    queries(only);
}

/// The cards on which calls that change a store are measured.
const CARDS: [Card; 7] = [
    SCHOOL,
    depot("75 × 3,000, 22 bits", 75, 22, 1 << 18),
    depot("150 × 3,000, 22 bits", 150, 22, 1 << 19),
    LARGE[0],
    depot("75 × 3,000, 17 bits", 75, 17, 1 << 18),
    depot("150 × 3,000, 17 bits", 150, 17, 1 << 19),
    LARGE[1],
];

fn calls(only: Option<&str>) {
    let mut rows = Vec::new();
    for card in CARDS {
        let asked = |index: &str| only.is_none_or(|only| index.contains(only));
        if asked("WangIndex") {
            rows.push(("WangIndex", card.name, measure::<Wang>(card)));
        }
        if asked("PanakoIndex") {
            rows.push(("PanakoIndex", card.name, measure::<Panako>(card)));
        }
    }
    if rows.is_empty() {
        return;
    }
    println!();
    println!("| scan | lists | ours, ns a posting | plain read, ns a posting | ours / read |");
    println!("|---|---|---|---|---|");
    for (index, name, times) in &rows {
        let [ours, read] = times.scan.map(|ns| ns / times.postings);
        println!(
            "| `{index}::live_count` | {name} | {ours:.2} | {read:.2} | {:.2} |",
            ours / read
        );
    }
    println!();
    println!("Each as: ours, µs / Rust, µs = ratio (ratio without the scan).");
    println!();
    println!("| index | lists | `remove` | `insert` | `build` |");
    println!("|---|---|---|---|---|");
    for (index, name, times) in &rows {
        let plain = |[ours, rust]: [f64; 2]| {
            format!("{} / {} = {:.2}", micros(ours), micros(rust), ours / rust)
        };
        let scanned = |[ours, rust]: [f64; 2]| {
            let beyond = (ours - times.scan[0]) / rust;
            format!("{} ({beyond:.2})", plain([ours, rust]))
        };
        println!(
            "| `{index}` | {name} | {} | {} | {} |",
            scanned(times.remove),
            scanned(times.insert),
            plain(times.build)
        );
    }
}

/// Nanoseconds a call, ours and the other's: the least of all turns.
struct Times {
    postings: f64,
    scan: [f64; 2],
    remove: [f64; 2],
    insert: [f64; 2],
    build: [f64; 2],
}

/// Time that this thread was given, so that others on the machine count
/// little.
fn thread_time() -> Duration {
    const THREAD_CPUTIME: i32 = 3;
    unsafe extern "C" {
        fn clock_gettime(clock: i32, time: *mut [i64; 2]) -> i32;
    }
    let mut time = [0; 2];
    // SAFETY: on x86-64 Linux a time is two words.
    let status = unsafe { clock_gettime(THREAD_CPUTIME, &mut time) };
    assert_eq!(status, 0, "the clock is there");
    Duration::new(time[0] as u64, time[1] as u32)
}

/// Keeps the least time of one of `calls` calls.
fn timed<T>(least: &mut f64, calls: usize, work: impl FnOnce() -> T) -> T {
    let began = thread_time();
    let result = black_box(work());
    let took = (thread_time() - began).as_nanos() as f64 / calls as f64;
    *least = least.min(took);
    result
}

/// A list as it is extracted: anchors ascend.
fn list<I: Index>(rng: &mut Rng, card: Card) -> Vec<u32> {
    let hash = |i: usize| {
        let anchor = 6 * i as u32 + rng.below(6) as u32;
        let [least, lengths] = card.spans;
        let end = anchor + least + rng.below(lengths.into()) as u32;
        let times = [anchor, anchor + 5, end];
        let key = rng.below(1 << card.bits) as u32;
        [key].into_iter().chain(times).take(I::HASH)
    };
    (0..card.hashes).flat_map(hash).collect()
}

fn sum(slices: [&[u32]; 3]) -> u32 {
    let add = |sum: u32, &word: &u32| sum.wrapping_add(word);
    slices
        .into_iter()
        .fold(0, |sum, words| words.iter().fold(sum, add))
}

fn measure<I: Index>(card: Card) -> Times {
    let rng = &mut Rng(1);
    let lists: Vec<Vec<u32>> = (0..card.lists).map(|_| list::<I>(rng, card)).collect();
    let fingerprints: Vec<_> = lists
        .iter()
        .map(|list| I::fingerprint(list, RATE))
        .collect();
    let all = lists.concat();
    let lengths = vec![card.hashes as u32; card.lists];
    let rates = vec![RATE; card.lists];
    let sets: Vec<u32> = (0..card.lists).map(set_of).collect();
    let entries = I::ENTRIES;
    let mut store = Store::zeroed::<I>(card.sizes);
    let mut index = I::build(&[], LIMIT);
    let least = [f64::INFINITY; 2];
    let mut times = Times {
        postings: 0.0,
        scan: least,
        remove: least,
        insert: least,
        build: least,
    };
    for _ in 0..card.turns.div_ceil(5) {
        let answer = timed(&mut times.build[0], 1, || {
            (entries.build)(store.lend(), &all, &lengths, &rates, LIMIT, &sets)
        });
        assert_eq!(answer, built());
        index = timed(&mut times.build[1], 1, || I::build(&fingerprints, LIMIT));
    }
    let same = |store: &Store, index: &I| {
        assert!(
            *store == write::<I>(&index.content(), &sets, card.sizes),
            "both sides hold the same"
        );
    };
    same(&store, &index);
    times.postings = store.header()[2].into();
    for _ in 0..card.turns {
        for _ in 0..card.batch {
            let answer = timed(&mut times.scan[0], card.batch, || {
                (0..card.batch).fold(counted(0), |_, _| {
                    (entries.live_count)(black_box(store.slices()))
                })
            });
            assert_eq!(answer, counted(card.lists));
            timed(&mut times.scan[1], card.batch, || {
                (0..card.batch).fold(0, |all: u32, _| {
                    all.wrapping_add(sum(black_box(store.slices())))
                })
            });
        }
        let first = rng.below(card.lists as u64) as usize;
        let ids: Vec<usize> = (0..card.batch)
            .map(|i| (first + 7 * i) % card.lists)
            .collect();
        timed(&mut times.remove[0], card.batch, || {
            for &id in &ids {
                let answer = (entries.remove)(store.lend(), id as u32);
                assert_eq!(answer, removed(true));
            }
        });
        timed(&mut times.remove[1], card.batch, || {
            for &id in &ids {
                assert!(index.remove(id));
            }
        });
        timed(&mut times.insert[0], card.batch, || {
            for &id in ids.iter().rev() {
                let answer = (entries.insert)(store.lend(), &lists[id], RATE, LIMIT, sets[id]);
                assert_eq!(answer, stored(id as u32));
            }
        });
        timed(&mut times.insert[1], card.batch, || {
            for &id in ids.iter().rev() {
                assert_eq!(index.insert(&fingerprints[id], LIMIT), id);
            }
        });
    }
    same(&store, &index);
    times
}

// ---- replacements

fn replacements(only: Option<&str>) {
    let asked = |index: &str| only.is_none_or(|only| index.contains(only));
    let full = LARGE.map(|card| (card, card.lists * card.hashes));
    let cards = CARDS.map(|card| (card, card.sizes.postings));
    let mut rows = Vec::new();
    for (card, postings) in cards.into_iter().chain(full) {
        let card = Card {
            sizes: Sizes {
                postings,
                ..card.sizes
            },
            ..card
        };
        if asked("WangIndex::replace") {
            rows.push(("WangIndex", card, swapped::<Wang>(card)));
        }
        if asked("PanakoIndex::replace") {
            rows.push(("PanakoIndex", card, swapped::<Panako>(card)));
        }
    }
    if rows.is_empty() {
        return;
    }
    println!();
    println!(
        "| replacement | lists | ours, µs | scan, µs | rest, µs | rests of `remove` and `insert`, µs \
         | rest / rests | Rust's `remove` and `insert`, µs | ours / Rust |"
    );
    println!("|---|---|---|---|---|---|---|---|---|");
    for (index, card, times) in rows {
        let full = match card.sizes.postings == card.lists * card.hashes {
            true => ", store full",
            false => "",
        };
        println!("| `{index}::replace` | {}{full} | {times} |", card.name);
    }
}

/// Nanoseconds a recording, the least of all turns: the scan; a replacement; a
/// removal with an insertion, ours and the Rust's.
struct Swapped {
    scan: f64,
    one: f64,
    two: f64,
    rust: f64,
}

impl std::fmt::Display for Swapped {
    fn fmt(&self, f: &mut std::fmt::Formatter<'_>) -> std::fmt::Result {
        let Self {
            scan,
            one,
            two,
            rust,
        } = *self;
        let (rest, rests) = (one - scan, two - 2.0 * scan);
        let [ours, scan, told, both, reference] = [one, scan, rest, rests, rust].map(micros);
        write!(
            f,
            "{ours} | {scan} | {told} | {both} | {:.2} | {reference} | {:.2}",
            rest / rests,
            one / rust
        )
    }
}

/// Recordings go, each for a take of the same size: in two calls, then in one.
fn swapped<I: Index>(card: Card) -> Swapped {
    let rng = &mut Rng(1);
    let lists: Vec<Vec<u32>> = (0..card.lists).map(|_| list::<I>(rng, card)).collect();
    let Sides {
        mut index,
        mut store,
        ..
    } = Sides::<I>::of(&lists, card.sizes, 0);
    let entries = I::ENTRIES;
    let least = f64::INFINITY;
    let mut times = Swapped {
        scan: least,
        one: least,
        two: least,
        rust: least,
    };
    for turn in 0..2 * card.turns {
        let first = rng.below(card.lists as u64) as usize;
        let takes: Vec<(usize, Vec<u32>)> = (0..card.batch)
            .map(|i| ((first + 7 * i) % card.lists, list::<I>(rng, card)))
            .collect();
        // The first scan finds other words in the caches than those that follow.
        black_box((entries.live_count)(store.slices()));
        timed(&mut times.scan, card.batch, || {
            takes.iter().fold(counted(0), |_, _| {
                (entries.live_count)(black_box(store.slices()))
            })
        });
        if turn % 2 == 0 {
            timed(&mut times.two, card.batch, || {
                for (id, take) in &takes {
                    let id = *id as u32;
                    assert_eq!((entries.remove)(store.lend(), id), removed(true));
                    let set = set_of(id as usize);
                    let answer = (entries.insert)(store.lend(), take, RATE, LIMIT, set);
                    assert_eq!(answer, stored(id));
                }
            });
        } else {
            timed(&mut times.one, card.batch, || {
                for (id, take) in &takes {
                    let id = *id as u32;
                    let answer = (entries.replace)(store.lend(), id, take, RATE, LIMIT);
                    assert_eq!(answer, stored(id));
                }
            });
        }
        let takes = takes.iter();
        let takes: Vec<_> = takes
            .map(|(id, take)| (*id, I::fingerprint(take, RATE)))
            .collect();
        timed(&mut times.rust, card.batch, || {
            for (id, take) in &takes {
                assert!(index.remove(*id));
                assert_eq!(index.insert(take, LIMIT), *id);
            }
        });
    }
    let sets: Vec<u32> = (0..card.lists).map(set_of).collect();
    assert!(
        store == write::<I>(&index.content(), &sets, card.sizes),
        "both sides hold the same"
    );
    times
}

// ---- queries

/// A row of the queries' table: what is asked of which card, and the scratch.
#[derive(Clone, Copy)]
struct Row {
    card: Card,
    hashes: usize,
    room: Room,
    /// The set asked, or 0 for all.
    set: u32,
}

/// What is done with each row of the table.
trait Measuring {
    /// Measures so many turns on these sides, each with what `turn` asks.
    fn row<I: Index>(
        &mut self,
        title: String,
        turns: usize,
        sides: Sides<I>,
        turn: impl FnMut(&Sides<I>) -> Vec<Asked<I>>,
    );

    /// Parts of the card's lists as they are heard, each turn others.
    fn heard<I: Index>(&mut self, name: &str, row: Row) {
        let Row {
            card,
            hashes,
            room,
            set,
        } = row;
        let rng = &mut Rng(1);
        let lists: Vec<Vec<u32>> = (0..card.lists).map(|_| list::<I>(rng, card)).collect();
        let sides = Sides::<I>::of(&lists, card.sizes, set);
        let ids: Vec<usize> = (0..card.lists)
            .filter(|&id| is_asked(set, set_of(id)))
            .collect();
        let title = query_title(name, &card.title(), hashes, room, set);
        self.row(title, QUERY_TURNS, sides, |sides| {
            let ask = |_| {
                let id = rng.pick(&ids);
                sides.asked(heard::<I>(rng, card, &lists[id], hashes), room)
            };
            (0..card.batch).map(ask).collect()
        });
    }

    /// One candidate all of whose votes have a bin of their own: a hundred
    /// postings under one key, each far from the next, and that key `hashes`
    /// times in the query.
    fn spread<I: Index>(&mut self, name: &str, hashes: usize) {
        let list = under_one_key::<I>(LIMIT as usize, 1 << 12);
        let sides = Sides::<I>::of(&[list], SCHOOL.sizes, 0);
        let title = query_title(name, "1 × 100, one key", hashes, Room::Met, 0);
        self.row(title, SPREAD_TURNS, sides, |sides| {
            vec![sides.asked(under_one_key::<I>(hashes, 1), Room::Met)]
        });
    }
}

/// The words of a row that say what is asked.
fn query_title(name: &str, lists: &str, hashes: usize, room: Room, set: u32) -> String {
    let sets = match set {
        0 => String::new(),
        _ => format!(", one set of {SETS}"),
    };
    format!(
        "`{name}::query`{sets} | {lists} | {hashes} | {}",
        room.name()
    )
}

fn measure_all(only: Option<&str>, measuring: &mut impl Measuring) {
    let asked = |name: &str| only.is_none_or(|only| name.contains(only));
    for row in own_speed() {
        if asked("Wang query") {
            measuring.heard::<Wang>("WangIndex", row);
        }
        if asked("Panako query") {
            measuring.heard::<Panako>("PanakoIndex", row);
        }
    }
    if asked("Panako query") {
        speeds().for_each(|row| measuring.heard::<Panako>("PanakoIndex", row));
    }
    for hashes in [500, 1000, 2000] {
        if asked("Wang query") {
            measuring.spread::<Wang>("WangIndex", hashes);
        }
        if asked("Panako query") {
            measuring.spread::<Panako>("PanakoIndex", hashes);
        }
    }
}

/// Queries at the recordings' own speed; at the depots for all sets, and for
/// one.
fn own_speed() -> impl Iterator<Item = Row> {
    let row = |(card, hashes, room)| Row {
        card,
        hashes,
        room,
        set: 0,
    };
    let small = [
        (SCHOOL, 30, Room::Met),
        (SCHOOL, 30, Room::Votes(256)),
        (SCHOOL, 30, Room::Votes(512)),
        (CLINIC, 100, Room::Met),
        (CLINIC, 300, Room::Met),
    ];
    let large = LARGE.into_iter().flat_map(move |card| {
        let rows = [300, 2048].map(|hashes| (card, hashes, Room::Met));
        rows.map(row)
            .into_iter()
            .flat_map(|row| [row, Row { set: 1, ..row }])
    });
    small.map(row).into_iter().chain(large)
}

/// Panako's queries at other speeds. Spans of 20 frames are heard as one length
/// at some, and as two at the others.
fn speeds() -> impl Iterator<Item = Row> {
    const VARIED: [u32; 2] = [5, 36];
    let school = [
        (ALIKE, 90),
        (ALIKE, 97),
        (ALIKE, 103),
        (ALIKE, 107),
        (ALIKE, 110),
        (VARIED, 100),
        (VARIED, 90),
        (VARIED, 97),
        (VARIED, 103),
        (VARIED, 110),
    ];
    let clinic = [(ALIKE, 97), (ALIKE, 103), (ALIKE, 110), (VARIED, 103)];
    let depot = [(ALIKE, 103), (VARIED, 103)];
    let row = |card, hashes, room, (spans, percent)| Row {
        card: Card {
            spans,
            percent,
            ..card
        },
        hashes,
        room,
        set: 0,
    };
    let small = school.map(|speed| row(SCHOOL, 30, Room::Votes(256), speed));
    let longer = clinic.map(|speed| row(CLINIC, 300, Room::Met, speed));
    let large = LARGE.map(|card| depot.map(|speed| row(card, 300, Room::Met, speed)));
    let rows = small.into_iter().chain(longer);
    rows.chain(large.into_iter().flatten())
}

/// A part of a list as it is heard: from its own begin, a hash in four lost
/// to another key, times off by a frame.
fn heard<I: Index>(rng: &mut Rng, card: Card, list: &[u32], hashes: usize) -> Vec<u32> {
    let first = rng.below((card.hashes - hashes) as u64 + 1) as usize;
    let part = &list[I::HASH * first..][..I::HASH * hashes];
    let begin = part[1];
    let hash = |hash: &[u32]| {
        let off = rng.below(3) as u32;
        let key = match rng.below(4) {
            0 => rng.below(1 << card.bits) as u32,
            _ => hash[0],
        };
        let heard = |time: &u32| (time - begin) * card.percent / 100 + off;
        let times = hash[1..].iter().map(heard);
        [key].into_iter().chain(times).collect::<Vec<u32>>()
    };
    part.chunks_exact(I::HASH).flat_map(hash).collect()
}

fn median(mut times: Vec<f64>) -> f64 {
    times.sort_unstable_by(f64::total_cmp);
    times[times.len() / 2]
}

fn micros(ns: f64) -> String {
    format!("{:.*}", if ns < 1e5 { 2 } else { 0 }, ns / 1e3)
}

/// How many votes the lent scratch has words for.
#[derive(Clone, Copy)]
enum Room {
    /// The postings met, rounded up to a power of two.
    Met,
    /// So many. The sheet's scratch has 3,072 words: 512 votes of Wang's, 256
    /// of Panako's.
    Votes(usize),
}

impl Room {
    fn votes(self, met: usize) -> usize {
        match self {
            Room::Met => met.next_power_of_two(),
            Room::Votes(votes) => votes,
        }
    }

    fn name(self) -> String {
        match self {
            Room::Met => "those met".to_string(),
            Room::Votes(votes) => votes.to_string(),
        }
    }
}

/// What is asked of all sides: the words of the hashes, the same as the
/// reference's fingerprint, the postings that they meet, and the scratch in
/// words.
struct Asked<I: Index> {
    hashes: Vec<u32>,
    fingerprint: I::Fingerprint,
    met: usize,
    scratch: usize,
}

/// What the reference's query answers.
type Found = Option<(usize, MatchResult)>;

/// Both sides with the same content, and what of it is of the set asked.
struct Sides<I: Index> {
    index: I,
    store: Store,
    set: u32,
    of_set: Content<I>,
    /// The index of that content, where it isn't all.
    part: Option<I>,
}

impl<I: Index> Sides<I> {
    fn of(lists: &[Vec<u32>], sizes: Sizes, set: u32) -> Self {
        let fingerprint = |list: &Vec<u32>| I::fingerprint(list, RATE);
        let index = I::build(&lists.iter().map(fingerprint).collect::<Vec<_>>(), LIMIT);
        let sets: Vec<u32> = (0..lists.len()).map(set_of).collect();
        let store = write::<I>(&index.content(), &sets, sizes);
        let of_set = of_set::<I>(index.content(), &sets, set);
        let part = (set > 0).then(|| I::of(of_set.clone()));
        Self {
            index,
            store,
            set,
            of_set,
            part,
        }
    }

    /// What is to be answered, where the reference's index answers `whole`.
    fn answers(
        &self,
        asked: &[Asked<I>],
        config: &I::Config,
        whole: Vec<Found>,
    ) -> impl Iterator<Item = Answer> {
        let part = self.part.as_ref();
        let of_part = |part: &I| {
            asked
                .iter()
                .map(|asked| part.query(&asked.fingerprint, config))
                .collect()
        };
        part.map_or(whole, of_part).into_iter().map(found)
    }

    fn asked(&self, hashes: Vec<u32>, room: Room) -> Asked<I> {
        let map = &self.of_set.map;
        let under = |hash: &[u32]| {
            let place = map.binary_search_by_key(&hash[0], |(key, _)| *key);
            place.map_or(0, |place| map[place].1.len())
        };
        let met = hashes.chunks_exact(I::HASH).map(under).sum();
        Asked {
            fingerprint: I::fingerprint(&hashes, RATE),
            hashes,
            met,
            scratch: I::VOTE * room.votes(met),
        }
    }
}

/// Hashes under one key, `apart` frames apart.
fn under_one_key<I: Index>(hashes: usize, apart: u32) -> Vec<u32> {
    let hash = |i| {
        let anchor = apart * i;
        [7, anchor, anchor + 5, anchor + 20]
            .into_iter()
            .take(I::HASH)
    };
    (0..hashes as u32).flat_map(hash).collect()
}

// ---- queries beside the reference's

fn queries(only: Option<&str>) {
    let mut table = BesideRust { rows: Vec::new() };
    measure_all(only, &mut table);
    if table.rows.is_empty() {
        return;
    }
    println!();
    println!(
        "| query | lists | hashes | scratch for | postings met | ours, µs | scan, µs | rest, µs \
         | Rust, µs | rest / Rust | ours / Rust |"
    );
    println!("|---|---|---|---|---|---|---|---|---|---|---|");
    table.rows.iter().for_each(|row| println!("{row}"));
}

struct BesideRust {
    rows: Vec<String>,
}

impl Measuring for BesideRust {
    /// Medians of `turns` turns, a query: ours, the scan, ours without the
    /// scan, the Rust's. No row where the library has no such query.
    fn row<I: Index>(
        &mut self,
        title: String,
        turns: usize,
        sides: Sides<I>,
        mut turn: impl FnMut(&Sides<I>) -> Vec<Asked<I>>,
    ) {
        let Some(query) = I::ENTRIES.query else {
            return;
        };
        let live_count = I::ENTRIES.live_count;
        let config = I::Config::default();
        let settings = I::settings(&config);
        let mut scratch = Vec::new();
        let mut met = Vec::new();
        let mut times: [Vec<f64>; 4] = Default::default();
        for _ in 0..turns {
            let asked = turn(&sides);
            met.extend(asked.iter().map(|asked| asked.met as f64));
            let words = asked.iter().map(|asked| asked.scratch).max();
            scratch.resize(words.expect("there are queries"), 0);
            let mut took = [f64::INFINITY; 4];
            let scan = |least: &mut f64| {
                timed(least, asked.len(), || {
                    asked.iter().fold(counted(0), |_, _| {
                        live_count(black_box(sides.store.slices()))
                    })
                })
            };
            scan(&mut took[0]);
            let ours: Vec<Answer> = timed(&mut took[1], asked.len(), || {
                let ask = |asked: &Asked<I>| {
                    let scratch = &mut scratch[..asked.scratch];
                    query(
                        sides.store.slices(),
                        scratch,
                        &asked.hashes,
                        RATE,
                        &settings,
                        sides.set,
                    )
                };
                asked.iter().map(ask).collect()
            });
            scan(&mut took[2]);
            let rust: Vec<_> = timed(&mut took[3], asked.len(), || {
                let ask = |asked: &Asked<I>| sides.index.query(&asked.fingerprint, &config);
                asked.iter().map(ask).collect()
            });
            assert!(
                ours.into_iter().eq(sides.answers(&asked, &config, rust)),
                "both sides answer the same"
            );
            let [before, ours, after, rust] = took;
            let scan = (before + after) / 2.0;
            for (times, took) in times.iter_mut().zip([ours, scan, ours - scan, rust]) {
                times.push(took);
            }
        }
        let met = met.iter().sum::<f64>() / met.len() as f64;
        let [ours, scan, rest, rust] = times.map(median);
        self.rows.push(format!(
            "| {title} | {met:.0} | {} | {} | {} | {} | {:.2} | {:.2} |",
            micros(ours),
            micros(scan),
            micros(rest),
            micros(rust),
            rest / rust,
            ours / rust
        ));
    }
}

// ---- queries of several builds

/// Measures the queries of builds of the library in turn, in one process.
pub fn builds(files: &[String], only: Option<&str>) -> Result<(), String> {
    let loaded: Result<Vec<Build>, String> = files.iter().map(|file| Build::load(file)).collect();
    let builds = loaded?;
    let mut table = BesideBuilds {
        builds: &builds,
        rows: Vec::new(),
    };
    measure_all(only, &mut table);
    if table.rows.is_empty() {
        return Err("no query has that name".to_string());
    }
    println!("| query | lists | hashes | scratch for | build | query, µs | scan, µs | rest, µs |");
    println!("|---|---|---|---|---|---|---|---|");
    table.rows.iter().for_each(|row| println!("{row}"));
    Ok(())
}

struct BesideBuilds<'a> {
    builds: &'a [Build],
    rows: Vec<String>,
}

impl Measuring for BesideBuilds<'_> {
    /// Medians of `turns` turns, a query: all of it, the scan, the rest; of
    /// the builds after the first, their ratios to the first's. A turn asks
    /// each build once, since a build that is asked the same again has its
    /// branches foreseen, and begins with another each time. Ratios are taken
    /// within a few turns, so that the machine's own changes of speed count
    /// little.
    fn row<I: Index>(
        &mut self,
        title: String,
        turns: usize,
        sides: Sides<I>,
        mut turn: impl FnMut(&Sides<I>) -> Vec<Asked<I>>,
    ) {
        let settings = I::settings(&I::Config::default());
        let count = self.builds.len();
        let mut scratch = Vec::new();
        let mut times = vec![<[Vec<f64>; 3]>::default(); count];
        for t in 0..turns {
            let asked = turn(&sides);
            let words = asked.iter().map(|asked| asked.scratch).max();
            scratch.resize(words.expect("there are queries"), 0);
            let mut took = vec![[f64::INFINITY; 2]; count];
            let mut answers: Vec<Vec<Answer>> = Vec::new();
            for b in (0..count).map(|i| (i + t) % count) {
                let build = &self.builds[b];
                timed(&mut took[b][0], asked.len(), || {
                    asked.iter().fold(counted(0), |_, _| {
                        build.live_count::<I>(black_box(sides.store.slices()))
                    })
                });
                answers.push(timed(&mut took[b][1], asked.len(), || {
                    let ask = |asked: &Asked<I>| {
                        let scratch = &mut scratch[..asked.scratch];
                        let slices = sides.store.slices();
                        build.query::<I>(slices, scratch, &asked.hashes, RATE, &settings, sides.set)
                    };
                    asked.iter().map(ask).collect()
                }));
            }
            assert!(
                answers.iter().all(|answer| *answer == answers[0]),
                "all builds answer the same"
            );
            for (times, [scan, query]) in times.iter_mut().zip(took) {
                for (times, took) in times.iter_mut().zip([query, scan, query - scan]) {
                    times.push(took);
                }
            }
        }
        for (b, (build, all)) in self.builds.iter().zip(&times).enumerate() {
            let figure = |(times, first): (&Vec<f64>, &Vec<f64>)| match b {
                0 => micros(median(times.clone())),
                _ => format!("{:.3}", ratio(times, first, count)),
            };
            let figures: Vec<String> = all.iter().zip(&times[0]).map(figure).collect();
            self.rows.push(format!(
                "| {title} | {} | {} |",
                build.file,
                figures.join(" | ")
            ));
        }
    }
}

/// How one build's times stand to another's: the median over rounds of
/// `turns` turns, in each of which every build has been asked first once.
fn ratio(ours: &[f64], first: &[f64], turns: usize) -> f64 {
    let sum = |round: &[f64]| round.iter().sum::<f64>();
    let rounds = ours.chunks_exact(turns).zip(first.chunks_exact(turns));
    median(rounds.map(|(a, b)| sum(a) / sum(b)).collect())
}
