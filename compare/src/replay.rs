//! The list that the program `replay` runs on: calls, what the unchanged index
//! answers to each, and what the store then holds. `crates/replay/src/main.rt`
//! tells of its lines.

use crate::account::{Account, Call, QUERY_HASHES, Query};
use crate::calls::{Source, build, insert, replace};
use crate::capi::Answer;
use crate::damage;
use crate::harness::{Check, Rng, Run};
use crate::queries::{Asked, hash, query, some_other, some_query, some_rates, some_times};
use crate::sheet::{at_root, printed, program};
use crate::store::{Index, Panako, Sizes, Store, Wang};
use crate::trial::Met;
use std::fmt::Write;

/// The list is always the same.
const SEED: u64 = 1;
/// Words of scratch that the program has.
const SCRATCH: usize = 12 * 512;

pub fn run(run: &mut Run) {
    run.check("replay, the stored list", stored_list);
    run.check("replay, altered lists", altered_lists);
}

pub fn write(path: &str) {
    std::fs::write(path, list().text).expect("the file can be written");
}

#[derive(Default)]
struct List {
    text: String,
    lines: u64,
    calls: u64,
}

/// The words up to the last that isn't zero.
fn in_use<T: Copy + Default + PartialEq>(words: &[T]) -> &[T] {
    let last = words.iter().rposition(|&word| word != T::default());
    &words[..last.map_or(0, |place| place + 1)]
}

impl List {
    fn line(&mut self, letter: char, words: &[u32]) {
        let _ = write!(self.text, "{letter} {:08X}", words.len());
        words.iter().for_each(|word| {
            let _ = write!(self.text, " {word:08X}");
        });
        self.text.push('\n');
        self.lines += 1;
    }

    /// What the slices begin with, or are to begin with.
    fn slices(&mut self, letters: [char; 3], store: &Store) {
        for (letter, words) in letters.into_iter().zip(store.slices()) {
            self.line(letter, in_use(words));
        }
    }

    fn lend<I: Index>(&mut self, store: &Store) {
        let lengths = store.slices().map(|words| words.len() as u32);
        self.line('N', &[&[I::WIDTH as u32], &lengths[..]].concat());
        self.slices(['r', 'p', 'k'], store);
    }

    /// A call, its answer, and what the store then holds if it may change it.
    fn call<I: Index>(&mut self, account: &mut Account<I>, call: &Call) -> Answer {
        let answer = account.call(call);
        self.calls += 1;
        self.asked(call);
        let halves = |&word: &u64| [(word >> 32) as u32, word as u32];
        let words: Vec<u32> = in_use(&answer).iter().flat_map(halves).collect();
        self.line('A', &words);
        if !matches!(call, Call::LiveCount | Call::Query(_)) {
            self.slices(['R', 'P', 'K'], &account.store);
        }
        answer
    }

    fn asked(&mut self, call: &Call) {
        match call {
            Call::Build {
                hashes,
                lengths,
                rates,
                limit,
                sets,
            } => {
                let lists = [lengths, rates, sets];
                let counts = lists.map(|list| list.len() as u32);
                let lists = lists.map(|list| &list[..]).concat();
                self.line('B', &[&[*limit], &counts[..], &lists, hashes].concat());
            }
            Call::Insert {
                hashes,
                rate,
                limit,
                set,
            } => self.line('I', &[&[*limit, *rate, *set], &hashes[..]].concat()),
            Call::Remove { id } => self.line('D', &[*id]),
            Call::Replace {
                id,
                hashes,
                rate,
                limit,
            } => self.line('S', &[&[*id, *limit, *rate], &hashes[..]].concat()),
            Call::LiveCount => self.line('C', &[]),
            Call::Query(query) => self.line('Q', &query_words(query)),
        }
    }
}

fn query_words(query: &Query) -> Vec<u32> {
    let of = &query.settings;
    let fixed = [
        query.scratch as u32,
        query.fill as u32,
        query.rate,
        of.scale_min,
        of.scale_max,
        of.scale_bins,
        of.tolerance,
        of.min_votes,
        of.min_score,
        of.min_prominence,
        query.set,
    ];
    [&fixed, &query.hashes[..]].concat()
}

/// A store to begin with, now and then with a damaged word or a wrong length.
fn some_start<I: Index>(rng: &mut Rng, source: &Source<'_>) -> Store {
    let mut store = source.start::<I>(rng);
    let words = store.slices().concat().len();
    match rng.below(10) {
        0 => {
            let value = rng.pick(&damage::values::<I>(&store));
            damage::set(&mut store, rng.below(words as u64) as usize, value);
        }
        1 if rng.below(4) == 0 => {
            let slice: &mut Vec<u32> = match rng.below(3) {
                0 => &mut store.refs,
                1 => &mut store.postings,
                _ => &mut store.stopped,
            };
            slice.pop();
        }
        _ => {}
    }
    store
}

/// A store, calls on it, and what it holds at the end.
fn group<I: Asked>(rng: &mut Rng, list: &mut List, met: &mut Met, source: &Source<'_>, calls: u64) {
    let store = some_start::<I>(rng, source);
    list.lend::<I>(&store);
    let mut account = Account::<I>::new(store);
    let mut heard = Vec::new();
    for turn in 0..calls {
        let call = match rng.below(2) {
            0 if turn > 1 => {
                let (mut query, _) = some_query(rng, source, &account, &heard);
                query.scratch = query.scratch.min(SCRATCH);
                Call::Query(query)
            }
            _ => some_other(rng, source, &account, &mut heard, turn),
        };
        met.add(&list.call(&mut account, &call));
    }
    list.slices(['R', 'P', 'K'], &account.store);
}

/// Groups on small stores, and some on larger ones.
fn groups<I: Asked>(rng: &mut Rng, list: &mut List) {
    const KEYS: [u32; 4] = [5, 0, u32::MAX, 6];
    let met = &mut Met::default();
    for turn in 0..150 {
        let larger = turn % 50 == 49;
        let mut size =
            |small: u64, large: u64| 1 + rng.below(if larger { large } else { small }) as usize;
        let sizes = Sizes::new(size(6, 40), size(24, 512), size(3, 64));
        let keys = &KEYS[..size(4, 4)];
        let (times, rates) = (some_times(rng), some_rates(rng));
        let source = Source {
            times: &times,
            rates: &rates,
            limit: (rng.below(8) > 0).then(|| rng.pick(&[2, 3, 5, 8, 20, 100, 100, 100])),
            ..Source::any(sizes, keys, if larger { 40 } else { 4 })
        };
        group::<I>(rng, list, met, &source, if larger { 16 } else { 9 });
    }
    met.expect(&[1, 2, 3, 4, 5, 6, 7, 8, 9, 10]);
    assert!(
        met.cases[..7].iter().all(|&count| count > 0),
        "{:?}",
        met.cases
    );
}

/// As many hashes as a query can have, and one more.
fn longest_queries(list: &mut List) {
    let store = Store::zeroed::<Wang>(Sizes::new(1, 1, 1));
    list.lend::<Wang>(&store);
    let mut account = Account::<Wang>::new(store);
    for hashes in [QUERY_HASHES, QUERY_HASHES + 1] {
        let call = Call::Query(query(vec![7; 2 * hashes], 0));
        list.call(&mut account, &call);
    }
}

/// As much as the program has room for: the postings of one key at its limit
/// and above, votes that fill the scratch and one too many, for several
/// recordings and for one.
fn fullest<I: Asked>(list: &mut List) {
    const MOST: usize = 512;
    const ONE: usize = 32;
    let hashes = |count: usize, latest: u32| -> Vec<u32> {
        let one = |i| hash::<I>(7, i % latest, 100);
        (0..count as u32).flat_map(one).collect()
    };
    let insertion = |limit: usize| insert(hashes(ONE, 1), limit as u32);
    let heard = |count: usize, less: usize| {
        Call::Query(Query {
            scratch: SCRATCH - I::VOTE * less,
            ..query(hashes(count, 1), 1)
        })
    };
    let swap = |count: usize| replace(5, hashes(count, 1), MOST as u32);
    let votes = SCRATCH / I::VOTE;
    let many = vec![ONE as u32; MOST / ONE];
    let full = build(hashes(MOST, 8), many, MOST as u32);
    let few = votes / MOST;
    let calls = [
        (full, 0),
        (heard(few, 0), 4),
        (heard(few, 1), 6),
        (swap(ONE + 1), 6),
        (swap(ONE), 1),
        (heard(few, 0), 4),
        (Call::Remove { id: 3 }, 2),
        (insertion(MOST - 1), 1),
        (heard(few, 0), 5),
        (build(Vec::new(), Vec::new(), 0), 0),
        (insertion(ONE), 1),
        (heard(votes / ONE, 0), 4),
        (heard(votes / ONE, 1), 6),
    ];
    let store = Store::zeroed::<I>(Sizes::new(MOST / ONE, MOST, 1));
    list.lend::<I>(&store);
    let mut account = Account::<I>::new(store);
    for (call, case) in calls {
        let answer = list.call(&mut account, &call);
        assert_eq!(answer[0], case, "{call:?}");
    }
}

fn list() -> List {
    let (mut rng, mut list) = (Rng(SEED), List::default());
    groups::<Wang>(&mut rng, &mut list);
    groups::<Panako>(&mut rng, &mut list);
    longest_queries(&mut list);
    fullest::<Wang>(&mut list);
    fullest::<Panako>(&mut list);
    list
}

/// What the program prints where nothing differs.
fn verdict(list: &List) -> String {
    let List { calls, lines, .. } = list;
    format!("replay: {calls} calls, {lines} lines, 0 differences\n")
}

fn stored_list(check: &mut Check) {
    let list = list();
    let stored = |name: &str| {
        let path = at_root("crates/replay").join(name);
        std::fs::read_to_string(path).expect("the file is there")
    };
    let rewrite = || String::from("  write it again by `compare --write-replay`\n");
    check.holds(stored("stdin") == list.text, rewrite);
    check.holds(stored("stdout") == verdict(&list), rewrite);
    let printed = printed(&program("replay"), list.text.as_bytes());
    check.holds(printed == verdict(&list).as_bytes(), || {
        format!("  it prints {}", String::from_utf8_lossy(&printed))
    });
    check.note(format!(
        "{} calls, {} lines, {} bytes",
        list.calls,
        list.lines,
        list.text.len()
    ));
}

/// A line that says what is expected differs once a digit of it is another.
fn altered_lists(check: &mut Check) {
    let (program, list) = (program("replay"), list());
    let lines: Vec<&str> = list.text.lines().collect();
    let starts: Vec<usize> = (0..lines.len())
        .filter(|&line| lines[line].starts_with('N'))
        .collect();
    // Digits behind the letter and the count.
    let digits = |line: usize| lines[line].len().saturating_sub(10) / 9 * 8;
    let expected: Vec<usize> = (0..lines.len())
        .filter(|&line| lines[line].starts_with(['A', 'R', 'P', 'K']) && digits(line) > 0)
        .collect();
    for _ in check.times(300) {
        let rng = &mut check.rng;
        let line = rng.pick(&expected);
        let place = rng.below(digits(line) as u64) as usize;
        let place = 11 + place / 8 * 9 + place % 8;
        let mut altered = lines[line].as_bytes().to_vec();
        altered[place] = match altered[place] {
            b'0' => b'1',
            _ => b'0',
        };
        let start = starts.iter().rfind(|&&start| start <= line);
        let start = *start.expect("a list begins with a store");
        let mut input = (lines[start..line].join("\n") + "\n").into_bytes();
        input.extend(altered);
        input.push(b'\n');
        let expected = format!("replay: line {} differs\n", line - start + 1);
        let given = printed(&program, &input);
        check.holds(given == expected.as_bytes(), || {
            let given = String::from_utf8_lossy(&given);
            let input = String::from_utf8_lossy(&input);
            format!("{input}  it prints {given}  expected {expected}")
        });
    }
}
