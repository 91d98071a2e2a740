//! Sets: calls that name them, words of a set that don't belong there, and
//! queries that the recordings of one set answer.

use crate::account::{Call, Query, built, counted, refused, removed, stored};
use crate::calls::{NO_SETS, SETS, Source, build_in, insert_in, replace, some_store};
use crate::capi::Answer;
use crate::consolidate::digits;
use crate::fill::Kept;
use crate::harness::{Check, Rng, Run, answer};
use crate::queries::{Asked, hash, query, some_query, some_rates, some_times};
use crate::store::{HEADER, Index, Panako, ROW, SET, Sizes, Store, Wang};
use crate::trial::{Met, Trial};

macro_rules! checks {
    ($run:ident, $index:ty, $name:literal) => {
        if <$index>::ENTRIES.query.is_some() {
            $run.check(concat!($name, ", examples of sets"), examples::<$index>);
            $run.check(concat!($name, ", sets of builds"), sets_of_builds::<$index>);
            $run.check(concat!($name, ", damaged sets"), damaged_sets::<$index>);
            $run.check(
                concat!($name, ", every small history of two sets"),
                every_history::<$index>,
            );
            $run.check(
                concat!($name, "_query, stores alike in a set"),
                alike_in_a_set::<$index>,
            );
            $run.check(
                concat!($name, "_query, many votes of other sets"),
                many_votes::<$index>,
            );
        }
    };
}

pub fn run(run: &mut Run) {
    checks!(run, Wang, "wang_index");
    checks!(run, Panako, "panako_index");
}

/// A query for a set, with scratch for so many votes.
fn ask<I: Index>(hashes: Vec<u32>, set: u32, votes: usize) -> Call {
    let query = query(hashes, 0).with_room::<I>(&mut Rng(1), votes);
    Call::Query(Query { set, ..query })
}

// ---- examples

/// The store's sets are to be these.
fn has<I: Index>(check: &mut Check, trial: &Trial<I>, sets: &[u32]) {
    let held = trial.store().sets();
    check.holds(held == sets, || format!("  sets {held:?}, not {sets:?}\n"));
}

/// Answers that are worked out by hand: a recording under two sets, and then
/// under another.
fn examples<I: Asked>(check: &mut Check) {
    let met = &mut Met::default();
    let hashes = || [hash::<I>(7, 4, 40), hash::<I>(9, 6, 40)].concat();
    let none = answer([5]);
    let mut trial = Trial::<I>::empty(Sizes::new(2, 16, 4));
    trial.expect(check, met, insert_in(hashes(), 100, 1), stored(0));
    trial.expect(check, met, insert_in(hashes(), 100, 2), stored(1));
    has(check, &trial, &[1, 2]);
    for (set, votes, id) in [(0, 4, 0), (1, 2, 0), (2, 2, 1)] {
        let best = trial.call(check, met, ask::<I>(hashes(), set, votes));
        assert_eq!(best[..3], [4, id, 2]);
        let over = ask::<I>(hashes(), set, votes - 1);
        trial.expect(check, met, over, refused(8));
    }
    for set in [3, 255] {
        trial.expect(check, met, ask::<I>(hashes(), set, 0), none);
    }
    for set in [256, u32::MAX] {
        trial.expect(check, met, ask::<I>(hashes(), set, 0), refused(9));
    }
    // 9 stands after 3 and before 5: no row is free.
    for set in NO_SETS {
        trial.expect(check, met, insert_in(hashes(), 100, set), refused(9));
        trial.expect(check, met, insert_in(vec![7], 100, set), refused(3));
    }
    trial.expect(check, met, insert_in(hashes(), 100, 1), refused(5));
    // The row of a recording that goes has no set; its id gets another.
    trial.expect(check, met, Call::Remove { id: 0 }, removed(true));
    has(check, &trial, &[0, 2]);
    trial.expect(check, met, ask::<I>(hashes(), 1, 0), none);
    trial.expect(check, met, insert_in(hashes(), 100, 255), stored(0));
    has(check, &trial, &[255, 2]);
    trial.expect(check, met, ask::<I>(hashes(), 1, 0), none);
    let best = trial.call(check, met, ask::<I>(hashes(), 255, 2));
    assert_eq!(best[..3], [4, 0, 2]);
    shared_stops::<I>(check, met);
}

/// "Stopped keys are shared, so inserting elsewhere may stop a key and take
/// this set's postings with it."
fn shared_stops<I: Asked>(check: &mut Check, met: &mut Met) {
    let hashes = || hash::<I>(7, 4, 40);
    let mut trial = Trial::<I>::empty(Sizes::new(4, 16, 4));
    for (id, set) in [(0, 1), (1, 2)] {
        trial.expect(check, met, insert_in(hashes(), 2, set), stored(id));
    }
    let best = trial.call(check, met, ask::<I>(hashes(), 1, 1));
    assert_eq!(best[..3], [4, 0, 1]);
    trial.expect(check, met, insert_in(hashes(), 2, 2), stored(2));
    trial.expect(check, met, ask::<I>(hashes(), 1, 0), answer([5]));
    assert_eq!(trial.store().header(), [3, 0, 0, 1]);
}

/// Builds of two recordings, and of more or none: too few sets, too many, and
/// such as are refused; both at once.
fn sets_of_builds<I: Asked>(check: &mut Check) {
    let met = &mut Met::default();
    let mut trial = Trial::<I>::empty(Sizes::new(2, 4, 1));
    let lists: [(usize, &[u32], u64); 19] = [
        (2, &[1, 255], 0),
        (2, &[2, 2], 0),
        (0, &[], 0),
        (1, &[], 3),
        (0, &[1], 3),
        (0, &[0], 3),
        (2, &[], 3),
        (2, &[1], 3),
        (2, &[0], 3),
        (2, &[256], 3),
        (2, &[1, 2, 1], 3),
        (2, &[1, 2, 0], 3),
        (2, &[1, 0], 9),
        (2, &[0, 1], 9),
        (2, &[256, 1], 9),
        (2, &[1, u32::MAX], 9),
        (3, &[1, 2, 256], 9),
        (3, &[1, 2, 255], 5),
        (2, &[255, 1], 0),
    ];
    for (refs, sets, number) in lists {
        let before = trial.store().sets();
        let hashes = (0..refs).flat_map(|key| hash::<I>(key as u32, 4, 40));
        let call = build_in(hashes.collect(), vec![1; refs], 100, sets.to_vec());
        let known = match number {
            0 => built(),
            _ => refused(number),
        };
        trial.expect(check, met, call, known);
        has(check, &trial, if number == 0 { sets } else { &before });
    }
}

// ---- words that don't belong there

/// "a sound store's dead rows have set 0 and its live rows 1 to 255", and an
/// unused row has zeros: each row's set, set to what it may be and to what it
/// may not.
fn damaged_sets<I: Asked>(check: &mut Check) {
    const KEYS: [u32; 4] = [3, 5, 6, u32::MAX];
    let (met, mut kinds) = (&mut Met::default(), [0; 3]);
    for _ in check.times(1500) {
        let rng = &mut check.rng;
        let mut size = |most: u64| 1 + rng.below(most) as usize;
        let sizes = Sizes::new(size(6), size(12), size(3));
        let store = some_store::<I>(rng, sizes, &KEYS);
        let [n, v, ..] = store.header().map(|count| count as usize);
        for id in 0..sizes.rows {
            let is_live = store.sets().get(id).is_some_and(|&set| set > 0);
            kinds[if id < n { usize::from(is_live) } else { 2 }] += 1;
            let (fine, wrong): (&[u32], &[u32]) = match is_live {
                true => (&[1, 2, 128, 254, 255], &[0, 256, 257, 1 << 16, u32::MAX]),
                false => (&[0], &[1, 2, 255, 256, 1 << 16, u32::MAX]),
            };
            let mut put = |set: u32, answer| {
                let mut damaged = store.clone();
                damaged.refs[HEADER + ROW * id + SET] = set;
                on_damaged::<I>(check, met, damaged, answer);
            };
            fine.iter().for_each(|&set| put(set, counted(n - v)));
            wrong.iter().for_each(|&set| put(set, refused(2)));
        }
    }
    let [dead, live, unused] = kinds;
    check.note(format!("rows: live {live}, dead {dead}, unused {unused}"));
    assert!(kinds.iter().all(|&count| count > 0));
}

/// The live count is to be answered so, and where it is refused all other
/// calls but a build are too.
fn on_damaged<I: Asked>(check: &mut Check, met: &mut Met, store: Store, known: Answer) {
    let mut trial = Trial::<I>::new(store);
    trial.expect(check, met, Call::LiveCount, known);
    if known != refused(2) {
        return;
    }
    let hashes = || hash::<I>(5, 4, 40);
    for call in [
        Call::Remove { id: 0 },
        insert_in(hashes(), 100, 1),
        replace(0, hashes(), 100),
        ask::<I>(hashes(), 0, 8),
        ask::<I>(hashes(), 1, 8),
        ask::<I>(hashes(), 256, 8),
    ] {
        trial.expect(check, met, call, known);
    }
}

// ---- every one of a small kind

/// Every list of five calls out of eight, and queries for every set that
/// matters.
fn every_history<I: Asked>(check: &mut Check) {
    let (met, mut asked) = (&mut Met::default(), AskedSets::default());
    let [one, other] = [hash::<I>(7, 4, 40), hash::<I>(9, 6, 40)];
    let both = [&one[..], &other].concat();
    let calls = [
        insert_in(one.clone(), 2, 1),
        insert_in(one.clone(), 2, 2),
        insert_in(other.clone(), 2, 1),
        insert_in(other.clone(), 2, 2),
        Call::Remove { id: 0 },
        Call::Remove { id: 1 },
        build_in(both.clone(), vec![1, 1], 2, vec![1, 2]),
        build_in(both.clone(), vec![0, 2], 2, vec![1, 2]),
    ];
    for list in digits(calls.len() as u32, 5) {
        let mut trial = Trial::<I>::empty(Sizes::new(3, 4, 1));
        for place in list {
            trial.call(check, met, calls[place as usize].clone());
        }
        for hashes in [&one, &other, &both] {
            asked.put(check, met, &mut trial, hashes);
        }
    }
    met.expect(&[5, 8, 9]);
    asked.end(check);
}

/// What queries for a set came to, beside those for all: the same, another
/// answer, an answer where all have too many votes.
#[derive(Default)]
struct AskedSets {
    alike: u64,
    another: u64,
    fewer: u64,
}

impl AskedSets {
    /// A query for each set, with scratch for its votes, and for one less.
    fn put<I: Asked>(
        &mut self,
        check: &mut Check,
        met: &mut Met,
        trial: &mut Trial<I>,
        hashes: &[u32],
    ) {
        let whole = query(hashes.to_vec(), 0);
        let all = trial.account().voters(&whole).count();
        let best = trial.call(check, met, ask::<I>(hashes.to_vec(), 0, all));
        for set in [0, 1, 2, 3, 256] {
            let asked = Query {
                set,
                ..whole.clone()
            };
            let votes = trial.account().voters(&asked).count();
            let given = trial.call(check, met, ask::<I>(hashes.to_vec(), set, votes));
            self.alike += u64::from(given == best);
            self.another += u64::from(given[0] != 6 && given != best);
            if votes < all {
                let over = ask::<I>(hashes.to_vec(), 0, votes);
                trial.expect(check, met, over, refused(8));
                self.fewer += u64::from(given[0] != 6);
            }
            if votes > 0 {
                let over = ask::<I>(hashes.to_vec(), set, votes - 1);
                trial.expect(check, met, over, refused(8));
            }
        }
    }

    fn end(&self, check: &mut Check) {
        let Self {
            alike,
            another,
            fewer,
        } = self;
        check.note(format!(
            "a set answers as all {alike}, otherwise {another}, where all have too many votes {fewer}"
        ));
        assert!(*alike > 0 && *another > 0 && *fewer > 0);
    }
}

// ---- stores alike in a set

/// What queries for a set came to on two stores.
#[derive(Default)]
struct Pairs {
    met: Met,
    /// Pairs whose sizes differ, and whose answers for all sets do.
    sizes: u64,
    for_all: u64,
}

/// "two sound stores with the same rows, ids and postings in the asked set
/// answer it alike": one of any content, and one of other sizes that has the
/// same of a set, and else what it likes.
fn alike_in_a_set<I: Asked>(check: &mut Check) {
    const KEYS: [u32; 4] = [5, 0, u32::MAX, 6];
    let mut pairs = Pairs::default();
    for _ in check.times(20_000) {
        let rng = &mut check.rng;
        let mut size = |most: u64| 1 + rng.below(most) as usize;
        let sizes = Sizes::new(size(8), size(60), size(3));
        let keys = &KEYS[..size(4)];
        let (times, rates) = (some_times(rng), some_rates(rng));
        let set = rng.pick(&SETS);
        let source = Source {
            times: &times,
            rates: &rates,
            asked: &[set],
            ..Source::any(sizes, keys, 5)
        };
        let one = source.store::<I>(rng);
        let other = other_store::<I>(rng, &source, &one, set);
        let heard = postings_of::<I>(&one, set);
        pairs.put::<I>(check, &source, &[heard], [one, other]);
    }
    pairs.end(check);
}

/// A store of other sizes with the same rows, ids and postings in `set`.
fn other_store<I: Asked>(rng: &mut Rng, source: &Source<'_>, store: &Store, set: u32) -> Store {
    const OTHERS: [u32; 5] = [1, 2, 3, 254, 255];
    let sets: Vec<u32> = OTHERS.into_iter().filter(|&other| other != set).collect();
    let kept = Kept::<I>::of(store, set);
    let mut size = |least: usize, more: u64| least.max(1) + rng.below(more) as usize;
    let [rows, postings] = kept.least();
    let other = Source {
        sizes: Sizes::new(size(rows, 6), size(postings, 60), size(1, 4)),
        sets: &sets,
        ..*source
    };
    other.store_with(rng, &kept)
}

/// The hashes that a store holds of a set.
fn postings_of<I: Index>(store: &Store, set: u32) -> Vec<u32> {
    let (p, sets) = (store.header()[2] as usize, store.sets());
    let postings = store.postings.chunks_exact(I::WIDTH).take(p);
    let held = postings.filter(|posting| sets[posting[1] as usize] == set);
    held.flat_map(|posting| [&posting[..1], &posting[2..]].concat())
        .collect()
}

impl Pairs {
    /// Some queries to both, most of them of what was heard.
    fn put<I: Asked>(
        &mut self,
        check: &mut Check,
        source: &Source<'_>,
        heard: &[Vec<u32>],
        stores: [Store; 2],
    ) {
        self.sizes += u64::from(stores[0].sizes::<I>() != stores[1].sizes::<I>());
        let mut trials = stores.map(Trial::<I>::new);
        assert!(trials.iter().all(Trial::is_sound), "they are made so");
        for _ in 0..6 {
            let (query, _) = some_query(&mut check.rng, source, trials[0].account(), heard);
            let all = query.clone().for_all();
            let [one, other] = trials
                .each_ref()
                .map(|trial| trial.account().answer_to(&all));
            self.for_all += u64::from(one != other);
            let call = Call::Query(query);
            let [one, other] = trials
                .each_mut()
                .map(|trial| trial.call(check, &mut self.met, call.clone()));
            check.holds(one == other, || {
                format!("  {call:?}\n  one store {one:x?}\n  another {other:x?}\n")
            });
        }
    }

    fn end(&self, check: &mut Check) {
        let [.., best, none, _, _] = self.met.cases;
        let over = self.met.refusals[8];
        let Self { sizes, for_all, .. } = self;
        check.note(format!(
            "best {best}, none {none}, refused with 8 {over}; pairs of other sizes {sizes}, \
             other answers for all sets {for_all}"
        ));
        assert!(
            [best, none, over, *sizes, *for_all]
                .iter()
                .all(|&count| count > 0)
        );
    }
}

// ---- many votes

/// Votes of other sets count neither against the scratch nor to the Rust's own
/// end at 10,000,000: a set's are as many as its scratch holds, or one more.
fn many_votes<I: Asked>(check: &mut Check) {
    const KEY: u32 = 7;
    const ASKED: usize = 2000;
    let met = &mut Met::default();
    let recording = |rng: &mut Rng, count: usize| -> Vec<u32> {
        let one = |_| hash::<I>(KEY, rng.below(2000) as u32, 100);
        (0..count).flat_map(one).collect()
    };
    let mut trial = Trial::<I>::empty(Sizes::new(4, 6620, 1));
    for (id, (set, count)) in (0..).zip([(1, 6000), (2, 20), (255, 500), (2, 100)]) {
        let hashes = recording(&mut check.rng, count);
        let call = insert_in(hashes, u32::MAX, set);
        trial.expect(check, met, call, stored(id));
    }
    for _ in check.times(4) {
        let hashes = recording(&mut check.rng, ASKED);
        for (set, votes) in [(2, 120 * ASKED), (255, 500 * ASKED), (3, 0)] {
            let given = trial.call(check, met, ask::<I>(hashes.clone(), set, votes));
            assert_eq!(given[0], if set == 3 { 5 } else { 4 });
            if votes > 0 {
                let over = ask::<I>(hashes.clone(), set, votes - 1);
                trial.expect(check, met, over, refused(8));
            }
        }
        for set in [0, 1] {
            let over = ask::<I>(hashes.clone(), set, 1_000_000);
            trial.expect(check, met, over, refused(8));
        }
    }
}
