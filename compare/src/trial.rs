//! A store lent to the library, call after call, and held to its account.

use crate::account::{Account, Call, Query};
use crate::capi::Answer;
use crate::harness::{Check, Rng};
use crate::store::{Index, Sizes, Store};
use std::fmt::{UpperHex, Write};

/// A word of a lent slice.
trait Word: Copy + PartialEq + UpperHex {
    /// What stands around a lent slice, and may not change either.
    const FENCE: [Self; 3];

    /// Another word.
    fn changed(self) -> Self;
}

impl Word for u32 {
    const FENCE: [u32; 3] = [0xA5A5_A5A5; 3];

    fn changed(self) -> u32 {
        self ^ 1
    }
}

impl Word for i64 {
    const FENCE: [i64; 3] = [0x5A5A_A5A5_5A5A_A5A5; 3];

    fn changed(self) -> i64 {
        self ^ 1
    }
}

/// A slice between fences.
#[derive(Default)]
struct Fenced<T>(Vec<T>);

impl<T: Word> Fenced<T> {
    fn new(words: &[T]) -> Self {
        Self([&T::FENCE, words, &T::FENCE].concat())
    }

    fn fill(&mut self, words: impl Iterator<Item = T>) {
        self.0.clear();
        self.0.extend(T::FENCE);
        self.0.extend(words);
        self.0.extend(T::FENCE);
    }

    fn words(&mut self) -> &mut [T] {
        let end = self.0.len() - T::FENCE.len();
        &mut self.0[T::FENCE.len()..end]
    }

    fn holds(&self, words: &[T]) -> bool {
        self.within() == Some(words)
    }

    /// The slice, where the fences stand.
    fn within(&self) -> Option<&[T]> {
        let rest = self.0.strip_prefix(&T::FENCE)?;
        rest.strip_suffix(&T::FENCE)
    }

    /// The first words that aren't as expected.
    fn differences(&self, words: impl Iterator<Item = T>) -> Vec<String> {
        let fence = T::FENCE.into_iter();
        let expected = fence.clone().chain(words).chain(fence);
        let places = self.0.iter().zip(expected).enumerate();
        let differ = places.filter(|(_, (ours, expected))| **ours != *expected);
        let told = |(place, (ours, expected)): (usize, (&T, T))| {
            let place = place as i64 - T::FENCE.len() as i64;
            format!("[{place}] ours {ours:X}, expected {expected:X}")
        };
        differ.map(told).take(20).collect()
    }
}

impl Query {
    /// What the scratch holds before the call: any words, or mostly ends.
    fn filling(&self) -> impl Iterator<Item = i64> {
        const ENDS: [i64; 6] = [0, 1, -1, i64::MIN, i64::MAX, 1 << 44];
        let (mut rng, has_ends) = (Rng(self.fill), self.fill % 2 == 1);
        (0..self.scratch).map(move |_| match has_ends {
            true => rng.pick(&ENDS),
            false => rng.next() as i64,
        })
    }

    /// What it is to hold after it: "after an accepted one, none included,
    /// every scratch word is zero", and what it held after a refused one.
    fn left(&self, answer: &Answer) -> impl Iterator<Item = i64> {
        let kept = i64::from(is_refused(answer));
        self.filling().map(move |word| kept * word)
    }
}

fn is_refused(answer: &Answer) -> bool {
    answer[0] == 6
}

/// The answers met, by case, and the refusals, by number.
#[derive(Default)]
pub struct Met {
    pub cases: [u64; 8],
    pub refusals: [u64; 11],
}

impl Met {
    pub fn add(&mut self, answer: &Answer) {
        let [case, value, ..] = answer.map(|word| word as usize);
        self.cases[case] += 1;
        if is_refused(answer) {
            self.refusals[value] += 1;
        }
    }

    /// Fails where a check no longer comes to what it is there for.
    pub fn expect(&self, refusals: &[usize]) {
        assert!(
            refusals.iter().all(|&number| self.refusals[number] > 0),
            "refusals met: {:?}",
            self.refusals
        );
    }
}

/// One store and the calls on it so far.
pub struct Trial<I> {
    start: Store,
    calls: Vec<Call>,
    lent: [Fenced<u32>; 3],
    /// Of the last query.
    scratch: Fenced<i64>,
    hashes: Fenced<u32>,
    account: Account<I>,
}

impl<I: Index> Trial<I> {
    pub fn new(start: Store) -> Self {
        Self {
            lent: start.slices().map(Fenced::new),
            scratch: Fenced::default(),
            hashes: Fenced::default(),
            account: Account::new(start.clone()),
            calls: Vec::new(),
            start,
        }
    }

    pub fn empty(sizes: Sizes) -> Self {
        Self::new(Store::zeroed::<I>(sizes))
    }

    /// The store as it is to be.
    pub fn store(&self) -> &Store {
        &self.account.store
    }

    pub fn is_sound(&self) -> bool {
        self.account.is_sound()
    }

    /// What the store is held to.
    pub fn account(&self) -> &Account<I> {
        &self.account
    }

    /// Puts the call to both sides. Answer, lent slices and fences are
    /// compared.
    pub fn call(&mut self, check: &mut Check, met: &mut Met, call: Call) -> Answer {
        let ours = self.ours(&call);
        let expected = self.account.call(&call);
        self.calls.push(call);
        let answers = [("ours", ours), ("expected", expected)];
        check.holds(self.is_same(&ours, &expected), || self.report(answers));
        met.add(&expected);
        expected
    }

    /// A call whose answer is known beforehand.
    pub fn expect(&mut self, check: &mut Check, met: &mut Met, call: Call, known: Answer) {
        let expected = self.call(check, met, call);
        let answers = [("example", known), ("expected", expected)];
        check.holds(expected == known, || self.report(answers));
    }

    fn ours(&mut self, call: &Call) -> Answer {
        let entries = I::ENTRIES;
        let lent = self.lent.each_mut().map(Fenced::words);
        match call {
            Call::Build {
                hashes,
                lengths,
                rates,
                limit,
                sets,
            } => (entries.build)(lent, hashes, lengths, rates, *limit, sets),
            Call::Insert {
                hashes,
                rate,
                limit,
                set,
            } => (entries.insert)(lent, hashes, *rate, *limit, *set),
            Call::Remove { id } => (entries.remove)(lent, *id),
            Call::Replace {
                id,
                hashes,
                rate,
                limit,
            } => (entries.replace)(lent, *id, hashes, *rate, *limit),
            Call::LiveCount => (entries.live_count)(lent.map(|words| &*words)),
            Call::Query(query) => {
                let entry = entries.query.expect("the library has this query");
                let store = lent.map(|words| &*words);
                self.scratch.fill(query.filling());
                self.hashes.fill(query.hashes.iter().copied());
                let (scratch, hashes) = (self.scratch.words(), self.hashes.words());
                let Query {
                    rate,
                    settings,
                    set,
                    ..
                } = query;
                entry(store, scratch, hashes, *rate, settings, *set)
            }
        }
    }

    /// Whether the last call answered and left what it was to.
    fn is_same(&self, ours: &Answer, expected: &Answer) -> bool {
        let mut store = self.lent.iter().zip(self.account.store.slices());
        ours == expected
            && store.all(|(lent, words)| lent.holds(words))
            && match self.calls.last() {
                Some(Call::Query(query)) => {
                    let scratch = self.scratch.within();
                    let left = query.left(expected);
                    self.hashes.holds(&query.hashes)
                        && scratch.is_some_and(|words| words.iter().copied().eq(left))
                }
                _ => true,
            }
    }

    /// Whether a change of any one word of the answer to the last query, or
    /// of what it was lent and the fences, would have been seen.
    pub fn sees_changes(&mut self, answer: &Answer) -> bool {
        let words = (0..answer.len()).all(|place| {
            let mut changed = *answer;
            changed[place] ^= 1;
            !self.is_same(&changed, answer)
        });
        self.is_same(answer, answer)
            && words
            && (0..3).all(|slice| self.sees_change_of(answer, |trial| &mut trial.lent[slice]))
            && self.sees_change_of(answer, |trial| &mut trial.hashes)
            && self.sees_change_of(answer, |trial| &mut trial.scratch)
    }

    fn sees_change_of<T: Word>(
        &mut self,
        answer: &Answer,
        slice: impl Fn(&mut Self) -> &mut Fenced<T>,
    ) -> bool {
        (0..slice(self).0.len()).all(|place| {
            let word = slice(self).0[place];
            slice(self).0[place] = word.changed();
            let seen = !self.is_same(answer, answer);
            slice(self).0[place] = word;
            seen
        })
    }

    /// Where two sides part: the store at first, all calls, both answers, and
    /// the words that differ.
    fn report(&self, answers: [(&str, Answer); 2]) -> String {
        let mut text = String::from("  store at first\n");
        for (name, words) in NAMES.into_iter().zip(self.start.slices()) {
            let _ = writeln!(text, "    {name}: {}", shown(words));
        }
        for call in &self.calls {
            let _ = writeln!(text, "  {}", told(call));
        }
        for (side, answer) in answers {
            let _ = writeln!(text, "  {side:8} {answer:x?}");
        }
        let mut tell = |name: &str, differences: Vec<String>| {
            for difference in differences {
                let _ = writeln!(text, "  {name}{difference}");
            }
        };
        for ((name, lent), words) in NAMES.into_iter().zip(&self.lent).zip(self.store().slices()) {
            tell(name, lent.differences(words.iter().copied()));
        }
        if let Some(Call::Query(query)) = self.calls.last() {
            let left = query.left(&answers[1].1);
            tell("scratch", self.scratch.differences(left));
            let hashes = query.hashes.iter().copied();
            tell("hashes", self.hashes.differences(hashes));
        }
        text
    }
}

const NAMES: [&str; 3] = ["references", "postings", "stopped"];

fn told(call: &Call) -> String {
    match call {
        Call::Build {
            hashes,
            lengths,
            rates,
            limit,
            sets,
        } => format!(
            "build: hashes {}; lengths {}; rates {}; limit {limit}; sets {}",
            shown(hashes),
            shown(lengths),
            shown(rates),
            shown(sets)
        ),
        Call::Insert {
            hashes,
            rate,
            limit,
            set,
        } => format!(
            "insert: hashes {}; rate {rate:X}; limit {limit}; set {set}",
            shown(hashes)
        ),
        Call::Remove { id } => format!("remove: id {id}"),
        Call::Replace {
            id,
            hashes,
            rate,
            limit,
        } => format!(
            "replace: id {id}; hashes {}; rate {rate:X}; limit {limit}",
            shown(hashes)
        ),
        Call::LiveCount => String::from("live_count"),
        Call::Query(query) => format!(
            "query: hashes {}; rate {:X}; {:X?}; set {}; scratch of {} words, filled from {:X}",
            shown(&query.hashes),
            query.rate,
            query.settings,
            query.set,
            query.scratch,
            query.fill
        ),
    }
}

/// Words in hexadecimal, as many as one can read.
fn shown(words: &[u32]) -> String {
    const MANY: usize = 200;
    let list = words.iter().take(MANY).map(|word| format!("{word:X}"));
    let list = list.collect::<Vec<String>>().join(" ");
    match words.len() {
        0..=MANY => format!("[{list}]"),
        length => format!("[{list} ..., {length} words]"),
    }
}
