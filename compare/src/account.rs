//! What a call on a lent store is to answer and to leave. The reference says
//! what an accepted call does; what it doesn't know, which stores are sound
//! and which calls are refused, is told here, in document 01's words and in
//! those of document 02's first two requests, which are about sets and about
//! replacements.

use crate::capi::{Answer, NAN_F32, Settings};
use crate::harness::{answer, word32};
use crate::store::{HEADER, Index, ROW, SET, Sizes, Store, is_asked, of_set, read, write};
use audiofp::matching::MatchResult;
use std::collections::BTreeSet;

/// Reference fingerprints have at most so many hashes.
pub const HASHES: usize = 8192;
/// Queries have at most so many.
pub const QUERY_HASHES: usize = 2048;
/// Scratch is for at most so many votes.
pub const VOTES: usize = 1_000_000;

#[derive(Clone, Debug)]
pub enum Call {
    Build {
        hashes: Vec<u32>,
        lengths: Vec<u32>,
        rates: Vec<u32>,
        limit: u32,
        sets: Vec<u32>,
    },
    Insert {
        hashes: Vec<u32>,
        rate: u32,
        limit: u32,
        set: u32,
    },
    Remove {
        id: u32,
    },
    Replace {
        id: u32,
        hashes: Vec<u32>,
        rate: u32,
        limit: u32,
    },
    LiveCount,
    Query(Query),
}

#[derive(Clone, Debug)]
pub struct Query {
    pub hashes: Vec<u32>,
    pub rate: u32,
    pub settings: Settings,
    /// The set that votes, or 0 for all.
    pub set: u32,
    /// Words of scratch, and what fills them before the call.
    pub scratch: usize,
    pub fill: u64,
}

pub fn built() -> Answer {
    answer([0])
}

pub fn stored(id: u32) -> Answer {
    answer([1, id.into()])
}

pub fn removed(yes: bool) -> Answer {
    answer([2, yes.into()])
}

pub fn counted(live: usize) -> Answer {
    answer([3, live as u64])
}

/// Best with its result, or none.
pub fn found(best: Option<(usize, MatchResult)>) -> Answer {
    let Some((id, result)) = best else {
        return answer([5]);
    };
    assert!(result.is_match, "the reference answers with matches alone");
    [
        4,
        id as u64,
        result.votes.into(),
        word32(result.score),
        word32(result.prominence),
        result.offset.frames as u64,
        result.offset.ms as u64,
        word32(result.time_scale),
    ]
}

pub fn refused(number: u64) -> Answer {
    answer([6, number])
}

/// Whether a store of listed lengths is sound: document 01's sentence, part
/// by part, and document 02's of sets.
pub fn sound<I: Index>(store: &Store, sizes: Sizes) -> bool {
    let [n, v, p, k] = store.header().map(|count| count as usize);
    // "n, v, p, k are within R, n, P, K"
    n <= sizes.rows
        && v <= n
        && p <= sizes.postings
        && k <= sizes.stopped
        && sound_rows::<I>(store)
        && sound_postings::<I>(store)
        && is_unused_zero::<I>(store)
}

/// The parts about rows and vacant entries.
fn sound_rows<I: Index>(store: &Store) -> bool {
    let [n, v, ..] = store.header().map(|count| count as usize);
    let rows: Vec<&[u32]> = store.rows().take(n).collect();
    let live = || rows.iter().filter(|row| row[2] == 1);
    let dead = || rows.iter().filter(|row| row[2] == 0);
    let is_nan = |rate: u32| f32::from_bits(rate).is_nan();

    // "live words are 1 or 0"
    let live_words = rows.iter().all(|row| row[2] <= 1);
    // "the first n rows hold v dead ids and the first v vacant entries name
    // each once"
    let is_dead = |id: &u32| rows[*id as usize][2] == 0;
    let dead_ids: BTreeSet<u32> = (0..n as u32).filter(is_dead).collect();
    let vacant: BTreeSet<u32> = store.rows().take(v).map(|row| row[3]).collect();
    let named = dead_ids.len() == v && vacant == dead_ids;
    // "a dead row has rate 7FC00000 (hexadecimal) and r_max 0"
    let dead_rows = dead().all(|row| row[..2] == [NAN_F32, 0]);
    // "a live NaN rate is stored as that word"
    let rates = rows.iter().all(|row| !is_nan(row[0]) || row[0] == NAN_F32);
    // "Panako r_max is 0"
    let no_r_max = I::HAS_R_MAX || rows.iter().all(|row| row[1] == 0);
    // "a sound store's dead rows have set 0 and its live rows 1 to 255"
    let sets = dead().all(|row| row[SET] == 0) && live().all(|row| is_set(row[SET]));

    live_words && named && dead_rows && rates && no_r_max && sets
}

/// The parts about postings and stopped keys.
fn sound_postings<I: Index>(store: &Store) -> bool {
    let [n, _, p, k] = store.header().map(|count| count as usize);
    let rows: Vec<&[u32]> = store.rows().take(n).collect();
    let postings = || store.postings.chunks_exact(I::WIDTH).take(p);
    let stopped = &store.stopped[..k];
    let row = |posting: &[u32]| rows.get(posting[1] as usize).copied();

    // "posting keys and stopped keys ascend as said"
    let ascending = postings().is_sorted_by_key(|posting| posting[0])
        && stopped.is_sorted_by(|one, next| one < next);
    // "posting ids are live"
    let live_ids = postings().all(|posting| row(posting).is_some_and(|row| row[2] == 1));
    // "a Wang posting's anchor is at most its row's r_max"
    let is_within = |posting: &[u32]| row(posting).is_some_and(|row| posting[2] <= row[1]);
    let largest = !I::HAS_R_MAX || postings().all(is_within);
    // "no posting has a stopped key"
    let keys: BTreeSet<u32> = stopped.iter().copied().collect();
    let unstopped = postings().all(|posting| !keys.contains(&posting[0]));

    ascending && live_ids && largest && unstopped
}

/// "every unused word is zero"
fn is_unused_zero<I: Index>(store: &Store) -> bool {
    let [n, v, p, k] = store.header().map(|count| count as usize);
    let is_zero = |row: &[u32]| row[..3] == [0; 3] && row[SET] == 0;
    store.rows().skip(n).all(is_zero)
        && store.rows().skip(v).all(|row| row[3] == 0)
        && store.postings[I::WIDTH * p..].iter().all(|&word| word == 0)
        && store.stopped[k..].iter().all(|&word| word == 0)
}

/// Whether a recording can be stored under this set: "1 to 255".
fn is_set(set: u32) -> bool {
    (1..=255).contains(&set)
}

/// A store as it is to be, with the reference's index of the same content
/// where it is sound.
pub struct Account<I> {
    pub store: Store,
    sizes: Option<Sizes>,
    index: Option<I>,
}

impl<I: Index> Account<I> {
    pub fn new(store: Store) -> Self {
        let sizes = store.sizes::<I>();
        let is_sound = sizes.is_some_and(|sizes| sound::<I>(&store, sizes));
        let index = is_sound.then(|| I::of(read::<I>(&store)));
        Self {
            store,
            sizes,
            index,
        }
    }

    pub fn is_sound(&self) -> bool {
        self.index.is_some()
    }

    /// The answer; the store is then what the call leaves.
    pub fn call(&mut self, call: &Call) -> Answer {
        if let Call::Query(query) = call {
            return self.answer_to(query);
        }
        match (self.refusal(call), call) {
            (Some(number), _) => refused(number),
            (None, Call::LiveCount) => counted(self.index().live_count()),
            _ => self.change(call),
        }
    }

    /// The answer to a query.
    pub fn answer_to(&self, query: &Query) -> Answer {
        match self.query_refusal(query) {
            Some(number) => refused(number),
            None => found(self.best(query, &query.settings)),
        }
    }

    /// A call that may change the store, and isn't refused but by 7.
    fn change(&mut self, call: &Call) -> Answer {
        let sizes = self.sizes.expect("the lengths are listed");
        let (done, sets) = self.changed(call);
        // "stopped keys after the call would exceed K": the reference says
        // how many they are. Its index is then that of the store again.
        if self.index().stopped_count() > sizes.stopped {
            *self = Self::new(std::mem::take(&mut self.store));
            return refused(7);
        }
        self.store = write::<I>(&self.index().content(), &sets, sizes);
        done
    }

    /// Changes the reference's index: the answer, and the sets of all ids.
    fn changed(&mut self, call: &Call) -> (Answer, Vec<u32>) {
        let mut kept = self.store.sets();
        match call {
            Call::Build {
                hashes,
                lengths,
                rates,
                limit,
                sets,
            } => {
                let refs = fingerprints::<I>(hashes, lengths, rates);
                self.index = Some(I::build(&refs, *limit));
                (built(), sets.clone())
            }
            Call::Insert {
                hashes,
                rate,
                limit,
                set,
            } => {
                let fingerprint = I::fingerprint(hashes, *rate);
                let id = self.index().insert(&fingerprint, *limit);
                kept.resize(kept.len().max(id + 1), 0);
                kept[id] = *set;
                (stored(id as u32), kept)
            }
            Call::Remove { id } => {
                let is_removed = self.index().remove(*id as usize);
                if is_removed {
                    kept[*id as usize] = 0;
                }
                (removed(is_removed), kept)
            }
            // "it answers and leaves what the removal and then the insertion
            // would", and "keeps the id and set".
            Call::Replace {
                id,
                hashes,
                rate,
                limit,
            } => {
                let fingerprint = I::fingerprint(hashes, *rate);
                let index = self.index();
                assert!(index.remove(*id as usize), "the recording is live");
                let given = index.insert(&fingerprint, *limit);
                assert_eq!(given, *id as usize, "it was vacated last");
                (stored(*id), kept)
            }
            Call::LiveCount | Call::Query(_) => unreachable!("it changes nothing"),
        }
    }

    fn index(&mut self) -> &mut I {
        self.index.as_mut().expect("the store is sound")
    }

    /// What the reference answers to the query, with these settings.
    pub fn best(&self, query: &Query, settings: &Settings) -> Option<(usize, MatchResult)> {
        let index = self.index.as_ref().expect("the store is sound");
        match query.set {
            0 => best_of(index, query, settings),
            set => best_of(&self.index_of(set), query, settings),
        }
    }

    /// Likewise, had the recording `id` been removed before.
    pub fn best_without(&self, query: &Query, id: usize) -> Option<(usize, MatchResult)> {
        let mut rest = self.index_of(query.set);
        assert!(rest.remove(id), "the best recording is live");
        best_of(&rest, query, &query.settings)
    }

    /// "the Rust on the same index without the other sets' postings"
    fn index_of(&self, set: u32) -> I {
        let content = read::<I>(&self.store);
        I::of(of_set::<I>(content, &self.store.sets(), set))
    }

    /// The postings by which the hashes of a query vote, a posting for each
    /// vote.
    pub fn voters(&self, query: &Query) -> impl Iterator<Item = &[u32]> {
        let p = self.store.header()[2] as usize;
        let set_of = |id: u32| {
            let word = self.store.refs.get(HEADER + ROW * id as usize + SET);
            word.copied().unwrap_or(0)
        };
        let hashes = query.hashes.chunks_exact(I::HASH);
        hashes.flat_map(move |hash| {
            let postings = self.store.postings.chunks_exact(I::WIDTH).take(p);
            postings.filter(move |posting| {
                posting[0] == hash[0]
                    && is_asked(query.set, set_of(posting[1]))
                    && I::is_vote(&query.settings, hash, posting)
            })
        })
    }

    /// Whether a key is stopped in a sound store.
    pub fn is_stopped(&self, key: u32) -> bool {
        self.index
            .as_ref()
            .is_some_and(|index| index.is_stopped(key))
    }

    /// The first refusal that applies, but for 7: document 01's table by its
    /// numbers, and 9 and 10 "placed after 4".
    fn refusal(&self, call: &Call) -> Option<u64> {
        // "a store or scratch slice's length is none of those listed at the
        // end"
        let Some(sizes) = self.sizes else {
            return Some(1);
        };
        match call {
            Call::Query(query) => self.query_refusal(query),
            Call::Build {
                hashes,
                lengths,
                rates,
                sets,
                ..
            } => build_refusal::<I>(sizes, hashes, lengths, rates, sets),
            // "store unsound (not for build)"
            _ if !self.is_sound() => Some(2),
            Call::Insert { hashes, set, .. } => self.insert_refusal(sizes, hashes, *set),
            Call::Replace { id, hashes, .. } => self.replace_refusal(sizes, *id, hashes),
            Call::Remove { .. } | Call::LiveCount => None,
        }
    }

    /// Of an insertion into a sound store.
    fn insert_refusal(&self, sizes: Sizes, hashes: &[u32], set: u32) -> Option<u64> {
        if is_malformed::<I>(hashes) {
            return Some(3);
        }
        // "a set of 0 or above 255 on insert or build"
        if !is_set(set) {
            return Some(9);
        }
        let [n, v, p, _] = self.store.header().map(|count| count as usize);
        // "insert: v = 0 and n = R"
        if v == 0 && n == sizes.rows {
            return Some(5);
        }
        (p + self.unskipped(hashes) > sizes.postings).then_some(6)
    }

    /// Of a replacement in a sound store. "room (refusals 5 to 7) is judged
    /// with the old take already removed": its row is then vacant, so there is
    /// no 5.
    fn replace_refusal(&self, sizes: Sizes, id: u32, hashes: &[u32]) -> Option<u64> {
        if is_malformed::<I>(hashes) {
            return Some(3);
        }
        // "It refuses with 10, placed after 4, an id that isn't live."
        if !self.store.is_live(id) {
            return Some(10);
        }
        let p = self.store.header()[2] as usize - self.store.held_by::<I>(id);
        (p + self.unskipped(hashes) > sizes.postings).then_some(6)
    }

    /// "m being the hashes whose key isn't stopped"
    pub fn unskipped(&self, hashes: &[u32]) -> usize {
        let keys = hashes.chunks_exact(I::HASH).map(|hash| hash[0]);
        keys.filter(|&key| !self.is_stopped(key)).count()
    }

    fn query_refusal(&self, query: &Query) -> Option<u64> {
        // "6 words a vote (Wang), 12 (Panako), whole votes only, 0 to
        // 1,000,000 votes"
        let room = query.scratch / I::VOTE;
        if self.sizes.is_none() || query.scratch % I::VOTE != 0 || room > VOTES {
            return Some(1);
        }
        if !self.is_sound() {
            return Some(2);
        }
        // "query 0 to 2,048"
        if is_odd::<I>(&query.hashes) || query.hashes.len() / I::HASH > QUERY_HASHES {
            return Some(3);
        }
        // "query setting beyond its limit, after `normalize_config`"
        if I::is_beyond(&query.settings) {
            return Some(4);
        }
        // "a set above 255 on a query"
        if query.set > 255 {
            return Some(9);
        }
        // "query gathers more votes than its scratch holds"; "only votes of
        // that set count against its scratch"
        (self.voters(query).count() > room).then_some(8)
    }
}

/// "fingerprint words no multiple of 2 (Wang) or 4 (Panako); too many hashes"
fn is_malformed<I: Index>(words: &[u32]) -> bool {
    is_odd::<I>(words) || words.len() / I::HASH > HASHES
}

/// "fingerprint words no multiple of 2 (Wang) or 4 (Panako)"
fn is_odd<I: Index>(words: &[u32]) -> bool {
    words.len() % I::HASH != 0
}

fn build_refusal<I: Index>(
    sizes: Sizes,
    hashes: &[u32],
    lengths: &[u32],
    rates: &[u32],
    sets: &[u32],
) -> Option<u64> {
    let m = hashes.len() / I::HASH;
    // "too many hashes (in build, in any one reference); in build, rates and
    // lengths differ in number or lengths don't add up to the hashes"
    let too_many = lengths.iter().any(|&length| length as usize > HASHES);
    let sum: u128 = lengths.iter().map(|&length| u128::from(length)).sum();
    // "build takes one for each reference, and a count that differs is
    // refusal 3"
    let is_each = rates.len() == lengths.len() && sets.len() == lengths.len();
    if is_odd::<I>(hashes) || too_many || !is_each || sum != m as u128 {
        return Some(3);
    }
    // "a set of 0 or above 255 on insert or build"
    if !sets.iter().all(|&set| is_set(set)) {
        return Some(9);
    }
    // "build: more than R references"
    if lengths.len() > sizes.rows {
        return Some(5);
    }
    // "p + m > P, m being the hashes whose key isn't stopped (build: p = 0,
    // nothing stopped)"
    (m > sizes.postings).then_some(6)
}

/// The recordings of a build.
fn fingerprints<I: Index>(hashes: &[u32], lengths: &[u32], rates: &[u32]) -> Vec<I::Fingerprint> {
    let mut rest = hashes;
    let part = |(&length, &rate): (&u32, &u32)| {
        let (part, after) = rest.split_at(I::HASH * length as usize);
        rest = after;
        I::fingerprint(part, rate)
    };
    lengths.iter().zip(rates).map(part).collect()
}

fn best_of<I: Index>(
    index: &I,
    query: &Query,
    settings: &Settings,
) -> Option<(usize, MatchResult)> {
    index.query(
        &I::fingerprint(&query.hashes, query.rate),
        &I::config(settings),
    )
}
