//! The lent store beside the reference's index: the calls of both sides, and
//! document 01's layout, written from what the reference's index holds.

use crate::capi::{self, Entries, Lent, Settings};
use crate::harness::word32;
use crate::panako::within;
use audiofp::Reach;
use audiofp::classical::{PanakoFingerprint, PanakoHash, WangFingerprint, WangHash};
use audiofp::matching::{MatchResult, PanakoMatchConfig, WangMatchConfig};
use audiofp::open::{self, PanakoIndex, WangIndex};

/// What the reference's index of one kind holds.
pub type Content<I> = open::Content<<I as Index>::Posting>;

/// R, P and K: rows, postings and stopped keys that a store has room for.
#[derive(Clone, Copy, Debug, PartialEq, Eq)]
pub struct Sizes {
    pub rows: usize,
    pub postings: usize,
    pub stopped: usize,
}

impl Sizes {
    pub const MOST: Self = Self {
        rows: 4096,
        postings: 1_048_576,
        stopped: 65_536,
    };

    pub fn new(rows: usize, postings: usize, stopped: usize) -> Self {
        Self {
            rows,
            postings,
            stopped,
        }
    }
}

/// The words of a store.
#[derive(Clone, Debug, Default, PartialEq, Eq)]
pub struct Store {
    pub refs: Vec<u32>,
    pub postings: Vec<u32>,
    pub stopped: Vec<u32>,
}

/// Words before the rows, and of a row: rate, r_max, live, vacant entry, set.
pub const HEADER: usize = 4;
pub const ROW: usize = 5;
/// Where a row has its set.
pub const SET: usize = 4;

impl Store {
    pub fn zeroed<I: Index>(sizes: Sizes) -> Self {
        Self {
            refs: vec![0; HEADER + ROW * sizes.rows],
            postings: vec![0; I::WIDTH * sizes.postings],
            stopped: vec![0; sizes.stopped],
        }
    }

    /// R, P and K, where all three lengths are listed ones.
    pub fn sizes<I: Index>(&self) -> Option<Sizes> {
        let whole = |words: usize, width: usize, most: usize| {
            let count = words / width;
            (words % width == 0 && (1..=most).contains(&count)).then_some(count)
        };
        let most = Sizes::MOST;
        Some(Sizes {
            rows: whole(self.refs.len().checked_sub(HEADER)?, ROW, most.rows)?,
            postings: whole(self.postings.len(), I::WIDTH, most.postings)?,
            stopped: whole(self.stopped.len(), 1, most.stopped)?,
        })
    }

    /// Rows n, vacant v, postings p, stopped k.
    pub fn header(&self) -> [u32; HEADER] {
        std::array::from_fn(|i| self.refs[i])
    }

    pub fn rows(&self) -> impl ExactSizeIterator<Item = &[u32]> + DoubleEndedIterator {
        self.refs[HEADER..].chunks_exact(ROW)
    }

    /// The set of each recording, 0 where none is live.
    pub fn sets(&self) -> Vec<u32> {
        let n = self.header()[0] as usize;
        self.rows().take(n).map(|row| row[SET]).collect()
    }

    /// Whether a recording of this id is live.
    pub fn is_live(&self, id: u32) -> bool {
        let row = self.rows().nth(id as usize);
        row.is_some_and(|row| row[2] == 1)
    }

    /// How many postings are this recording's.
    pub fn held_by<I: Index>(&self, id: u32) -> usize {
        let p = self.header()[2] as usize;
        let postings = self.postings.chunks_exact(I::WIDTH).take(p);
        postings.filter(|posting| posting[1] == id).count()
    }

    pub fn slices(&self) -> [&[u32]; 3] {
        [&self.refs, &self.postings, &self.stopped]
    }

    pub fn lend(&mut self) -> Lent<'_> {
        [&mut self.refs, &mut self.postings, &mut self.stopped]
    }
}

/// A posting as the reference keeps it under its key.
pub trait Posting: Copy {
    /// The posting's words after its key.
    fn words(self) -> impl AsRef<[u32]>;
    fn of(words: &[u32]) -> Self;
}

impl Posting for (u32, u32) {
    fn words(self) -> impl AsRef<[u32]> {
        <[u32; 2]>::from(self)
    }

    fn of(words: &[u32]) -> Self {
        (words[0], words[1])
    }
}

impl Posting for (u32, u32, u32, u32) {
    fn words(self) -> impl AsRef<[u32]> {
        <[u32; 4]>::from(self)
    }

    fn of(words: &[u32]) -> Self {
        (words[0], words[1], words[2], words[3])
    }
}

/// The index of one kind: the reference's, and the library's calls.
pub trait Index: Sized {
    const ENTRIES: Entries;
    /// Words of a posting. A hash has one less: it has no id.
    const WIDTH: usize;
    const HASH: usize = Self::WIDTH - 1;
    /// Whether rows keep their largest anchor.
    const HAS_R_MAX: bool;
    /// Words of scratch for a vote.
    const VOTE: usize;
    type Posting: Posting;
    type Fingerprint;
    /// The reference's settings of a query.
    type Config: Default;

    fn fingerprint(hashes: &[u32], rate: u32) -> Self::Fingerprint;
    fn build(refs: &[Self::Fingerprint], limit: u32) -> Self;
    fn insert(&mut self, fingerprint: &Self::Fingerprint, limit: u32) -> usize;
    fn remove(&mut self, id: usize) -> bool;
    fn live_count(&self) -> usize;
    fn query(
        &self,
        query: &Self::Fingerprint,
        config: &Self::Config,
    ) -> Option<(usize, MatchResult)>;

    fn config(settings: &Settings) -> Self::Config;
    fn settings(config: &Self::Config) -> Settings;
    /// Whether a setting is beyond its limit, after `normalize_config`.
    fn is_beyond(settings: &Settings) -> bool;
    /// Whether a hash of a query has a vote by a posting under its key.
    fn is_vote(settings: &Settings, hash: &[u32], posting: &[u32]) -> bool;

    fn content(&self) -> Content<Self>;
    fn of(content: Content<Self>) -> Self;
    fn stopped_count(&self) -> usize;
    fn is_stopped(&self, key: u32) -> bool;
}

macro_rules! calls_of {
    ($index:ty) => {
        fn build(refs: &[Self::Fingerprint], limit: u32) -> Self {
            Self(<$index>::build(refs, limit))
        }

        fn insert(&mut self, fingerprint: &Self::Fingerprint, limit: u32) -> usize {
            self.0.insert(fingerprint, limit)
        }

        fn remove(&mut self, id: usize) -> bool {
            self.0.remove(id)
        }

        fn live_count(&self) -> usize {
            self.0.live_count()
        }

        fn query(
            &self,
            query: &Self::Fingerprint,
            config: &Self::Config,
        ) -> Option<(usize, MatchResult)> {
            self.0.query(query, config)
        }

        fn content(&self) -> Content<Self> {
            self.0.content()
        }

        fn of(content: Content<Self>) -> Self {
            Self(<$index>::of(content))
        }

        fn stopped_count(&self) -> usize {
            self.0.stopped_count()
        }

        fn is_stopped(&self, key: u32) -> bool {
            self.0.is_stopped(key)
        }
    };
}

pub struct Wang(WangIndex);
pub struct Panako(PanakoIndex);

impl Index for Wang {
    const ENTRIES: Entries = capi::WANG;
    const WIDTH: usize = 3;
    const HAS_R_MAX: bool = true;
    const VOTE: usize = 6;
    type Posting = (u32, u32);
    type Fingerprint = WangFingerprint;
    type Config = WangMatchConfig;

    fn fingerprint(hashes: &[u32], rate: u32) -> WangFingerprint {
        let hashes = hashes.chunks_exact(Self::HASH).map(|words| WangHash {
            hash: words[0],
            t_anchor: words[1],
        });
        WangFingerprint {
            hashes: hashes.collect(),
            frames_per_sec: f32::from_bits(rate),
        }
    }

    /// The stop limit is a setting of `build` and `insert`.
    fn config(settings: &Settings) -> WangMatchConfig {
        WangMatchConfig {
            offset_tolerance_frames: settings.tolerance,
            min_votes: settings.min_votes,
            min_score: f32::from_bits(settings.min_score),
            min_prominence: f32::from_bits(settings.min_prominence),
            ..WangMatchConfig::default()
        }
    }

    fn settings(config: &WangMatchConfig) -> Settings {
        Settings {
            scale_min: 0,
            scale_max: 0,
            scale_bins: 0,
            tolerance: config.offset_tolerance_frames,
            min_votes: config.min_votes,
            min_score: config.min_score.to_bits(),
            min_prominence: config.min_prominence.to_bits(),
        }
    }

    fn is_beyond(settings: &Settings) -> bool {
        settings.tolerance > 65_535
    }

    fn is_vote(_: &Settings, _: &[u32], _: &[u32]) -> bool {
        true
    }

    calls_of!(WangIndex);
}

impl Index for Panako {
    const ENTRIES: Entries = capi::PANAKO;
    const WIDTH: usize = 5;
    const HAS_R_MAX: bool = false;
    const VOTE: usize = 12;
    type Posting = (u32, u32, u32, u32);
    type Fingerprint = PanakoFingerprint;
    type Config = PanakoMatchConfig;

    fn fingerprint(hashes: &[u32], rate: u32) -> PanakoFingerprint {
        let hashes = hashes.chunks_exact(Self::HASH).map(|words| PanakoHash {
            hash: words[0],
            t_anchor: words[1],
            t_b: words[2],
            t_c: words[3],
        });
        PanakoFingerprint {
            hashes: hashes.collect(),
            frames_per_sec: f32::from_bits(rate),
        }
    }

    fn config(settings: &Settings) -> PanakoMatchConfig {
        PanakoMatchConfig {
            scale_min: f32::from_bits(settings.scale_min),
            scale_max: f32::from_bits(settings.scale_max),
            scale_bins: settings.scale_bins,
            offset_tolerance_frames: settings.tolerance,
            min_votes: settings.min_votes,
            min_score: f32::from_bits(settings.min_score),
            min_prominence: f32::from_bits(settings.min_prominence),
            ..PanakoMatchConfig::default()
        }
    }

    fn settings(config: &PanakoMatchConfig) -> Settings {
        Settings {
            scale_min: config.scale_min.to_bits(),
            scale_max: config.scale_max.to_bits(),
            scale_bins: config.scale_bins,
            tolerance: config.offset_tolerance_frames,
            min_votes: config.min_votes,
            min_score: config.min_score.to_bits(),
            min_prominence: config.min_prominence.to_bits(),
        }
    }

    fn is_beyond(settings: &Settings) -> bool {
        !within(&Reach::normalize_config(Self::config(settings)))
    }

    /// "spans are t_c − t_anchor, held at 0 from below; a pair with a zero
    /// span gives no vote. In f64, s = reference span / query span; per =
    /// (scale_max − scale_min) / scale_bins; no vote if s < scale_min − per ×
    /// 0.5 or s > scale_max + per × 0.5."
    fn is_vote(settings: &Settings, hash: &[u32], posting: &[u32]) -> bool {
        let grid = Reach::normalize_config(Self::config(settings));
        let (min, max) = (f64::from(grid.scale_min), f64::from(grid.scale_max));
        let per = (max - min) / f64::from(grid.scale_bins);
        let query = hash[3].saturating_sub(hash[1]);
        let reference = posting[4].saturating_sub(posting[2]);
        let s = f64::from(reference) / f64::from(query);
        query > 0 && reference > 0 && !(s < min - per * 0.5 || s > max + per * 0.5)
    }

    calls_of!(PanakoIndex);
}

/// The store that holds what an index of the reference holds, with a set for
/// each of its ids.
pub fn write<I: Index>(content: &Content<I>, sets: &[u32], sizes: Sizes) -> Store {
    let mut store = Store::zeroed::<I>(sizes);
    let postings: usize = content.map.iter().map(|(_, list)| list.len()).sum();
    let counts = [
        content.fps.len(),
        content.vacant.len(),
        postings,
        content.stopped.len(),
    ];
    let (header, rows) = store.refs.split_at_mut(HEADER);
    header.copy_from_slice(&counts.map(|count| count as u32));
    for (id, row) in rows.chunks_exact_mut(ROW).enumerate().take(counts[0]) {
        // One word for every NaN.
        row[0] = word32(content.fps[id]) as u32;
        row[1] = content.r_max.get(id).copied().unwrap_or(0);
        row[2] = content.live[id].into();
        row[SET] = sets[id];
    }
    for (row, &id) in rows.chunks_exact_mut(ROW).zip(&content.vacant) {
        row[3] = id;
    }
    let mut room = store.postings.chunks_exact_mut(I::WIDTH);
    for (key, list) in &content.map {
        for posting in list {
            let words = room.next().expect("the postings are within P");
            words[0] = *key;
            words[1..].copy_from_slice(posting.words().as_ref());
        }
    }
    store.stopped[..counts[3]].copy_from_slice(&content.stopped);
    store
}

/// What a sound store holds.
pub fn read<I: Index>(store: &Store) -> Content<I> {
    let [n, v, p, k] = store.header().map(|count| count as usize);
    let rows = || store.rows().take(n);
    let mut map: Vec<(u32, Vec<I::Posting>)> = Vec::new();
    for words in store.postings.chunks_exact(I::WIDTH).take(p) {
        let posting = I::Posting::of(&words[1..]);
        match map.last_mut() {
            Some((key, list)) if *key == words[0] => list.push(posting),
            _ => map.push((words[0], vec![posting])),
        }
    }
    let live: Vec<bool> = rows().map(|row| row[2] == 1).collect();
    Content::<I> {
        map,
        fps: rows().map(|row| f32::from_bits(row[0])).collect(),
        r_max: rows().filter(|_| I::HAS_R_MAX).map(|row| row[1]).collect(),
        live_count: live.iter().filter(|&&live| live).count(),
        live,
        vacant: store.rows().take(v).map(|row| row[3]).collect(),
        stopped: store.stopped[..k].to_vec(),
    }
}

/// What is left of an index "without the other sets' postings", by the set of
/// each id; all of it for 0.
pub fn of_set<I: Index>(mut content: Content<I>, sets: &[u32], set: u32) -> Content<I> {
    let votes = |posting: &I::Posting| is_asked(set, sets[posting.words().as_ref()[0] as usize]);
    for (_, list) in &mut content.map {
        list.retain(votes);
    }
    content.map.retain(|(_, list)| !list.is_empty());
    content
}

/// "A query names a set, or 0 for all": whether a recording's set is asked.
pub fn is_asked(asked: u32, set: u32) -> bool {
    asked == 0 || asked == set
}
