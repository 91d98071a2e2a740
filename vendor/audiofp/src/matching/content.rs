//! Stand-in, not part of audiofp: what an index holds, taken out and put in.
//! `build.rs` appends this text to a copy of `index.rs`.

/// The fields of an index, in the open. The maps' keys ascend.
#[derive(Clone, Debug, Default)]
pub struct Content<P> {
    pub map: Vec<(u32, Vec<P>)>,
    pub fps: Vec<f32>,
    /// Wang's alone; empty of a Panako index.
    pub r_max: Vec<u32>,
    pub live: Vec<bool>,
    pub vacant: Vec<u32>,
    pub live_count: usize,
    pub stopped: Vec<u32>,
}

fn lists<P: Copy>(map: &HashMap<u32, Postings<P>>) -> Vec<(u32, Vec<P>)> {
    let mut lists: Vec<_> = map
        .iter()
        .map(|(&key, list)| (key, list.as_slice().to_vec()))
        .collect();
    lists.sort_unstable_by_key(|&(key, _)| key);
    lists
}

fn map_of<P: Copy>(lists: Vec<(u32, Vec<P>)>) -> HashMap<u32, Postings<P>> {
    let mut map = super::maps::hashmap_new();
    for (key, postings) in lists {
        let list: &mut Postings<P> = map.entry(key).or_default();
        postings.into_iter().for_each(|posting| list.push(posting));
    }
    map
}

fn keys(set: &HashSet<u32>) -> Vec<u32> {
    let mut keys: Vec<u32> = set.iter().copied().collect();
    keys.sort_unstable();
    keys
}

impl WangIndex {
    pub fn content(&self) -> Content<(u32, u32)> {
        Content {
            map: lists(&self.map),
            fps: self.fps.clone(),
            r_max: self.r_max.clone(),
            live: self.live.clone(),
            vacant: self.vacant.clone(),
            live_count: self.live_count,
            stopped: keys(&self.stopped),
        }
    }

    /// An index of this content.
    pub fn of(content: Content<(u32, u32)>) -> Self {
        Self {
            map: map_of(content.map),
            fps: content.fps,
            r_max: content.r_max,
            live: content.live,
            vacant: content.vacant,
            live_count: content.live_count,
            touched: Vec::new(),
            stopped: content.stopped.into_iter().collect(),
        }
    }

    pub fn stopped_count(&self) -> usize {
        self.stopped.len()
    }

    pub fn is_stopped(&self, key: u32) -> bool {
        self.stopped.contains(&key)
    }
}

impl PanakoIndex {
    pub fn content(&self) -> Content<(u32, u32, u32, u32)> {
        Content {
            map: lists(&self.map),
            fps: self.fps.clone(),
            r_max: Vec::new(),
            live: self.live.clone(),
            vacant: self.vacant.clone(),
            live_count: self.live_count,
            stopped: keys(&self.stopped),
        }
    }

    /// An index of this content.
    pub fn of(content: Content<(u32, u32, u32, u32)>) -> Self {
        Self {
            map: map_of(content.map),
            fps: content.fps,
            live: content.live,
            vacant: content.vacant,
            live_count: content.live_count,
            touched: Vec::new(),
            stopped: content.stopped.into_iter().collect(),
        }
    }

    pub fn stopped_count(&self) -> usize {
        self.stopped.len()
    }

    pub fn is_stopped(&self, key: u32) -> bool {
        self.stopped.contains(&key)
    }
}
