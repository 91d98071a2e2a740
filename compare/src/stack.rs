//! The stack that each entry needs: the memory below the caller's frame is
//! painted, the entry is called, and the lowest word that it wrote is looked
//! for.

use crate::calls::{RATE, SETS};
use crate::capi::Answer;
use crate::harness::{Check, Rng, Run};
use crate::store::{Index, Panako, Sizes, Store, Wang};
use std::hint::black_box;

/// What an entry may need: below 1 MiB.
const MOST: usize = 1 << 20;
/// Bytes that are painted, and bytes that the painting itself may use.
const PAINTED: usize = 3 << 20;
const OWN: usize = 4096;
const PAINT: u64 = 0x5AC3_17E9_5AC3_17E9;

pub fn run(run: &mut Run) {
    run.check("stack of WangIndex' entries, bytes", measured::<Wang>);
    run.check("stack of PanakoIndex' entries, bytes", measured::<Panako>);
}

/// Bytes below this frame that `call` wrote. The thread has more than
/// `PAINTED` bytes of stack left.
#[inline(never)]
fn depth<T>(call: impl FnOnce() -> T) -> usize {
    let here = 0u64;
    let top = (&raw const here).addr() & !7;
    let low = top - PAINTED;
    let words = (PAINTED - OWN) / 8;
    let at = |i: usize| (low + 8 * i) as *mut u64;
    // SAFETY: the thread's own stack, mapped whole, and nothing lives below
    // this frame but what the calls here use, which is less than OWN.
    (0..words).for_each(|i| unsafe { at(i).write_volatile(PAINT) });
    black_box(call());
    // SAFETY: as above.
    let kept = (0..words).take_while(|&i| unsafe { at(i).read_volatile() } == PAINT);
    PAINTED - 8 * kept.count()
}

/// The entries that are measured.
const ENTRIES: [&str; 6] = [
    "build",
    "insert",
    "remove",
    "live_count",
    "query",
    "replace",
];

/// The most that each of the entries used on calls that go deep: accepted ones
/// on a store in use, keys stopped, all hashes allowed.
fn measure<I: Index>(seed: u64) -> [usize; ENTRIES.len()] {
    let rng = &mut Rng(seed);
    let sizes = Sizes::new(64, 1 << 15, 1 << 13);
    let mut store = Store::zeroed::<I>(sizes);
    let mut scratch = vec![0i64; I::VOTE * 200_000];
    let settings = I::settings(&I::Config::default());
    let entries = I::ENTRIES;
    let query = entries.query.expect("the library has this query");
    let mut most = [0; ENTRIES.len()];
    let mut hashes = |count: usize, bits: u32| -> Vec<u32> {
        let hash = |i: usize| {
            let anchor = i as u32 + rng.below(3) as u32;
            let times = [anchor, anchor + 5, anchor + 20];
            let key = rng.below(1 << bits) as u32;
            [key].into_iter().chain(times).take(I::HASH)
        };
        (0..count).flat_map(hash).collect()
    };
    let mut keep = |entry: usize, bytes: usize| most[entry] = bytes.max(most[entry]);
    for turn in 0..6 {
        let all = hashes(12_000, 9);
        let lengths = [4000; 3];
        let accepted = |answer: Answer| assert!(answer[0] != 6, "{answer:?}");
        keep(
            0,
            depth(|| {
                accepted((entries.build)(
                    store.lend(),
                    &all,
                    &lengths,
                    &[RATE; 3],
                    30 + turn,
                    &SETS,
                ))
            }),
        );
        let list = hashes(8192, 14);
        keep(
            1,
            depth(|| accepted((entries.insert)(store.lend(), &list, RATE, 4, SETS[0]))),
        );
        let heard = hashes(2048, 9);
        for set in [0, SETS[0]] {
            let slices = store.slices();
            let ask = || accepted(query(slices, &mut scratch, &heard, RATE, &settings, set));
            keep(4, depth(ask));
        }
        let take = hashes(8192, 14);
        keep(
            5,
            depth(|| accepted((entries.replace)(store.lend(), 3, &take, RATE, 4))),
        );
        keep(3, depth(|| accepted((entries.live_count)(store.slices()))));
        keep(2, depth(|| accepted((entries.remove)(store.lend(), 1))));
    }
    most
}

fn measured<I: Index>(check: &mut Check) {
    let seed = check.rng.next();
    let thread = std::thread::Builder::new()
        .stack_size(PAINTED + (4 << 20))
        .spawn(move || measure::<I>(seed))
        .expect("a thread can be had");
    let most = thread.join().expect("the calls are accepted");
    let mut notes = Vec::new();
    for (name, bytes) in ENTRIES.into_iter().zip(most) {
        check.holds(bytes < MOST, || format!("{name} used {bytes} bytes"));
        notes.push(format!("{name} {bytes}"));
    }
    check.note(notes.join(", "));
}
