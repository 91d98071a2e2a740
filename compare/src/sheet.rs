//! Whole cards through the program `sheet`, through the library in memory, and
//! through a sheet written here over the unchanged index.

use crate::account::{Account, Call, Query};
use crate::calls::{Source, insert, replace};
use crate::capi::{Answer, Settings, sheet_card_sheet_of};
use crate::harness::{Check, Rng, Run};
use crate::queries::{self, OPEN, hear, some_query, some_rates, some_times};
use crate::store::{Sizes, Store, Wang};
use std::collections::BTreeMap;
use std::fmt::Write as _;
use std::io::Write as _;
use std::path::{Path, PathBuf};
use std::process::{Command, Stdio};

/// "R 32, P 1,024, K 256, scratch for 512 votes"
const SIZES: Sizes = Sizes {
    rows: 32,
    postings: 1024,
    stopped: 256,
};
const SCRATCH: usize = 6 * 512;
/// "bytes after it, 1 to 8,192"
const LONGEST: usize = 8192;

pub fn run(run: &mut Run) {
    run.check("sheet, example cards", example_cards);
    run.check("sheet, random cards", random_cards);
    run.check("sheet, cards at the ends", cards_at_the_ends);
    run.check("sheet, faulty cards", faulty_cards);
    run.check("sheet, long cards", long_cards);
}

// ---- the sheet of a card, by document 01

pub fn sheet_of(card: &[u8]) -> String {
    let mut text = String::from("sheet 1\n");
    if card.first() != Some(&1) {
        return text + "X 0\n";
    }
    let mut account = Account::<Wang>::new(Store::zeroed::<Wang>(SIZES));
    let (mut at, mut records) = (1, 0);
    while at < card.len() {
        let Some((call, length)) = record_at(&card[at..]) else {
            return text + &format!("X {at}\n");
        };
        let answer = account.call(&call);
        text += &line(&call, &answer);
        at += length;
        records += 1;
    }
    text + &format!("end {records}\n")
}

/// The call of the record that begins here, and the bytes that it takes; none
/// for an "unknown kind, bad or cut length, or a record cut short".
fn record_at(rest: &[u8]) -> Option<(Call, usize)> {
    let (head, rest) = rest.split_first_chunk()?;
    let length = u32::from_be_bytes(*head) as usize;
    // "outside 1 to 8,192, isn't one more than a multiple of 4"
    if !(1..=LONGEST).contains(&length) || length % 4 != 1 {
        return None;
    }
    let (kind, fields) = rest.get(..length)?.split_first()?;
    let (fields, _) = fields.as_chunks();
    let fields: Vec<u32> = fields.iter().map(|&b| u32::from_be_bytes(b)).collect();
    Some((call_of(*kind, &fields)?, 4 + length))
}

/// None where it "lacks a fixed field of its kind, or for 02 isn't 5".
fn call_of(kind: u8, fields: &[u32]) -> Option<Call> {
    let call = match (kind, fields) {
        // "The sheet stores under set 1 and asks for 0."
        (1, &[limit, rate, ref hashes @ ..]) => Call::Insert {
            hashes: hashes.to_vec(),
            rate,
            limit,
            set: 1,
        },
        (2, &[id]) => Call::Remove { id },
        (
            3,
            &[
                tolerance,
                min_votes,
                min_score,
                min_prominence,
                rate,
                ref hashes @ ..,
            ],
        ) => Call::Query(Query {
            hashes: hashes.to_vec(),
            rate,
            settings: Settings {
                tolerance,
                min_votes,
                min_score,
                min_prominence,
                ..OPEN
            },
            set: 0,
            scratch: SCRATCH,
            fill: 0,
        }),
        // "kind 04 (id, limit, rate bits, hashes)"
        (4, &[id, limit, rate, ref hashes @ ..]) => Call::Replace {
            id,
            hashes: hashes.to_vec(),
            rate,
            limit,
        },
        _ => return None,
    };
    Some(call)
}

fn line(call: &Call, answer: &Answer) -> String {
    match (call, *answer) {
        (_, [1, id, ..]) => format!("A {id}\n"),
        (Call::Remove { id }, [2, yes, ..]) => format!("D {id} {yes}\n"),
        (_, [4, id, votes, score, prominence, frames, ms, _]) => {
            let (frames, ms) = (frames as i64, ms as i64);
            let place = if frames < 0 { 'E' } else { 'I' };
            format!("M {id} {votes} {score:08X} {prominence:08X} {frames} {ms} {place}\n")
        }
        (_, [5, ..]) => String::from("N\n"),
        (_, [6, number, ..]) => format!("R {number}\n"),
        _ => unreachable!("a card has no such call"),
    }
}

// ---- a card's bytes

fn record(call: &Call) -> Vec<u8> {
    let (kind, fields) = match call {
        Call::Insert {
            hashes,
            rate,
            limit,
            ..
        } => (1, [&[*limit, *rate], &hashes[..]].concat()),
        Call::Remove { id } => (2, vec![*id]),
        Call::Query(query) => {
            let Settings {
                tolerance,
                min_votes,
                min_score,
                min_prominence,
                ..
            } = query.settings;
            let fixed = [tolerance, min_votes, min_score, min_prominence, query.rate];
            (3, [&fixed, &query.hashes[..]].concat())
        }
        Call::Replace {
            id,
            hashes,
            rate,
            limit,
        } => (4, [&[*id, *limit, *rate], &hashes[..]].concat()),
        _ => unreachable!("a card has no such call"),
    };
    let length = 1 + 4 * fields.len() as u32;
    let fields = fields.into_iter().flat_map(u32::to_be_bytes);
    let head = length.to_be_bytes().into_iter().chain([kind]);
    head.chain(fields).collect()
}

fn card(calls: &[Call]) -> Vec<u8> {
    [1].into_iter()
        .chain(calls.iter().flat_map(record))
        .collect()
}

/// A card of so many removals of a recording that isn't there.
pub fn removals(count: usize) -> Vec<u8> {
    card(&vec![Call::Remove { id: 0 }; count])
}

// ---- all sheets

/// A path from the repository's root.
pub fn at_root(path: &str) -> PathBuf {
    let root = Path::new(env!("CARGO_MANIFEST_DIR")).parent();
    root.expect("compare/ has a parent").join(path)
}

/// The program of that name.
pub fn program(name: &str) -> PathBuf {
    let program = at_root("target/bin").join(name);
    assert!(
        program.exists(),
        "target/bin/{name} is not there: run `./test` first"
    );
    program
}

/// What a program prints.
pub fn printed(program: &Path, input: &[u8]) -> Vec<u8> {
    let mut child = Command::new(program)
        .stdin(Stdio::piped())
        .stdout(Stdio::piped())
        .spawn()
        .expect("the program starts");
    let mut pipe = child.stdin.take().expect("the input is piped");
    let output = std::thread::scope(|scope| {
        // It stops reading at a fault: what follows need not be taken.
        scope.spawn(move || drop(pipe.write_all(input)));
        child.wait_with_output().expect("the program ends")
    });
    assert!(output.status.success(), "{}", output.status);
    output.stdout
}

/// The sheet of a card in memory, in just the room that is asked for. With a
/// byte less there is none, and no byte changes.
fn held(card: &[u8]) -> Vec<u8> {
    const UNTOUCHED: u8 = 0xA5;
    let mut room = vec![UNTOUCHED; 128 * (card.len() / 5 + 2)];
    let short = room.len() - 1;
    assert_eq!(0, sheet_card_sheet_of(card, &mut room[..short]));
    assert!(room.iter().all(|&byte| byte == UNTOUCHED));
    let length = sheet_card_sheet_of(card, &mut room);
    room.truncate(length);
    room
}

/// The lines met, by their first letters; of a refusal, with its number.
#[derive(Default)]
struct Lines(BTreeMap<String, u64>);

impl Lines {
    /// Makes all sheets of a card; ends the run at a difference.
    fn compare(&mut self, check: &mut Check, program: &Path, card: &[u8]) {
        let expected = sheet_of(card);
        Self::same(check, card, &expected, printed(program, card));
        Self::same(check, card, &expected, held(card));
        for line in expected.lines().skip(1) {
            let told = match line.split(' ').next() {
                Some("R") => line,
                Some("M") => &line[line.len() - 1..],
                first => first.expect("a line isn't empty"),
            };
            *self.0.entry(told.to_string()).or_default() += 1;
        }
    }

    fn same(check: &mut Check, card: &[u8], expected: &str, ours: Vec<u8>) {
        check.holds(ours == expected.as_bytes(), || {
            let mut text = String::from("  card\n    ");
            card.iter().for_each(|byte| {
                let _ = write!(text, "{byte:02X}");
            });
            let ours = String::from_utf8_lossy(&ours);
            let mut lines = ours.lines().zip(expected.lines()).zip(1..);
            if let Some(((ours, expected), number)) = lines.find(|((a, b), _)| a != b) {
                let _ = write!(
                    text,
                    "\n  line {number}: ours {ours:?}, expected {expected:?}"
                );
            }
            let lengths = [ours.len(), expected.len()];
            text + &format!("\n  bytes of the sheets: {lengths:?}\n")
        });
    }

    /// Prints the counts; fails where one of these was never met.
    fn end(&self, check: &mut Check, expected: &[&str]) {
        let told = self
            .0
            .iter()
            .map(|(line, count)| format!("{line}: {count}"));
        check.note(told.collect::<Vec<String>>().join(", "));
        for line in expected {
            assert!(self.0.contains_key(*line), "no line {line}");
        }
    }
}

// ---- example cards

/// A card as `examples/run` has it: from `#` on a comment, `N*` before digits
/// that stand N times.
fn card_of(text: &str) -> Vec<u8> {
    let lines = text.lines().filter_map(|line| line.split('#').next());
    let digits: String = lines
        .flat_map(str::split_whitespace)
        .map(|word| match word.split_once('*') {
            Some((times, digits)) => digits.repeat(times.parse().expect("a number stands there")),
            None => word.to_string(),
        })
        .collect();
    let byte = |i: usize| u8::from_str_radix(&digits[i..i + 2], 16).expect("digits stand there");
    (0..digits.len()).step_by(2).map(byte).collect()
}

/// The sheets of `examples/` are the unchanged index's too.
fn example_cards(check: &mut Check) {
    let (program, mut lines) = (program("sheet"), Lines::default());
    let folder = std::fs::read_dir(at_root("examples")).expect("examples/ is there");
    let mut paths: Vec<PathBuf> = folder.map(|entry| entry.expect("it is").path()).collect();
    paths.retain(|path| path.extension().is_some_and(|extension| extension == "hex"));
    paths.sort();
    let read = |path: &Path| std::fs::read_to_string(path).expect("the file is there");
    for path in &paths {
        let card = card_of(&read(path));
        lines.compare(check, &program, &card);
        let (stored, expected) = (read(&path.with_extension("sheet")), sheet_of(&card));
        check.holds(stored == expected, || {
            format!("  {}\n{stored}\nexpected\n{expected}", path.display())
        });
    }
    let expected = [
        "A", "D", "E", "I", "N", "R 3", "R 4", "R 5", "R 6", "R 7", "R 8", "R 10", "X", "end",
    ];
    lines.end(check, &expected);
}

// ---- random cards

/// Hashes that a record can have besides so many fixed fields.
fn most_hashes(fixed: usize) -> usize {
    (LONGEST - 1 - 4 * fixed) / 8
}

/// What the calls of a card are made of, and how many they are.
struct Kind<'a> {
    source: Source<'a>,
    records: u64,
    /// Of 16 calls that are no queries, so many remove, and as many replace.
    removals: u64,
}

impl Kind<'_> {
    fn insert(&self, rng: &mut Rng, account: &Account<Wang>) -> Call {
        let room = SIZES.postings - account.store.header()[2] as usize;
        Call::Insert {
            hashes: self.take(rng, room, 2),
            rate: self.source.rate(rng),
            limit: self.source.limit(rng),
            set: 1,
        }
    }

    /// In place of one that goes.
    fn replace(&self, rng: &mut Rng, account: &Account<Wang>) -> Call {
        let (id, store) = (self.id(rng, account), &account.store);
        let room = SIZES.postings - store.header()[2] as usize + store.held_by::<Wang>(id);
        Call::Replace {
            id,
            hashes: self.take(rng, room, 3),
            rate: self.source.rate(rng),
            limit: self.source.limit(rng),
        }
    }

    /// Hashes for so much room, behind so many fixed fields; now and then one
    /// is half.
    fn take(&self, rng: &mut Rng, room: usize, fixed: usize) -> Vec<u32> {
        let count = match rng.below(64) {
            0 => room,
            1 => room + 1,
            _ => rng.below(self.source.most + 1) as usize,
        };
        let count = count.min(most_hashes(fixed));
        let mut hashes = self.source.hashes::<Wang>(rng, count);
        if rng.below(32) == 0 {
            hashes.truncate((2 * count).saturating_sub(1));
        }
        hashes
    }

    fn id(&self, rng: &mut Rng, account: &Account<Wang>) -> u32 {
        let n = u64::from(account.store.header()[0]);
        match rng.below(16) {
            0 => rng.pick(&[31, 32, 33, u32::MAX]),
            _ => rng.below(n + 1) as u32,
        }
    }

    fn query(&self, rng: &mut Rng, account: &Account<Wang>, heard: &[Vec<u32>]) -> Call {
        let (mut query, _) = some_query(rng, &self.source, account, heard);
        query.hashes.truncate(2 * most_hashes(5));
        query.scratch = SCRATCH;
        Call::Query(query)
    }

    fn calls(&self, rng: &mut Rng) -> Vec<Call> {
        let mut account = Account::<Wang>::new(Store::zeroed::<Wang>(SIZES));
        let mut heard: Vec<Vec<u32>> = Vec::new();
        let mut calls = Vec::new();
        for turn in 0..self.records {
            let mut call = match (rng.below(2), rng.below(16)) {
                (0, _) if turn > 1 => self.query(rng, &account, &heard),
                (_, which) if which < self.removals => Call::Remove {
                    id: self.id(rng, &account),
                },
                (_, which) if which < 2 * self.removals => self.replace(rng, &account),
                _ => self.insert(rng, &account),
            };
            hear(rng, &mut heard, &mut call);
            account.call(&call);
            calls.push(call);
        }
        calls
    }
}

/// Small key spaces, so that keys meet, tie and stop; sometimes enough
/// records, hashes or keys to fill the store.
fn some_calls(rng: &mut Rng) -> Vec<Call> {
    let shape = rng.below(10);
    let keys: u64 = match shape {
        0 => 400,
        _ => rng.pick(&[1, 2, 3, 5, 12]),
    };
    let keys: Vec<u32> = (0..keys).map(|_| rng.sized(32) as u32).collect();
    let (times, rates) = (some_times(rng), some_rates(rng));
    let source = Source {
        times: &times,
        rates: &rates,
        limit: match shape {
            0 => Some(rng.pick(&[0, 0, 1])),
            _ => (rng.below(8) > 0).then(|| rng.pick(&[2, 5, 20, 100, 100, 1000])),
        },
        most: match shape {
            0 => 100,
            1 => 300,
            2 => 30,
            _ => 5,
        },
        asked: &[0],
        ..Source::any(SIZES, &keys, 0)
    };
    let kind = Kind {
        source,
        records: match shape {
            3 => 90,
            _ => rng.below(16),
        },
        removals: match shape {
            3 => 1,
            _ => 4,
        },
    };
    kind.calls(rng)
}

fn random_cards(check: &mut Check) {
    let (program, mut lines) = (program("sheet"), Lines::default());
    for _ in check.times(1500) {
        let card = card(&some_calls(&mut check.rng));
        lines.compare(check, &program, &card);
    }
    let expected = [
        "A", "D", "E", "I", "N", "R 3", "R 4", "R 5", "R 6", "R 7", "R 8", "R 10", "end",
    ];
    lines.end(check, &expected);
}

// ---- the sizes' ends

/// `count` hashes whose keys are `key` and the following ones.
fn ascending(key: u32, count: usize, step: u32) -> Vec<u32> {
    (0..count as u32)
        .flat_map(|i| [key + step * i, i])
        .collect()
}

fn query(hashes: Vec<u32>, tolerance: u32) -> Call {
    Call::Query(Query {
        scratch: SCRATCH,
        ..queries::query(hashes, tolerance)
    })
}

/// Rows, postings, stopped keys and votes up to the most and one more; the
/// longest records; the tolerance's limit.
fn cards_at_the_ends(check: &mut Check) {
    let (program, mut lines) = (program("sheet"), Lines::default());
    let rows: Vec<Call> = (0..34).map(|i| insert(ascending(i, 2, 1), 100)).collect();
    let freed = [
        replace(31, ascending(0, 2, 1), 100),
        Call::Remove { id: 9 },
        replace(9, ascending(0, 2, 1), 100),
        replace(32, ascending(0, 2, 1), 100),
        insert(Vec::new(), 0),
        insert(Vec::new(), 0),
    ];
    let mut cards = vec![Vec::new(), [&rows[..], &freed].concat()];
    for more in 0..3 {
        cards.push(vec![
            insert(ascending(0, 1000, 1), 100),
            insert(ascending(5000, 23 + more, 1), 100),
            insert(Vec::new(), 100),
            query(ascending(0, 1000, 1), 0),
        ]);
        // Room is what the old take leaves.
        cards.push(vec![
            insert(ascending(0, 1000, 1), 100),
            insert(ascending(5000, 24, 1), 100),
            replace(1, ascending(6000, 23 + more, 1), 100),
            query(ascending(5000, 24, 1), 0),
            query(ascending(6000, 24, 1), 0),
            replace(0, ascending(7000, 998 + more, 1), 100),
        ]);
        cards.push(vec![
            insert(ascending(0, 255, 1), 0),
            insert(ascending(300, 2, 1), 100),
            replace(1, ascending(400, more, 1), 0),
            query(ascending(300, 2, 1), 0),
        ]);
        cards.push(vec![
            insert(ascending(0, 255 + more, 1), 0),
            insert(ascending(300, 1, 1), 0),
            insert(ascending(0, 300, 1), 100),
            query(ascending(250, 10, 1), 0),
        ]);
        cards.push(vec![
            insert(ascending(7, 32, 0), 100),
            query(ascending(7, 15 + more, 0), 0),
            query([ascending(7, 15, 0), ascending(7, 1, 0)].concat(), 65_534),
        ]);
        cards.push(vec![
            insert([ascending(7, 512, 0), ascending(8, more, 0)].concat(), 1000),
            query([ascending(7, 1, 0), ascending(8, 1, 0)].concat(), 65_535),
            query(ascending(7, 1, 0), 65_534 + more as u32),
        ]);
    }
    let mut odd = ascending(0, most_hashes(2), 1);
    odd.push(7);
    cards.push(vec![
        insert(odd.clone(), 100),
        query(odd[..2041].to_vec(), 0),
        insert(Vec::new(), 100),
        replace(0, odd[..2043].to_vec(), 100),
        replace(0, odd[..2044].to_vec(), 100),
    ]);
    for calls in cards {
        lines.compare(check, &program, &card(&calls));
    }
    lines.end(
        check,
        &[
            "A", "D", "I", "N", "R 3", "R 4", "R 5", "R 6", "R 7", "R 8", "R 10", "end",
        ],
    );
}

// ---- faulty cards

/// Where the records of a whole card begin.
fn starts(card: &[u8]) -> Vec<usize> {
    let mut starts = Vec::new();
    let mut at = 1;
    while at < card.len() {
        starts.push(at);
        at += record_at(&card[at..]).expect("the card is whole").1;
    }
    starts
}

/// Damages a card in one place.
fn damage(rng: &mut Rng, card: &mut Vec<u8>) {
    let starts = starts(card);
    let start = match starts[..] {
        [] => 0,
        _ => rng.pick(&starts),
    };
    let any = rng.below(card.len() as u64) as usize;
    match rng.below(8) {
        0 => card[0] = rng.next() as u8,
        1 => card.truncate(any),
        // A length, then the kind.
        2 if start > 0 => {
            let length = rng.pick(&[0, 1, 2, 4, 5, 9, 13, 17, 21, 8189, 8192, 8193, u32::MAX]);
            card[start..start + 4].copy_from_slice(&length.to_be_bytes());
        }
        3 if start > 0 => card[start + 3] = card[start + 3].wrapping_add(1 + rng.below(8) as u8),
        4 if start > 0 => card[start + 4] = rng.pick(&[0, 1, 2, 3, 4, 5, 255]),
        5 => card[any] ^= 1 << rng.below(8),
        6 => card.extend((0..1 + rng.below(8)).map(|_| rng.below(4) as u8)),
        _ => drop(card.splice(any..any, [0])),
    }
}

fn faulty_cards(check: &mut Check) {
    let (program, mut lines) = (program("sheet"), Lines::default());
    lines.compare(check, &program, &[]);
    for version in [0, 2, 255] {
        lines.compare(check, &program, &[version]);
    }
    // Every length of a record of each kind, whole or cut, up to a query's.
    for kind in 0..=5 {
        for length in 0..=26_u32 {
            let body = [kind].into_iter().chain([0; 29]);
            let card: Vec<u8> = [1]
                .into_iter()
                .chain(length.to_be_bytes())
                .chain(body)
                .collect();
            lines.compare(check, &program, &card[..5 + length as usize]);
            lines.compare(check, &program, &card[..4 + length as usize]);
        }
    }
    for _ in check.times(700) {
        let mut card = card(&some_calls(&mut check.rng));
        damage(&mut check.rng, &mut card);
        lines.compare(check, &program, &card);
    }
    lines.end(check, &["A", "D", "I", "N", "R 3", "R 10", "X", "end"]);
}

// ---- long cards

/// Sheets of many buffers: lines of one kind, and of every kind.
fn long_cards(check: &mut Check) {
    let (program, mut lines) = (program("sheet"), Lines::default());
    for length in [4000, 20_000] {
        let removals = vec![Call::Remove { id: u32::MAX }; length];
        lines.compare(check, &program, &card(&removals));
        let mut found = vec![insert(vec![7, u32::MAX, 9, 6], 100)];
        found.resize(length, query(vec![7, 1, 9, 3], 0));
        lines.compare(check, &program, &card(&found));
    }
    for _ in check.times(3) {
        let mut calls = Vec::new();
        while calls.len() < 5000 {
            calls.extend(some_calls(&mut check.rng));
        }
        let mut card = card(&calls);
        lines.compare(check, &program, &card);
        card.extend([0, 0, 0]);
        lines.compare(check, &program, &card);
    }
    lines.end(check, &["A", "D", "I", "N", "X", "end"]);
}
