//! What the queries of a check came to, for a reader to see, and for the check
//! to fail where it no longer comes to what it is there for.

use crate::account::{Account, Query, found, refused};
use crate::capi::Answer;
use crate::harness::{Check, word32};
use crate::store::Index;
use crate::trial::{Met, Trial};
use audiofp::Reach;
use audiofp::matching::MatchResult;

#[derive(Default)]
pub struct Tally {
    pub histories: u64,
    pub met: Met,
    /// Best: the only one that passes; by score, by prominence, by id.
    ranks: [u64; 4],
    /// Best whose votes, score or prominence is exactly the gate; and not
    /// best because the gate is just above.
    at_gate: [u64; 3],
    above_gate: [u64; 3],
    /// A candidate's rate is another than the query's, and they agree; and
    /// they don't.
    near_rate: u64,
    other_rate: u64,
    /// None in spite of votes.
    barred: u64,
    /// Votes fill the scratch; are one too many.
    filled: u64,
    over: u64,
    /// A hash has a stopped key.
    stopped: u64,
    /// Best with frames below 0.
    early: u64,
    /// A set has another answer than all of them; has one, where all have too
    /// many votes.
    another: u64,
    fewer: u64,
}

impl Tally {
    /// `open` is the reference's answer where all gates are open.
    pub fn add<I: Index>(
        &mut self,
        trial: &Trial<I>,
        query: &Query,
        open: Option<(usize, MatchResult)>,
        answer: &Answer,
    ) {
        let account = trial.account();
        let votes = account.voters(query).count();
        let room = query.scratch / I::VOTE;
        match answer[0] {
            4 => self.add_best(trial, query, answer),
            5 => self.barred += u64::from(votes > 0),
            _ => {
                self.over += u64::from(answer[1] == 8 && votes == room + 1);
                return;
            }
        }
        self.filled += u64::from(votes > 0 && votes == room);
        let mut keys = query.hashes.chunks_exact(I::HASH).map(|hash| hash[0]);
        self.stopped += u64::from(keys.any(|key| account.is_stopped(key)));
        self.add_set(account, query, answer);
        self.add_rates(account, query);

        if let Some((_, result)) = open
            && *answer != found(open)
        {
            let values = [
                result.votes.into(),
                word32(result.score),
                word32(result.prominence),
            ];
            count_equal(
                &mut self.above_gate,
                gates(query),
                values.map(|value| value + 1),
            );
        }
    }

    /// Of an accepted query: what all sets answer.
    fn add_set<I: Index>(&mut self, account: &Account<I>, query: &Query, answer: &Answer) {
        let all = account.answer_to(&query.clone().for_all());
        self.another += u64::from(all[0] != 6 && all != *answer);
        self.fewer += u64::from(all == refused(8));
    }

    fn add_rates<I: Index>(&mut self, account: &Account<I>, query: &Query) {
        let a = query.rate;
        let rows: Vec<&[u32]> = account.store.rows().collect();
        let rates = || {
            account
                .voters(query)
                .map(|posting| rows[posting[1] as usize][0])
        };
        let agree = |b: u32| Reach::frames_per_sec_compatible(f32::from_bits(a), f32::from_bits(b));
        self.near_rate += u64::from(rates().any(|b| b != a && agree(b)));
        self.other_rate += u64::from(rates().any(|b| !agree(b)));
    }

    fn add_best<I: Index>(&mut self, trial: &Trial<I>, query: &Query, answer: &Answer) {
        let [_, id, votes, score, prominence, frames, ..] = *answer;
        let rank = match trial.account().best_without(query, id as usize) {
            None => 0,
            Some((_, next)) if word32(next.score) != score => 1,
            Some((_, next)) if word32(next.prominence) != prominence => 2,
            Some(_) => 3,
        };
        self.ranks[rank] += 1;
        self.early += u64::from((frames as i64) < 0);
        count_equal(&mut self.at_gate, gates(query), [votes, score, prominence]);
    }

    /// Prints all counts; fails where one is 0, or one of these refusals was
    /// never met.
    pub fn end(&self, check: &mut Check, refusals: &[usize]) {
        self.note_answers(check);
        self.note_places(check);
        self.met.expect(refusals);
        let [.., best, none, _, _] = self.met.cases;
        let others = [
            best,
            none,
            self.near_rate,
            self.other_rate,
            self.barred,
            self.filled,
            self.over,
            self.stopped,
            self.early,
            self.another,
            self.fewer,
        ];
        let mut counts = others
            .iter()
            .chain(&self.ranks)
            .chain(&self.at_gate)
            .chain(&self.above_gate);
        assert!(counts.all(|&count| count > 0), "a count above is 0");
    }

    fn note_answers(&self, check: &mut Check) {
        let [.., best, none, refused, _] = self.met.cases;
        let numbers = (1..).zip(&self.met.refusals[1..]);
        let numbers: Vec<String> = numbers
            .filter(|(_, count)| **count > 0)
            .map(|(number, count)| format!("{number}: {count}"))
            .collect();
        check.note(format!(
            "{} histories, {} queries: best {best}, none {none}, refused {refused} ({})",
            self.histories,
            best + none + refused,
            numbers.join(", ")
        ));
        let [only, by_score, by_prominence, by_id] = self.ranks;
        check.note(format!(
            "best: the only one {only}, by score {by_score}, by prominence {by_prominence}, \
             by id {by_id}; frames below 0 {}",
            self.early
        ));
    }

    fn note_places(&self, check: &mut Check) {
        let told = |[votes, score, prominence]: [u64; 3]| {
            format!("votes {votes}, score {score}, prominence {prominence}")
        };
        check.note(format!(
            "gates: equal and passed: {}; just above and barred: {}; none in spite of votes {}",
            told(self.at_gate),
            told(self.above_gate),
            self.barred
        ));
        check.note(format!(
            "another rate that agrees {}, that doesn't {}; a stopped key {}; \
             votes fill the scratch {}, are one too many {}",
            self.near_rate, self.other_rate, self.stopped, self.filled, self.over
        ));
        check.note(format!(
            "a set answers otherwise than all {}, and where all have too many votes {}",
            self.another, self.fewer
        ));
    }
}

fn gates(query: &Query) -> [u64; 3] {
    let settings = &query.settings;
    [
        settings.min_votes,
        settings.min_score,
        settings.min_prominence,
    ]
    .map(u64::from)
}

fn count_equal(counts: &mut [u64; 3], gates: [u64; 3], values: [u64; 3]) {
    for (count, (gate, value)) in counts.iter_mut().zip(gates.into_iter().zip(values)) {
        *count += u64::from(gate == value);
    }
}
