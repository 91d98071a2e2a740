//! Casts, `round`, `max`, `abs` and `clamp`: beside Rust's own.

use crate::capi::{self, NAN_F32};
use crate::harness::{Check, Run, few32, few64, many32, many64, whole, word32, word64};

pub fn run(run: &mut Run) {
    run.check("floats_u64_to_f32", u64_to_f32);
    run.check("floats_f64_to_f32", f64_to_f32);
    run.check("floats_round_to_i64", round_to_i64);
    run.check("floats_max_f32", max_f32);
    run.check("floats_abs_f32", |check| {
        let same = |check: &mut Check, x: u32| {
            let rust = word32(f32::from_bits(x).abs());
            check.same(&[x.into()], &[capi::floats_abs_f32(x).into()], &[rust]);
        };
        many32().into_iter().for_each(|x| same(check, x));
        for _ in check.times(1_000_000) {
            let x = check.rng.float32();
            same(check, x);
        }
    });
    run.check("floats_abs_f64", |check| {
        let same = |check: &mut Check, x: u64| {
            let rust = word64(f64::from_bits(x).abs());
            check.same(&[x], &[capi::floats_abs_f64(x)], &[rust]);
        };
        many64().into_iter().for_each(|x| same(check, x));
        for _ in check.times(1_000_000) {
            let x = check.rng.float64();
            same(check, x);
        }
    });
    run.check("floats_clamp_f32", clamp_f32);
    run.check("floats_clamp_f64", clamp_f64);
}

fn u64_to_f32(check: &mut Check) {
    let same = |check: &mut Check, n: u64| {
        check.same(
            &[n],
            &[capi::floats_u64_to_f32(n).into()],
            &[word32(n as f32)],
        );
    };
    for n in (0..1 << 18).chain((1 << 24) - (1 << 16)..(1 << 24) + (1 << 18)) {
        same(check, n);
    }
    whole(64).into_iter().for_each(|n| same(check, n));
    // Each length above 24 bits: 24 leading bits, then a remainder at, below
    // and above the half.
    for cut in 1..=40 {
        let half = 1_u64 << (cut - 1);
        let ends = [1 << 23, (1 << 23) + 1, (1 << 24) - 2, (1 << 24) - 1];
        let some = std::array::from_fn::<u64, 1000, _>(|_| check.rng.below(1 << 23) + (1 << 23));
        for lead in ends.into_iter().chain(some) {
            for rest in [0, 1, half - 1, half, half + 1, 2 * half - 1] {
                same(check, (lead << cut) + rest.min(2 * half - 1));
            }
        }
    }
    for _ in check.times(1_000_000) {
        let n = if check.rng.below(4) == 0 {
            check.rng.next()
        } else {
            check.rng.sized(64)
        };
        same(check, n);
    }
}

fn f64_to_f32(check: &mut Check) {
    let same = |check: &mut Check, x: u64| {
        let value = f64::from_bits(x);
        let within = (0.5..=2.0).contains(&value);
        let rust = if within {
            word32(value as f32)
        } else {
            NAN_F32.into()
        };
        check.same(&[x], &[capi::floats_f64_to_f32(x).into()], &[rust]);
    };
    many64().into_iter().for_each(|x| same(check, x));
    for _ in check.times(500_000) {
        // Around an f32 of the range, around the half above it, anywhere in
        // the range, and anywhere.
        let word = (0.5 + 1.5 * check.rng.unit()).to_bits();
        let single = word & !((1 << 29) - 1);
        for x in [
            check.rng.near64(single),
            check.rng.near64(single | 1 << 28),
            word,
        ] {
            same(check, x);
        }
        let x = check.rng.float64();
        same(check, x);
    }
}

fn round_to_i64(check: &mut Check) {
    let same = |check: &mut Check, x: u64| {
        let rust = f64::from_bits(x).round() as i64;
        check.same(&[x], &[capi::floats_round_to_i64(x) as u64], &[rust as u64]);
    };
    many64().into_iter().for_each(|x| same(check, x));
    // Whole numbers and halves with their neighbours: the small ones, then
    // some of every length.
    let around = |check: &mut Check, n: u64| {
        for part in [0.0, 0.25, 0.5, 0.75] {
            let x = (n as f64 + part).to_bits();
            for word in [x.wrapping_sub(1), x, x + 1] {
                same(check, word);
                same(check, word ^ 1 << 63);
            }
        }
    };
    (0..10_000).chain(whole(64)).for_each(|n| around(check, n));
    for _ in check.times(50_000) {
        let n = check.rng.sized(64);
        around(check, n);
    }
    for _ in check.times(1_000_000) {
        let x = check.rng.float64();
        same(check, x);
    }
}

/// Rust leaves the sign of the larger of 0.0 and -0.0 open, so there, and
/// only there, either zero is taken.
fn max_f32(check: &mut Check) {
    let same = |check: &mut Check, a: u32, b: u32| {
        let (x, y) = (f32::from_bits(a), f32::from_bits(b));
        let mut ours = u64::from(capi::floats_max_f32(a, b));
        let mut rust = word32(x.max(y));
        if x == 0.0 && y == 0.0 && a != b {
            (ours, rust) = (ours & 0x7FFF_FFFF, rust & 0x7FFF_FFFF);
        }
        check.same(&[a.into(), b.into()], &[ours], &[rust]);
    };
    let list = many32();
    for &a in &list {
        list.iter().for_each(|&b| same(check, a, b));
    }
    for _ in check.times(500_000) {
        let a = check.rng.float32();
        for b in [check.rng.float32(), check.rng.near32(a)] {
            same(check, a, b);
        }
    }
}

fn clamp_f32(check: &mut Check) {
    let same = |check: &mut Check, x: u32, lo: u32, hi: u32| {
        let (low, high) = (f32::from_bits(lo), f32::from_bits(hi));
        if low <= high {
            let rust = word32(f32::from_bits(x).clamp(low, high));
            let ours = capi::floats_clamp_f32(x, lo, hi).into();
            check.same(&[x.into(), lo.into(), hi.into()], &[ours], &[rust]);
        }
    };
    let list = few32();
    for &lo in &list {
        for &hi in &list {
            list.iter().for_each(|&x| same(check, x, lo, hi));
        }
    }
    for _ in check.times(1_000_000) {
        let (x, lo, hi) = (
            check.rng.float32(),
            check.rng.float32(),
            check.rng.float32(),
        );
        for x in [x, check.rng.near32(lo), check.rng.near32(hi)] {
            same(check, x, lo, hi);
        }
    }
}

fn clamp_f64(check: &mut Check) {
    let same = |check: &mut Check, x: u64, lo: u64, hi: u64| {
        let (low, high) = (f64::from_bits(lo), f64::from_bits(hi));
        if low <= high {
            let rust = word64(f64::from_bits(x).clamp(low, high));
            check.same(&[x, lo, hi], &[capi::floats_clamp_f64(x, lo, hi)], &[rust]);
        }
    };
    let list = few64();
    for &lo in &list {
        for &hi in &list {
            list.iter().for_each(|&x| same(check, x, lo, hi));
        }
    }
    for _ in check.times(1_000_000) {
        let (x, lo, hi) = (
            check.rng.float64(),
            check.rng.float64(),
            check.rng.float64(),
        );
        for x in [x, check.rng.near64(lo), check.rng.near64(hi)] {
            same(check, x, lo, hi);
        }
    }
}
