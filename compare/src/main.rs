//! Runs the proved library beside the unchanged Rust on the same inputs.
//!
//! `compare [--seed S] [--scale N] [--only NAME]` compares: one line a check,
//! and an end with status 1 at the first difference. `--scale` multiplies the
//! random inputs; `--only` runs the checks whose name contains NAME.
//! `compare --bench [--only NAME]` measures both sides instead.
//! `compare --bench --builds FILE,FILE.. [--only NAME]` measures the queries of
//! builds of the library beside each other, each a shared object.
//! `compare --write-replay FILE` writes the list that the program `replay` runs
//! on, `crates/replay/stdin`.

mod account;
mod bench;
mod builds;
mod calls;
mod capi;
mod consolidate;
mod damage;
mod depot;
mod faults;
mod fill;
mod floats;
mod harness;
mod hough;
mod large;
mod matching;
mod panako;
mod queries;
mod replace;
mod replay;
mod sets;
mod sheet;
mod stack;
mod store;
mod tally;
mod trial;

use harness::Run;

fn usage() -> ! {
    eprintln!(
        "usage: compare [--seed S] [--scale N] [--only NAME] [--bench [--builds FILE,FILE..]] \
         [--write-replay FILE]"
    );
    std::process::exit(2);
}

fn main() {
    let mut run = Run {
        seed: 1,
        scale: 1,
        only: None,
        checks: Vec::new(),
    };
    let mut measure = false;
    let mut builds: Option<Vec<String>> = None;
    let mut words = std::env::args().skip(1);
    while let Some(word) = words.next() {
        let mut number = || {
            words
                .next()
                .and_then(|w| w.parse().ok())
                .unwrap_or_else(|| usage())
        };
        match word.as_str() {
            "--seed" => run.seed = number(),
            "--scale" => run.scale = number(),
            "--only" => run.only = Some(words.next().unwrap_or_else(|| usage())),
            "--bench" => measure = true,
            "--builds" => {
                let files = words.next().unwrap_or_else(|| usage());
                builds = Some(files.split(',').map(str::to_string).collect());
            }
            "--write-replay" => {
                replay::write(&words.next().unwrap_or_else(|| usage()));
                return;
            }
            _ => usage(),
        }
    }
    if let Some(files) = builds {
        if let Err(why) = depot::builds(&files, run.only.as_deref()) {
            eprintln!("compare: {why}");
            std::process::exit(2);
        }
        return;
    }
    if measure {
        bench::run(run.only.as_deref());
        depot::run(run.only.as_deref());
        return;
    }
    println!("compare: seed {}, scale {}", run.seed, run.scale);
    floats::run(&mut run);
    matching::run(&mut run);
    consolidate::run(&mut run);
    hough::run(&mut run);
    panako::run(&mut run);
    calls::run(&mut run);
    damage::run(&mut run);
    queries::run(&mut run);
    sets::run(&mut run);
    replace::run(&mut run);
    large::run(&mut run);
    sheet::run(&mut run);
    faults::run(&mut run);
    replay::run(&mut run);
    stack::run(&mut run);
    let passed = run.end();
    if passed == 0 {
        eprintln!("compare: no check has that name");
        std::process::exit(2);
    }
    println!("compare: {passed} checks passed");
}
