//! Scenarios of the crate `pardz` and of the C library, which the explorer runs through their schedules.
//!
//! usage: scenarios [NAME..]               a line for each of them, or of those that are named, and one for all
//!        scenarios --old [NAME..]         one look of each schedule may find an old value
//!        scenarios --at-most COUNT NAME..  so many of their schedules
//!        scenarios --list                 their names
//!        scenarios --check                small programs with faults that the explorer must find
use std::env;
use std::process::ExitCode;
use std::time::Duration;

mod c_library;
mod checks;
mod clears;
mod late;
mod owned;
mod pools;
mod posts;
mod refused;
mod returns;
mod shards;
mod steps;
mod words;
mod world;

use world::{Scenario, Within};

#[global_allocator]
static HEAP: explorer::Heap = explorer::Heap;

/// For so long no thread may be without a step.
const PATIENCE: Duration = Duration::from_secs(20);
/// The same where a fault is planted.
const LITTLE_PATIENCE: Duration = Duration::from_secs(3);

fn all() -> Vec<Scenario> {
    let all = [
        returns::all(),
        words::all(),
        shards::all(),
        late::all(),
        owned::all(),
        pools::all(),
        clears::all(),
        refused::all(),
        posts::all(),
    ];
    all.into_iter().flatten().collect()
}

fn main() -> ExitCode {
    let words: Vec<String> = env::args().skip(1).collect();
    let words: Vec<&str> = words.iter().map(String::as_str).collect();
    explorer::stay();
    match words[..] {
        ["--list"] => all()
            .iter()
            .for_each(|scenario| println!("{}", scenario.name)),
        ["--check"] => checks::check(),
        ["--faulty", name] => {
            explorer::watch(LITTLE_PATIENCE);
            return run(checks::run_faulty(name).as_slice(), Within::default());
        }
        _ => {
            let (names, within) = options(&words);
            return run_named(names, within);
        }
    }
    ExitCode::SUCCESS
}

/// Which schedules the words ask for, and the names behind those.
fn options<'w, 'n>(words: &'w [&'n str]) -> (&'w [&'n str], Within) {
    let (mut names, mut within) = (words, Within::default());
    loop {
        names = match names {
            ["--old", rest @ ..] => {
                within.old_looks = 1;
                rest
            }
            ["--at-most", count, rest @ ..] => {
                within.most = Some(count.parse().expect("a count"));
                rest
            }
            _ => return (names, within),
        };
    }
}

/// Runs the scenarios of these names, or all.
fn run_named(wanted: &[&str], within: Within) -> ExitCode {
    let mut scenarios = all();
    if let Some(name) = wanted
        .iter()
        .find(|name| scenarios.iter().all(|scenario| scenario.name != **name))
    {
        eprintln!("there is no scenario {name}");
        return ExitCode::FAILURE;
    }
    if !wanted.is_empty() {
        scenarios.retain(|scenario| wanted.contains(&scenario.name));
    }
    let has_fault = env::var_os("PLANTED").is_some_and(|number| number != "0");
    explorer::watch(if has_fault { LITTLE_PATIENCE } else { PATIENCE });
    run(&scenarios, within)
}

fn run(scenarios: &[Scenario], within: Within) -> ExitCode {
    let (mut schedules, mut steps, mut seconds) = (0, 0, 0.0);
    for scenario in scenarios {
        let report = scenario.explore(within);
        let told = format!(
            "{} schedules, {}, {} steps",
            report.schedules, scenario.extent, report.steps
        );
        if let Some(failure) = report.failure {
            println!("FAIL {}: {told}: {failure}", scenario.name);
            return ExitCode::FAILURE;
        }
        println!(
            "ok   {}: {told} and {} left, {:.1} s",
            scenario.name, report.left, report.seconds
        );
        schedules += report.schedules;
        steps += report.steps;
        seconds += report.seconds;
    }
    if let Err(more) = steps::tell() {
        println!("FAIL the steps of calls: {more}");
        return ExitCode::FAILURE;
    }
    println!(
        "{} scenarios, {schedules} schedules, {steps} steps, {seconds:.0} s",
        scenarios.len()
    );
    ExitCode::SUCCESS
}
