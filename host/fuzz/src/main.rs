//! `fuzz [--seconds S | --cases N] [--seed N] [--case N] [--enough N]`: runs cases
//! until the time is over or so many were run, or one case alone. Says how often
//! each kind of answer came; where enough cases do not reach all of them, that is
//! a failure.

use fuzz::reached::{Reached, ENOUGH};
use fuzz::{case, trap};
use std::panic::{self, AssertUnwindSafe};
use std::process::ExitCode;
use std::time::{Duration, Instant};

const USAGE: &str = "usage: fuzz [--seconds S | --cases N] [--seed N] [--case N] [--enough N]";

/// What is to be run.
struct Plan {
    seed: u64,
    first: u64,
    cases: u64,
    time: Duration,
    /// After so many cases each kind of answer has to have come.
    enough: u64,
}

fn plan(arguments: &[String]) -> Option<Plan> {
    let mut plan = Plan {
        seed: 1,
        first: 1,
        cases: u64::MAX - 1,
        time: Duration::from_secs(60),
        enough: ENOUGH,
    };
    for pair in arguments.chunks(2) {
        let [name, value] = pair else { return None };
        let value: u64 = value.parse().ok()?;
        match name.as_str() {
            "--seconds" => plan.time = Duration::from_secs(value),
            "--seed" => plan.seed = value,
            "--cases" => (plan.cases, plan.time) = (value, Duration::MAX),
            "--case" => (plan.first, plan.cases) = (value, 1),
            "--enough" => plan.enough = value,
            _ => return None,
        }
    }
    Some(plan)
}

fn main() -> ExitCode {
    let arguments: Vec<String> = std::env::args().skip(1).collect();
    let Some(plan) = plan(&arguments) else {
        eprintln!("{USAGE}");
        return ExitCode::from(2);
    };
    trap::watch();
    let mut reached = Reached::default();
    let start = Instant::now();
    let mut done = 0;
    while done < plan.cases && start.elapsed() < plan.time {
        let number = plan.first + done;
        trap::at_case(number);
        let run = || case::run(&case::make(plan.seed, number), &mut reached);
        if panic::catch_unwind(AssertUnwindSafe(run)).is_err() {
            eprintln!("again: fuzz --seed {} --case {number}", plan.seed);
            return ExitCode::FAILURE;
        }
        done += 1;
    }
    println!("cases: {done}, seed {}, all answered alike", plan.seed);
    print!("{reached}");
    judge(done, plan.enough, &reached)
}

/// A failure where enough cases reached too little.
fn judge(done: u64, enough: u64, reached: &Reached) -> ExitCode {
    let missing = reached.missing();
    if done < enough || missing.is_empty() {
        return ExitCode::SUCCESS;
    }
    eprintln!("not reached in {done} cases:");
    missing.iter().for_each(|kind| eprintln!("{kind}"));
    ExitCode::FAILURE
}
