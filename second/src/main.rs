//! The second program: an independent model of the table reader, and its
//! comparison with the proved library and with the program `steps`.

mod cases;
mod comparison;
mod model;

use cases::figures;
use cases::random::Random;
use comparison::caller::Caller;
use comparison::{calls, report, shrink, steps};
use std::process::ExitCode;

const USAGE: &str = "usage: second SEED COUNT STEPS CALLER...
STEPS is the program steps, or - to leave it out; CALLER... is the command of the caller";

const BAD_USAGE: u8 = 2;

/// One input of `steps` for so many calls, within bounds.
const CALLS_FOR_A_STEPS_INPUT: usize = 20_000;
const FEWEST_STEPS_INPUTS: usize = 10;
const MOST_STEPS_INPUTS: usize = 400;

struct Plan {
    seed: u64,
    count: usize,
    steps: Option<String>,
    caller: Vec<String>,
}

fn main() -> ExitCode {
    let Some(plan) = plan(&std::env::args().skip(1).collect::<Vec<String>>()) else {
        eprintln!("{USAGE}");
        return ExitCode::from(BAD_USAGE);
    };
    println!("seed {}, {} calls", plan.seed, plan.count);
    match compare(&plan) {
        Ok(()) => {
            println!("all agree");
            ExitCode::SUCCESS
        }
        Err(what) => {
            println!("{what}");
            println!("they do NOT agree (seed {})", plan.seed);
            ExitCode::FAILURE
        }
    }
}

fn plan(words: &[String]) -> Option<Plan> {
    let [seed, count, steps, caller @ ..] = words else {
        return None;
    };
    if caller.is_empty() {
        return None;
    }
    Some(Plan {
        seed: seed.parse().ok()?,
        count: count.parse().ok()?,
        steps: (steps != "-").then(|| steps.clone()),
        caller: caller.to_vec(),
    })
}

fn compare(plan: &Plan) -> Result<(), String> {
    let mut random = Random::new(plan.seed);
    let mut caller = Caller::new(&plan.caller);
    let figures = figures::cases().map_err(|what| format!("the model misses a figure: {what}"))?;
    println!("the model gives the documents' figures");
    let compared = calls::compare(&mut caller, &mut random, plan.count, figures);
    let found = compared.map_err(|difference| {
        println!("a difference; the smallest case found:");
        report::print(&shrink::shrunk(difference, &mut caller));
        "the library and the model differ".to_string()
    })?;
    found.print();
    all_reached(&found.missing())?;
    compare_steps(plan, &mut random)
}

fn compare_steps(plan: &Plan, random: &mut Random) -> Result<(), String> {
    let Some(program) = &plan.steps else {
        println!("the program steps was left out");
        return Ok(());
    };
    let inputs = plan.count / CALLS_FOR_A_STEPS_INPUT;
    let inputs = inputs.clamp(FEWEST_STEPS_INPUTS, MOST_STEPS_INPUTS);
    let found = steps::compare(program, random, inputs)?;
    found.print();
    all_reached(&found.missing())
}

fn all_reached(missing: &[String]) -> Result<(), String> {
    if missing.is_empty() {
        Ok(())
    } else {
        Err(format!("not reached: {}", missing.join("; ")))
    }
}
