//! Compares every call of the static library with the reference.
//!
//! `compare [long] [NAME [SEED]]`: all kinds of cases, or those whose name is or
//! begins with NAME, or the one case with this seed. It ends at the first difference.

mod campaign;
mod corrections;
mod draw;
mod open;
mod parts;
mod plan;
mod pool;
mod print;
mod reason;
mod round;
mod variances;
mod walk;

use compare::cases::{case_seed, Calls, Difference, Kind, Named};
use compare::request::Request;
use std::process::ExitCode;
use tables::Generator;

/// The kinds of cases and the named cases of each call.
const CALLS: &[(&[Kind], &[Named])] = &[
    (round::KINDS, round::NAMED),
    (corrections::KINDS, corrections::NAMED),
    (walk::KINDS, walk::NAMED),
    (pool::KINDS, pool::NAMED),
    (plan::KINDS, plan::NAMED),
    (reason::KINDS, reason::NAMED),
    (open::KINDS, open::NAMED),
    (parts::KINDS, parts::NAMED),
    (draw::KINDS, draw::NAMED),
    (campaign::KINDS, campaign::NAMED),
    (print::KINDS, print::NAMED),
    (variances::KINDS, variances::NAMED),
];

fn main() -> ExitCode {
    let arguments: Vec<String> = std::env::args().skip(1).collect();
    let Some(request) = Request::read(&arguments) else {
        println!("use: compare [long] [NAME [SEED]]");
        return ExitCode::FAILURE;
    };
    let mut passed = 0;
    let outcome = run_calls(&request, &mut passed);
    if let Err(difference) = &outcome {
        print!("{}", difference.text);
    }
    if outcome.is_ok() && passed == 0 {
        println!("no kind of cases and no case has this name");
    }
    println!("{passed} passed, {} failed", u8::from(outcome.is_err()));
    ExitCode::from(u8::from(outcome.is_err() || passed == 0))
}

/// Compares what is asked for, up to the first difference, and counts what passed.
fn run_calls(request: &Request, passed: &mut u64) -> Result<(), Difference> {
    for (kinds, named) in CALLS {
        for kind in kinds.iter().filter(|kind| request.asks_for(kind.name)) {
            run_kind(kind, request)?;
            *passed += 1;
        }
        for case in named.iter().filter(|case| request.asks_for(case.name)) {
            run_named(case)?;
            *passed += 1;
        }
    }
    Ok(())
}

/// Compares the cases of one kind and prints how many there were.
fn run_kind(kind: &Kind, request: &Request) -> Result<(), Difference> {
    let mut calls = Calls::default();
    let seeds: Vec<u64> = match request.seed {
        Some(seed) => vec![seed],
        None => (0..kind.cases * request.factor)
            .map(|number| case_seed(kind.name, number))
            .collect(),
    };
    for &seed in &seeds {
        let mut generator = Generator::new(seed);
        (kind.compare)(&mut generator, &mut calls)
            .map_err(|difference| difference.in_case(kind.name, Some(seed)))?;
    }
    println!("{}: cases: {}, {calls}", kind.name, seeds.len());
    Ok(())
}

/// Compares one named case.
fn run_named(case: &Named) -> Result<(), Difference> {
    let mut calls = Calls::default();
    (case.compare)(&mut calls).map_err(|difference| difference.in_case(case.name, None))?;
    println!("{}: {calls}", case.name);
    Ok(())
}
