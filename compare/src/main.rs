//! Compares libhumoraki.a with brute force written from the words of the scope, docs/SCOPE.md.
//!
//! `compare [SEED [TRACES]]`: the same seed gives the same traces. A difference is printed with its trace and ends
//! the program with status 1; else the last line says that there is none.
//!
//! `compare --alter CALL NAME PART`: one thing that a call gave or was lent is altered before the call is judged, so
//! that there is a difference, and status 1, unless the comparison is blind to it. `compare --alterations` lists all
//! that can be altered.
//!
//! `compare --answers PROGRAM`: prints what `segment_tests` or `corner_tests` has to print, found without the library.

mod alteration;
mod answers;
mod calls;
mod clipping;
mod damage;
mod desk;
mod difference;
mod file;
mod lent;
mod line;
mod meaning;
mod mirror;
mod mode;
mod outlook;
mod panel;
mod panels;
mod random;
mod readings;
mod report;
mod room;
mod rounds;
mod segments;
mod splits;
mod stored;
mod tally;
mod trace;
mod traces;
mod trends;
mod trial;
mod trying;

use alteration::Alteration;
use desk::Desk;
use difference::Outcome;
use mode::{Mode, USAGE};
use std::io::stdin;
use std::process::ExitCode;
use std::time::Instant;
use stored::Program;

/// A comparison that is to be seen to fail has this seed, so many small traces, and so many courses of adds.
const ALTERED_SEED: u64 = 1;
const ALTERED_TRACES: usize = 10;
const ALTERED_COURSES: usize = 2;

fn main() -> ExitCode {
    let words: Vec<String> = std::env::args().skip(1).collect();
    match Mode::from_words(&words) {
        None => cannot(USAGE),
        Some(Mode::Compare { seed, traces }) => compare(seed, traces),
        Some(Mode::Alter(alteration)) => alter(alteration),
        Some(Mode::Alterations) => list_alterations(),
        Some(Mode::Answers(program)) => print_answers(program),
    }
}

fn cannot(message: &str) -> ExitCode {
    eprintln!("{message}");
    ExitCode::from(2)
}

fn compare(seed: u64, traces: usize) -> ExitCode {
    println!("seed {seed}, {traces} random small traces");
    let mut desk = Desk::new(seed);
    let start = Instant::now();
    if let Err(difference) = all_rounds(&mut desk, traces) {
        print!("{difference}");
        return ExitCode::FAILURE;
    }
    print!("{}", desk.tally.table());
    let faults = desk.tally.faults();
    if !faults.is_empty() {
        println!("{}", faults.join("\n"));
        return ExitCode::FAILURE;
    }
    println!("no difference, in {} seconds", start.elapsed().as_secs());
    ExitCode::SUCCESS
}

fn all_rounds(desk: &mut Desk, traces: usize) -> Outcome {
    rounds::samples::compare(desk)?;
    rounds::preview_cases::compare(desk)?;
    rounds::latest_cases::compare(desk)?;
    rounds::reading_cases::compare(desk)?;
    rounds::small_traces::compare(desk, traces)?;
    rounds::addresses::compare(desk)?;
    rounds::directions::compare(desk)?;
    rounds::steps::compare(desk)?;
    rounds::shifts::compare(desk)?;
    rounds::readings::compare(desk)?;
    rounds::lowest_terms::compare(desk)?;
    rounds::digits::compare(desk)?;
    rounds::damaged_files::compare(desk, traces)?;
    rounds::field_faults::compare(desk)?;
    rounds::list_faults::compare(desk)?;
    rounds::preview_faults::compare(desk)?;
    rounds::short_slices::compare(desk)?;
    rounds::largest::compare(desk)?;
    rounds::long_traces::compare(desk)?;
    rounds::panel_cases::compare(desk)?;
    rounds::panel_faults::compare(desk)?;
    rounds::panel_courses::compare(desk)
}

/// Status 1, as for any difference, if the altered call is judged to differ; 0 if it is not.
fn alter(alteration: Alteration) -> ExitCode {
    let words = alteration.words();
    let mut desk = Desk::new(ALTERED_SEED);
    desk.alteration = Some(alteration);
    let outcome = altered_rounds(&mut desk);
    match (desk.alteration.and_then(|alteration| alteration.noticed()), outcome) {
        (Some(true), Err(difference)) => {
            print!("{difference}");
            ExitCode::FAILURE
        }
        (Some(_), _) => {
            println!("no difference, though altered: {words}");
            ExitCode::SUCCESS
        }
        (None, _) => cannot("no call could be altered before the comparison ended"),
    }
}

/// Rounds in which each call is accepted and refused.
fn altered_rounds(desk: &mut Desk) -> Outcome {
    rounds::samples::compare(desk)?;
    rounds::small_traces::compare(desk, ALTERED_TRACES)?;
    rounds::short_slices::compare(desk)?;
    rounds::panel_courses::short(desk, ALTERED_COURSES)
}

fn list_alterations() -> ExitCode {
    for alteration in Desk::new(ALTERED_SEED).alterations() {
        println!("{}", alteration.words());
    }
    ExitCode::SUCCESS
}

fn print_answers(program: Program) -> ExitCode {
    match std::io::read_to_string(stdin()) {
        Err(error) => cannot(&format!("standard input: {error}")),
        Ok(trials) => match stored::output(program, &trials) {
            Err(line) => cannot(&format!("not understood: {line}")),
            Ok(output) => {
                print!("{output}");
                ExitCode::SUCCESS
            }
        },
    }
}
