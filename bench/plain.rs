//! The report of a model's last START by plain steps from zero, which keep no run: what recording is measured against.
//!
//! Standard input has the model, up to the line `end`; what follows that line is left alone. The report is the
//! one that the workbench gives of that START with its usual options; none where the run does not complete it.
//!
//! It is Rattle, as the crates are. A `.rt` file stands in none but a crate that is proved, so this one is called
//! `.rs`: `dev/unproved` builds it, as a crate beside the others.
#![tactic(auto)]

use gw_expr::End;
use gw_io::{Budget, FromRead, Sink, Source, ToWrite, split_model, write_all};
use gw_meaning::Outcome;
use gw_model::Version;
use gw_report::print;
use gw_scan::{Notes, Tally, Turn, end_at, step};
use gw_script::{Fault, Options, open_version};
use gw_state::State;
use std::alloc::{AllocError, Global};
use std::io::BufReader;
use std::process::ExitCode;

fn main(rt: HostRuntime) -> ExitCode {
    let alloc = rt.alloc();
    let Ok(input) = BufReader::new(alloc, rt.stdin()) else {
        return ExitCode::FAILURE;
    };
    let mut reader = FromRead::new(input);
    let mut writer = ToWrite::new(rt.stdout());
    match report_plainly(alloc, &mut reader, &mut writer) {
        Ok(()) => ExitCode::SUCCESS,
        Err(_) => ExitCode::FAILURE,
    }
}

// Writes the report of the last START of replication 1, where the run completes it.
fn report_plainly<S: Source, K: Sink>(
    alloc: Global,
    reader: &mut S,
    writer: &mut K,
) -> Result<(), Fault> {
    let mut budget = Budget::new();
    let model = split_model(alloc, reader, &mut budget)?;
    let version = open_version(alloc, &model, Options::USUAL)?;
    let Some(seed) = version.seed(1) else {
        return Ok(());
    };
    let mut state = State::zero(alloc);
    match run(alloc, &version, seed, &mut state) {
        Ok(Some(End::CommandsDone)) => (),
        Ok(_) => return Ok(()),
        Err(_) => return Err(Fault::Memory),
    }
    let complete = state.complete();
    let Ok(text) = print(alloc, &version, 1, complete, &state, Outcome::Complete) else {
        return Err(Fault::Memory);
    };
    match write_all(writer, &text) {
        Ok(()) => Ok(()),
        Err(_) => Err(Fault::Write),
    }
}

// Makes the steps of a run until it ends, or up to the step limit, and keeps the last state alone.
fn run(
    alloc: Global,
    version: &Version,
    seed: u64,
    state: &mut State,
) -> Result<Option<End>, AllocError> {
    let mut notes = Notes::new(alloc, state.streams());
    let mut tally = Tally::new();
    for _moment in 0..version.limit() {
        match step(alloc, version, seed, state, &mut notes, &mut tally)? {
            Turn::Moved => (),
            Turn::Ended(end) => return Ok(Some(end)),
        }
    }
    end_at(alloc, version, seed, state)
}
