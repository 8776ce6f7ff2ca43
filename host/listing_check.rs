//! A listing of any box compared with single runs of the plain machine.

use crate::oracle::{end_by_corners, owner, run_plain, trace_plain, write_page};
use crate::oracle::{Interval, Job, Path, Step, NOT_FOLLOWED, STEP_LIMIT};
use formats::limits::{path_bytes, REGISTERS};
use formats::numbers::{kind_occurs, reason_occurs};
use formats::random::Random;
use formats::report::{read_pages, Record};

/// Choices tried in each path, and in the whole box.
const CHOICES_PER_PATH: usize = 2;
const CHOICES_PER_BOX: usize = 8;

// ---------------------------------------------------------------------------------------------
// Paths from pages.

/// The paths of joined pages; writing them again must give every byte.
pub fn read_listing(pages: &[u8], inputs: usize) -> Result<Vec<Path>, String> {
    let paths: Vec<Path> = read_pages(pages, inputs)?.into_iter().map(path_of).collect();
    let mut again = vec![0; pages.len()];
    write_page(&paths, &mut again, 0);
    match (0..pages.len()).find(|&place| pages[place] != again[place]) {
        Some(place) => Err(format!(
            "path {}: word {} of its blocks is not as its other words tell",
            place / path_bytes(inputs),
            place % path_bytes(inputs) / 8
        )),
        None => Ok(paths),
    }
}

fn path_of(record: Record) -> Path {
    let Record { kind, reason, pc, steps, intervals, reads, registers, .. } = record;
    Path { kind, reason, pc, steps, boxes: intervals, reads, registers }
}

// ---------------------------------------------------------------------------------------------
// What every listing must be.

pub fn check_listing(random: &mut Random, job: &Job, paths: &[Path]) -> Result<(), String> {
    let boxes: Vec<&[Interval]> = paths.iter().map(|path| &path.boxes[..]).collect();
    if !divides(&job.intervals, &boxes) {
        return Err("the boxes do not divide the starting box in order".to_string());
    }
    for (number, path) in paths.iter().enumerate() {
        check_path(random, job, path).map_err(|fault| format!("path {number}: {fault}"))?;
    }
    check_traces(job, paths)?;
    for _ in 0..CHOICES_PER_BOX {
        let inputs = choice(random, &job.intervals);
        check_choice(job, &paths[owner(paths, &inputs)?], &inputs)?;
    }
    Ok(())
}

/// One box alone is the whole; more are divided by one input's cut, the lower part first.
fn divides(whole: &[Interval], boxes: &[&[Interval]]) -> bool {
    if boxes.iter().any(|part| part.len() != whole.len()) {
        return false;
    }
    match boxes {
        [] => false,
        [part] => *part == whole,
        _ => (0..whole.len()).any(|input| divides_at(whole, boxes, input)),
    }
}

/// A cut at the first place of the list that divides it in two by this input.
fn divides_at(whole: &[Interval], boxes: &[&[Interval]], input: usize) -> bool {
    let above = |place: usize| boxes[place..].iter().map(|part| part[input].0).min();
    let below = |place: usize| boxes[..place].iter().map(|part| part[input].1).max();
    let Some(place) = (1..boxes.len()).find(|&place| below(place) < above(place)) else {
        return false;
    };
    let (mut low_part, mut high_part) = (whole.to_vec(), whole.to_vec());
    let Some(cut) = below(place) else { return false };
    // below(place) < above(place) keeps the cut under the greatest word
    (low_part[input].1, high_part[input].0) = (cut, cut + 1);
    divides(&low_part, &boxes[..place]) && divides(&high_part, &boxes[place..])
}

fn choice(random: &mut Random, intervals: &[Interval]) -> Vec<u64> {
    intervals.iter().map(|&ends| random.between(ends)).collect()
}

/// Each input at one of its ends.
fn corner(random: &mut Random, intervals: &[Interval]) -> Vec<u64> {
    intervals.iter().map(|&(low, high)| random.pick(&[low, high])).collect()
}

fn lows(path: &Path) -> Vec<u64> {
    path.boxes.iter().map(|ends| ends.0).collect()
}

fn highs(path: &Path) -> Vec<u64> {
    path.boxes.iter().map(|ends| ends.1).collect()
}

// ---------------------------------------------------------------------------------------------
// Single runs.

fn check_path(random: &mut Random, job: &Job, path: &Path) -> Result<(), String> {
    let reasoned = match path.kind {
        NOT_FOLLOWED => reason_occurs(path.reason),
        _ => path.reason == 0,
    };
    if !kind_occurs(path.kind) || !reasoned {
        return Err(format!("kind {} with reason {}", path.kind, path.reason));
    }
    if path.steps > job.limit || (path.steps == job.limit) != (path.kind == STEP_LIMIT) {
        return Err(format!("kind {} after {} steps", path.kind, path.steps));
    }
    let at_lows = check_choice(job, path, &lows(path))?;
    let at_highs = check_choice(job, path, &highs(path))?;
    for register in 0..REGISTERS {
        // a value is fixed, or only rises or only falls with one input: these corners are its ends
        let (a, b) = (at_lows[register], at_highs[register]);
        if path.registers[register] != (a.min(b), a.max(b)) {
            let ends = path.registers[register];
            return Err(format!("register {register} is {ends:?}; the corners give {a} and {b}"));
        }
    }
    for _ in 0..CHOICES_PER_PATH {
        check_choice(job, path, &choice(random, &path.boxes))?;
        check_choice(job, path, &corner(random, &path.boxes))?;
    }
    Ok(())
}

/// The run for a choice has the path's end and lies inside its intervals; gives its registers.
pub fn check_choice(job: &Job, path: &Path, inputs: &[u64]) -> Result<[u64; REGISTERS], String> {
    // kinds 7, 8 and 9 stop the engine and not the machine
    let stop = (path.kind < STEP_LIMIT).then_some(path.kind);
    let run = run_plain(&job.code, &job.memory, inputs, path.steps + stop.is_some() as u64);
    let end = (run.stop, run.machine.pc, run.steps, run.machine.reads as u64);
    let expected = (stop, path.pc, path.steps, path.reads);
    if end != expected {
        return Err(format!(
            "{inputs:?} ends with (stop, pc, steps, reads) {end:?}, the path with {expected:?}"
        ));
    }
    for (register, &value) in run.machine.registers.iter().enumerate() {
        let (low, high) = path.registers[register];
        if value < low || value > high {
            return Err(format!("{inputs:?}: register {register} is {value}, not {low}..{high}"));
        }
    }
    Ok(run.machine.registers)
}

/// Within a path the corners fall in the same pieces; those of two paths part at some fork. What
/// the path has written and where others parted from it are its entries in use.
fn check_traces(job: &Job, paths: &[Path]) -> Result<(), String> {
    let trace = |inputs: &[u64], steps| trace_plain(&job.code, &job.memory, inputs, steps);
    let traces: Vec<Vec<Step>> = paths.iter().map(|path| trace(&lows(path), path.steps)).collect();
    for (number, path) in paths.iter().enumerate() {
        if traces[number] != trace(&highs(path), path.steps) {
            return Err(format!("path {number}: its corners fall in different pieces"));
        }
        let forks = forks(&traces, number)?;
        let writes: u64 = traces[number].iter().map(|step| step.writes).sum();
        check_end(job, path, writes + forks).map_err(|fault| format!("path {number}: {fault}"))?;
    }
    Ok(())
}

/// The steps of a path at which some other path parts from it.
fn forks(traces: &[Vec<Step>], number: usize) -> Result<u64, String> {
    let mut places = std::collections::BTreeSet::new();
    for (other, trace) in traces.iter().enumerate().filter(|&(other, _)| other != number) {
        let common = trace.iter().zip(&traces[number]).take_while(|(a, b)| a == b).count();
        if common == trace.len().min(traces[number].len()) {
            return Err(format!("paths {number} and {other} part at no fork"));
        }
        places.insert(common);
    }
    Ok(places.len() as u64)
}

/// The ending order at the path's own corners gives its kind and reason.
fn check_end(job: &Job, path: &Path, used: u64) -> Result<(), String> {
    if used > job.entries {
        return Err(format!("{used} entries are in use, and there are {}", job.entries));
    }
    match end_by_corners(job, &path.boxes, path.steps, used) {
        Some(end) if end == (path.kind, path.reason) => Ok(()),
        end => Err(format!("ends with {:?}, expected {end:?}", (path.kind, path.reason))),
    }
}
