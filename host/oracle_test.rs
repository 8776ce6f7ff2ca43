//! Tests of the oracle itself: document 01's rules on trial, Nos. 1, 2, 3, 5, 6, 7 and 8 of document
//! 02, and random jobs against runs of its plain machine.

mod listing_check;
mod oracle;
#[allow(dead_code)] // the large boxes are for other tests
mod programs;

use formats::assembler::*;
use formats::blocks::{to_bytes, word};
use formats::limits::{path_bytes, ENTRY_WORDS, MEMORY_WORDS, PAYLOAD_WORDS, USUAL_TABLE_WORDS};
use formats::numbers::{kind_occurs, reason_occurs, KINDS, REASONS};
use formats::random::Random;
use formats::report;
use oracle::*;
use std::collections::BTreeSet;

const MEMORY: [u64; MEMORY_WORDS] = [0; MEMORY_WORDS];
const RECORD: usize = path_bytes(1);
const ENTRIES: u64 = (USUAL_TABLE_WORDS / ENTRY_WORDS) as u64;
const MAX: u64 = u64::MAX;
/// The highest value whose product by 60 is below 2^64.
const SIXTIETH: u64 = MAX / 60;

fn job(code: &[u32], low: u64, high: u64, limit: u64) -> Job {
    let (code, intervals) = (code.to_vec(), vec![(low, high)]);
    Job { code, memory: Vec::new(), limit, intervals, entries: ENTRIES }
}

/// Kind, reason, pc, steps, the one input and register 10 of each path.
fn lines(job: &Job) -> Vec<(u64, u64, u64, u64, Interval, Interval)> {
    let line = |path: Path| {
        let (input, value) = (path.boxes[0], path.registers[10]);
        (path.kind, path.reason, path.pc, path.steps, input, value)
    };
    listing(job).into_iter().map(line).collect()
}

/// The box and the exit value of each path; all of them exit.
fn exits(work: &[u32], low: u64, high: u64) -> Vec<(Interval, Interval)> {
    exits_of(&job(&reads(work), low, high, 100))
}

fn exits_of(job: &Job) -> Vec<(Interval, Interval)> {
    let lines = lines(job);
    assert!(lines.iter().all(|line| line.0 == EXITED), "{lines:?}");
    lines.into_iter().map(|line| (line.4, line.5)).collect()
}

/// A job that loads a number of any size into register 6 before its work.
fn job_with(number: u64, work: &[u32], low: u64, high: u64) -> Job {
    let code = reads(&[&[ld(6, 8, 0)], work].concat());
    Job { memory: vec![0, number], ..job(&code, low, high, 100) }
}

#[test]
fn job_a_has_two_paths() {
    let expected = [(EXITED, 0, 28, 7, (0, 9), (1, 1)), (EXITED, 0, 28, 7, (10, 255), (0, 0))];
    assert_eq!(lines(&job(&job_a().code, 0, 255, 100)), expected);
}

#[test]
fn limit_5_ends_job_a_before_its_fork() {
    let expected = [(STEP_LIMIT, 0, 20, 5, (0, 255), (8, 8))];
    assert_eq!(lines(&job(&job_a().code, 0, 255, 5)), expected);
}

#[test]
fn limit_7_ends_job_a_after_its_fork() {
    let expected =
        [(STEP_LIMIT, 0, 28, 7, (0, 9), (1, 1)), (STEP_LIMIT, 0, 28, 7, (10, 255), (0, 0))];
    assert_eq!(lines(&job(&job_a().code, 0, 255, 7)), expected);
}

#[test]
fn one_entry_ends_job_a_at_4() {
    let mut job = job(&job_a().code, 0, 255, 100);
    job.entries = 1;
    assert_eq!(lines(&job), [(TRACE_FULL, 0, 4, 1, (0, 255), (0, 0))]);
}

#[test]
fn a_falling_value_has_its_pieces_in_order_of_the_input() {
    // 10 - v < 1
    let work = [addi(6, 0, 10), sub(7, 6, 5), addi(28, 0, 1), sltu(10, 7, 28)];
    let expected = [((0, 9), (0, 0)), ((10, 10), (1, 1)), ((11, 255), (0, 0))];
    assert_eq!(exits(&work, 0, 255), expected);
}

#[test]
fn a_sum_forks_where_it_wraps() {
    let expected = [
        ((u64::MAX - 200, u64::MAX - 5), (u64::MAX - 195, u64::MAX)),
        ((u64::MAX - 4, u64::MAX), (0, 4)),
    ];
    assert_eq!(exits(&[addi(10, 5, 5)], u64::MAX - 200, u64::MAX), expected);
}

#[test]
fn a_product_forks_where_it_wraps() {
    let half = 1 << 63;
    let expected = [((half - 3, half - 1), (u64::MAX - 5, u64::MAX - 1)), ((half, half), (0, 0))];
    assert_eq!(exits(&[addi(6, 0, 2), mul(10, 5, 6)], half - 3, half), expected);
    let quarter = half >> 1;
    let expected = [
        ((quarter - 1, quarter - 1), (u64::MAX - 3, u64::MAX - 3)),
        ((quarter, quarter + 1), (0, 4)),
    ];
    assert_eq!(exits(&[addi(6, 0, 4), mul(10, 5, 6)], quarter - 1, quarter + 1), expected);
}

#[test]
fn remainders_by_5() {
    let work = [addi(6, 0, 5), remu(10, 5, 6)];
    assert_eq!(exits(&work, 3, 6), [((3, 4), (3, 4)), ((5, 6), (0, 1))]);
    assert_eq!(exits(&work, 3, 7), [((3, 4), (3, 4)), ((5, 7), (0, 2))]);
    let expected = [(NOT_FOLLOWED, QUOTIENTS, 20, 5, (0, 10), (8, 8))];
    assert_eq!(lines(&job(&reads(&work), 0, 10, 100)), expected);
}

#[test]
fn one_piece_where_nothing_changes() {
    assert_eq!(exits(&[add(10, 5, 5)], 5, 5), [((5, 5), (10, 10))]);
    assert_eq!(exits(&[sltu(10, 5, 0)], 0, 255), [((0, 255), (0, 0))]);
}

#[test]
fn ten_tests_of_one_value_have_two_paths() {
    assert_eq!(exits(&ten_tests(), 0, 255), [((0, 4), (1, 1)), ((5, 255), (0, 0))]);
}

#[test]
fn sub_sltu_and_beq_of_one_open_register_are_followed() {
    assert_eq!(exits(&[sub(10, 5, 5)], 0, 255), [((0, 255), (0, 0))]);
    assert_eq!(exits(&[sltu(10, 5, 5)], 0, 255), [((0, 255), (0, 0))]);
    // the branch is taken, so register 10 keeps the 8 of the read
    assert_eq!(exits(&[beq(5, 5, 8), addi(10, 0, 1)], 0, 255), [((0, 255), (8, 8))]);
}

#[test]
fn a_register_against_itself_gives_a_fixed_value() {
    let whole = [((3, 6), (3, 6))];
    assert_eq!(exits(&[sub(6, 5, 5), ld(10, 0, 6)], 3, 6), whole);
    assert_eq!(exits(&[sltu(6, 5, 5), ld(10, 0, 6)], 3, 6), whole);
    assert_eq!(exits(&[sub(6, 5, 5), add(10, 6, 5)], 3, 6), whole);
    assert_eq!(exits(&[sub(5, 5, 5), addi(10, 5, 1)], 3, 6), [((3, 6), (1, 1))]);
    let compared = [sltu(6, 5, 5), addi(6, 6, 5), sltu(10, 5, 6)];
    assert_eq!(exits(&compared, 3, 6), [((3, 4), (1, 1)), ((5, 6), (0, 0))]);
}

#[test]
fn other_arithmetic_of_one_open_register_is_not_followed() {
    let words = [
        (add(10, 5, 5), BOTH_OPEN),
        (mul(10, 5, 5), BOTH_OPEN),
        (divu(10, 5, 5), DIVISOR_OPEN),
        (remu(10, 5, 5), DIVISOR_OPEN),
    ];
    for (word, reason) in words {
        let expected = [(NOT_FOLLOWED, reason, 16, 4, (0, 3), (8, 8))];
        assert_eq!(lines(&job(&reads(&[word]), 0, 3, 100)), expected);
    }
}

#[test]
fn two_registers_with_one_open_value_are_not_followed() {
    for word in [sub(10, 5, 6), sltu(10, 5, 6), beq(5, 6, 8)] {
        let expected = [(NOT_FOLLOWED, BOTH_OPEN, 20, 5, (3, 6), (8, 8))];
        assert_eq!(lines(&job(&reads(&[ld(6, 0, 0), word]), 3, 6, 100)), expected);
    }
}

#[test]
fn one_fixed_register_twice() {
    let operations = [add, sub, mul, divu, remu, sltu];
    for (operation, value) in operations.iter().zip([10, 0, 25, 1, 0, 0]) {
        assert_eq!(exits(&[operation(10, 5, 5)], 5, 5), [((5, 5), (value, value))]);
        // nor is anything asked of an open one into register 0
        assert_eq!(exits(&[operation(0, 5, 5)], 0, 3), [((0, 3), (8, 8))]);
    }
    assert_eq!(exits(&[beq(5, 5, 8), addi(10, 0, 1)], 5, 5), [((5, 5), (8, 8))]);
}

#[test]
fn a_register_against_itself_takes_an_entry_only_to_write() {
    let ends = |word, entries| {
        let job = Job { entries, ..job(&reads(&[word, addi(10, 0, 1)]), 3, 6, 100) };
        lines(&job)
    };
    // the opening has taken 5
    for operation in [sub, sltu] {
        assert_eq!(ends(operation(10, 5, 5), 5), [(TRACE_FULL, 0, 16, 4, (3, 6), (8, 8))]);
        assert_eq!(ends(operation(10, 5, 5), 6), [(TRACE_FULL, 0, 20, 5, (3, 6), (0, 0))]);
    }
    assert_eq!(ends(beq(5, 5, 8), 5), [(TRACE_FULL, 0, 24, 5, (3, 6), (8, 8))]);
}

#[test]
fn a_branch_on_a_register_against_itself_goes_back() {
    let expected = [(STEP_LIMIT, 0, 16, 50, (3, 6), (8, 8))];
    assert_eq!(lines(&job(&reads(&[beq(5, 5, 0)]), 3, 6, 50)), expected);
    // counts up to the input
    let counted = [beq(5, 6, 12), addi(6, 6, 1), beq(5, 5, -8), addi(10, 6, 0)];
    let each = [0, 1, 2, 3].map(|value| ((value, value), (value, value)));
    assert_eq!(exits(&counted, 0, 3), each);
}

#[test]
fn a_division_by_0_goes_on() {
    // register 0, one that holds 0 from the start, and one that is set to 0
    for divisor in [0, 6, 7] {
        let work = |divide: fn(u32, u32, u32) -> u32| [sub(7, 5, 5), divide(10, 5, divisor)];
        assert_eq!(exits(&work(divu), 3, 6), [((3, 6), (MAX, MAX))]);
        assert_eq!(exits(&work(remu), 3, 6), [((3, 6), (3, 6))]);
        assert_eq!(exits(&work(divu), 5, 5), [((5, 5), (MAX, MAX))]);
        assert_eq!(exits(&work(remu), 5, 5), [((5, 5), (5, 5))]);
    }
    assert_eq!(exits(&[remu(10, 5, 0)], MAX - 9, MAX), [((MAX - 9, MAX), (MAX - 9, MAX))]);
    // 10 - v falls, and its remainder with it
    let falling = [addi(6, 0, 10), sub(6, 6, 5), remu(10, 6, 0)];
    assert_eq!(exits(&falling, 0, 9), [((0, 9), (1, 10))]);
}

#[test]
fn a_division_of_0_by_0() {
    assert_eq!(exits(&[divu(10, 0, 0)], 3, 6), [((3, 6), (MAX, MAX))]);
    assert_eq!(exits(&[remu(10, 0, 0)], 3, 6), [((3, 6), (0, 0))]);
    assert_eq!(exits(&[divu(10, 5, 5)], 0, 0), [((0, 0), (MAX, MAX))]);
    assert_eq!(exits(&[remu(10, 5, 5)], 0, 0), [((0, 0), (0, 0))]);
}

#[test]
fn a_division_by_0_into_register_0_only_advances() {
    assert_eq!(exits(&[divu(0, 5, 0), remu(0, 5, 0)], 3, 6), [((3, 6), (8, 8))]);
}

#[test]
fn a_remainder_by_0_hangs_on_its_input() {
    let less = [remu(7, 5, 0), addi(6, 0, 5), sltu(10, 7, 6)];
    assert_eq!(exits(&less, 3, 6), [((3, 4), (1, 1)), ((5, 6), (0, 0))]);
    let equal = [remu(7, 5, 0), addi(6, 0, 5), beq(7, 6, 8), addi(10, 5, 0)];
    assert_eq!(exits(&equal, 3, 6), [((3, 4), (3, 4)), ((5, 5), (8, 8)), ((6, 6), (6, 6))]);
    assert_eq!(
        exits(&[remu(7, 5, 0), addi(10, 7, -4)], 3, 6),
        [((3, 3), (MAX, MAX)), ((4, 6), (0, 2))]
    );
    let again = [remu(5, 5, 0), addi(6, 0, 5), remu(10, 5, 6)];
    assert_eq!(exits(&again, 3, 6), [((3, 4), (3, 4)), ((5, 6), (0, 1))]);
    // a cut of the dividend narrows it, in a register and in memory
    let narrowed =
        [remu(7, 5, 0), sd(7, 24, 0), addi(6, 0, 5), sltu(28, 5, 6), ld(7, 24, 0), addi(10, 7, 0)];
    assert_eq!(exits(&narrowed, 3, 6), [((3, 4), (3, 4)), ((5, 6), (5, 6))]);
}

#[test]
fn a_quotient_by_0_is_fixed() {
    assert_eq!(exits(&[divu(6, 5, 0), sltu(10, 5, 6)], 3, 6), [((3, 6), (1, 1))]);
    assert_eq!(
        exits(&[divu(6, 5, 0), sltu(10, 5, 6)], MAX - 2, MAX),
        [((MAX - 2, MAX - 1), (1, 1)), ((MAX, MAX), (0, 0))]
    );
    assert_eq!(
        exits(&[divu(6, 5, 0), add(10, 6, 5)], 0, 3),
        [((0, 0), (MAX, MAX)), ((1, 3), (0, 2))]
    );
    assert_eq!(exits(&[divu(6, 5, 0), remu(10, 5, 6)], 3, 6), [((3, 6), (3, 6))]);
    assert_eq!(exits(&[divu(6, 5, 0), divu(10, 5, 6)], 3, 6), [((3, 6), (0, 0))]);
    // a base: MAX + 1 is address 0, where the input is
    assert_eq!(exits(&[divu(6, 5, 0), ld(10, 1, 6)], 3, 6), [((3, 6), (3, 6))]);
    let base = job(&reads(&[divu(6, 5, 0), ld(10, 0, 6)]), 3, 6, 100);
    assert_eq!(lines(&base), [(BAD_ADDRESS, 0, 20, 5, (3, 6), (8, 8))]);
}

#[test]
fn reasons_after_a_division_by_0() {
    let words = [
        ([remu(6, 5, 0), add(10, 5, 6)], BOTH_OPEN),
        ([divu(6, 5, 0), mul(10, 5, 6)], QUOTIENTS),
        ([remu(6, 5, 0), divu(10, 5, 6)], DIVISOR_OPEN),
        ([remu(6, 5, 0), ld(10, 0, 6)], BASE_OPEN),
    ];
    for (work, reason) in words {
        let expected = [(NOT_FOLLOWED, reason, 20, 5, (3, 6), (8, 8))];
        assert_eq!(lines(&job(&reads(&work), 3, 6, 100)), expected);
    }
}

#[test]
fn a_divisor_that_varies_and_may_be_0() {
    // of a fixed value, and of 0
    for word in [divu(10, 2, 5), remu(10, 2, 5), divu(10, 0, 5), remu(10, 0, 5)] {
        let expected = [(NOT_FOLLOWED, DIVISOR_OPEN, 16, 4, (0, 3), (8, 8))];
        assert_eq!(lines(&job(&reads(&[word]), 0, 3, 100)), expected);
    }
}

#[test]
fn a_divisor_that_a_fork_fixed_at_0() {
    // where the input is not 0, over the division
    let work = |word| [beq(5, 0, 8), jal(0, 8), word];
    assert_eq!(exits(&work(divu(10, 2, 5)), 0, 3), [((0, 0), (MAX, MAX)), ((1, 3), (8, 8))]);
    assert_eq!(exits(&work(remu(10, 2, 5)), 0, 3), [((0, 0), (4096, 4096)), ((1, 3), (8, 8))]);
    // register 6 is 1 below 5, where each value is a piece, and 0 from 5 on
    let compared = [addi(7, 0, 5), sltu(6, 5, 7), remu(10, 5, 6)];
    let expected = [((3, 3), (0, 0)), ((4, 4), (0, 0)), ((5, 6), (5, 6))];
    assert_eq!(exits(&compared, 3, 6), expected);
    // with an open dividend of another input, which is not cut
    let second = [addi(10, 0, 0), addi(11, 0, 8), ecall(), ld(7, 8, 0)];
    let code = reads(&[&second[..], &work(remu(10, 7, 5))].concat());
    let paths = listing(&Job { intervals: vec![(0, 3), (20, 29)], ..job(&code, 0, 3, 100) });
    let ends: Vec<_> = paths.iter().map(|path| (&path.boxes[..], path.registers[10])).collect();
    assert_eq!(ends, [(&[(0, 0), (20, 29)][..], (20, 29)), (&[(1, 3), (20, 29)], (8, 8))]);
}

#[test]
fn a_division_by_0_takes_an_entry_only_to_write() {
    let ends = |word, entries| {
        let job = Job { entries, ..job(&reads(&[word]), 3, 6, 100) };
        lines(&job)
    };
    // the opening has taken 5
    for (divide, value) in [(divu as fn(_, _, _) -> _, (MAX, MAX)), (remu, (3, 6))] {
        assert_eq!(ends(divide(10, 5, 0), 5), [(TRACE_FULL, 0, 16, 4, (3, 6), (8, 8))]);
        assert_eq!(ends(divide(10, 5, 0), 6), [(TRACE_FULL, 0, 20, 5, (3, 6), value)]);
        assert_eq!(ends(divide(0, 5, 0), 5), [(TRACE_FULL, 0, 20, 5, (3, 6), (8, 8))]);
    }
}

#[test]
fn a_plain_run_divides_by_0() {
    for (word, value) in [(divu(10, 5, 0), MAX), (remu(10, 5, 0), 77), (remu(0, 5, 0), 8)] {
        let run = run_plain(&reads(&[word]), &MEMORY, &[77], 100);
        assert_eq!((run.stop, run.steps, run.machine.registers[10]), (Some(EXITED), 6, value));
    }
}

#[test]
fn products_by_60() {
    for product in [mul(10, 5, 6), mul(10, 6, 5)] {
        let work = [addi(6, 0, 60), product];
        assert_eq!(exits(&work, 3, 6), [((3, 6), (180, 360))]);
        let wraps = exits(&work, SIXTIETH - 3, SIXTIETH + 4);
        let below = (SIXTIETH - 3, SIXTIETH);
        let above = (SIXTIETH + 1, SIXTIETH + 4);
        assert_eq!(wraps, [(below, (MAX - 195, MAX - 15)), (above, (44, 224))]);
        // all of them in one piece, and fixed ones
        assert_eq!(exits(&work, above.0, above.1), [(above, (44, 224))]);
        assert_eq!(exits(&work, above.0, above.0), [((above.0, above.0), (44, 44))]);
    }
    // the highest values have the quotient 59 alone
    assert_eq!(
        exits(&[addi(6, 0, 60), mul(10, 5, 6)], MAX - 2, MAX),
        [((MAX - 2, MAX), (MAX - 179, MAX - 59))]
    );
}

#[test]
fn products_with_two_quotients_and_with_three() {
    // v * 2^56 * 60 div 2^64 is v * 60 div 256: 1 from 5 on and 2 from 9 on
    let two_steps = [addi(7, 0, 60), mul(28, 5, 6), mul(10, 28, 7)];
    let at_once = [mul(10, 6, 5)];
    let jobs = |high| {
        let steps = job_with(1 << 56, &two_steps, 0, high);
        [(steps, 28, 7), (job_with(60 << 56, &at_once, 0, high), 20, 5)]
    };
    for (job, ..) in jobs(8) {
        let ends = [((0, 4), (0, 240 << 56)), ((5, 8), (44 << 56, 224 << 56))];
        assert_eq!(exits_of(&job), ends);
    }
    for (job, pc, steps) in jobs(9) {
        assert_eq!(lines(&job), [(NOT_FOLLOWED, QUOTIENTS, pc, steps, (0, 9), (8, 8))]);
    }
}

#[test]
fn quotients_by_60() {
    let by_60 = [addi(6, 0, 60), divu(7, 5, 6)];
    let then = |work: &[u32], low, high| exits(&[&by_60, work].concat(), low, high);
    assert_eq!(then(&[addi(10, 7, 0)], 595, 604), [((595, 604), (9, 10))]);
    assert_eq!(then(&[addi(10, 7, 0)], 0, 999), [((0, 999), (0, 16))]);
    assert_eq!(then(&[addi(10, 7, 0)], 605, 605), [((605, 605), (10, 10))]);
    // the edges are multiples of 60
    let less = [addi(6, 0, 10), sltu(10, 7, 6)];
    assert_eq!(then(&less, 595, 604), [((595, 599), (1, 1)), ((600, 604), (0, 0))]);
    let equal = [addi(6, 0, 10), beq(7, 6, 8), addi(10, 7, 0)];
    let pieces = [((530, 599), (8, 9)), ((600, 659), (8, 8)), ((660, 665), (11, 11))];
    assert_eq!(then(&equal, 530, 665), pieces);
    // the sum with -10 wraps below 600
    assert_eq!(
        then(&[addi(10, 7, -10)], 595, 604),
        [((595, 599), (MAX, MAX)), ((600, 604), (0, 0))]
    );
}

#[test]
fn quotients_times_60() {
    let rounded = [addi(6, 0, 60), divu(7, 5, 6), mul(7, 7, 6)];
    let then = |work: &[u32], low, high| job(&reads(&[&rounded, work].concat()), low, high, 100);
    assert_eq!(exits_of(&then(&[addi(10, 7, 0)], 595, 604)), [((595, 604), (540, 600))]);
    // both vary
    let rest = then(&[sub(10, 5, 7)], 595, 604);
    assert_eq!(lines(&rest), [(NOT_FOLLOWED, BOTH_OPEN, 28, 7, (595, 604), (8, 8))]);
    // one quotient is fixed, and its multiple too
    assert_eq!(exits_of(&then(&[sub(10, 5, 7)], 600, 659)), [((600, 659), (0, 59))]);
    let work = [addi(6, 0, 60), remu(10, 5, 6)];
    assert_eq!(exits(&work, 595, 604), [((595, 599), (55, 59)), ((600, 604), (0, 4))]);
    // a product that wraps, divided again
    let back = [addi(6, 0, 60), mul(7, 5, 6), divu(10, 7, 6)];
    let (below, above) = ((SIXTIETH - 2, SIXTIETH), (SIXTIETH + 1, SIXTIETH + 3));
    assert_eq!(exits(&back, below.0, above.1), [(below, below), (above, (0, 2))]);
}

#[test]
fn by_the_highest_number() {
    let product = |low, high| job_with(MAX, &[mul(10, 5, 6)], low, high);
    // v * MAX is (v - 1) * 2^64 + 2^64 - v
    let pieces = [((0, 1), (0, MAX)), ((2, 2), (MAX - 1, MAX - 1))];
    assert_eq!(exits_of(&product(0, 2)), pieces);
    let each = [((4, 4), (MAX - 3, MAX - 3)), ((5, 5), (MAX - 4, MAX - 4))];
    assert_eq!(exits_of(&product(4, 5)), each);
    let more = [(NOT_FOLLOWED, QUOTIENTS, 20, 5, (0, 3), (8, 8))];
    assert_eq!(lines(&product(0, 3)), more);
    // 0 - v times MAX is v
    let falling = job_with(MAX, &[sub(7, 0, 5), mul(10, 7, 6)], 1, 2);
    assert_eq!(exits_of(&falling), [((1, 1), (1, 1)), ((2, 2), (2, 2))]);
    let quotient = job_with(MAX, &[divu(10, 5, 6)], MAX - 2, MAX);
    assert_eq!(exits_of(&quotient), [((MAX - 2, MAX), (0, 1))]);
    let less = job_with(MAX, &[divu(7, 5, 6), sltu(10, 0, 7)], MAX - 2, MAX);
    assert_eq!(exits_of(&less), [((MAX - 2, MAX - 1), (0, 0)), ((MAX, MAX), (1, 1))]);
}

#[test]
fn by_1() {
    for work in [[addi(6, 0, 1), mul(10, 5, 6)], [addi(6, 0, 1), divu(10, 5, 6)]] {
        for whole in [(3, 6), (MAX - 9, MAX)] {
            assert_eq!(exits(&work, whole.0, whole.1), [(whole, whole)]);
        }
    }
}

#[test]
fn quotients_and_remainders_in_turn() {
    let (three, seven) = (addi(6, 0, 3), addi(7, 0, 7));
    // v / 3 passes 7 at 21
    let first = [three, seven, divu(28, 5, 6), remu(10, 28, 7)];
    assert_eq!(exits(&first, 17, 24), [((17, 20), (5, 6)), ((21, 24), (0, 1))]);
    // v mod 7 begins again at 21
    let second = [three, seven, remu(28, 5, 7), divu(10, 28, 6)];
    assert_eq!(exits(&second, 17, 24), [((17, 20), (1, 2)), ((21, 24), (0, 1))]);
    // v * 3 passes 7 at 3, and 14 at 5
    let third = [three, seven, mul(28, 5, 6), remu(10, 28, 7)];
    assert_eq!(exits(&third, 1, 4), [((1, 2), (3, 6)), ((3, 4), (2, 5))]);
    let more = [(NOT_FOLLOWED, QUOTIENTS, 28, 7, (1, 5), (8, 8))];
    assert_eq!(lines(&job(&reads(&third), 1, 5, 100)), more);
}

#[test]
fn falling_values_by_60() {
    // SIXTIETH + 3 - v wraps for the low v
    let product = job_with(SIXTIETH + 3, &[sub(7, 6, 5), addi(6, 0, 60), mul(10, 7, 6)], 0, 5);
    assert_eq!(exits_of(&product), [((0, 2), (44, 164)), ((3, 5), (MAX - 135, MAX - 15))]);
    // 620 - v is below 600 from 21 on
    let quotient = [addi(6, 0, 620), sub(7, 6, 5), addi(6, 0, 60), divu(7, 7, 6)];
    let less = [&quotient[..], &[addi(6, 0, 10), sltu(10, 7, 6)]].concat();
    assert_eq!(exits(&less, 18, 23), [((18, 20), (0, 0)), ((21, 23), (1, 1))]);
}

#[test]
fn a_cut_narrows_products_and_quotients() {
    let work = |word| [addi(6, 0, 60), word, addi(6, 0, 600), sltu(28, 5, 6), addi(10, 7, 0)];
    let (below, above) = ((595, 599), (600, 604));
    assert_eq!(
        exits(&work(mul(7, 5, 6)), 595, 604),
        [(below, (35700, 35940)), (above, (36000, 36240))]
    );
    assert_eq!(exits(&work(divu(7, 5, 6)), 595, 604), [(below, (9, 9)), (above, (10, 10))]);
    // the quotient is fixed after the cut, and can be added to its input
    let added = [&work(divu(7, 5, 6))[..], &[add(10, 7, 5)]].concat();
    assert_eq!(exits(&added, 595, 604), [(below, (604, 608)), (above, (610, 614))]);
    // a cut of the quotient narrows the input and the product
    let back = [addi(6, 0, 60), divu(7, 5, 6), mul(28, 5, 6), addi(6, 0, 10), beq(7, 6, 4)];
    let product = [&back[..], &[addi(10, 28, 0)]].concat();
    assert_eq!(exits(&product, 595, 604), [(below, (35700, 35940)), (above, (36000, 36240))]);
}

#[test]
fn a_product_of_one_input_and_a_quotient_of_the_other() {
    let second = [addi(10, 0, 0), addi(11, 0, 8), ecall(), ld(7, 8, 0)];
    // v * 3 < 13, and w / 3 < 2
    let compared = [mul(28, 5, 6), addi(29, 0, 13), sltu(29, 28, 29)];
    let other = [divu(30, 7, 6), addi(31, 0, 2), sltu(10, 30, 31)];
    let code = reads(&[&second[..], &[addi(6, 0, 3)], &compared, &other].concat());
    let paths = listing(&Job { intervals: vec![(3, 6), (4, 7)], ..job(&code, 0, 0, 100) });
    let boxes: Vec<_> = paths.iter().map(|path| (path.boxes[0], path.boxes[1])).collect();
    let each = [((3, 4), (4, 5)), ((3, 4), (6, 7)), ((5, 6), (4, 5)), ((5, 6), (6, 7))];
    assert_eq!(boxes, each);
}

#[test]
fn entries_by_60() {
    let ends = |word, entries| {
        let code = reads(&[addi(6, 0, 60), word]);
        lines(&Job { entries, ..job(&code, SIXTIETH, SIXTIETH + 1, 100) })
    };
    let whole = (SIXTIETH, SIXTIETH + 1);
    // the opening and the factor have taken 6; a fork takes one more than the write
    assert_eq!(ends(mul(10, 5, 6), 7), [(TRACE_FULL, 0, 20, 5, whole, (8, 8))]);
    let (below, above) = ((whole.0, whole.0), (whole.1, whole.1));
    let pieces = [
        (TRACE_FULL, 0, 24, 6, below, (MAX - 15, MAX - 15)),
        (TRACE_FULL, 0, 24, 6, above, (44, 44)),
    ];
    assert_eq!(ends(mul(10, 5, 6), 8), pieces);
    assert_eq!(ends(divu(10, 5, 6), 6), [(TRACE_FULL, 0, 20, 5, whole, (8, 8))]);
    let quotient = SIXTIETH / 60;
    assert_eq!(ends(divu(10, 5, 6), 7), [(TRACE_FULL, 0, 24, 6, whole, (quotient, quotient))]);
    // one piece takes no more than the write
    let one_piece = job(&reads(&[addi(6, 0, 60), mul(10, 5, 6)]), 3, 6, 100);
    let expected = [(TRACE_FULL, 0, 24, 6, (3, 6), (180, 360))];
    assert_eq!(lines(&Job { entries: 7, ..one_piece }), expected);
    // into register 0 there is no fork and no entry
    for word in [mul(0, 5, 6), divu(0, 5, 6)] {
        assert_eq!(ends(word, 6), [(TRACE_FULL, 0, 24, 6, whole, (8, 8))]);
    }
}

/// Of all sizes: small ones, powers of two and their neighbours, and the highest.
fn numbers() -> Vec<u64> {
    let small = 0..=100;
    let powers =
        (7..64).flat_map(|exponent| [(1 << exponent) - 1, 1 << exponent, (1 << exponent) + 1]);
    small
        .chain(powers)
        .chain([1000, 3600, 86400, SIXTIETH, MAX / 7, MAX / 3, MAX - 1, MAX])
        .collect()
}

#[test]
fn any_divisor_is_followed_without_a_fork() {
    for divisor in numbers() {
        for (low, high) in [(0, 9), (595, 604), (SIXTIETH - 5, SIXTIETH + 5), (MAX - 9, MAX)] {
            let quotient = |value: u64| if divisor == 0 { MAX } else { value / divisor };
            let paths = exits_of(&job_with(divisor, &[divu(10, 5, 6)], low, high));
            assert_eq!(paths, [((low, high), (quotient(low), quotient(high)))]);
        }
    }
}

#[test]
fn any_factor_is_followed_over_two_quotients() {
    for factor in numbers() {
        // the first value whose product passes 2^64, or any
        let passes = (1_u128 << 64).div_ceil(factor.max(2) as u128) as u64;
        for (low, high) in [(passes - 2, passes - 1), (passes - 1, passes + 1), (595, 604)] {
            let job = job_with(factor, &[mul(10, 5, 6)], low, high);
            let quotients: BTreeSet<u128> =
                (low..=high).map(|value| value as u128 * factor as u128 >> 64).collect();
            let apart = quotients.last().unwrap() - quotients.first().unwrap();
            let lines = lines(&job);
            if apart > 1 {
                assert_eq!(lines, [(NOT_FOLLOWED, QUOTIENTS, 20, 5, (low, high), (8, 8))]);
            } else {
                assert!(lines.iter().all(|line| line.0 == EXITED));
                assert_eq!(lines.len(), quotients.len());
            }
        }
    }
}

/// The names of what the work on this box meets, and whether the first operand was open.
fn met(work: &[u32], low: u64, high: u64, limit: u64) -> Vec<(&'static str, bool)> {
    let (_, met) = listing_and_met(&job(&reads(work), low, high, limit));
    met.iter().map(|met| (TO_MEET[met.place], met.open)).collect()
}

#[test]
fn registers_named_twice_are_met_open_or_fixed() {
    // BEQ cuts 3..6 at 5; ADD into register 0 does not count
    let work = [add(0, 5, 5), sltu(7, 5, 5), addi(6, 0, 5), beq(5, 6, 4), mul(10, 5, 5)];
    let expected = [
        ("MUL twice", false),
        ("MUL twice", true),
        ("SLTU twice", true),
        ("MUL by no power", false),
    ];
    assert_eq!(met(&work, 3, 6, 100), expected);
    assert_eq!(met(&[beq(5, 5, 4)], 3, 6, 100), [("BEQ twice", true)]);
    // the limit comes before the instruction
    assert!(met(&work, 3, 6, 5).is_empty());
}

#[test]
fn divisions_by_0_are_met_open_or_fixed() {
    assert_eq!(
        met(&[divu(6, 5, 0), remu(6, 0, 7)], 3, 6, 100),
        [("DIVU by zero", true), ("REMU by zero", false)]
    );
    assert_eq!(
        met(&[remu(6, 5, 0), divu(6, 2, 7)], 3, 6, 100),
        [("DIVU by zero", false), ("REMU by zero", true)]
    );
    assert_eq!(met(&[divu(6, 5, 5)], 0, 0, 100), [("DIVU twice", false), ("DIVU by zero", false)]);
    // into register 0, by a divisor that varies, by 1, and after the limit
    assert!(met(&[divu(0, 5, 0), remu(6, 2, 5)], 0, 3, 100).is_empty());
    assert!(met(&[addi(6, 0, 1), divu(7, 5, 6)], 0, 3, 100).is_empty());
    assert!(met(&[divu(6, 5, 0)], 3, 6, 4).is_empty());
}

#[test]
fn other_factors_and_divisors_are_met() {
    let by_60 = |word: u32, low, high| met(&[addi(6, 0, 60), word], low, high, 100);
    for product in [mul(10, 5, 6), mul(10, 6, 5)] {
        assert_eq!(by_60(product, 3, 6), [("MUL by no power", true)]);
        assert_eq!(by_60(product, 5, 5), [("MUL by no power", false)]);
        let two = [("MUL by no power", true), ("MUL by no power with two quotients", true)];
        assert_eq!(by_60(product, SIXTIETH, SIXTIETH + 1), two);
    }
    let more =
        [("DIVU by zero", true), ("MUL by no power", true), ("MUL by no power with more", true)];
    assert_eq!(met(&[divu(6, 5, 0), mul(10, 5, 6)], 0, 3, 100), more);
    assert_eq!(by_60(divu(10, 5, 6), 3, 6), [("DIVU by no power", true)]);
    assert_eq!(by_60(divu(10, 2, 6), 3, 6), [("DIVU by no power", false)]);
    // into register 0, as dividend, by REMU, by 0, by 1 and by 64
    assert!(by_60(mul(0, 5, 6), 3, 6).is_empty() && by_60(divu(10, 6, 5), 3, 6).is_empty());
    assert!(by_60(remu(10, 5, 6), 3, 6).is_empty() && by_60(mul(10, 5, 0), 3, 6).is_empty());
    let powers = [addi(6, 0, 1), mul(7, 5, 6), addi(6, 0, 64), mul(7, 5, 6), divu(7, 5, 6)];
    assert!(met(&powers, 3, 6, 100).is_empty());
}

#[test]
fn check_of_an_empty_payload() {
    assert_eq!(check(&[0; PAYLOAD_WORDS]), 0x8000000000000000);
}

#[test]
fn the_questions_come_in_order() {
    assert_eq!(door(0, &[1], 0, 7, 0, 0, 1 << 32), Some(1));
    assert_eq!(door(1, &[1, 0, 1], 0, 7, 0, 0, 1 << 32), Some(2));
    assert_eq!(door(1, &[0; 18], 0, 7, 0, 0, 1 << 32), Some(2));
    assert_eq!(door(1, &[1, 0], 0, 7, 0, 0, 1 << 32), Some(3));
    assert_eq!(door(1, &[], 65537, 7, 0, 0, 1 << 32), Some(4));
    assert_eq!(door(1, &[], 65536, 7, 0, 0, 1 << 32), Some(5));
    assert_eq!(door(1, &[], 1, 8, 511, 0, 1 << 32), Some(6));
    assert_eq!(door(1, &[], 1, 8, 512, 512, 1 << 32), Some(7));
    assert_eq!(door(1, &[], 1, 8, 512, 1024, 1 << 32), Some(8));
    assert_eq!(door(1024, &[0; 16], 1, 8, 512, 1024, (1 << 32) - 1), None);
}

#[test]
fn a_page_of_job_a() {
    let mut report = [0xEE; 3 * RECORD];
    let answer = call(&job_a().code, &MEMORY, &[0, 255], 100, USUAL_TABLE_WORDS, &mut report, 1);
    assert_eq!(answer, Answer { refusal: 0, count: 1, more: false });
    let record = report::read(&report[..RECORD]).unwrap();
    let expected = include_str!("../jobs/job-a.out").lines().nth(2).unwrap();
    assert_eq!(report::line(&record).trim_end(), expected);
    assert_eq!(
        (record.reads, record.registers[2], record.registers[17]),
        (1, (4096, 4096), (93, 93))
    );
    assert!(report[RECORD..].iter().all(|&byte| byte == 0xEE));
}

#[test]
fn pages_of_job_a() {
    let mut report = [0xEE; RECORD];
    let mut page =
        |first| call(&job_a().code, &MEMORY, &[0, 255], 100, USUAL_TABLE_WORDS, &mut report, first);
    assert_eq!(page(0), Answer { refusal: 0, count: 1, more: true });
    assert_eq!(page(1), Answer { refusal: 0, count: 1, more: false });
    assert_eq!(page(2), Answer { refusal: 0, count: 0, more: false });
    assert_eq!(page(1 << 32), Answer { refusal: 8, count: 0, more: false });
}

#[test]
fn a_plain_run_of_job_a() {
    let run = run_plain(&job_a().code, &MEMORY, &[u64::MAX], 100);
    assert_eq!((run.stop, run.steps, run.machine.pc), (Some(EXITED), 7, 28));
    assert_eq!((run.machine.reads, run.machine.memory.load(0)), (1, u64::MAX));
    let run = run_plain(&job_a().code, &MEMORY, &[9], 6);
    assert_eq!((run.stop, run.steps, run.machine.registers[10]), (None, 6, 1));
}

/// A job of few choices, with few steps and few entries.
fn random_job(random: &mut Random) -> Job {
    let inputs = programs::input_count(random);
    let intervals = programs::small_box(random, inputs, 30);
    Job {
        code: programs::program(random, inputs),
        memory: programs::memory_for(random, &intervals),
        limit: 1 + random.below(90) as u64,
        entries: 1 + random.below(90) as u64,
        intervals,
    }
}

#[test]
fn plain_runs_agree_with_their_paths() {
    let mut random = Random(1);
    let (mut ends, mut all_met) = (BTreeSet::new(), BTreeSet::new());
    for _ in 0..3000 {
        let job = random_job(&mut random);
        let (paths, met) = listing_and_met(&job);
        all_met.extend(met);
        ends.extend(paths.iter().map(|path| (path.kind, path.reason)));
        listing_check::check_listing(&mut random, &job, &paths).unwrap();
        for inputs in all_inputs(&job.intervals) {
            let number = owner(&paths, &inputs).unwrap();
            listing_check::check_choice(&job, &paths[number], &inputs).unwrap();
        }
    }
    let kinds = (1..=KINDS).filter(|&kind| kind_occurs(kind)).count();
    let reasons = (1..=REASONS).filter(|&reason| reason_occurs(reason)).count();
    // one kind has the reasons
    assert_eq!(ends.len(), kinds - 1 + reasons, "{ends:?}");
    // open, and fixed
    assert_eq!(all_met.len(), TO_MEET.len() + TO_MEET_FIXED, "{all_met:?}");
}

#[test]
fn paths_come_back_from_their_pages() {
    let mut random = Random(2);
    for _ in 0..300 {
        let job = random_job(&mut random);
        let (paths, inputs) = (listing(&job), job.intervals.len());
        let mut pages = vec![0; paths.len() * path_bytes(inputs)];
        write_page(&paths, &mut pages, 0);
        assert_eq!(listing_check::read_listing(&pages, inputs), Ok(paths));
    }
}

/// A record with this number and box; nothing is asked about the words that hold 7.
fn record(number: u64, boxed: &[Interval]) -> Vec<u8> {
    record_of([number, 7, 7], boxed)
}

/// A record with this number, kind and reason.
fn record_of(path: [u64; 3], boxed: &[Interval]) -> Vec<u8> {
    let mut words = [7; 2 * PAYLOAD_WORDS];
    ([words[0], words[1], words[23]], words[4]) = (path, boxed.len() as u64);
    for (input, &ends) in boxed.iter().enumerate() {
        (words[5 + input], words[13 + input]) = ends;
    }
    to_bytes(&words)
}

/// The answers to a call that is accepted.
fn placed(inputs: u64, report: &[u8], rows: &[u64]) -> Vec<u64> {
    let mut answers = vec![77; rows.len() / inputs as usize];
    assert_eq!(place(inputs, report, rows, &mut answers), 0);
    answers
}

/// The number of a call that is refused, which writes no answer.
fn refusal(inputs: u64, report: &[u8], rows: &[u64], answer_words: usize) -> u64 {
    let mut answers = vec![77; answer_words];
    let number = place(inputs, report, rows, &mut answers);
    assert_eq!(answers, vec![77; answer_words]);
    number
}

#[test]
fn rows_of_job_a() {
    let mut report = [0; 2 * RECORD];
    call(&job_a().code, &MEMORY, &[0, 255], 100, USUAL_TABLE_WORDS, &mut report, 0);
    let rows = [0, 9, 10, 255, 256, u64::MAX];
    assert_eq!(placed(1, &report, &rows), [0, 0, 1, 1, NO_PATH, NO_PATH]);
    let second = &report[RECORD..];
    assert_eq!(placed(1, second, &rows), [NO_PATH, NO_PATH, 1, 1, NO_PATH, NO_PATH]);
}

#[test]
fn the_first_listed_path_wins() {
    let boxes =
        [(5, (0, 20)), (3, (10, 30)), (3, (0, 9)), (u64::MAX, (40, 40)), (8, (31, u64::MAX))];
    let report = boxes.map(|(number, ends)| record(number, &[ends])).concat();
    let rows = [0, 9, 10, 20, 21, 30, 31, 39, 40, 41, u64::MAX];
    assert_eq!(placed(1, &report, &rows), [5, 5, 5, 5, 3, 3, 8, 8, u64::MAX, 8, 8]);
}

#[test]
fn every_value_lies_in_its_interval() {
    let report = record(4, &[(1, 3), (7, 7), (0, u64::MAX)]);
    let (inside, outside) =
        ([[1, 7, 0], [3, 7, u64::MAX]], [[0, 7, 5], [4, 7, 5], [1, 6, 5], [1, 8, 5]]);
    assert_eq!(placed(3, &report, &inside.concat()), [4; 2]);
    assert_eq!(placed(3, &report, &outside.concat()), [NO_PATH; 4]);
    let eight = record(6, &[0, 1, 2, 3, 4, 5, 6, 7].map(|value| (value, value)));
    let rows = [[0, 1, 2, 3, 4, 5, 6, 7], [0, 1, 2, 3, 4, 5, 6, 8], [7, 6, 5, 4, 3, 2, 1, 0]];
    assert_eq!(placed(8, &eight, &rows.concat()), [6, NO_PATH, NO_PATH]);
}

#[test]
fn a_low_above_its_high_holds_no_row() {
    assert_eq!(placed(1, &record(2, &[(10, 5)]), &[0, 5, 7, 10, u64::MAX]), [NO_PATH; 5]);
}

#[test]
fn no_record_and_no_row() {
    assert_eq!(placed(8, &[], &[0; 16]), [NO_PATH; 2]);
    assert_eq!(placed(1, &record(0, &[(0, 9)]), &[]), []);
    assert_eq!(placed(1, &[], &[0; 1024]), [NO_PATH; 1024]);
}

#[test]
fn reports_that_are_refused() {
    let (one, two) = (record(0, &[(0, 9)]), record(1, &[(0, 9), (0, 9)]));
    for inputs in [0, 9, 1 << 32 | 1, u64::MAX] {
        assert_eq!(refusal(inputs, &[], &[], 0), BAD_RECORDS);
        assert_eq!(refusal(inputs, &one, &[], 0), BAD_RECORDS);
    }
    for length in [1, 512, 1023] {
        assert_eq!(refusal(1, &one[..length], &[5], 1), BAD_RECORDS);
    }
    assert_eq!(refusal(2, &one, &[5, 5], 1), BAD_RECORDS);
    assert_eq!(refusal(1, &[&one[..], &two].concat(), &[5], 1), BAD_RECORDS);
    // in both blocks: a word that is asked for or not, and the check
    for place in [0, 8 * 40, 511, 512, 512 + 8 * 40, 1023] {
        let mut changed = [&one[..], &one].concat();
        changed[RECORD + place] ^= 1;
        assert_eq!(refusal(1, &changed, &[5], 1), BAD_RECORDS);
    }
}

#[test]
fn rows_that_are_refused() {
    let report = record(0, &[(0, 9), (0, 9)]);
    assert_eq!(refusal(2, &report, &[5; 3], 1), BAD_ROWS);
    assert_eq!(refusal(2, &report, &[5; 3], 2), BAD_ROWS);
    assert_eq!(refusal(2, &report, &[5; 2 * 1025], 1025), BAD_ROWS);
    for answers in [0, 1, 3] {
        assert_eq!(refusal(2, &report, &[5; 4], answers), BAD_ROWS);
    }
    assert_eq!(refusal(2, &report, &[], 1), BAD_ROWS);
    assert_eq!(refusal(2, &[], &[5], 0), BAD_ROWS);
    assert_eq!(placed(2, &report, &[5; 2 * 1024]), [0; 1024]);
}

#[test]
fn the_report_is_asked_first() {
    let report = record(0, &[(0, 9), (0, 9)]);
    assert_eq!(refusal(0, &report, &[5; 3], 1), BAD_RECORDS);
    assert_eq!(refusal(1, &report, &[5; 1025], 1025), BAD_RECORDS);
    assert_eq!(refusal(2, &report[1..], &[5; 4], 1), BAD_RECORDS);
}

/// The number, and what the list for the answers, which came with 5 in each place, then holds.
fn answer(inputs: u64, report: &[u8], rows: &[u64], answer_words: usize) -> Vec<u64> {
    let mut answers = vec![5; answer_words];
    let number = place(inputs, report, rows, &mut answers);
    [&[number], &answers[..]].concat()
}

/// What antt computes in crates/reports/proofs/Examples.antt.
#[test]
fn the_examples_of_the_definitions() {
    let max = u64::MAX;
    let set = |report: &[u8], place: usize| {
        let mut changed = report.to_vec();
        changed[place] = 1;
        changed
    };
    let overlapping = [record(7, &[(0, 9)]), record(3, &[(5, 20)])].concat();
    let two_inputs =
        [(4, (6, 5)), (0, (5, 5)), (1, (6, max))].map(|(n, last)| record(n, &[(0, 9), last]));
    let two_inputs = two_inputs.concat();
    let both = [&overlapping[..], &two_inputs].concat();
    assert_eq!(answer(1, &overlapping, &[0, 5, 9, 10, 20, 21], 6), [0, 7, 7, 7, 3, 3, max]);
    assert_eq!(answer(1, &overlapping[RECORD..], &[9, 4], 2), [0, 3, max]);
    let rows = [9, 5, 9, 6, 10, 5, 0, 4, 3, max];
    assert_eq!(answer(2, &two_inputs, &rows, 5), [0, 0, 1, max, max, 1]);
    let eight = [0, 1, 2, 3, 4, 5, 6, 7];
    let report = record(6, &eight.map(|value| (value, value)));
    assert_eq!(
        answer(8, &report, &[&eight[..7], &[7], &eight[..7], &[8]].concat(), 2),
        [0, 6, max]
    );
    let job_a = [record(0, &[(0, 9)]), record(1, &[(10, 255)])].concat();
    assert_eq!(answer(1, &job_a, &[0, 9, 10, 255, 256], 5), [0, 0, 0, 1, 1, max]);
    assert_eq!(answer(3, &[], &[1, 2, 3], 1), [0, max]);
    assert_eq!(answer(1, &[], &[0; 1024], 1024)[..], [&[0][..], &[max; 1024]].concat());
    assert_eq!(answer(1, &overlapping, &[], 0), [0]);
    assert_eq!(answer(0, &[], &[], 0), [12]);
    assert_eq!(answer(9, &[], &[], 0), [12]);
    assert_eq!(answer(1, &overlapping[1..], &[0], 1), [12, 5]);
    assert_eq!(answer(2, &overlapping, &[0, 0], 1), [12, 5]);
    assert_eq!(answer(1, &both, &[0], 1), [12, 5]);
    assert_eq!(answer(1, &set(&overlapping, 1324), &[0], 1), [12, 5]);
    assert_eq!(answer(1, &set(&overlapping, 1836), &[0], 1), [12, 5]);
    assert_eq!(answer(2, &two_inputs, &[9, 5, 9], 1), [13, 5]);
    assert_eq!(answer(1, &[], &[0; 1025], 0), [13]);
    assert_eq!(answer(1, &overlapping, &[0, 1], 1), [13, 5]);
    assert_eq!(answer(1, &overlapping, &[], 1), [13, 5]);
    assert_eq!(answer(1, &set(&overlapping, 300), &[0, 1], 1), [12, 5]);
}

/// The number, and what a sheet of so many bytes, which came with # in each, then holds.
fn printed(inputs: u64, report: &[u8], sheet_bytes: usize) -> (u64, String) {
    let mut lent = vec![b'#'; sheet_bytes];
    let number = sheet(inputs, report, &mut lent);
    (number, String::from_utf8(lent).unwrap())
}

/// What an accepted call answers, on a sheet that has these lines of 72 columns and no more.
fn accepted(lines: &[&str]) -> (u64, String) {
    assert!(lines.iter().all(|line| line.len() == 72), "{lines:?}");
    (0, lines.iter().map(|line| format!("{line}\n")).collect())
}

/// What a refused call answers, on a sheet of so many bytes.
fn refused(number: u64, sheet_bytes: usize) -> (u64, String) {
    (number, "#".repeat(sheet_bytes))
}

const JOB_A_SHEET: [&str; 4] = [
    "                   0                      1                       0     ",
    "                   0                      0                       9     ",
    "                   1                      1                       0     ",
    "                   0                     10                     255     ",
];

#[test]
fn a_sheet_of_job_a() {
    let records = [record_of([0, 1, 0], &[(0, 9)]), record_of([1, 1, 0], &[(10, 255)])];
    assert_eq!(printed(1, &records.concat(), 292), accepted(&JOB_A_SHEET));
    let mut report = [0; 2 * RECORD];
    call(&job_a().code, &MEMORY, &[0, 255], 100, USUAL_TABLE_WORDS, &mut report, 0);
    assert_eq!(printed(1, &report, 292), accepted(&JOB_A_SHEET));
    assert_eq!(printed(1, &report[RECORD..], 146), accepted(&JOB_A_SHEET[2..]));
}

#[test]
fn numbers_of_all_lengths_on_a_sheet() {
    let highest = [
        "18446744073709551615   18446744073709551615    18446744073709551615     ",
        "                   0   18446744073709551615    18446744073709551615     ",
    ];
    assert_eq!(printed(1, &record_of([MAX; 3], &[(MAX, MAX)]), 146), accepted(&highest));
    let zeros = ["                   0                      0                       0     "; 2];
    assert_eq!(printed(1, &record_of([0; 3], &[(0, 0)]), 146), accepted(&zeros));
    let ends = [
        (0, 1),
        (9, 10),
        (99, 100),
        (999, 1000),
        (12345, 67890),
        (1_000_000_000, 10_000_000_000),
        (1_000_000_000_000_000_000, 9_999_999_999_999_999_999),
        (10_000_000_000_000_000_000, MAX),
    ];
    let lines = [
        "               12345                      9                       0     ",
        "                   0                      0                       1     ",
        "                   1                      9                      10     ",
        "                   2                     99                     100     ",
        "                   3                    999                    1000     ",
        "                   4                  12345                   67890     ",
        "                   5             1000000000             10000000000     ",
        "                   6    1000000000000000000     9999999999999999999     ",
        "                   7   10000000000000000000    18446744073709551615     ",
    ];
    assert_eq!(printed(8, &record_of([12345, 9, 0], &ends), 657), accepted(&lines));
}

#[test]
fn paths_with_a_reason_and_without_one_on_a_sheet() {
    let with_reason = record_of([7, 8, 5], &[(0, 9), (3600, MAX)]);
    let without = record_of([3, 1, 0], &[(10, 10), (0, 3599)]);
    let lines = [
        "                   7                      8                       5     ",
        "                   0                      0                       9     ",
        "                   1                   3600    18446744073709551615     ",
        "                   3                      1                       0     ",
        "                   0                     10                      10     ",
        "                   1                      0                    3599     ",
    ];
    assert_eq!(printed(2, &[with_reason, without].concat(), 438), accepted(&lines));
    // a foreign record's words as they stand: a reason with kind 1, and a low above its high
    let foreign = [
        "10000000000000000000                      1                       9     ",
        "                   0                     20                      10     ",
    ];
    let report = record_of([10_000_000_000_000_000_000, 1, 9], &[(20, 10)]);
    assert_eq!(printed(1, &report, 146), accepted(&foreign));
}

#[test]
fn a_longer_sheet_keeps_its_rest() {
    let report = record_of([1, 1, 0], &[(10, 255)]);
    let (number, text) = accepted(&JOB_A_SHEET[2..]);
    assert_eq!(printed(1, &report, 148), (number, text + "##"));
    assert_eq!(printed(3, &[], 0), (0, String::new()));
    assert_eq!(printed(3, &[], 3), (0, "###".to_string()));
}

#[test]
fn sheets_that_are_refused() {
    let report = record_of([1, 1, 0], &[(10, 255)]);
    assert_eq!(printed(1, &report, 145), refused(SHORT_SHEET, 145));
    assert_eq!(printed(1, &report, 0), refused(SHORT_SHEET, 0));
    // the report is asked first, here about the check of its second block
    let mut changed = report.clone();
    changed[RECORD - 1] ^= 1;
    for sheet_bytes in [145, 146] {
        assert_eq!(printed(0, &[], sheet_bytes), refused(BAD_RECORDS, sheet_bytes));
        assert_eq!(printed(2, &report, sheet_bytes), refused(BAD_RECORDS, sheet_bytes));
        assert_eq!(printed(1, &report[1..], sheet_bytes), refused(BAD_RECORDS, sheet_bytes));
        assert_eq!(printed(1, &changed, sheet_bytes), refused(BAD_RECORDS, sheet_bytes));
    }
}

#[test]
fn lengths_of_sheets() {
    // 2^64 - 2 is 73 times this
    let most_lines = 252_695_124_297_391_118;
    let last = 17_250_653_818_701_900_799;
    let lengths = [
        (1, 0, 0),
        (1, 1023, 0),
        (1, 1024, 146),
        (2, 3 * 1024 + 1023, 657),
        (8, 64 * 1024, 42048),
        (0, 1024, 73),
        (8, usize::MAX, 11_835_459_820_729_662_831),
        (13, usize::MAX, 18_410_715_276_690_586_626),
        (14, usize::MAX, MAX),
        (14, last, 18_446_744_073_709_551_030),
        (14, last + 1, MAX),
        (most_lines - 1, 1024, MAX - 1),
        (most_lines, 1024, MAX),
        (MAX, 1023, 0),
        (MAX, 1024, MAX),
    ];
    for (inputs, report_bytes, length) in lengths {
        assert_eq!(sheet_bytes(inputs, report_bytes), length, "{inputs} {report_bytes}");
    }
}

/// A job in blocks, without memory words.
fn blocks(code: &[u32], intervals: &[Interval], limit: u64, first: u64) -> Vec<u8> {
    let (code, intervals) = (code.to_vec(), intervals.to_vec());
    formats::job::Job { code, intervals, limit, first, memory: Vec::new() }.to_bytes()
}

type Counted = Result<Counts, u64>;

/// The counts of a program that reads an input into register 5, does the work and exits.
fn counted(work: &[u32], intervals: &[Interval]) -> Counted {
    count(&blocks(&reads(work), intervals, 3000, 0))
}

/// What is expected: exit values, exits that vary, other kinds and the total.
fn counts(values: &[(u64, u128)], varying: u128, kinds: &[(u64, u128)], total: u128) -> Counted {
    let (values, kinds) = (values.iter().copied().collect(), kinds.iter().copied().collect());
    Ok(Counts { values, varying, kinds, total })
}

#[test]
fn counts_of_job_a() {
    let count_a =
        |intervals: &[Interval], limit| count(&blocks(&job_a().code, intervals, limit, 0));
    assert_eq!(count_a(&[(0, 255)], 100), counts(&[(0, 246), (1, 10)], 0, &[], 256));
    assert_eq!(count_a(&[(9, 10)], 100), counts(&[(0, 1), (1, 1)], 0, &[], 2));
    assert_eq!(count_a(&[(10, 10)], 100), counts(&[(0, 1)], 0, &[], 1));
    // one path, and two paths
    assert_eq!(count_a(&[(0, 255)], 5), counts(&[], 0, &[(7, 256)], 256));
    assert_eq!(count_a(&[(0, 255)], 7), counts(&[], 0, &[(7, 256)], 256));
    // inputs that are not read have their choices too
    assert_eq!(count_a(&[(0, 255), (5, 7)], 100), counts(&[(0, 738), (1, 30)], 0, &[], 768));
    let more = [(0, 255), (1, 2), (0, 0), (7, 9)];
    assert_eq!(count_a(&more, 100), counts(&[(0, 1476), (1, 60)], 0, &[], 1536));
}

#[test]
fn a_value_on_paths_far_apart_is_counted_once() {
    // 10 - v < 1: 0..9, 10..10 and 11..255
    let work = [addi(6, 0, 10), sub(7, 6, 5), addi(28, 0, 1), sltu(10, 7, 28)];
    assert_eq!(counted(&work, &[(0, 255)]), counts(&[(0, 255), (1, 1)], 0, &[], 256));
}

#[test]
fn exits_that_vary_are_counted_together() {
    assert_eq!(counted(&[addi(10, 5, 0)], &[(0, 255)]), counts(&[], 256, &[], 256));
    assert_eq!(counted(&[addi(10, 5, 0)], &[(5, 5)]), counts(&[(5, 1)], 0, &[], 1));
    // 3..4 and 5..7; 3..4, and 5 alone, which has a fixed remainder
    let by_5 = [addi(6, 0, 5), remu(10, 5, 6)];
    assert_eq!(counted(&by_5, &[(3, 7)]), counts(&[], 5, &[], 5));
    assert_eq!(counted(&by_5, &[(3, 5)]), counts(&[(0, 1)], 2, &[], 3));
    // v where it is below 10, otherwise 5, which is no choice of the path that varies
    let work = [addi(6, 0, 10), sltu(7, 5, 6), addi(10, 0, 5), beq(7, 0, 8), addi(10, 5, 0)];
    assert_eq!(counted(&work, &[(0, 255)]), counts(&[(5, 246)], 10, &[], 256));
}

#[test]
fn each_other_kind_is_counted() {
    let ends: [(u64, &[u32]); 7] = [
        (BAD_PC, &[jal(0, 6)]),
        (BAD_WORD, &[0]),
        (BAD_ADDRESS, &[ld(10, 4, 0)]),
        (BAD_CALL, &[addi(17, 0, 64), ecall()]),
        (STEP_LIMIT, &[jal(0, 0)]),
        (NOT_FOLLOWED, &[add(10, 5, 5)]),
        (TRACE_FULL, &[addi(8, 8, 1), jal(0, -4)]),
    ];
    for (kind, end) in ends {
        // values below 10 end so, and the others exit with 0
        let past = 4 * (1 + end.len()) as i64;
        let work = [&[addi(6, 0, 10), sltu(10, 5, 6), beq(10, 0, past)], end].concat();
        let expected = counts(&[(0, 246)], 0, &[(kind, 10)], 256);
        assert_eq!(counted(&work, &[(0, 255)]), expected);
        let expected = counts(&[(0, 29_990)], 0, &[(kind, 10)], 30_000);
        assert_eq!(counted(&work, &[(0, 29_999)]), expected);
    }
}

#[test]
fn the_program_has_1024_entries() {
    // 255 turns of four entries, one for their number, and the others for the exit
    let turn = [addi(8, 8, 1), addi(9, 0, 0), addi(9, 0, 0), addi(9, 0, 0)];
    let turns = [&[addi(7, 0, 255)], &turn[..], &[beq(8, 7, 8), jal(0, -20)]].concat();
    let count_of = |rest: &[u32]| count(&blocks(&[&turns, rest].concat(), &[(0, 9)], 2000, 0));
    let few = [&[addi(10, 0, 5), addi(9, 0, 0)], &closing()[..]].concat();
    assert_eq!(count_of(&few), counts(&[(5, 10)], 0, &[], 10));
    let one_more = [&[addi(10, 0, 5), addi(9, 0, 0), addi(9, 0, 0)], &closing()[..]].concat();
    assert_eq!(count_of(&one_more), counts(&[], 0, &[(9, 10)], 10));
}

#[test]
fn a_job_without_inputs_has_one_choice() {
    let count_of = |code: &[u32]| count(&blocks(code, &[], 100, 0));
    assert_eq!(count_of(&closing()), counts(&[(0, 1)], 0, &[], 1));
    assert_eq!(count_of(&[0]), counts(&[], 0, &[(4, 1)], 1));
    // without an input left the read gives 0
    assert_eq!(count_of(&reads(&[])), counts(&[(0, 1)], 0, &[], 1));
}

#[test]
fn two_inputs() {
    // the second input goes to address 8 and to register 7
    let second = [addi(10, 0, 0), addi(11, 0, 8), ecall(), ld(7, 8, 0)];
    // a < 2 exits with b, otherwise with 7
    let work = [addi(6, 0, 2), sltu(28, 5, 6), addi(10, 0, 7), beq(28, 0, 8), addi(10, 7, 0)];
    let work = [&second[..], &work].concat();
    assert_eq!(counted(&work, &[(0, 3), (0, 4)]), counts(&[(7, 10)], 10, &[], 20));
    // where b has one value it is fixed
    assert_eq!(counted(&work, &[(0, 3), (7, 7)]), counts(&[(7, 4)], 0, &[], 4));
    // a < 3 and then b < 2 exit with 1, otherwise with 0
    let both = [addi(6, 0, 3), sltu(28, 5, 6), addi(6, 0, 2), sltu(29, 7, 6), mul(10, 28, 29)];
    let both = [&second[..], &both].concat();
    assert_eq!(counted(&both, &[(0, 9), (0, 9)]), counts(&[(0, 94), (1, 6)], 0, &[], 100));
}

#[test]
fn boxes_of_2_to_the_64_choices_are_refused() {
    let less = |intervals: &[Interval]| counted(&[addi(6, 0, 10), sltu(10, 5, 6)], intervals);
    let (max, half) = (MAX as u128, 1 << 32);
    assert_eq!(less(&[(0, MAX)]), Err(TOO_MANY_CHOICES));
    assert_eq!(less(&[(0, MAX - 1)]), counts(&[(0, max - 10), (1, 10)], 0, &[], max));
    assert_eq!(less(&[(1, MAX)]), counts(&[(0, max - 9), (1, 9)], 0, &[], max));
    assert_eq!(less(&[(0, 0), (0, MAX)]), Err(TOO_MANY_CHOICES));
    assert_eq!(less(&[(0, 0), (1, MAX)]), counts(&[(1, max)], 0, &[], max));
    // 2^32 by 2^32, by one less, and one more by one less
    assert_eq!(less(&[(0, half - 1), (0, half - 1)]), Err(TOO_MANY_CHOICES));
    let total = (1_u128 << 64) - (1 << 32);
    let ten = 10 * ((1 << 32) - 1);
    let expected = counts(&[(0, total - ten), (1, ten)], 0, &[], total);
    assert_eq!(less(&[(0, half - 1), (0, half - 2)]), expected);
    let expected = counts(&[(0, max - ten), (1, ten)], 0, &[], max);
    assert_eq!(less(&[(0, half), (0, half - 2)]), expected);
    // a third of 2^64 - 1 three times, and one value more: 2^64 + 2 choices
    let third = MAX / 3;
    let expected = counts(&[(0, max - 30), (1, 30)], 0, &[], max);
    assert_eq!(less(&[(0, third - 1), (5, 7)]), expected);
    assert_eq!(less(&[(0, third), (5, 7)]), Err(TOO_MANY_CHOICES));
    // eight inputs: 2^64, then 255 * 2^56, and 2^512
    let mut eight = [(0, 255); 8];
    assert_eq!(less(&eight), Err(TOO_MANY_CHOICES));
    eight[7].1 = 254;
    let (total, ten) = (255 << 56, 2550 << 48);
    assert_eq!(less(&eight), counts(&[(0, total - ten), (1, ten)], 0, &[], total));
    assert_eq!(less(&[(0, MAX); 8]), Err(TOO_MANY_CHOICES));
}

/// Counts from 0 up to the input, and exits with a word's result on it in register 6: a path each.
fn stepped(word: u32) -> Vec<u32> {
    vec![addi(7, 0, 2), beq(5, 6, 12), addi(6, 6, 1), jal(0, -8), word]
}

#[test]
fn more_than_64_paths_are_refused() {
    let each: Vec<(u64, u128)> = (0..64).map(|value| (value, 1)).collect();
    assert_eq!(counted(&stepped(addi(10, 6, 0)), &[(0, 63)]), counts(&each, 0, &[], 64));
    assert_eq!(counted(&stepped(addi(10, 6, 0)), &[(0, 64)]), Err(TOO_MANY_PATHS));
    // even and odd numbers, 2 minus a number, and a hundred choices on each path
    let remainders = counts(&[(0, 32), (1, 32)], 0, &[], 64);
    assert_eq!(counted(&stepped(remu(10, 6, 7)), &[(0, 63)]), remainders);
    let falling: Vec<(u64, u128)> = (0..=2).chain(MAX - 60..=MAX).map(|value| (value, 1)).collect();
    assert_eq!(counted(&stepped(sub(10, 7, 6)), &[(0, 63)]), counts(&falling, 0, &[], 64));
    let each: Vec<(u64, u128)> = (0..63).map(|value| (value, 100)).collect();
    let two = [(0, 62), (1, 100)];
    assert_eq!(counted(&stepped(addi(10, 6, 0)), &two), counts(&each, 0, &[], 6300));
    assert_eq!(counted(&stepped(addi(10, 6, 0)), &[(0, 64), (1, 100)]), Err(TOO_MANY_PATHS));
}

#[test]
fn the_size_is_asked_before_the_paths() {
    assert_eq!(counted(&stepped(addi(10, 6, 0)), &[(0, 64), (0, MAX)]), Err(TOO_MANY_CHOICES));
    assert_eq!(counted(&stepped(addi(10, 6, 0)), &[(0, MAX)]), Err(TOO_MANY_CHOICES));
    assert_eq!(counted(&stepped(addi(10, 6, 0)), &[(1, MAX)]), Err(TOO_MANY_PATHS));
}

#[test]
fn the_first_path_named_changes_no_count() {
    let from = |first| count(&blocks(&job_a().code, &[(0, 255)], 100, first));
    for first in [0, 1, 2, 64, (1 << 32) - 1] {
        assert_eq!(from(first), counts(&[(0, 246), (1, 10)], 0, &[], 256));
    }
    assert_eq!(from(1 << 32), Err(8));
    let large = blocks(&job_a().code, &[(0, MAX)], 100, 1 << 32);
    assert_eq!(count(&large), Err(8));
}

/// A job with these words in its header and right checks; otherwise it has the inputs 0..0 and
/// 0..0, and its code is one word that is no instruction.
fn header_with(words: &[(usize, u64)]) -> Vec<u8> {
    let mut header = [0; PAYLOAD_WORDS];
    header[..4].copy_from_slice(&[1, 1, 2, 100]);
    words.iter().for_each(|&(place, word)| header[place] = word);
    [to_bytes(&header), to_bytes(&[0])].concat()
}

#[test]
fn the_questions_on_a_job_come_in_order() {
    assert_eq!(count(&header_with(&[])), counts(&[], 0, &[(4, 1)], 1));
    // a low of the second input, and a high of the first
    let words = [(1, 0), (2, 9), (6, 1), (3, 0), (21, 513), (4, 1 << 32), (0, 2), (13, MAX)];
    let numbers = [1, 2, 3, 4, 6, 8, BAD_FORM, TOO_MANY_CHOICES];
    for (place, &number) in numbers.iter().enumerate() {
        assert_eq!(count(&header_with(&words[place..=place])), Err(number));
        assert_eq!(count(&header_with(&words[place..])), Err(number));
    }
    for place in (7..13).chain(15..21).chain(22..63) {
        assert_eq!(count(&header_with(&[(place, 1)])), Err(BAD_FORM), "unused word {place}");
    }
    let mut job = header_with(&[(1, 0), (0, 2)]);
    job[600] ^= 1;
    assert_eq!(count(&job), Err(BAD_CHECK));
    job.pop();
    assert_eq!(count(&job), Err(BAD_BLOCKS));
    assert_eq!(count(&[]), Err(BAD_BLOCKS));
    assert_eq!(count(&[0; 20 * 512]), Err(BAD_BLOCKS));
    assert_eq!(count(&[0; 19 * 512]), Err(BAD_CHECK));
}

/// The number by which the tool refuses a job, or what it and the oracle read.
fn read_alike(bytes: &[u8]) -> Result<(), u64> {
    let tool = formats::job::read(bytes);
    let read = |job: Job| (job.code, job.intervals, job.limit, job.memory);
    let expected = tool.map(|job| (job.code, job.intervals, job.limit, job.memory));
    assert_eq!(read_job(bytes).map(read), expected);
    expected.map(|_| ())
}

#[test]
fn jobs_are_read_as_the_tool_reads_them() {
    let mut random = Random(3);
    let mut numbers = BTreeSet::new();
    for _ in 0..20_000 {
        let words = [(0, 1), (1, 126), (2, 8), (3, 7), (4, 3), (5, 1), (13, 5), (20, 9), (21, 63)];
        let mut header = [0; PAYLOAD_WORDS];
        words.iter().for_each(|&(place, word)| header[place] = word);
        for _ in 0..random.below(4) {
            let place = random.pick(&[0, 1, 2, 3, 4, 5, 12, 13, 20, 21, 22, 62]);
            header[place] = random.pick(&[0, 1, 2, 8, 9, 125, 127, 512, 513, 1024, 1025, MAX]);
        }
        let rest: Vec<u64> = (0..PAYLOAD_WORDS * random.below(4)).map(|_| random.next()).collect();
        let read = read_alike(&[to_bytes(&header), to_bytes(&rest)].concat());
        numbers.insert(read.err().unwrap_or(0));
    }
    assert_eq!(numbers.into_iter().collect::<Vec<_>>(), [0, 1, 2, 3, 4, 6, 8, 11]);
}

#[test]
fn both_ways_of_counting_agree() {
    let mut random = Random(4);
    let (mut kinds, mut both) = (BTreeSet::new(), [0; 2]);
    for _ in 0..5000 {
        let job = random_job(&mut random);
        let paths = listing(&job);
        assert_eq!(listing_by_corners(&job, usize::MAX), paths);
        let counts = count_choices(&job, &paths);
        assert_eq!(counts, count_boxes(&paths));
        kinds.extend(counts.kinds.into_keys());
        both[0] += (counts.varying > 0) as u64;
        both[1] += counts.values.values().any(|&choices| choices > 1) as u64;
    }
    assert_eq!(kinds.into_iter().collect::<Vec<_>>(), [3, 4, 5, 6, 7, 8, 9]);
    assert!(both.iter().all(|&count| count > 50), "{both:?}");
}

#[test]
fn the_first_paths_of_a_listing() {
    let job = job(&reads(&stepped(addi(10, 6, 0))), 0, 99, 1000);
    let paths = listing_by_corners(&job, usize::MAX);
    assert_eq!((paths.len(), &paths), (100, &listing(&job)));
    assert_eq!(listing_by_corners(&job, 65), paths[..65]);
}

/// Values of a job with these words of code and memory, and the inputs 0..255 and 3..7.
fn values(code: &[u32], memory: &[u64]) -> Values {
    let (code, intervals) = (code.to_vec(), vec![0, 255, 3, 7]);
    let memory = [memory, &MEMORY[memory.len()..]].concat();
    Values { code, memory, intervals, limit: 100, first: 0 }
}

/// The answer, and what a space of so many bytes, which came with 0xEE in each, then holds.
fn written(values: &Values, space_bytes: usize) -> ((u64, u64), Vec<u8>) {
    let mut space = vec![0xEE; space_bytes];
    (write_job(values, &mut space), space)
}

/// The words of a job that is written to a space of its length.
fn job_words(values: &Values, blocks: usize) -> Vec<u64> {
    let (answer, space) = written(values, 512 * blocks);
    assert_eq!(answer, (0, 512 * blocks as u64));
    space.chunks(8).map(word).collect()
}

/// A call that writes nothing.
fn assert_refused(values: &Values, space_bytes: usize, number: u64) {
    assert_eq!(written(values, space_bytes), ((number, 0), vec![0xEE; space_bytes]));
}

#[test]
fn job_a_written() {
    let (code, memory) = (job_a().code, MEMORY.to_vec());
    let values = Values { code, memory, intervals: vec![0, 255], limit: 100, first: 0 };
    let mut expected = [0; 128];
    expected[..4].copy_from_slice(&[1, 8, 1, 100]);
    (expected[13], expected[63]) = (255, 0xF1FE000000000004);
    let pairs = [0x0080061303F00893, 0x0000328300000073, 0x0062B53300A00313, 0x0000007305D00893];
    expected[64..68].copy_from_slice(&pairs);
    expected[127] = 0x6826332BE93482A9;
    assert_eq!(job_words(&values, 2), expected);
    // the low byte of a word first
    let (_, space) = written(&values, 1024);
    assert_eq!(space[512..520], [0x93, 0x08, 0xF0, 0x03, 0x13, 0x06, 0x80, 0x00]);
    assert_eq!(space, blocks(&job_a().code, &[(0, 255)], 100, 0));
}

#[test]
fn every_word_of_a_job_has_its_place() {
    let intervals = (0..8).flat_map(|input| [10 + input, 20 + input]).collect();
    let memory = [&[MAX; 3][..], &[0; 62], &[7], &[0; 446]].concat();
    let code = vec![0x11111111, 0x22222222, 0xFFFFFFFF];
    let values = Values { code, memory, intervals, limit: 65_536, first: 0xFFFF_FFFF };
    let words = job_words(&values, 4);
    assert_eq!(words[..5], [1, 3, 8, 65_536, 0xFFFF_FFFF]);
    assert_eq!(words[5..13], [10, 11, 12, 13, 14, 15, 16, 17]);
    assert_eq!(words[13..21], [20, 21, 22, 23, 24, 25, 26, 27]);
    assert_eq!((words[21], &words[22..63]), (66, &[0; 41][..]));
    assert_eq!(words[63], 0xC808100004000801);
    // the last word of code has a half of its own
    assert_eq!(words[64..66], [0x2222222211111111, 0x00000000FFFFFFFF]);
    assert_eq!((&words[66..127], words[127]), (&[0; 61][..], 0xA8888888A4444444));
    assert_eq!(words[128..191], [&[MAX; 3][..], &[0; 60]].concat());
    assert_eq!(words[192..255], [&[0, 0, 7][..], &[0; 60]].concat());
    // of three words MAX and of 7 as the third word alone
    assert_eq!([words[191], words[255]], [0x1000000000000000, 0xF000000000000000]);
}

/// The words of blocks without their checks.
fn without_checks(words: &[u64]) -> Vec<u64> {
    words.chunks(64).flat_map(|block| &block[..63]).copied().collect()
}

#[test]
fn as_few_blocks_as_hold_the_words() {
    let code = [(1, 1), (2, 1), (125, 1), (126, 1), (127, 2), (252, 2), (253, 3), (1024, 9)];
    let memory = [(0, 0), (1, 1), (62, 1), (63, 1), (64, 2), (126, 2), (127, 3), (512, 9)];
    for ((code_words, code_blocks), (memory_words, memory_blocks)) in
        code.into_iter().flat_map(|code| memory.map(|memory| (code, memory)))
    {
        let values = values(&vec![115; code_words], &vec![5; memory_words]);
        let words = job_words(&values, 1 + code_blocks + memory_blocks);
        assert_eq!([words[1], words[21]], [code_words as u64, memory_words as u64]);
        let (pairs, half) = (vec![115 << 32 | 115; code_words / 2], vec![115; code_words % 2]);
        let mut expected = [pairs, half].concat();
        expected.resize(63 * code_blocks, 0);
        expected.extend(vec![5; memory_words]);
        expected.resize(63 * (code_blocks + memory_blocks), 0);
        assert_eq!(without_checks(&words[64..]), expected);
    }
}

#[test]
fn zeros_at_the_end_alone_are_left_out() {
    let given = |memory: &[u64], blocks| {
        let words = job_words(&values(&[115], memory), blocks);
        let mut found = without_checks(&words[128..]);
        found.resize(512, 0);
        assert_eq!(found, [memory, &MEMORY[memory.len()..]].concat());
        words[21]
    };
    assert_eq!(given(&[], 2), 0);
    assert_eq!(given(&[0; 512], 2), 0);
    assert_eq!(given(&[0, 0, 1, 0], 3), 3);
    assert_eq!(given(&[4, 0, 0, 1 << 63, 0, 0, 1 << 32], 3), 7);
    assert_eq!(given(&[&[0; 62][..], &[9]].concat(), 3), 63);
    assert_eq!(given(&[&[8][..], &[0; 62], &[9, 0]].concat(), 4), 64);
    assert_eq!(given(&[&[0; 511][..], &[MAX]].concat(), 11), 512);
    assert_eq!(given(&[&[3; 510][..], &[1, 0]].concat(), 11), 511);
}

/// Changes that bring a no, and its number.
const NOES: [(u64, fn(&mut Values)); 16] = [
    (1, |values| values.code.clear()),
    (1, |values| values.code.resize(1025, 0)),
    (2, |values| values.intervals.truncate(3)),
    (2, |values| values.intervals.resize(17, 9)),
    (2, |values| values.intervals.resize(18, 9)),
    (3, |values| values.intervals[0] = 256),
    (3, |values| values.intervals[3] = 2),
    (4, |values| values.limit = 0),
    (4, |values| values.limit = 65_537),
    (4, |values| values.limit = MAX),
    (6, |values| values.memory.clear()),
    (6, |values| values.memory.truncate(511)),
    (6, |values| values.memory.push(0)),
    (6, |values| values.memory.push(1)),
    (8, |values| values.first = 1 << 32),
    (8, |values| values.first = MAX),
];

/// Values that would be written in three blocks, with some changes.
fn changed(changes: &[fn(&mut Values)]) -> Values {
    let mut values = values(&[115; 3], &[5]);
    changes.iter().for_each(|change| change(&mut values));
    values
}

#[test]
fn the_first_no_of_the_values_decides() {
    for (place, &(number, change)) in NOES.iter().enumerate() {
        // the space is asked last
        for space_bytes in [1536, 1535, 0] {
            assert_refused(&changed(&[change]), space_bytes, number);
        }
        for &(_, later) in NOES[place..].iter().filter(|(later, _)| *later > number) {
            assert_refused(&changed(&[later, change]), 1536, number);
        }
    }
}

#[test]
fn bounds_are_written() {
    let mut most = values(&[115; 1024], &[1; 512]);
    (most.intervals, most.limit, most.first) = (vec![MAX; 16], 65_536, (1 << 32) - 1);
    let words = job_words(&most, 19);
    assert_eq!(words[..5], [1, 1024, 8, 65_536, (1 << 32) - 1]);
    let least = Values { intervals: vec![], limit: 1, ..values(&[0], &[]) };
    assert_eq!(job_words(&least, 2)[..5], [1, 1, 0, 1, 0]);
}

#[test]
fn spaces_that_are_short_exact_and_long() {
    let values = values(&[115; 3], &[5]);
    for bytes in [0, 1, 511, 512, 1024, 1535] {
        assert_refused(&values, bytes, 14);
    }
    let (answer, exact) = written(&values, 1536);
    assert_eq!(answer, (0, 1536));
    for more in [1, 7, 512, 10_000] {
        let longer = [&exact[..], &vec![0xEE; more]].concat();
        assert_eq!(written(&values, 1536 + more), ((0, 1536), longer));
    }
}

#[test]
fn jobs_that_mean_the_same_are_written_alike() {
    let values = Values { first: 5, ..values(&[115; 3], &[5, 0, 6]) };
    let (_, job) = written(&values, 1536);
    assert_eq!(read_values(&job), Ok(values.clone()));
    for given in [3, 4, 63, 64, 511, 512] {
        let (code, intervals) = (vec![115; 3], vec![(0, 255), (3, 7)]);
        let memory = values.memory[..given].to_vec();
        let form = formats::job::Job { code, intervals, limit: 100, first: 5, memory }.to_bytes();
        assert_eq!(read_values(&form), Ok(values.clone()));
        assert_eq!(form == job, given == 3);
    }
    let mut damaged = job.clone();
    damaged[600] ^= 1;
    assert_eq!(read_values(&damaged), Err(BAD_CHECK));
    assert_eq!(read_values(&job[..1024]), Err(BAD_FORM));
}

#[test]
fn jobs_are_written_as_the_tool_writes_them() {
    let mut random = Random(5);
    for _ in 0..2000 {
        let inputs = programs::input_count(&mut random);
        let intervals = programs::small_box(&mut random, inputs, 1000);
        let (code, limit) =
            (programs::program(&mut random, inputs), 1 + random.below(65_536) as u64);
        let mut memory: Vec<u64> =
            (0..random.below(513)).map(|_| random.pick(&[0, 1, MAX])).collect();
        let whole = [&memory[..], &MEMORY[memory.len()..]].concat();
        memory.truncate(memory.iter().rposition(|&word| word != 0).map_or(0, |last| last + 1));
        let first = random.next() >> 32;
        let flat = formats::blocks::flat(&intervals);
        let values = Values { code: code.clone(), memory: whole, intervals: flat, limit, first };
        let job = formats::job::Job { code, intervals, limit, first, memory }.to_bytes();
        assert_eq!(written(&values, job.len()), ((0, job.len() as u64), job.clone()));
        assert_eq!(read_values(&job), Ok(values));
    }
}
