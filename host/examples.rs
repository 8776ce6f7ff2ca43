//! Small jobs, each with what it shows: listings.rs writes some of them for antt to compute, and
//! explore_test.rs runs them all.

use crate::oracle::{Interval, Job};
use formats::assembler::{self, *};

const MAX: u64 = u64::MAX;
const HALF: u64 = 1 << 63;
/// The highest value whose product by 60 is below 2^64.
const SIXTIETH: u64 = MAX / 60;

// ---------------------------------------------------------------------------------------------
// Examples: a job and its name.

pub struct Example {
    pub name: &'static str,
    pub job: Job,
}

/// A job with no inputs, no memory words, and room for what small programs do.
fn example(name: &'static str, code: &[u32]) -> Example {
    let (memory, intervals) = (Vec::new(), Vec::new());
    Example { name, job: Job { code: code.to_vec(), memory, limit: 20, intervals, entries: 40 } }
}

impl Example {
    /// With one more input.
    fn over(mut self, low: u64, high: u64) -> Example {
        self.job.intervals.push((low, high));
        self
    }

    fn memory(mut self, words: &[u64]) -> Example {
        self.job.memory = words.to_vec();
        self
    }

    fn limit(mut self, limit: u64) -> Example {
        self.job.limit = limit;
        self
    }

    fn entries(mut self, entries: u64) -> Example {
        self.job.entries = entries;
        self
    }
}

fn reading(name: &'static str, low: u64, high: u64, work: &[u32]) -> Example {
    example(name, &reads(work)).over(low, high)
}

/// Reads the next input to address 8 and loads it into register 7.
fn second_read() -> [u32; 4] {
    [addi(10, 0, 0), addi(11, 0, 8), ecall(), ld(7, 8, 0)]
}

/// A program with two inputs, in registers 5 and 7.
fn reading_two(name: &'static str, first: Interval, second: Interval, work: &[u32]) -> Example {
    let code = reads(&[&second_read(), work].concat());
    example(name, &code).over(first.0, first.1).over(second.0, second.1)
}

/// v < 10: document 01's Job A, on a smaller box.
fn job_a(name: &'static str) -> Example {
    example(name, &assembler::job_a().code).over(5, 14)
}

// ---------------------------------------------------------------------------------------------
// The examples, by what they show.

/// Kinds 1 and 3 to 7.
fn plain_ends() -> Vec<Example> {
    let last_word = [&[sd(2, -8, 2), ld(10, -8, 2)][..], &closing()].concat();
    let bad_address = [&[addi(11, 0, 4)][..], &opening()].concat();
    let bad_file = [&[addi(10, 0, 1)][..], &bad_address].concat();
    vec![
        reading("exit with an open value", 3, 6, &[addi(10, 5, 0)]),
        example("exit with no inputs", &closing()),
        example("pc runs beyond the code", &[addi(5, 0, 1)]),
        example("JAL to half a word", &[jal(1, 6)]),
        example("JAL below address 0", &[jal(0, -4)]),
        example("JALR clears bit 0 of its target alone", &[jalr(5, 7, 0), ecall()]),
        example("a word of no row", &[addi(5, 0, 1), 0]),
        example("EBREAK matches no row", &[0x00100073]),
        example("LD from an address that is no multiple of 8", &[ld(5, 12, 0)]),
        example("SD above the last word", &[sd(5, 0, 2)]),
        example("SD and LD at the last word", &last_word),
        example("read to a bad address", &bad_address).over(3, 6),
        example("read to a bad address with no input left", &bad_address),
        example("a call of another number", &[addi(17, 0, 64), ecall()]),
        example("read of 4 bytes", &[addi(17, 0, 63), addi(12, 0, 4), ecall()]).over(3, 6),
        example("read from file 1 to a bad address", &bad_file),
        job_a("the limit before the fork").limit(5),
        job_a("the limit after the fork").limit(7),
        example("the limit comes before a bad pc", &[addi(5, 0, 1)]).limit(1),
        example("a loop that writes nothing", &[jal(0, 0)]).limit(12).entries(1),
    ]
}

/// Reasons 1 and 4 to 6.
fn operand_reasons() -> Vec<Example> {
    let times_half = [ld(6, 16, 0), mul(10, 5, 6)];
    vec![
        reading("ADD of one open register twice", 3, 6, &[add(10, 5, 5)]),
        reading("MUL of one open register twice", 3, 6, &[mul(10, 5, 5)]),
        reading_two("SLTU of two inputs", (3, 4), (4, 5), &[sltu(10, 5, 7)]),
        reading("DIVU by an open divisor", 3, 6, &[divu(10, 5, 5)]),
        reading("REMU by an open divisor", 0, 3, &[remu(10, 0, 5)]),
        reading("0..10 mod 5", 0, 10, &[addi(6, 0, 5), remu(10, 5, 6)]),
        reading("MUL by 2^63 with three quotients", 0, 4, &times_half).memory(&[0, 0, HALF]),
        reading("LD with an open base", 0, 3, &[ld(10, 4, 5)]),
        reading("SD with an open base", 0, 3, &[sd(5, 0, 5)]),
        reading("JALR with an open base", 0, 3, &[jalr(0, 0, 5)]),
    ]
}

/// Reason 7.
fn call_reasons() -> Vec<Example> {
    vec![
        reading("an open call number", 62, 64, &[addi(17, 5, 0), ecall()]),
        reading("read from an open file", 0, 2, &[addi(10, 5, 0), ecall()]),
        reading("read to an open address", 0, 2, &[addi(10, 0, 0), addi(11, 5, 0), ecall()]),
        reading("read of an open count from file 8", 7, 9, &[addi(12, 5, 0), ecall()]),
        reading("exit with open registers 11 and 12", 7, 9, &[addi(11, 5, 0), addi(12, 5, 0)]),
    ]
}

/// Forks where the wrap of a sum or a difference changes.
fn sum_forks() -> Vec<Example> {
    vec![
        reading("ADDI wraps: v + 5", MAX - 7, MAX, &[addi(10, 5, 5)]),
        reading("ADDI wraps for every value: v + 5", MAX - 3, MAX, &[addi(10, 5, 5)]),
        reading("ADDI of a negative number: v - 3", 0, 5, &[addi(10, 5, -3)]),
        reading("ADD with the open operand first", 0, 5, &[addi(6, 0, -3), add(10, 5, 6)]),
        reading("ADD with the open operand second", 0, 5, &[addi(6, 0, -3), add(10, 6, 5)]),
        reading("SUB with the open operand first", 0, 5, &[addi(6, 0, 3), sub(10, 5, 6)]),
        reading("SUB with the open operand second", 0, 5, &[addi(6, 0, 3), sub(10, 6, 5)]),
        reading("fixed sums wrap with no fork", 5, 5, &[addi(6, 0, -3), add(10, 5, 6)]),
        reading("a fixed input added to itself", 5, 5, &[add(10, 5, 5)]),
    ]
}

/// Forks where a quotient changes.
fn product_forks() -> Vec<Example> {
    let halves = [0, 0, HALF];
    let half_first = [ld(6, 16, 0), mul(10, 6, 5)];
    let zero_base = [mul(6, 5, 0), ld(10, 16, 6)];
    let fixed_quotient = [addi(6, 0, 4), divu(7, 5, 6), add(10, 7, 5)];
    vec![
        reading("MUL by 2^63", 0, 3, &[ld(6, 16, 0), mul(10, 5, 6)]).memory(&halves),
        reading("MUL by 2, the wrap alone", HALF - 2, HALF, &[addi(6, 0, 2), mul(10, 5, 6)]),
        reading("MUL with the power of two first", 1, 2, &half_first).memory(&halves),
        reading("MUL by 1", 3, 6, &[addi(6, 0, 1), mul(10, 6, 5)]),
        reading("MUL by 0 is fixed, and a base", 3, 6, &zero_base).memory(&halves),
        reading("3..6 mod 5", 3, 6, &[addi(6, 0, 5), remu(10, 5, 6)]),
        reading("3..7 mod 5", 3, 7, &[addi(6, 0, 5), remu(10, 5, 6)]),
        reading("5..9 mod 5 has one piece", 5, 9, &[addi(6, 0, 5), remu(10, 5, 6)]),
        reading("DIVU by 4 does not fork", 3, 12, &[addi(6, 0, 4), divu(10, 5, 6)]),
        reading("DIVU whose result is fixed", 4, 7, &fixed_quotient),
    ]
}

/// Forks where a comparison changes.
fn comparison_forks() -> Vec<Example> {
    let equal = |constant: i64| [addi(6, 0, constant), beq(5, 6, 8), addi(10, 0, 1)];
    let equal_second = [addi(6, 0, 5), beq(6, 5, 8), addi(10, 0, 1)];
    let falling = [addi(6, 0, 10), sub(7, 6, 5), addi(28, 0, 1), sltu(10, 7, 28)];
    vec![
        job_a("SLTU with the open operand first"),
        reading("SLTU with the open operand second", 3, 8, &[addi(6, 0, 5), sltu(10, 6, 5)]),
        reading("v < 0 has one piece", 0, 5, &[sltu(10, 5, 0)]),
        reading("BEQ with three pieces", 3, 7, &equal(5)),
        reading("BEQ with the open operand second", 3, 7, &equal_second),
        reading("BEQ with equal and greater", 3, 7, &equal(3)),
        reading("BEQ with less and equal", 3, 7, &equal(7)),
        reading("BEQ with one piece", 3, 7, &equal(9)),
        reading("BEQ of fixed values", 5, 5, &equal(5)),
        reading("10 - v < 1: pieces in order of the input", 7, 13, &falling),
    ]
}

/// Register 0, and the results of LUI, JAL and JALR.
fn register_zero() -> Vec<Example> {
    let upper = [&[lui(0, 5), lui(10, 0x80001)][..], &closing()].concat();
    let links = [&[jal(1, 8), ecall(), jalr(1, 8, 1)][..], &closing()].concat();
    vec![
        reading("ADDI into register 0 does not fork", MAX - 2, MAX, &[addi(0, 5, 5)]),
        reading("ADD into register 0 of open values", 3, 6, &[add(0, 5, 5)]),
        reading("MUL into register 0 by 3", 3, 6, &[addi(6, 0, 3), mul(0, 5, 6)]),
        reading("DIVU into register 0 by an open divisor", 0, 3, &[divu(0, 5, 5)]),
        reading("REMU into register 0 by 0", 3, 6, &[remu(0, 5, 0)]),
        reading("SLTU into register 0 does not fork", 3, 6, &[addi(6, 0, 5), sltu(0, 5, 6)]),
        example("LUI into register 0, and below 0", &upper),
        example("LD into register 0 from a bad address", &[ld(0, 4, 0)]),
        example("JAL and JALR link", &links),
    ]
}

/// None to three inputs, read or not.
fn inputs() -> Vec<Example> {
    let both_less = [addi(6, 0, 5), sltu(28, 5, 6), sltu(10, 7, 6)];
    let second_first = [addi(6, 0, 5), sltu(28, 7, 6), sltu(10, 5, 6)];
    vec![
        reading_two("two inputs, the first cut first", (4, 5), (3, 6), &both_less),
        reading_two("two inputs, the second cut first", (4, 5), (3, 6), &second_first),
        reading_two("a fixed input beside an open one", (4, 4), (3, 6), &[add(10, 5, 7)]),
        job_a("the second input is not read").over(2, 4),
        example("three inputs, none read", &closing()).over(1, 2).over(3, 3).over(4, 5),
        reading_two("three inputs, two read", (4, 5), (3, 4), &[addi(10, 7, 2)]).over(8, 9),
        reading("read with no input left", 3, 6, &[addi(10, 0, 0), ecall(), ld(7, 0, 0)]),
        example("read with no inputs", &reads(&[])).memory(&[7]),
    ]
}

/// Memory.
fn memory() -> Vec<Example> {
    let narrowed = [sd(5, 24, 0), addi(6, 0, 5), sltu(7, 5, 6), ld(10, 24, 0)];
    vec![
        reading("SD and LD of an open value", 3, 6, &[sd(5, 24, 0), ld(10, 24, 0)]),
        reading("memory words as lent", 3, 6, &[ld(6, 8, 0), add(10, 5, 6)]).memory(&[1, 40]),
        reading("a value in memory narrows with its input", 3, 6, &narrowed),
    ]
}

/// Where v < 5, and there alone, does the work.
fn where_less(work: &[u32]) -> Vec<u32> {
    let over = 4 * (work.len() as i64 + 1);
    [&[addi(6, 0, 5), sltu(28, 5, 6), beq(28, 0, over)], work].concat()
}

/// What each path has of its own.
fn slips() -> Vec<Example> {
    let narrowed = [addi(7, 5, 2), addi(6, 0, 5), sltu(28, 5, 6), addi(10, 7, 0)];
    let longer = where_less(&[addi(10, 0, 1), addi(10, 0, 2), addi(10, 0, 3)]);
    let stores = [&where_less(&[addi(7, 0, 99), sd(7, 16, 0)])[..], &[ld(10, 16, 0)]].concat();
    let ask = [addi(10, 0, 0), addi(11, 0, 8), ecall()];
    let asks = [&where_less(&ask)[..], &ask, &[ld(7, 8, 0)]].concat();
    vec![
        reading("v < 5 tested ten times", 3, 6, &ten_tests()).limit(50),
        reading("a sum narrows with its input", 3, 6, &narrowed),
        reading("steps are the path's own", 3, 6, &longer).limit(9),
        reading("memory is as lent for the next piece", 3, 6, &stores).memory(&[0, 0, 7]),
        reading("registers are restored for the next piece", 3, 6, &where_less(&[addi(29, 0, 1)])),
        reading("inputs read are the path's own", 3, 6, &asks).over(8, 9),
    ]
}

/// Kind 9.
fn few_entries() -> Vec<Example> {
    let zeros = [add(0, 5, 5), ld(0, 8, 0), jal(0, 4)];
    let ask = [addi(10, 0, 0), ecall()];
    let twice = where_less(&[addi(10, 0, 1), addi(10, 0, 2)]);
    vec![
        job_a("one entry: a register write").entries(1),
        job_a("read needs two entries and has one").entries(3),
        job_a("an entry too few for the fork").entries(7),
        job_a("an entry too few after the fork").entries(8),
        job_a("just enough entries").entries(9),
        reading("LD with no entry left", 3, 6, &[]).entries(4),
        reading("SD with no entry left", 3, 6, &[sd(5, 24, 0)]).entries(5),
        reading("BEQ forks with no entry left", 3, 6, &[addi(6, 0, 5), beq(5, 6, 8)]).entries(6),
        reading("BEQ with one piece needs no entry", 3, 6, &[beq(5, 0, 8)]).entries(6),
        reading("into register 0 no entry is needed", 3, 6, &zeros).entries(6),
        reading("no input left and no entry left", 3, 6, &ask).entries(6),
        reading("no input left and one entry left", 3, 6, &ask).entries(7),
        reading("a reason comes before the entries", 3, 6, &[add(10, 5, 5)]).entries(5),
        reading("the next piece gets the entries back", 3, 6, &twice).entries(10),
    ]
}

/// No. 1 of document 02: SUB and SLTU give a fixed 0, and BEQ is taken.
fn same_register() -> Vec<Example> {
    let based = |word: u32| [word, ld(10, 16, 6)];
    let less = [sub(6, 5, 5), addi(6, 6, 5), sltu(10, 5, 6)];
    let equal = [sltu(6, 5, 5), beq(5, 6, 8), addi(10, 0, 1)];
    let over = [beq(5, 5, 8), 0, addi(6, 0, 5), sltu(10, 5, 6)];
    let falling = [sub(6, 0, 5), beq(6, 6, 8), addi(6, 0, 1), sub(10, 6, 6)];
    let read = [sub(10, 5, 5), ecall(), ld(10, 0, 0)];
    let words = [0, 0, 7];
    vec![
        reading("SUB of one open register twice", 3, 6, &[sub(10, 5, 5)]),
        reading("SLTU of one open register twice", 3, 6, &[sltu(10, 5, 5)]),
        reading("BEQ of one open register twice", 3, 6, &[beq(5, 5, 8), addi(10, 0, 1)]),
        reading("BEQ of one open register twice, over two words", 3, 6, &[beq(5, 5, 12), 0, 0]),
        reading("BEQ of one open register twice, to half a word", 3, 6, &[beq(5, 5, 6)]),
        reading("SUB of one register twice, then LD", 3, 6, &based(sub(6, 5, 5))).memory(&words),
        reading("SLTU of one register twice, then LD", 3, 6, &based(sltu(6, 5, 5))).memory(&words),
        reading("SUB of one register twice, then ADD", 3, 6, &[sub(6, 5, 5), add(10, 6, 5)]),
        reading("SLTU of one register twice, then MUL", 3, 6, &[sltu(6, 5, 5), mul(10, 5, 6)]),
        reading("SUB of one register twice, then DIVU", 3, 6, &[sub(6, 5, 5), divu(10, 5, 6)]),
        reading("SUB of one register twice, then a fork", 3, 6, &less),
        reading("SLTU of one register twice, then a fork", 0, 3, &equal),
        reading("BEQ of one register twice, then a fork", 3, 6, &over),
        reading("SUB of one register twice, into itself", 3, 6, &[sub(5, 5, 5), addi(10, 5, 1)]),
        reading("SLTU of one register twice, into itself", 3, 6, &[sltu(5, 5, 5), addi(10, 5, 1)]),
        reading("one falling register twice", 1, 4, &falling),
        reading_two("one of two inputs twice", (3, 4), (4, 5), &[sub(7, 7, 7), add(10, 7, 5)]),
        reading("SUB of one register twice, then read", 3, 4, &read).over(8, 9),
    ]
}

/// One register twice in loops.
fn same_register_in_loops() -> Vec<Example> {
    let back = [addi(10, 10, 1), beq(5, 5, -4)];
    let counted = [beq(5, 6, 12), addi(6, 6, 1), beq(5, 5, -8), addi(10, 6, 0)];
    let to_zero = [addi(7, 0, 2), sub(6, 5, 5), addi(7, 7, -1), beq(7, 6, 8), beq(5, 5, -12)];
    let less = [sltu(6, 5, 5), addi(6, 6, 5), sltu(10, 5, 6)];
    let again = [addi(7, 7, -1), beq(7, 0, 8), jal(0, -20)];
    let less_twice = [&[addi(7, 0, 2)][..], &less, &again].concat();
    vec![
        reading("BEQ of one register twice, to itself", 3, 6, &[beq(5, 5, 0)]).limit(12).entries(5),
        reading("BEQ of one register twice, back", 3, 6, &back).limit(12),
        reading("BEQ of one register twice, back to a fork", 0, 3, &counted),
        reading("SUB of one register twice, two turns", 3, 6, &to_zero),
        reading("SLTU of one register twice, two turns with a fork", 3, 6, &less_twice),
    ]
}

/// One register twice and the entries.
fn same_register_entries() -> Vec<Example> {
    let zeros = [sub(0, 5, 5), sltu(0, 5, 5), mul(0, 5, 5), remu(0, 5, 5)];
    vec![
        reading("SUB of one register twice, no entry left", 3, 6, &[sub(10, 5, 5)]).entries(5),
        reading("SUB of one register twice, one entry left", 3, 6, &[sub(10, 5, 5)]).entries(6),
        reading("SLTU of one register twice, no entry left", 3, 6, &[sltu(10, 5, 5)]).entries(5),
        reading("SLTU of one register twice, one entry left", 3, 6, &[sltu(10, 5, 5)]).entries(6),
        reading("BEQ of one register twice, no entry left", 3, 6, &[beq(5, 5, 8), 0]).entries(5),
        reading("one register twice into register 0", 3, 6, &zeros).entries(6),
    ]
}

/// One register twice, as document 01 has it.
fn other_same_register() -> Vec<Example> {
    let copied = |word: u32| [ld(6, 0, 0), word];
    let cut = [addi(6, 0, 5), beq(5, 6, 4), mul(10, 5, 5)];
    let quotient = [addi(6, 0, 4), divu(7, 5, 6), add(10, 7, 7)];
    vec![
        reading("DIVU of one open register twice", 0, 3, &[divu(10, 5, 5)]),
        reading("REMU of one open register twice", 0, 3, &[remu(10, 5, 5)]),
        reading("SUB of one open value in two registers", 3, 6, &copied(sub(10, 5, 6))),
        reading("SLTU of one open value in two registers", 3, 6, &copied(sltu(10, 5, 6))),
        reading("BEQ of one open value in two registers", 3, 6, &copied(beq(5, 6, 8))),
        reading("SUB of one fixed register twice", 5, 5, &[sub(10, 5, 5)]),
        reading("MUL of one fixed register twice", 5, 5, &[mul(10, 5, 5)]),
        reading("DIVU of one fixed register twice", 5, 5, &[divu(10, 5, 5)]),
        reading("REMU of one fixed register twice", 5, 5, &[remu(10, 5, 5)]),
        reading("SLTU of one fixed register twice", 5, 5, &[sltu(10, 5, 5)]),
        reading("BEQ of one fixed register twice", 5, 5, &[beq(5, 5, 8), addi(10, 0, 1)]),
        reading("MUL of one register twice where a fork fixed it", 3, 6, &cut),
        reading("ADD of one register twice, a fixed quotient", 4, 7, &quotient),
        reading("SUB of register 0 twice", 3, 6, &[sub(10, 0, 0)]),
        reading("SLTU of register 0 twice", 3, 6, &[sltu(10, 0, 0)]),
        reading("BEQ of register 0 twice", 3, 6, &[beq(0, 0, 8), addi(10, 0, 1)]),
    ]
}

/// No. 3 of document 02: both go on, with an open dividend too.
fn by_zero() -> Vec<Example> {
    let falling = [sub(6, 0, 5), remu(10, 6, 0)];
    let into_divisor = [sub(6, 5, 5), remu(6, 5, 6), addi(10, 6, 1)];
    let where_zero = |word: u32| [beq(5, 0, 8), jal(0, 8), word];
    let compared = [addi(7, 0, 5), sltu(6, 5, 7), remu(10, 5, 6)];
    vec![
        reading("DIVU by register 0", 3, 6, &[divu(10, 5, 0)]),
        reading("REMU by register 0", 3, 6, &[remu(10, 5, 0)]),
        reading("DIVU by a register that holds 0", 3, 6, &[divu(10, 5, 6)]),
        reading("REMU by a register that holds 0", 3, 6, &[remu(10, 5, 6)]),
        reading("DIVU of a fixed value by 0", 5, 5, &[divu(10, 5, 0)]),
        reading("REMU of a fixed value by 0", 5, 5, &[remu(10, 5, 0)]),
        reading("DIVU of register 0 by 0", 3, 6, &[divu(10, 0, 6)]),
        reading("REMU of register 0 by 0", 3, 6, &[remu(10, 0, 6)]),
        reading("DIVU of one register twice that is 0", 0, 0, &[divu(10, 5, 5)]),
        reading("REMU of one register twice that is 0", 0, 0, &[remu(10, 5, 5)]),
        reading("REMU of the highest values by 0", MAX - 3, MAX, &[remu(10, 5, 0)]),
        reading("REMU of a falling value by 0", 1, 4, &falling),
        reading("REMU by 0 into the dividend", 3, 6, &[remu(5, 5, 0), addi(10, 5, 1)]),
        reading("REMU by 0 into the divisor", 3, 6, &into_divisor),
        reading("a divisor that BEQ fixed at 0", 0, 2, &where_zero(divu(10, 2, 5))),
        reading_two("the same, of an open value", (0, 2), (3, 4), &where_zero(remu(10, 7, 5))),
        reading("a divisor that SLTU fixed at 1 or at 0", 3, 6, &compared),
        reading("DIVU by a divisor that may be 0", 0, 3, &[divu(10, 2, 5)]),
    ]
}

/// What DIVU and REMU by 0 give, used.
fn by_zero_used() -> Vec<Example> {
    let less = [remu(7, 5, 0), addi(6, 0, 5), sltu(10, 7, 6)];
    let equal = [remu(7, 5, 0), addi(6, 0, 5), beq(7, 6, 8), addi(10, 5, 0)];
    let narrowed = [remu(7, 5, 0), addi(6, 0, 5), sltu(28, 5, 6), addi(10, 7, 0)];
    vec![
        reading("REMU by 0, then SLTU", 3, 6, &less),
        reading("REMU by 0, then BEQ", 3, 6, &equal),
        reading("REMU by 0, then a sum that wraps", 3, 6, &[remu(7, 5, 0), addi(10, 7, -4)]),
        reading("REMU by 0, then a cut of its dividend", 3, 6, &narrowed),
        reading("REMU by 0, then its dividend added", 3, 6, &[remu(7, 5, 0), add(10, 5, 7)]),
        reading("REMU by 0, then DIVU by it", 3, 6, &[remu(7, 5, 0), divu(10, 5, 7)]),
        reading("REMU by 0, then LD", 3, 6, &[remu(7, 5, 0), ld(10, 0, 7)]),
        reading("DIVU by 0, then SLTU", MAX - 2, MAX, &[divu(6, 5, 0), sltu(10, 5, 6)]),
        reading("DIVU by 0, then ADD", 0, 3, &[divu(6, 5, 0), add(10, 6, 5)]),
        reading("DIVU by 0, then DIVU by it", 3, 6, &[divu(6, 5, 0), divu(10, 5, 6)]),
        reading("DIVU by 0, then LD", 3, 6, &[divu(6, 5, 0), ld(10, 0, 6)]),
        reading("DIVU by 0, then LD from 0", 3, 6, &[divu(6, 5, 0), ld(10, 1, 6)]),
    ]
}

/// DIVU and REMU by 0 and the entries.
fn by_zero_entries() -> Vec<Example> {
    let zeros = [divu(0, 5, 0), remu(0, 5, 0)];
    vec![
        reading("DIVU by 0, no entry left", 3, 6, &[divu(10, 5, 0)]).entries(5),
        reading("DIVU by 0, one entry left", 3, 6, &[divu(10, 5, 0)]).entries(6),
        reading("REMU by 0, no entry left", 3, 6, &[remu(10, 5, 0)]).entries(5),
        reading("REMU by 0, one entry left", 3, 6, &[remu(10, 5, 0)]).entries(6),
        reading("by 0 into register 0, no entry left", 3, 6, &zeros).entries(5),
    ]
}

/// A program with an input in register 5 and 60 in register 6.
fn sixty(name: &'static str, low: u64, high: u64, work: &[u32]) -> Example {
    reading(name, low, high, &[&[addi(6, 0, 60)], work].concat())
}

/// No. 5 of document 02: MUL by any fixed number, with a fork where the quotient changes.
fn any_factor() -> Vec<Example> {
    let product = [mul(10, 5, 6)];
    let by_word = [ld(6, 16, 0), mul(10, 5, 6)];
    let twice = [ld(7, 16, 0), mul(28, 5, 7), mul(10, 28, 6)];
    let falling = [ld(7, 16, 0), sub(7, 7, 5), mul(10, 7, 6)];
    let negated = [ld(6, 16, 0), sub(7, 0, 5), mul(10, 7, 6)];
    let (highest, wraps) = ([0, 0, MAX], SIXTIETH + 1);
    vec![
        reading("MUL by 3", 3, 6, &[addi(6, 0, 3), mul(10, 6, 5)]),
        reading("MUL of fixed values by 3", 5, 5, &[addi(6, 0, 3), mul(10, 5, 6)]),
        sixty("MUL by 60, the wrap", SIXTIETH - 3, SIXTIETH + 4, &product),
        sixty("MUL with 60 first, the wrap", SIXTIETH, SIXTIETH + 2, &[mul(10, 6, 5)]),
        sixty("MUL of fixed values by 60 wraps", wraps, wraps, &[mul(10, 6, 5)]),
        sixty("MUL into register 0 by 60", SIXTIETH, wraps, &[mul(0, 5, 6)]),
        sixty("MUL by 60, an entry too few for the fork", SIXTIETH, wraps, &product).entries(7),
        sixty("MUL by 60, no entry after the fork", SIXTIETH, wraps, &product).entries(8),
        sixty("v * 2^56 * 60 with two quotients", 0, 8, &twice).memory(&[0, 0, 1 << 56]),
        sixty("v * 2^56 * 60 with three quotients", 0, 9, &twice).memory(&[0, 0, 1 << 56]),
        reading("MUL by MAX with two quotients", 0, 2, &by_word).memory(&highest),
        reading("MUL by MAX with three quotients", 0, 3, &by_word).memory(&highest),
        sixty("a falling value times 60", 0, 5, &falling).memory(&[0, 0, SIXTIETH + 3]),
        reading("0 - v times MAX", 1, 2, &negated).memory(&highest),
    ]
}

/// No. 5 of document 02: DIVU by any fixed number above 0, with no fork.
fn any_divisor() -> Vec<Example> {
    let above_0 = [ld(6, 16, 0), divu(7, 5, 6), sltu(10, 0, 7)];
    let less = [divu(7, 5, 6), addi(28, 0, 10), sltu(10, 7, 28)];
    let equal = [divu(7, 5, 6), addi(28, 0, 10), beq(7, 28, 8), addi(10, 0, 1)];
    let equal_3 = [addi(6, 0, 3), divu(7, 5, 6), beq(7, 6, 8), addi(10, 7, 0)];
    let falling = [addi(7, 0, 620), sub(7, 7, 5), divu(7, 7, 6), addi(28, 0, 10), sltu(10, 7, 28)];
    let negated = [sub(7, 0, 5), divu(7, 7, 6), ld(28, 16, 0), beq(7, 28, 8), addi(10, 0, 1)];
    vec![
        reading("DIVU by 3", 3, 6, &[addi(6, 0, 3), divu(10, 5, 6)]),
        reading("DIVU of fixed values by 3", 5, 5, &[addi(6, 0, 3), divu(10, 5, 6)]),
        reading("DIVU by 1", 3, 6, &[addi(6, 0, 1), divu(10, 5, 6)]),
        reading("DIVU by MAX, then SLTU", MAX - 2, MAX, &above_0).memory(&[0, 0, MAX]),
        sixty("DIVU by 60 does not fork", 595, 604, &[divu(10, 5, 6)]),
        sixty("DIVU into register 0 by 60", 595, 604, &[divu(0, 5, 6)]),
        sixty("DIVU by 60, one entry left", 598, 601, &[divu(10, 5, 6)]).entries(7),
        sixty("DIVU by 60, then SLTU", 595, 604, &less),
        sixty("DIVU by 60, then BEQ", 595, 604, &equal),
        reading("DIVU by 3, then BEQ with three pieces", 5, 13, &equal_3),
        sixty("a falling value over 60, then SLTU", 16, 24, &falling),
        sixty("0 - v over 60, then BEQ", 13, 20, &negated).memory(&[0, 0, SIXTIETH]),
    ]
}

/// No. 5 of document 02: cuts through products and quotients, and both in turn.
fn scaled_used() -> Vec<Example> {
    let less = [mul(7, 5, 6), addi(28, 0, 301), sltu(10, 7, 28)];
    let equal = [mul(7, 5, 6), addi(28, 0, 300), beq(7, 28, 8), addi(10, 0, 1)];
    let rounded_less = [divu(7, 5, 6), mul(7, 7, 6), addi(28, 0, 541), sltu(10, 7, 28)];
    let rest = [divu(7, 5, 6), mul(7, 7, 6), sub(10, 5, 7)];
    let based = [divu(7, 5, 6), ld(10, 8, 7)];
    let cut = [divu(7, 5, 6), addi(28, 0, 600), sltu(29, 5, 28), add(10, 7, 5)];
    let seven = |work: [u32; 2]| [&[addi(6, 0, 3), addi(7, 0, 7)], &work[..]].concat();
    let first = [addi(6, 0, 3), mul(28, 5, 6), addi(29, 0, 13), sltu(29, 28, 29)];
    let both = [&first[..], &[divu(28, 7, 6), addi(29, 0, 2), sltu(10, 28, 29)]].concat();
    vec![
        sixty("v * 60 < 301", 3, 8, &less),
        sixty("v * 60 is 300, with three pieces", 3, 8, &equal),
        sixty("v * 60 / 60", SIXTIETH - 2, SIXTIETH + 3, &[mul(7, 5, 6), divu(10, 7, 6)]),
        sixty("v / 60 * 60", 595, 604, &[divu(7, 5, 6), mul(10, 7, 6)]),
        sixty("v / 60 * 60 < 541", 595, 604, &rounded_less),
        sixty("v - v / 60 * 60", 595, 604, &rest),
        sixty("v mod 60", 595, 604, &[remu(10, 5, 6)]),
        sixty("v / 60 is fixed, then LD", 484, 489, &based).memory(&[0, 0, 7]),
        sixty("v / 60 is fixed, then ADD", 540, 545, &[divu(7, 5, 6), add(10, 7, 5)]),
        sixty("a cut fixes v / 60, then ADD", 595, 604, &cut),
        reading("v / 3 mod 7", 17, 24, &seven([divu(28, 5, 6), remu(10, 28, 7)])),
        reading("v * 3 mod 7 with three quotients", 1, 5, &seven([mul(28, 5, 6), remu(10, 28, 7)])),
        reading_two("v * 3 < 13, then w / 3 < 2", (3, 5), (4, 6), &both),
    ]
}

/// Every example, with no name twice.
pub fn all() -> Vec<Example> {
    let groups = [
        plain_ends(),
        operand_reasons(),
        call_reasons(),
        sum_forks(),
        product_forks(),
        comparison_forks(),
        register_zero(),
        inputs(),
        memory(),
        slips(),
        few_entries(),
        same_register(),
        same_register_in_loops(),
        same_register_entries(),
        other_same_register(),
        by_zero(),
        by_zero_used(),
        by_zero_entries(),
        any_factor(),
        any_divisor(),
        scaled_used(),
    ];
    groups.into_iter().flatten().collect()
}
