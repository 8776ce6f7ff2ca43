//! Small jobs with their whole listings by the oracle, written as crates/listing/proofs/Examples.antt.
//!
//! `listings` prints that file; `listings --check FILE` compares FILE with it.

mod examples;
mod oracle;

use examples::Example;
use formats::assembler::{closing, opening};
use formats::numbers::{kind_occurs, reason_occurs, KINDS, REASONS};
use oracle::{Interval, Path};
use std::fmt::Write;

const MAX: u64 = u64::MAX;

// ---------------------------------------------------------------------------------------------
// Which examples antt computes.

/// A table of the file: its name, what it shows, and the names of its examples.
type Table = (&'static str, &'static str, &'static [&'static str]);

/// The computation stops at the first wrong listing: what an edit of a definition breaks stands
/// first, so that it costs least.
const TABLES: [Table; 5] = [
    (
        "rules",
        "the ending order and the fork rules; each is broken by a must-fail edit",
        &[
            "SLTU with the open operand first",
            "BEQ with three pieces",
            "the limit comes before a bad pc",
            "0..10 mod 5",
            "REMU by an open divisor",
            "REMU by register 0",
            "DIVU by 60 does not fork",
            "MUL by 60, the wrap",
            "ADD of one open register twice",
            "BEQ of one open register twice",
        ],
    ),
    (
        "slips",
        "document 01's plausible slips; BEQ stands above",
        &[
            "v < 5 tested ten times",
            "ADDI wraps: v + 5",
            "steps are the path's own",
            "inputs read are the path's own",
            "memory is as lent for the next piece",
            "3..7 mod 5",
        ],
    ),
    (
        "trials",
        "document 01's rules on trial, on smaller boxes",
        &[
            "the limit before the fork",
            "10 - v < 1: pieces in order of the input",
            "one entry: a register write",
        ],
    ),
    (
        "ends",
        "the other kinds and reasons",
        &[
            "pc runs beyond the code",
            "a word of no row",
            "LD from an address that is no multiple of 8",
            "read of 4 bytes",
            "LD with an open base",
            "an open call number",
        ],
    ),
    (
        "zeros",
        "document 02, Nos. 1 and 3",
        &["SUB of one open register twice", "DIVU by register 0"],
    ),
];

/// The examples of a table, in its order.
fn examples_of((_, _, names): &Table) -> Vec<Example> {
    let named = |name: &&str| examples::all().into_iter().find(|example| example.name == *name);
    names.iter().map(|name| named(name).expect("the name of an example")).collect()
}

// ---------------------------------------------------------------------------------------------
// The antt file.

/// The case of End for each kind that occurs.
const END_NAMES: [(u64, &str); 8] = [
    (oracle::EXITED, "Exit"),
    (oracle::BAD_PC, "BadPc"),
    (oracle::BAD_WORD, "BadWord"),
    (oracle::BAD_ADDRESS, "BadAddress"),
    (oracle::BAD_CALL, "BadCall"),
    (oracle::STEP_LIMIT, "StepLimit"),
    (oracle::NOT_FOLLOWED, "NotFollowed"),
    (oracle::TRACE_FULL, "TraceFull"),
];

/// The case of Reason for each reason that occurs.
const REASON_NAMES: [(u64, &str); 5] = [
    (oracle::BOTH_OPEN, "BothOpen"),
    (oracle::DIVISOR_OPEN, "DivisorOpen"),
    (oracle::QUOTIENTS, "Quotients"),
    (oracle::BASE_OPEN, "BaseOpen"),
    (oracle::CALL_OPEN, "CallOpen"),
];

fn name_of(names: &[(u64, &'static str)], number: u64) -> &'static str {
    names.iter().find(|named| named.0 == number).expect("a number that occurs").1
}

fn end_text(kind: u64, reason: u64) -> String {
    let name = name_of(&END_NAMES, kind);
    if kind == oracle::NOT_FOLLOWED {
        format!("({name} {})", name_of(&REASON_NAMES, reason))
    } else {
        name.to_string()
    }
}

/// Numbers near 2^64 are written by their distance, which shows what they are.
fn number(value: u64) -> String {
    match value {
        MAX => "top".to_string(),
        _ if value > MAX - 4096 => format!("(top - {})", MAX - value),
        _ if value >= 1 << 32 => format!("0x{value:X}"),
        _ => value.to_string(),
    }
}

fn interval((low, high): Interval) -> String {
    format!("{} ⋯ {}", number(low), number(high))
}

/// A list in brackets, on one line.
fn list(items: impl Iterator<Item = String>) -> String {
    let items: String = items.map(|item| item + " ∷ ").collect();
    if items.is_empty() {
        "[]".to_string()
    } else {
        format!("({items}[])")
    }
}

/// The text in lines of at most 120 characters, cut before a `∷`.
fn wrapped(text: &str) -> String {
    let mut parts = text.split(" ∷ ");
    let mut lines = parts.next().unwrap_or("").to_string();
    let mut width = lines.chars().count();
    for part in parts {
        let count = part.chars().count() + 3;
        let fits = width + count <= 116;
        lines.push_str(if fits { " ∷ " } else { "\n    ∷ " });
        lines.push_str(part);
        width = if fits { width + count } else { count };
    }
    lines
}

fn box_text(intervals: &[Interval]) -> String {
    list(intervals.iter().map(|&ends| format!("({})", interval(ends))))
}

/// The code, by its work alone where it has the common opening and closing.
fn code_text(code: &[u32]) -> String {
    let rest = code.strip_prefix(&opening()[..]);
    match rest.and_then(|rest| rest.strip_suffix(&closing()[..])) {
        Some(work) => format!("(reads {})", words_text(work)),
        None => words_text(code),
    }
}

fn words_text(words: &[u32]) -> String {
    list(words.iter().map(|word| format!("0x{word:08X}")))
}

/// The registers that are not as at the start.
fn registers_text(registers: &[Interval; 32]) -> String {
    let mut start = [(0, 0); 32];
    start[2] = (oracle::STACK_START, oracle::STACK_START);
    let changed = (0..32).filter(|&register| registers[register] != start[register]);
    list(changed.map(|register| format!("({register}, {})", interval(registers[register]))))
}

fn path_text(path: &Path) -> String {
    format!(
        "path {} {} {} {} {} {}",
        end_text(path.kind, path.reason),
        number(path.pc),
        path.steps,
        box_text(&path.boxes),
        path.reads,
        registers_text(&path.registers)
    )
}

fn write_example(text: &mut String, example: &Example, separator: &str) {
    let job = &example.job;
    let memory = list(job.memory.iter().map(|&word| number(word)));
    let intervals = box_text(&job.intervals);
    let code = code_text(&job.code);
    writeln!(text, "    -- {}", example.name).unwrap();
    writeln!(text, "    {}", wrapped(&format!("{separator}example {code}"))).unwrap();
    writeln!(text, "    {memory} {} {intervals} {}", job.limit, job.entries).unwrap();
    let mut open = "(";
    for path in oracle::listing(job) {
        writeln!(text, "    {}", wrapped(&format!("{open}{}", path_text(&path)))).unwrap();
        open = "∷ ";
    }
    writeln!(text, "    ∷ [])").unwrap();
}

fn write_table(text: &mut String, table: &Table) {
    let (name, shows, _) = table;
    writeln!(text, "\n-- {shows}").unwrap();
    writeln!(text, "abbrev pub {name} : List (Job × List Path)").unwrap();
    writeln!(text, "{name} =").unwrap();
    let mut separator = "";
    for example in examples_of(table) {
        write_example(text, &example, separator);
        separator = "∷ ";
    }
    writeln!(text, "    ∷ []").unwrap();
}

fn file_text() -> String {
    let mut text = HEAD.to_string();
    let (opening, closing) = (words_text(&opening()), words_text(&closing()));
    writeln!(text, "    {opening} ++ work ++ {closing}").unwrap();
    text.push_str(EXAMPLE);
    for table in &TABLES {
        write_table(&mut text, table);
    }
    let names: Vec<&str> = TABLES.iter().map(|table| table.0).collect();
    text.push_str("\nabbrev pub table : List (Job × List Path)\n");
    writeln!(text, "table =\n    {}", names.join("\n    ++ ")).unwrap();
    text.push_str(TAIL);
    text
}

const HEAD: &str = "\
-- Small jobs with their whole listings, computed by the moves over all the choices of a box. The program host/listings.rs
-- writes this file: what is expected comes from the brute-force oracle there, which knows documents 01 and 02 alone.
-- Assumes nothing.
use mathlib.Core.Path.{◌≡◌, refl}
use mathlib.Core.List.{List, [], ◌∷◌, ◌++◌, map, flat_map}
use Prim.Native.Nat.{ℕ, ◌-◌, ◌^◌}
use lib.ListN.{length, set, replicate}
use Rattle.boxes.specs.Boxes.{Box, Interval, ◌⋯◌, from, width, values, choices, size}
use Rattle.boxes.specs.Boxes.{best, least, greatest, every, same, low, high, fixed}
use Rattle.boxes.specs.Boxes.{keep, classes, hull, piece, pieces}
use Rattle.words.specs.Word.{signed, widen}
use Rattle.riscu.specs.Decode.{rows, search, decode_of}
use Rattle.riscu.specs.Machine.{start, operate, read_next, step, fetch, step_decoded, run}
use Rattle.listing.specs.Group.{Job, after, sort_of, comparison, sorting_of, class_by, class_of}
use Rattle.listing.specs.Ending.{first, operation_points, operand_points, address_points, points}
use Rattle.listing.specs.Ending.{writes, needs, end_at, end_by}
use Rattle.listing.specs.Listing.{Path, path_of, split_by, move_by, move_from, moves, begin, enough, listing}
use Rattle.listing.specs.declared.Reason.TheVariants.{BothOpen, DivisorOpen, Quotients, BaseOpen, CallOpen}
use Rattle.listing.specs.declared.End.{End}
use Rattle.listing.specs.declared.End.TheVariants.{Exit, BadPc, BadWord, BadAddress}
use Rattle.listing.specs.declared.End.TheVariants.{BadCall, StepLimit, NotFollowed, TraceFull}

abbrev top : ℕ
top = 2 ^ 64 - 1

-- the starting registers, but for those listed
abbrev pub registers : List (ℕ × Interval) → List Interval
registers [] = set (replicate 32 (0 ⋯ 0)) 2 (4096 ⋯ 4096)
registers ((r, v) ∷ l) = set (registers l) r v

-- end, pc, steps, box, inputs read, registers
abbrev pub path : End → ℕ → ℕ → Box → ℕ → List (ℕ × Interval) → Path
path e p s b n l = record { end = e; pc = p; steps = s; box = b; reads = n; registers = registers l }

-- a program that reads an input to address 0 and loads it into register 5, does some work, and exits with register 10
abbrev pub reads : List ℕ → List ℕ
reads work =
";

const EXAMPLE: &str = "
-- code, the first words of memory (the rest are 0), limit, box and entries; and the listing
abbrev pub example : List ℕ → List ℕ → ℕ → Box → ℕ → List Path → Job × List Path
example c m l b n ps =
    (record { code = c; memory = m ++ replicate (512 - length m) 0; limit = l; box = b; entries = n }, ps)
";

const TAIL: &str = "
abbrev listed : Job × List Path → List Path
listed x = listing x.0

abbrev expected : Job × List Path → List Path
expected x = x.1

-- the whole table, by one computation
pub examples_right : map listed table ≡ map expected table
unfolding listing enough moves move_from move_by split_by path_of begin
    end_by end_at needs writes points address_points operand_points operation_points first
    from width values choices flat_map size best least greatest every same low high fixed keep classes hull piece pieces
    class_of class_by sorting_of sort_of comparison after run step_decoded fetch step read_next operate start decode_of search rows signed widen
examples_right = refl
";

// ---------------------------------------------------------------------------------------------

/// Every kind and every reason that occurs, and no other, is the end of some path.
fn assert_covered() {
    let examples = TABLES.iter().flat_map(examples_of);
    let paths: Vec<Path> = examples.flat_map(|example| oracle::listing(&example.job)).collect();
    for kind in 1..=KINDS {
        let found = paths.iter().any(|path| path.kind == kind);
        assert!(found == kind_occurs(kind), "paths of kind {}: {}", kind, found);
    }
    for reason in 1..=REASONS {
        let found = paths.iter().any(|path| path.reason == reason);
        assert!(found == reason_occurs(reason), "paths of reason {}: {}", reason, found);
    }
}

fn main() {
    assert_covered();
    let text = file_text();
    let arguments: Vec<String> = std::env::args().skip(1).collect();
    match arguments.iter().map(String::as_str).collect::<Vec<_>>()[..] {
        [] => print!("{text}"),
        ["--check", file] => check(file, &text),
        _ => stop("usage: listings [--check FILE]"),
    }
}

fn check(file: &str, text: &str) {
    match std::fs::read_to_string(file) {
        Ok(stored) if stored == text => println!("{file} is as written"),
        Ok(_) => stop(&format!("{file} differs from what listings writes")),
        Err(error) => stop(&format!("{file}: {error}")),
    }
}

fn stop(message: &str) -> ! {
    eprintln!("{message}");
    std::process::exit(1)
}
