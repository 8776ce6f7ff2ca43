//! Tests of the assembler: jobs, and what it says about each fault.

use crate::assembler::job_a;
use crate::instruction::{decode, text};
use crate::job::Job;
use crate::random::Random;
use crate::source::{assemble, notes, Notes};

fn job(source: &str) -> Job {
    assemble(source).unwrap_or_else(|faults| panic!("{source}: {faults:?}"))
}

fn code_text(source: &str) -> Vec<String> {
    job(source).code.iter().map(|&word| text(&decode(word).unwrap())).collect()
}

/// The messages, each with its line.
fn faults(source: &str) -> Vec<String> {
    let faults = assemble(source).err().unwrap_or_default();
    faults.iter().map(|fault| format!("{}: {}", fault.line, fault.message)).collect()
}

fn fault(line: &str) -> String {
    let faults = faults(&format!("nop\n{line}\n"));
    assert_eq!(faults.len(), 1, "{line}: {faults:?}");
    faults[0].strip_prefix("2: ").unwrap_or(&faults[0]).to_string()
}

/// Document 01's words of Job A stand in the C example.
#[test]
fn job_a_has_document_01s_words() {
    let job = job_a();
    let numbers = include_str!("../../examples/job_a.h").split("0x").skip(1);
    let words = numbers.map(|text| u32::from_str_radix(&text[..8], 16).unwrap());
    assert_eq!(job.code, words.collect::<Vec<u32>>());
    assert_eq!((job.intervals, job.limit, job.first), (vec![(0, 255)], 100, 0));
    assert!(job.memory.is_empty());
}

#[test]
fn directives() {
    let job = job(
        ".input 1..2\n.input 0x10 .. max\n.limit 7\n.first 3\n.word 5\n.word -1, max, 0xA\nnop",
    );
    assert_eq!(job.intervals, [(1, 2), (16, u64::MAX)]);
    assert_eq!((job.limit, job.first), (7, 3));
    assert_eq!(job.memory, [5, u64::MAX, u64::MAX, 10]);
}

#[test]
fn a_job_without_directives_has_the_highest_limit() {
    let job = job("ecall");
    assert_eq!((job.limit, job.first, job.intervals.len(), job.memory.len()), (65_536, 0, 0, 0));
}

#[test]
fn short_forms_stand_for_instructions() {
    let text = code_text("nop\nli a0, -7\nmv x5, x6\nj -8\nret");
    let expected = [
        "addi zero, zero, 0",
        "addi a0, zero, -7",
        "addi t0, t1, 0",
        "jal zero, -8",
        "jalr zero, 0(ra)",
    ];
    assert_eq!(text, expected);
}

#[test]
fn labels_point_both_ways() {
    let text =
        code_text("start: beq a0, a1, end # away\n.word 9\n one: two:\n jal ra, start\nend: j one");
    assert_eq!(text, ["beq a0, a1, 8", "jal ra, -4", "jal zero, -4"]);
}

#[test]
fn signs_and_bases_of_numbers() {
    let text = code_text(
        "addi a0,a0,-0x10\nlui t0, -1\nlui t0, 0xFFFFF\nld a0, -8(sp)\nsd a0, 0x7f8 ( x2 )",
    );
    let expected = [
        "addi a0, a0, -16",
        "lui t0, 0xFFFFF",
        "lui t0, 0xFFFFF",
        "ld a0, -8(sp)",
        "sd a0, 2040(sp)",
    ];
    assert_eq!(text, expected);
    assert_eq!(job(".code 0xFFFFFFFF").code, [u32::MAX]);
}

#[test]
fn faults_of_operands() {
    assert_eq!(fault("addi a0, a0, 5000"), "immediate 5000 does not fit 12 bits");
    assert_eq!(fault("li a0, 2048"), "immediate 2048 does not fit 12 bits");
    assert_eq!(fault("li a0, -2049"), "immediate -2049 does not fit 12 bits");
    assert_eq!(fault("lui a0, 1048576"), "immediate 1048576 does not fit 20 bits");
    assert_eq!(fault("lui a0, -524289"), "immediate -524289 does not fit 20 bits");
    assert_eq!(fault("add a0, a9, a1"), "no register \"a9\"");
    assert_eq!(fault("ld a0, a1"), "a1 is not of the form imm(rs1)");
    assert_eq!(fault("ld a0, (a1)"), "\"\" is not a number");
    assert_eq!(fault("li a0, ten"), "\"ten\" is not a number");
    assert_eq!(fault("li a0, +5"), "\"+5\" is not a number");
    assert_eq!(fault("li a0, --5"), "\"--5\" is not a number");
    assert_eq!(fault("li a0, 0x"), "\"0x\" is not a number");
    assert_eq!(fault("addi a0, a0"), "write it as: addi rd, rs1, imm");
    assert_eq!(fault("addi a0 a0 5"), "write it as: addi rd, rs1, imm");
    assert_eq!(fault("ecall 93"), "write it as: ecall");
    assert_eq!(fault("li a0"), "write it as: li rd, imm");
    assert_eq!(fault("ret ra"), "write it as: ret");
}

#[test]
fn faults_of_names() {
    let rows = "lui, addi, add, sub, mul, divu, remu, sltu, ld, sd, beq, jal, jalr, ecall";
    assert_eq!(fault("bne a0, a1, 8"), format!("no instruction bne; RISC-U has {rows}"));
    assert_eq!(fault("ADD a0, a0, a0"), format!("no instruction ADD; RISC-U has {rows}"));
    let directives = "there are .input, .limit, .first, .word and .code";
    assert_eq!(fault(".text"), format!("no directive .text; {directives}"));
}

#[test]
fn faults_of_targets() {
    assert_eq!(fault("j nowhere"), "no label nowhere");
    assert_eq!(fault("j 7"), "offset 7 is odd");
    assert_eq!(fault("beq a0, a1, 4096"), "4096 is 4096 bytes away, beyond -4096 to 4094");
    assert_eq!(
        fault("jal ra, -1048578"),
        "-1048578 is -1048578 bytes away, beyond -1048576 to 1048574"
    );
    assert_eq!(fault("9to5: nop"), "\"9to5\" cannot be a label");
    assert_eq!(fault(": nop"), "\"\" cannot be a label");
    assert_eq!(fault("a: a: nop"), "label a already stands in line 2");
}

#[test]
fn the_farthest_targets() {
    let far = code_text("beq a0, a1, -4096\nbeq a0, a1, 4094\nj -1048576\nj 1048574");
    assert_eq!(far[1], "beq a0, a1, 4094");
    assert_eq!(far[2], "jal zero, -1048576");
}

#[test]
fn faults_of_directives() {
    assert_eq!(fault(".input 9..3"), "the input's low 9 is above its high 3");
    assert_eq!(fault(".input 9"), "9 is not of the form LOW..HIGH");
    assert_eq!(fault(".input"), "write it as: .input LOW..HIGH");
    assert_eq!(fault(".input 0.5..3"), "\"0.5\" is not a number");
    assert_eq!(fault(".limit 0"), "limit 0 is not 1 to 65536");
    assert_eq!(fault(".limit 65537"), "limit 65537 is not 1 to 65536");
    assert_eq!(fault(".limit"), "write it as: .limit N");
    assert_eq!(fault(".first 4294967296"), "first path 4294967296 is not below 4294967296");
    let large = "18446744073709551616";
    assert_eq!(fault(&format!(".word {large}")), format!("number {large} does not fit 64 bits"));
    let huge = "9".repeat(60);
    assert_eq!(fault(&format!(".word {huge}")), format!("number {huge} does not fit 64 bits"));
    assert_eq!(fault(".code 0x100000000"), "code word 0x100000000 does not fit 32 bits");
    assert_eq!(faults("nop\n.limit 5\n.limit 5"), ["3: .limit stands more than once"]);
    assert_eq!(faults("nop\n.first 5\n.first 5"), ["3: .first stands more than once"]);
}

#[test]
fn a_job_has_its_bounds() {
    assert_eq!(faults(""), ["1: the program has no instruction"]);
    assert_eq!(faults("# nothing\n.limit 5\n"), ["2: the program has no instruction"]);
    assert!(faults(&"nop\n".repeat(1024)).is_empty());
    assert_eq!(faults(&"nop\n".repeat(1030)), ["1025: the job has more than 1024 instructions"]);
    let inputs = ".input 0..1\n".repeat(12) + "nop";
    assert_eq!(faults(&inputs), ["9: the job has more than 8 inputs"]);
    let words = "nop\n".to_string() + &".word 1, 2, 3\n".repeat(200);
    assert_eq!(faults(&words), ["172: the job has more than 512 memory words"]);
}

#[test]
fn all_faults_are_listed_in_order() {
    let source = "li a0, 5000\nnop\n8:\nj away\n.limit x";
    let expected = [
        "1: immediate 5000 does not fit 12 bits",
        "3: \"8\" cannot be a label",
        "4: no label away",
        "5: \"x\" is not a number",
    ];
    assert_eq!(faults(source), expected);
}

#[test]
fn a_faulty_instruction_keeps_its_address() {
    let source = "j end\nli a0, 5000\nend: beq a0, a0, 3";
    assert_eq!(faults(source), ["2: immediate 5000 does not fit 12 bits", "3: offset 3 is odd"]);
}

/// Pieces of sources, with letters of more than one byte among them.
const PIECES: [&str; 38] = [
    "addi",
    "ld",
    "beq",
    "jal",
    "li",
    "ret",
    ".input",
    ".word",
    ".limit",
    ".code",
    "a0",
    "x31",
    "x99",
    "sp",
    "0",
    "-1",
    "0x",
    "0xFFFFFFFFFFFFFFFFFF",
    "max",
    "-max",
    "..",
    ",",
    "(",
    ")",
    ":",
    "#",
    "\n",
    "\n",
    " ",
    "\t",
    "ä",
    "\u{1F69A}",
    "\0",
    "99999999999999999999999999999999999999999",
    "loop",
    "loop:",
    "-",
    "\r\n",
];

#[test]
fn no_text_stops_the_assembler() {
    let mut random = Random(4);
    for _ in 0..50_000 {
        let count = random.below(30);
        let source: String = (0..count).map(|_| random.pick(&PIECES)).collect();
        let spaced: Vec<&str> = (0..count).map(|_| random.pick(&PIECES)).collect();
        let _ = (assemble(&source), assemble(&spaced.join(" ")));
    }
}

#[test]
fn notes_of_a_source() {
    let source =
        "  \n.limit 9 # steps\n#\n## A rule: of <two> lines\n# more\n.input 0..5 # minutes\n\
                  .input 1..2\nhere: nop # first\nj here\n.code 0 # last\n";
    let inputs = vec![Some("minutes".to_string()), None];
    let title = Some("A rule: of <two> lines".to_string());
    assert_eq!(notes(source), Notes { title, inputs, code_lines: vec![8, 9, 10] });
    let bare = Notes { title: None, inputs: Vec::new(), code_lines: vec![1] };
    assert_eq!(notes("nop # no line of its own"), bare);
}

#[test]
fn every_code_word_has_its_line() {
    let source = include_str!("../../jobs/waiting-time.s");
    let lines: Vec<&str> = source.lines().collect();
    let notes = notes(source);
    assert_eq!(notes.code_lines.len(), job(source).code.len());
    assert_eq!(lines[notes.code_lines[2] - 1].split_whitespace().next(), Some("ecall"));
    assert_eq!(notes.inputs[2].as_deref(), Some("trucks in the queue"));
    assert!(notes.title.unwrap().starts_with("A waiting-time rule: how long"));
}
