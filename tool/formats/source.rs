//! Assembly text with directives to a job.

use crate::blocks::Interval;
use crate::instruction::{encode, register_number, Form, Instruction, ROWS};
use crate::job::Job;
use crate::limits::{MEMORY_WORDS, MOST_CODE_WORDS, MOST_INPUTS, MOST_STEPS, PATH_NUMBERS};
use std::collections::BTreeMap;

/// What is wrong with a line, counted from 1.
#[derive(Clone, Debug, PartialEq, Eq)]
pub struct Fault {
    pub line: usize,
    pub message: String,
}

/// An instruction or a directive, with the address of the next code word.
struct Statement<'a> {
    line: usize,
    address: i64,
    name: &'a str,
    operands: Vec<&'a str>,
}

/// Address and line of each label.
type Labels<'a> = BTreeMap<&'a str, (i64, usize)>;

/// The job of a source text, or all that is wrong with it, in the order of its lines.
pub fn assemble(text: &str) -> Result<Job, Vec<Fault>> {
    let mut faults = Vec::new();
    let (statements, labels) = statements(text, &mut faults);
    let mut draft = Draft::default();
    for statement in &statements {
        if let Err(message) = draft.take(statement, &labels) {
            faults.push(Fault { line: statement.line, message });
        }
    }
    if !statements.iter().any(is_code) {
        let line = text.lines().count().max(1);
        faults.push(Fault { line, message: "the program has no instruction".to_string() });
    }
    faults.sort_by_key(|fault| fault.line);
    if faults.is_empty() {
        Ok(draft.job())
    } else {
        Err(faults)
    }
}

// ---------------------------------------------------------------------------------------------
// What only a reader sees.

/// What the text of a source says beside its job.
#[derive(Clone, Debug, Default, PartialEq, Eq)]
pub struct Notes {
    /// The first comment that has a line of its own.
    pub title: Option<String>,
    /// The comment behind each `.input`.
    pub inputs: Vec<Option<String>>,
    /// The line of each code word, counted from 1.
    pub code_lines: Vec<usize>,
}

/// The notes of a source that has no fault.
pub fn notes(text: &str) -> Notes {
    let lines: Vec<&str> = text.lines().collect();
    let (statements, _) = statements(text, &mut Vec::new());
    let inputs = statements.iter().filter(|statement| statement.name == ".input");
    let own_line = |line: &&&str| without_comment(line).is_empty();
    Notes {
        title: lines.iter().filter(own_line).find_map(|line| comment(line)),
        inputs: inputs.map(|statement| comment(lines[statement.line - 1])).collect(),
        code_lines: statements.iter().filter(|it| is_code(it)).map(|it| it.line).collect(),
    }
}

/// A line's comment; none if there is nothing to read in it.
fn comment(line: &str) -> Option<String> {
    let (_, text) = line.split_once('#')?;
    let text = text.trim_start_matches('#').trim();
    (!text.is_empty()).then(|| text.to_string())
}

// ---------------------------------------------------------------------------------------------
// Lines.

fn statements<'a>(text: &'a str, faults: &mut Vec<Fault>) -> (Vec<Statement<'a>>, Labels<'a>) {
    let (mut statements, mut labels) = (Vec::new(), Labels::new());
    let mut address = 0;
    for (index, whole) in text.lines().enumerate() {
        let line = index + 1;
        let mut rest = without_comment(whole);
        while let Some((label, after)) = rest.split_once(':') {
            if let Err(message) = put_label(&mut labels, label.trim(), address, line) {
                faults.push(Fault { line, message });
            }
            rest = after.trim();
        }
        if rest.is_empty() {
            continue;
        }
        let statement = statement(rest, address, line);
        address += if is_code(&statement) { 4 } else { 0 };
        statements.push(statement);
    }
    (statements, labels)
}

/// What a line has before its comment, without the blanks around it.
pub fn without_comment(line: &str) -> &str {
    line.split('#').next().unwrap_or("").trim()
}

fn put_label<'a>(
    labels: &mut Labels<'a>,
    label: &'a str,
    address: i64,
    line: usize,
) -> Result<(), String> {
    if !is_label(label) {
        return Err(format!("{label:?} cannot be a label"));
    }
    match labels.insert(label, (address, line)) {
        Some((_, before)) => Err(format!("label {label} already stands in line {before}")),
        None => Ok(()),
    }
}

/// Letters, digits, `_` and `.`, with no digit in front.
fn is_label(text: &str) -> bool {
    let is_part = |letter: char| letter.is_ascii_alphanumeric() || letter == '_' || letter == '.';
    text.starts_with(|first: char| !first.is_ascii_digit()) && text.chars().all(is_part)
}

fn statement(text: &str, address: i64, line: usize) -> Statement<'_> {
    let (name, rest) = text.split_once(char::is_whitespace).unwrap_or((text, ""));
    let operands = match rest.trim() {
        "" => Vec::new(),
        some => some.split(',').map(str::trim).collect(),
    };
    Statement { line, address, name, operands }
}

fn is_code(statement: &Statement) -> bool {
    !statement.name.starts_with('.') || statement.name == ".code"
}

// ---------------------------------------------------------------------------------------------
// Directives.

/// A job in the making; what stands once is none until its line comes.
#[derive(Default)]
struct Draft {
    code: Vec<u32>,
    intervals: Vec<Interval>,
    limit: Option<u64>,
    first: Option<u64>,
    memory: Vec<u64>,
}

impl Draft {
    /// A job without a limit gets the highest; one without a first path begins with path 0.
    fn job(self) -> Job {
        Job {
            code: self.code,
            intervals: self.intervals,
            limit: self.limit.unwrap_or(MOST_STEPS),
            first: self.first.unwrap_or(0),
            memory: self.memory,
        }
    }

    fn take(&mut self, statement: &Statement, labels: &Labels) -> Result<(), String> {
        match (statement.name, &statement.operands[..]) {
            (".input", [interval]) => self.input(interval),
            (".limit", [number]) => self.limit(number),
            (".first", [number]) => self.first(number),
            (".word", [_, ..]) => self.words(&statement.operands),
            (".code", [number]) => self.code(code_word(number)?),
            (name, _) if name.starts_with('.') => Err(directive_fault(name)),
            _ => self.code(encode(&instruction(statement, labels)?)),
        }
    }

    fn code(&mut self, word: u32) -> Result<(), String> {
        self.code.push(word);
        bounded(self.code.len(), MOST_CODE_WORDS, "instructions")
    }

    fn input(&mut self, text: &str) -> Result<(), String> {
        let (low, high) =
            text.split_once("..").ok_or_else(|| format!("{text} is not of the form LOW..HIGH"))?;
        let (low, high) = (word(low.trim())?, word(high.trim())?);
        if low > high {
            return Err(format!("the input's low {low} is above its high {high}"));
        }
        self.intervals.push((low, high));
        bounded(self.intervals.len(), MOST_INPUTS, "inputs")
    }

    fn limit(&mut self, text: &str) -> Result<(), String> {
        let limit = word(text)?;
        if !(1..=MOST_STEPS).contains(&limit) {
            return Err(format!("limit {limit} is not 1 to {MOST_STEPS}"));
        }
        once(&mut self.limit, limit, ".limit")
    }

    fn first(&mut self, text: &str) -> Result<(), String> {
        let first = word(text)?;
        if first >= PATH_NUMBERS {
            return Err(format!("first path {first} is not below {PATH_NUMBERS}"));
        }
        once(&mut self.first, first, ".first")
    }

    fn words(&mut self, texts: &[&str]) -> Result<(), String> {
        for text in texts {
            self.memory.push(word(text)?);
            bounded(self.memory.len(), MEMORY_WORDS, "memory words")?;
        }
        Ok(())
    }
}

/// A fault for the first one too many; the rest say nothing new.
fn bounded(count: usize, most: usize, what: &str) -> Result<(), String> {
    if count == most + 1 {
        return Err(format!("the job has more than {most} {what}"));
    }
    Ok(())
}

fn once(place: &mut Option<u64>, value: u64, name: &str) -> Result<(), String> {
    match place.replace(value) {
        Some(_) => Err(format!("{name} stands more than once")),
        None => Ok(()),
    }
}

fn directive_fault(name: &str) -> String {
    match name {
        ".input" => "write it as: .input LOW..HIGH".to_string(),
        ".limit" | ".first" | ".word" | ".code" => format!("write it as: {name} N"),
        _ => format!("no directive {name}; there are .input, .limit, .first, .word and .code"),
    }
}

// ---------------------------------------------------------------------------------------------
// Numbers.

/// A decimal or 0x number, perhaps negative.
fn number(text: &str) -> Result<i128, String> {
    let (sign, digits) = text.strip_prefix('-').map_or((1, text), |digits| (-1, digits));
    let (radix, digits) = digits.strip_prefix("0x").map_or((10, digits), |digits| (16, digits));
    if digits.is_empty() || !digits.chars().all(|digit| digit.is_digit(radix)) {
        return Err(format!("{text:?} is not a number"));
    }
    let size = i128::from_str_radix(digits, radix);
    size.map(|size| sign * size).map_err(|_| does_not_fit("number", text, 64))
}

fn does_not_fit(what: &str, text: &str, width: u32) -> String {
    format!("{what} {text} does not fit {width} bits")
}

/// A word of 64 bits; a negative one is in two's complement.
fn word(text: &str) -> Result<u64, String> {
    if text == "max" {
        return Ok(u64::MAX);
    }
    let value = number(text)?;
    let fits = (i64::MIN as i128..=u64::MAX as i128).contains(&value);
    fits.then_some(value as u64).ok_or_else(|| does_not_fit("number", text, 64))
}

fn code_word(text: &str) -> Result<u32, String> {
    let value = number(text)?;
    u32::try_from(value).map_err(|_| does_not_fit("code word", text, 32))
}

fn immediate(text: &str) -> Result<i64, String> {
    let value = number(text)?;
    let fits = (-2048..2048).contains(&value);
    fits.then_some(value as i64).ok_or_else(|| does_not_fit("immediate", text, 12))
}

/// The upper 20 bits as a number with or without a sign, as what lui leaves in its register.
fn upper(text: &str) -> Result<i64, String> {
    let value = number(text)?;
    let fits = (-(1 << 19)..1 << 20).contains(&value);
    let whole = ((value as i32) << 12) as i64;
    fits.then_some(whole).ok_or_else(|| does_not_fit("immediate", text, 20))
}

// ---------------------------------------------------------------------------------------------
// Instructions.

/// Short forms, and how each is written.
const SHORT_FORMS: [(&str, &str); 5] =
    [("nop", ""), ("li", " rd, imm"), ("mv", " rd, rs1"), ("j", " target"), ("ret", "")];

/// A short form as the instruction that it stands for; anything else as it is.
fn written_out<'a>(name: &'a str, operands: &[&'a str]) -> (&'a str, Vec<&'a str>) {
    match (name, operands) {
        ("nop", []) => ("addi", vec!["zero", "zero", "0"]),
        ("li", [rd, imm]) => ("addi", vec![rd, "zero", imm]),
        ("mv", [rd, rs1]) => ("addi", vec![rd, rs1, "0"]),
        ("j", [target]) => ("jal", vec!["zero", target]),
        ("ret", []) => ("jalr", vec!["zero", "0(ra)"]),
        _ => (name, operands.to_vec()),
    }
}

fn instruction(statement: &Statement, labels: &Labels) -> Result<Instruction, String> {
    let (name, operands) = written_out(statement.name, &statement.operands);
    let row = ROWS.iter().position(|row| row.name == name).ok_or_else(|| name_fault(name))?;
    let form = ROWS[row].form;
    let place = |target| offset(target, statement.address, form, labels);
    let put = |rd, rs1, rs2, imm| Ok(Instruction { row, rd, rs1, rs2, imm });
    match (form, &operands[..]) {
        (Form::Upper, [rd, imm]) => put(register(rd)?, 0, 0, upper(imm)?),
        (Form::Immediate, [rd, rs1, imm]) => put(register(rd)?, register(rs1)?, 0, immediate(imm)?),
        (Form::Register, [rd, rs1, rs2]) => put(register(rd)?, register(rs1)?, register(rs2)?, 0),
        (Form::Load | Form::JumpRegister, [rd, at]) => {
            let (imm, rs1) = based(at)?;
            put(register(rd)?, rs1, 0, imm)
        }
        (Form::Store, [rs2, at]) => {
            let (imm, rs1) = based(at)?;
            put(0, rs1, register(rs2)?, imm)
        }
        (Form::Branch, [rs1, rs2, to]) => put(0, register(rs1)?, register(rs2)?, place(to)?),
        (Form::Jump, [rd, to]) => put(register(rd)?, 0, 0, place(to)?),
        (Form::Call, []) => put(0, 0, 0, 0),
        _ => Err(format!("write it as: {name}{}", operands_of(form))),
    }
}

fn name_fault(name: &str) -> String {
    match SHORT_FORMS.iter().find(|(short, _)| *short == name) {
        Some((_, operands)) => format!("write it as: {name}{operands}"),
        None => {
            format!("no instruction {name}; RISC-U has {}", ROWS.map(|row| row.name).join(", "))
        }
    }
}

fn operands_of(form: Form) -> &'static str {
    match form {
        Form::Upper => " rd, imm",
        Form::Immediate => " rd, rs1, imm",
        Form::Register => " rd, rs1, rs2",
        Form::Load | Form::JumpRegister => " rd, imm(rs1)",
        Form::Store => " rs2, imm(rs1)",
        Form::Branch => " rs1, rs2, target",
        Form::Jump => " rd, target",
        Form::Call => "",
    }
}

fn register(name: &str) -> Result<u32, String> {
    register_number(name).ok_or_else(|| format!("no register {name:?}"))
}

/// `imm(rs1)`
fn based(text: &str) -> Result<(i64, u32), String> {
    let parts = text.strip_suffix(')').and_then(|text| text.split_once('('));
    let (imm, base) = parts.ok_or_else(|| format!("{text} is not of the form imm(rs1)"))?;
    Ok((immediate(imm.trim())?, register(base.trim())?))
}

/// How far a label is from the instruction, or the offset itself as a number of bytes.
fn offset(target: &str, address: i64, form: Form, labels: &Labels) -> Result<i64, String> {
    let reach: i64 = if form == Form::Branch { 1 << 12 } else { 1 << 20 };
    let distance = match labels.get(target) {
        Some((place, _)) => (place - address) as i128,
        None if is_label(target) => return Err(format!("no label {target}")),
        None => number(target)?,
    };
    if distance % 2 != 0 {
        return Err(format!("offset {distance} is odd"));
    }
    let fits = (-reach as i128..reach as i128).contains(&distance);
    let fault = || format!("{target} is {distance} bytes away, beyond {} to {}", -reach, reach - 2);
    fits.then_some(distance as i64).ok_or_else(fault)
}
