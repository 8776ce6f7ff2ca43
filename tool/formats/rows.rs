//! Rows of inputs from a text: one row of decimal numbers to a line.

use crate::source::{without_comment, Fault};

/// The rows of a text for a rule with so many inputs, or all that is wrong with its lines, in order.
pub fn read(text: &str, inputs: usize) -> Result<Vec<Vec<u64>>, Vec<Fault>> {
    let (mut rows, mut faults) = (Vec::new(), Vec::new());
    // spreadsheets put a byte order mark at the start
    let text = text.strip_prefix('\u{FEFF}').unwrap_or(text);
    let mut lines = filled_lines(text).peekable();
    if let Some((line, header)) = lines.next_if(|&(_, text)| is_header(text, inputs)) {
        let message = count_fault(header, "header", "name", names(header, inputs).len(), inputs);
        faults.extend(message.map(|message| Fault { line, message }));
    }
    for (line, text) in lines {
        match row(text, inputs) {
            Ok(row) => rows.push(row),
            Err(messages) => {
                faults.extend(messages.into_iter().map(|message| Fault { line, message }))
            }
        }
    }
    if rows.is_empty() && faults.is_empty() {
        let line = text.lines().count().max(1);
        faults.push(Fault { line, message: "the file has no row".to_string() });
    }
    faultless(rows, faults)
}

fn faultless<T, F>(found: T, faults: Vec<F>) -> Result<T, Vec<F>> {
    if faults.is_empty() {
        Ok(found)
    } else {
        Err(faults)
    }
}

/// The lines that have more than a comment, each with its number.
fn filled_lines(text: &str) -> impl Iterator<Item = (usize, &str)> {
    let numbered = (1..).zip(text.lines().map(without_comment));
    numbered.filter(|(_, text)| !text.is_empty())
}

fn count_fault(text: &str, what: &str, part: &str, count: usize, inputs: usize) -> Option<String> {
    let (parts, wanted) = (counted(count, part), counted(inputs, "input"));
    // spreadsheets of many countries write them
    let semicolons = "; commas or blanks separate them, and semicolons do not";
    let hint = if text.contains(';') { semicolons } else { "" };
    (count != inputs).then(|| format!("the {what} has {parts}, and the rule has {wanted}{hint}"))
}

/// A count and its word.
pub fn counted(count: usize, what: &str) -> String {
    format!("{count} {what}{}", if count == 1 { "" } else { "s" })
}

// ---------------------------------------------------------------------------------------------
// The header.

/// With a value among the names it is a row, so that a mistyped first row is told and not passed over;
/// with one input alone, any digit makes it one.
fn is_header(text: &str, inputs: usize) -> bool {
    let is_number = |name: &str| inputs == 1 && name.contains(|letter: char| letter.is_numeric());
    names(text, inputs).into_iter().all(|name| is_name(name) && !is_number(name))
}

/// A name may have blanks in it if commas stand between the names, or if there is one alone.
fn names(text: &str, inputs: usize) -> Vec<&str> {
    if text.contains(',') || inputs == 1 {
        text.split(',').map(str::trim).collect()
    } else {
        text.split_whitespace().collect()
    }
}

/// A letter stands before any digit: signs, points and quotation marks may begin a number too.
fn is_name(text: &str) -> bool {
    text.chars().find(|letter| letter.is_alphanumeric()).is_some_and(char::is_alphabetic)
}

// ---------------------------------------------------------------------------------------------
// Rows.

/// The values of a row, or all that is wrong with it.
fn row(text: &str, inputs: usize) -> Result<Vec<u64>, Vec<String>> {
    let fields = fields(text);
    if let Some(message) = missing_fault(&fields) {
        return Err(vec![message]);
    }
    if let Some(message) = count_fault(text, "row", "value", fields.len(), inputs) {
        return Err(vec![message]);
    }
    let (mut values, mut faults) = (Vec::new(), Vec::new());
    for (field, input) in fields.into_iter().zip(1..) {
        match number(field) {
            Ok(value) => values.push(value),
            Err(message) => faults.push(format!("input {input} is {message}")),
        }
    }
    faultless(values, faults)
}

/// What stands between commas or blanks; an empty field where a comma has nothing beside it.
fn fields(text: &str) -> Vec<&str> {
    let mut fields = Vec::new();
    for part in text.split(',') {
        let before = fields.len();
        fields.extend(part.split_whitespace());
        if fields.len() == before {
            fields.push("");
        }
    }
    fields
}

fn missing_fault(fields: &[&str]) -> Option<String> {
    let place = fields.iter().position(|field| field.is_empty())? + 1;
    let after = if place == fields.len() { " after the last comma" } else { "" };
    Some(format!("value {place} is missing{after}"))
}

fn number(text: &str) -> Result<u64, String> {
    let is_digits = |text: &str| !text.is_empty() && text.bytes().all(|byte| byte.is_ascii_digit());
    if is_digits(text) {
        return text.parse().map_err(|_| format!("{text}, which is above {}", u64::MAX));
    }
    if text.strip_prefix('-').is_some_and(is_digits) {
        return Err(format!("{text}, which is negative"));
    }
    Err(format!("{text:?}, which is no whole number in decimal digits"))
}

#[cfg(test)]
mod tests {
    use super::*;
    use crate::limits::MOST_INPUTS;
    use crate::random::Random;

    fn rows(text: &str, inputs: usize) -> Vec<Vec<u64>> {
        read(text, inputs).unwrap_or_else(|faults| panic!("{text:?}: {faults:?}"))
    }

    /// The messages, each with its line.
    fn faults(text: &str, inputs: usize) -> Vec<String> {
        let faults = read(text, inputs).err().unwrap_or_default();
        faults.iter().map(|fault| format!("{}: {}", fault.line, fault.message)).collect()
    }

    /// What is wrong with a line that stands behind a good row of three.
    fn fault(line: &str) -> String {
        let faults = faults(&format!("1 2 3\n{line}\n"), 3);
        assert_eq!(faults.len(), 1, "{line}: {faults:?}");
        faults[0].strip_prefix("2: ").unwrap_or(&faults[0]).to_string()
    }

    #[test]
    fn commas_or_blanks_stand_between_numbers() {
        for line in ["1,2,3", "1 2 3", "1\t2\t3", " 1 ,\t2,  3 ", "1, 2 3", "01,002,3 # a comment"]
        {
            assert_eq!(rows(line, 3), [[1, 2, 3]], "{line:?}");
        }
        assert_eq!(rows("0\n18446744073709551615\n", 1), [[0], [u64::MAX]]);
        let zeros = "0".repeat(100);
        assert_eq!(rows(&format!("{zeros}7"), 1), [[7]]);
    }

    #[test]
    fn comments_and_empty_lines_are_passed_over() {
        assert_eq!(rows("# a shift\n\n1 2#3\n \t\n#\n4,5\n\n", 2), [[1, 2], [4, 5]]);
    }

    #[test]
    fn line_ends_and_a_byte_order_mark() {
        assert_eq!(rows("\u{FEFF}1,2\r\n\r\n3,4\r\n5,6\r", 2), [[1, 2], [3, 4], [5, 6]]);
        assert_eq!(rows("\u{FEFF}a,b\r\n1,2", 2), [[1, 2]]);
        assert_eq!(
            faults("1,2\r\n3\r\n", 2),
            ["2: the row has 1 value, and the rule has 2 inputs"]
        );
    }

    #[test]
    fn the_first_line_may_have_names() {
        for header in
            ["other,ours", "other ours", "haul time 1, haul time 2", "\"a\",\"b\"", "ä _b1"]
        {
            assert_eq!(rows(&format!("# shift\n\n{header}\n1,2\n"), 2), [[1, 2]], "{header}");
        }
        assert_eq!(
            faults("a,b,c\n1,2", 2),
            ["1: the header has 3 names, and the rule has 2 inputs"]
        );
        let hint =
            "and the rule has 2 inputs; commas or blanks separate them, and semicolons do not";
        assert_eq!(faults("a;b\n1,2", 2), [format!("1: the header has 1 name, {hint}")]);
        assert_eq!(faults("1,2\na,b", 2).len(), 2);
        assert_eq!(rows("haul time\n5\n", 1), [[5]]);
        assert_eq!(faults("a,b\n5", 1), ["1: the header has 2 names, and the rule has 1 input"]);
    }

    #[test]
    fn a_mistyped_first_row_is_no_header() {
        let no_number = |input, text| {
            format!("1: input {input} is {text:?}, which is no whole number in decimal digits")
        };
        assert_eq!(faults("l2\n5", 1), [no_number(1, "l2")]);
        assert_eq!(faults("l2, 5", 2), [no_number(1, "l2")]);
        assert_eq!(faults("l2 5", 2), [no_number(1, "l2")]);
        assert_eq!(faults("+5, 5", 2), [no_number(1, "+5")]);
        assert_eq!(faults("\"5\",\"6\"", 2), [no_number(1, "\"5\""), no_number(2, "\"6\"")]);
        assert_eq!(faults("-5, 5", 2), ["1: input 1 is -5, which is negative"]);
        assert_eq!(faults(", 5", 2), ["1: value 1 is missing"]);
        assert_eq!(faults("a,,b", 3), ["1: value 2 is missing"]);
    }

    #[test]
    fn faults_of_values() {
        for text in
            ["x1", "5.5", "0x10", "+5", "1_000", "3min", "--5", "-", "-x", "٣", "max", "1;2"]
        {
            let expected =
                format!("input 2 is {text:?}, which is no whole number in decimal digits");
            assert_eq!(fault(&format!("1,{text},3")), expected);
        }
        assert_eq!(fault("1 2 -3"), "input 3 is -3, which is negative");
        let above = "which is above 18446744073709551615";
        for text in ["18446744073709551616".to_string(), "9".repeat(60)] {
            assert_eq!(fault(&format!("{text} 2 3")), format!("input 1 is {text}, {above}"));
        }
        assert_eq!(
            fault("1 2 \u{1B}[2J"),
            "input 3 is \"\\u{1b}[2J\", which is no whole number in decimal digits"
        );
    }

    #[test]
    fn faults_of_counts() {
        assert_eq!(fault("1"), "the row has 1 value, and the rule has 3 inputs");
        assert_eq!(fault("1 2"), "the row has 2 values, and the rule has 3 inputs");
        assert_eq!(fault("1,2,3,x"), "the row has 4 values, and the rule has 3 inputs");
        assert_eq!(faults("1 2", 1), ["1: the row has 2 values, and the rule has 1 input"]);
        let hint =
            "and the rule has 3 inputs; commas or blanks separate them, and semicolons do not";
        assert_eq!(fault("1;2;3"), format!("the row has 1 value, {hint}"));
    }

    #[test]
    fn missing_values() {
        assert_eq!(fault("1,,3"), "value 2 is missing");
        assert_eq!(fault("1, \t,3"), "value 2 is missing");
        assert_eq!(fault(",2,3"), "value 1 is missing");
        assert_eq!(fault("1,2,"), "value 3 is missing after the last comma");
        assert_eq!(fault("1,2,3,"), "value 4 is missing after the last comma");
        assert_eq!(fault(","), "value 1 is missing");
    }

    #[test]
    fn a_file_has_a_row() {
        assert_eq!(faults("", 2), ["1: the file has no row"]);
        assert_eq!(faults("\u{FEFF}", 2), ["1: the file has no row"]);
        assert_eq!(faults("# nothing\na, b\n\n", 2), ["3: the file has no row"]);
    }

    #[test]
    fn all_faults_are_listed_in_order() {
        let text = "a,b,c\n1,2\n3\nx,-1\n\n5,6,\n";
        let expected = [
            "1: the header has 3 names, and the rule has 2 inputs",
            "3: the row has 1 value, and the rule has 2 inputs",
            "4: input 1 is \"x\", which is no whole number in decimal digits",
            "4: input 2 is -1, which is negative",
            "6: value 3 is missing after the last comma",
        ];
        assert_eq!(faults(text, 2), expected);
    }

    fn random_rows(random: &mut Random, inputs: usize) -> Vec<Vec<u64>> {
        let value = |random: &mut Random| random.next() >> random.below(64);
        let count = 1 + random.below(20);
        (0..count).map(|_| (0..inputs).map(|_| value(random)).collect()).collect()
    }

    #[test]
    fn rows_come_back_from_their_text() {
        let mut random = Random(9);
        for _ in 0..1000 {
            let inputs = 1 + random.below(MOST_INPUTS);
            let rows = random_rows(&mut random, inputs);
            let mut text = random.pick(&["", "\u{FEFF}", "# rows\n", "\n\n"]).to_string();
            for row in &rows {
                for (place, value) in row.iter().enumerate() {
                    let between = random.pick(&[",", " ", "\t", " , ", "  "]);
                    text += if place == 0 { "" } else { between };
                    text += &value.to_string();
                }
                text += random.pick(&["\n", "\r\n", " # row\n", "#\n\n"]);
            }
            assert_eq!(read(&text, inputs), Ok(rows), "{text}");
        }
    }

    /// Pieces of texts, with letters of more than one byte among them.
    const PIECES: [&str; 16] = [
        "0",
        "7",
        "18446744073709551615",
        "99999999999999999999",
        "-",
        "-3",
        ",",
        " ",
        "\t",
        "\n",
        "\r\n",
        "#",
        "a",
        "ä",
        "\u{FEFF}",
        "\0",
    ];

    #[test]
    fn every_text_has_whole_rows_or_faults() {
        let mut random = Random(10);
        for _ in 0..50_000 {
            let (count, inputs) = (random.below(20), random.below(4));
            let text: String = (0..count).map(|_| random.pick(&PIECES)).collect();
            match read(&text, inputs) {
                Ok(rows) => {
                    assert!(!rows.is_empty(), "{text:?}");
                    assert!(rows.iter().all(|row| row.len() == inputs), "{text:?}");
                }
                Err(faults) => {
                    let lines = text.lines().count().max(1);
                    assert!(!faults.is_empty() && faults.is_sorted_by_key(|fault| fault.line));
                    assert!(faults.iter().all(|fault| (1..=lines).contains(&fault.line)));
                }
            }
        }
    }
}
