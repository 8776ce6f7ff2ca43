//! A page's elements, read as XML: what is not well-formed is a fault. `main` has its tests.

use std::ops::Range;

pub struct Element {
    pub name: String,
    pub attributes: Vec<(String, String)>,
    pub parent: Option<usize>,
    pub self_closed: bool,
    /// The places of the elements inside it, in order.
    pub inside: Range<usize>,
    /// Its part of the page's whole text, references read.
    pub text: Range<usize>,
    /// What stands between its tags.
    pub source: Range<usize>,
}

impl Element {
    pub fn get(&self, name: &str) -> Option<&str> {
        self.attributes.iter().find(|attribute| attribute.0 == name).map(|found| &found.1[..])
    }

    pub fn is(&self, name: &str, class: &str) -> bool {
        let classes = self.get("class").unwrap_or_default();
        self.name == name && classes.split_whitespace().any(|found| found == class)
    }
}

/// Large letters and a prefix make no other name for some readers.
pub fn is_called(name: &str, wanted: &str) -> bool {
    name.split(':').any(|part| part.eq_ignore_ascii_case(wanted))
}

pub struct Page<'a> {
    pub source: &'a str,
    pub text: String,
    pub elements: Vec<Element>,
}

impl Page<'_> {
    pub fn text(&self, element: &Element) -> &str {
        self.text[element.text.clone()].trim()
    }

    /// The text as a browser shows it: blanks and ends of lines between words are one blank.
    pub fn words(&self, element: &Element) -> String {
        self.text(element).split_ascii_whitespace().collect::<Vec<&str>>().join(" ")
    }

    pub fn inside(&self, element: &Element) -> &[Element] {
        &self.elements[element.inside.clone()]
    }

    /// The elements around one, the nearest first.
    pub fn around<'b>(&'b self, element: &'b Element) -> impl Iterator<Item = &'b Element> {
        let parent = |element: &&Element| element.parent.map(|place| &self.elements[place]);
        std::iter::successors(parent(&element), parent)
    }

    pub fn named<'b>(&'b self, name: &'b str) -> impl Iterator<Item = &'b Element> {
        self.elements.iter().filter(move |element| element.name == name)
    }

    pub fn cells<'b>(&'b self, row: &Element, class: &str) -> Vec<&'b Element> {
        self.inside(row).iter().filter(|element| element.is("td", class)).collect()
    }

    /// Where the links in an element lead to, and their texts.
    pub fn links<'b>(&'b self, element: &Element) -> Vec<(&'b str, String)> {
        let links = self.inside(element).iter().filter(|inner| is_called(&inner.name, "a"));
        links.map(|link| (link.get("href").unwrap_or_default(), self.words(link))).collect()
    }
}

pub fn read_page(source: &str) -> Result<Page<'_>, String> {
    let page = Page { source, text: String::new(), elements: Vec::new() };
    let mut reader = Reader { page, place: 0, open: Vec::new() };
    match reader.read() {
        Ok(()) => Ok(reader.page),
        Err(fault) => {
            let line = source[..reader.place].matches('\n').count() + 1;
            Err(format!("line {line}: {fault}"))
        }
    }
}

// ---------------------------------------------------------------------------------------------
// Reading markup.

struct Reader<'a> {
    page: Page<'a>,
    /// How much of the source is read.
    place: usize,
    /// The elements that are not closed yet, the outermost first.
    open: Vec<usize>,
}

impl<'a> Reader<'a> {
    fn read(&mut self) -> Result<(), String> {
        if let Some(place) = self.rest().find(|letter| !may_stand(letter)) {
            self.place = place;
            return Err("a control character".to_string());
        }
        self.take("<!DOCTYPE html>");
        while !self.rest().is_empty() {
            self.read_piece()?;
        }
        match self.open.last() {
            Some(&open) => Err(format!("<{}> is not closed", self.page.elements[open].name)),
            None if self.page.elements.is_empty() => Err("there is no element".to_string()),
            None => Ok(()),
        }
    }

    fn rest(&self) -> &'a str {
        &self.page.source[self.place..]
    }

    fn take(&mut self, text: &str) -> bool {
        let found = self.rest().starts_with(text);
        self.place += if found { text.len() } else { 0 };
        found
    }

    fn need(&mut self, text: &str, after: &str) -> Result<(), String> {
        match self.take(text) {
            true => Ok(()),
            false => Err(format!("no {text} after {after}")),
        }
    }

    /// What stands before the first letter that is none of these.
    fn take_while(&mut self, these: impl Fn(char) -> bool) -> &'a str {
        let rest = self.rest();
        let taken = &rest[..rest.find(|letter| !these(letter)).unwrap_or(rest.len())];
        self.place += taken.len();
        taken
    }

    fn take_blanks(&mut self) -> bool {
        !self.take_while(|letter| " \t\n".contains(letter)).is_empty()
    }

    /// Empty if there is none.
    fn take_name(&mut self) -> &'a str {
        if !self.rest().starts_with(|first: char| first.is_ascii_alphabetic() || first == '_') {
            return "";
        }
        self.take_while(|letter| letter.is_ascii_alphanumeric() || "_-.:".contains(letter))
    }

    fn read_piece(&mut self) -> Result<(), String> {
        if self.take("<!--") {
            self.read_comment()
        } else if self.take("</") {
            self.read_end()
        } else if self.take("<") {
            self.read_start()
        } else {
            self.read_text()
        }
    }

    fn read_comment(&mut self) -> Result<(), String> {
        let inside = self.rest().find("--").ok_or("a comment is not closed")?;
        self.place += inside + "--".len();
        self.need(">", "-- in a comment")
    }

    fn read_end(&mut self) -> Result<(), String> {
        let source_end = self.place - "</".len();
        let name = self.take_name();
        self.take_blanks();
        self.need(">", &format!("</{name}"))?;
        let open = self.open.pop().ok_or(format!("</{name}> closes nothing"))?;
        let behind = self.page.elements.len();
        let element = &mut self.page.elements[open];
        if element.name != name {
            return Err(format!("</{name}> stands where <{}> is open", element.name));
        }
        element.inside.end = behind;
        element.text.end = self.page.text.len();
        element.source.end = source_end;
        Ok(())
    }

    fn read_start(&mut self) -> Result<(), String> {
        let name = self.take_name().to_string();
        let (place, text) = (self.page.elements.len(), self.page.text.len());
        match (&name[..], self.open.is_empty(), place) {
            ("", ..) => return Err("a raw <".to_string()),
            (_, true, 1..) => return Err(format!("<{name}> stands behind the root")),
            (_, true, 0) if name != "html" => return Err(format!("the root is {name}, not html")),
            _ => (),
        }
        let (attributes, self_closed) = self.read_attributes(&name)?;
        self.page.elements.push(Element {
            name,
            attributes,
            parent: self.open.last().copied(),
            self_closed,
            inside: place + 1..place + 1,
            text: text..text,
            source: self.place..self.place,
        });
        if !self_closed {
            self.open.push(place);
        }
        Ok(())
    }

    /// The attributes of a start tag, and whether it is its end too.
    fn read_attributes(&mut self, name: &str) -> Result<(Vec<(String, String)>, bool), String> {
        let mut attributes: Vec<(String, String)> = Vec::new();
        loop {
            let blanks = self.take_blanks();
            if self.take(">") {
                return Ok((attributes, false));
            }
            if self.take("/>") {
                return Ok((attributes, true));
            }
            let attribute = self.take_name();
            if !blanks || attribute.is_empty() {
                return Err(format!("<{name} is not closed by >"));
            }
            // HTML tells no small letters from large ones
            if attributes.iter().any(|found| found.0.eq_ignore_ascii_case(attribute)) {
                return Err(format!("<{name}> has two attributes {attribute}"));
            }
            let value = self.read_value(attribute)?;
            attributes.push((attribute.to_string(), value));
        }
    }

    fn read_value(&mut self, attribute: &str) -> Result<String, String> {
        self.take_blanks();
        self.need("=", attribute)?;
        self.take_blanks();
        self.need("\"", &format!("{attribute}="))?;
        let value = self.take_while(|letter| letter != '"' && letter != '<');
        if self.rest().starts_with('<') {
            return Err(format!("a raw < in the attribute {attribute}"));
        }
        self.need("\"", &format!("the value of {attribute}"))?;
        read_references(value)
    }

    fn read_text(&mut self) -> Result<(), String> {
        let rest = self.rest();
        let text = &rest[..rest.find('<').unwrap_or(rest.len())];
        if self.open.is_empty() && !text.trim().is_empty() {
            return Err(format!("{:?} stands outside of the root", text.trim()));
        }
        if text.contains("]]>") {
            return Err("]]> in a text".to_string());
        }
        self.page.text += &read_references(text)?;
        self.place += text.len();
        Ok(())
    }
}

/// XML has no place for the last two letters either.
fn may_stand(letter: char) -> bool {
    matches!(letter, '\t' | '\n') || !letter.is_control() && !"\u{FFFE}\u{FFFF}".contains(letter)
}

fn read_references(text: &str) -> Result<String, String> {
    let mut parts = text.split('&');
    let mut read = parts.next().unwrap_or_default().to_string();
    for part in parts {
        let (name, behind) = part.split_once(';').unwrap_or(("", part));
        let is_name = |letter: char| letter == '#' || letter.is_ascii_alphanumeric();
        if name.is_empty() || !name.chars().all(is_name) {
            return Err("a raw &".to_string());
        }
        read.push(referred(name).ok_or(format!("&{name}; is no reference of a page"))?);
        read += behind;
    }
    Ok(read)
}

fn referred(name: &str) -> Option<char> {
    let code = |digits: &str, radix| {
        let all = !digits.is_empty() && digits.chars().all(|digit| digit.is_digit(radix));
        let code = u32::from_str_radix(digits, radix).ok().filter(|_| all)?;
        char::from_u32(code).filter(|&letter| may_stand(letter))
    };
    match (name, name.strip_prefix('#')) {
        ("lt", _) => Some('<'),
        ("gt", _) => Some('>'),
        ("amp", _) => Some('&'),
        ("quot", _) => Some('"'),
        (_, Some(digits)) => match digits.strip_prefix('x') {
            Some(digits) => code(digits, 16),
            None => code(digits, 10),
        },
        _ => None,
    }
}
