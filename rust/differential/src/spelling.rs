//! A path's text in document 02's words: its steps, or the number of what is wrong with it. Our answers
//! are held to it, and it to the Rust; it shares no code with either.
//!
//! One thing can be done otherwise, as a [`Fault`] says: so are the wrong readers of paths made that the
//! comparison must tell.

use crate::faults::Fault;
use lichenhusk::WORDS_PER_STEP;

/// A step of a path.
#[derive(Clone, Debug, PartialEq, Eq)]
pub enum Step {
    /// The field of a name.
    Name(String),
    /// The element of a number.
    Index(u64),
}

impl Step {
    /// The name's bytes, or none.
    pub fn name(&self) -> &[u8] {
        match self {
            Step::Name(name) => name.as_bytes(),
            Step::Index(_) => &[],
        }
    }
}

/// The bytes of all names, one after another.
pub fn names_of(steps: &[Step]) -> Vec<u8> {
    steps.iter().flat_map(Step::name).copied().collect()
}

/// Three words for each step.
pub fn words_of(steps: &[Step]) -> Vec<u32> {
    let mut used = 0;
    let row = |step: &Step| -> [u32; WORDS_PER_STEP] {
        let start = used;
        used += step.name().len();
        match *step {
            Step::Name(_) => [0, start as u32, used as u32],
            Step::Index(index) => [1, index as u32, (index >> 32) as u32],
        }
    };
    steps.iter().flat_map(row).collect()
}

/// How paths are read, but for room: as document 02 says, or with a fault.
#[derive(Clone, Copy, Debug)]
pub struct Spelling {
    /// What is done otherwise.
    pub fault: Option<Fault>,
}

/// What is between a bracket and the one that closes it, without backslashes.
#[derive(Default)]
struct Content {
    text: String,
    /// Whether a backslash stands before its first character, or its last.
    escaped: [bool; 2],
}

impl Content {
    fn push(&mut self, letter: char, escaped: bool) {
        if self.text.is_empty() {
            self.escaped[0] = escaped;
        }
        self.escaped[1] = escaped;
        self.text.push(letter);
    }
}

impl Spelling {
    fn is(self, fault: Fault) -> bool {
        self.fault == Some(fault)
    }

    /// The steps of a path, or its refusal: 70 to 75.
    pub fn steps(self, path: &[u8]) -> Result<Vec<Step>, u32> {
        match std::str::from_utf8(path) {
            Ok(text) => self.of_text(text),
            Err(_) if self.is(Fault::TakesAnyText) => self.of_text(&String::from_utf8_lossy(path)),
            Err(_) if self.is(Fault::TextLast) => {
                self.of_text(&String::from_utf8_lossy(path)).and(Err(70))
            }
            Err(_) => Err(70),
        }
    }

    fn of_text(self, text: &str) -> Result<Vec<Step>, u32> {
        if text == "." && self.is(Fault::LoneDotTrails) {
            return Err(72);
        }
        if text.starts_with('.') {
            return Err(71);
        }
        if text.ends_with('.') && self.is(Fault::TrailingDotFirst) {
            return Err(72);
        }
        let mut steps = Vec::new();
        let mut rest = text;
        while !rest.is_empty() {
            let Some((step, after)) = self.step(rest, steps.is_empty())? else {
                break;
            };
            assert!(after.len() < rest.len(), "a step has bytes");
            steps.push(step);
            rest = after;
        }
        Ok(steps)
    }

    /// The step that a text begins with, and what comes after it; nothing at a dot that is taken for
    /// the end.
    fn step(self, text: &str, is_first: bool) -> Result<Option<(Step, &str)>, u32> {
        let mut letters = text.chars();
        Ok(Some(match letters.next() {
            Some('[') => self.bracket(letters.as_str())?,
            Some(']') => return Err(73),
            Some('.') => match letters.clone().next() {
                None if self.is(Fault::TakesTrailingDots) => return Ok(None),
                None if self.is(Fault::TrailingIsUnexpected) => return Err(73),
                None => return Err(72),
                Some('.' | '[' | ']') => return Err(73),
                Some(_) => self.plain(letters.as_str()),
            },
            // Only after a bracket, or first, comes a name without a dot.
            _ if !is_first && self.is(Fault::WantsDots) => return Err(73),
            _ => self.plain(text),
        }))
    }

    /// A name by itself, up to a dot, a bracket or the end.
    fn plain(self, text: &str) -> (Step, &str) {
        let ends = |letter: char| match letter {
            ']' => !self.is(Fault::ClosingInNames),
            _ => matches!(letter, '.' | '['),
        };
        if self.is(Fault::EscapesOutside) {
            let (content, rest) = unescaped(text, ends);
            // A backslash at the end is no part of a name, and nothing is left after it.
            return (Step::Name(content.text), rest.trim_start_matches('\\'));
        }
        let (name, rest) = text.split_at(text.find(ends).unwrap_or(text.len()));
        (Step::Name(name.to_string()), rest)
    }

    /// What is in brackets, after the one that opens; and what comes after the one that closes.
    fn bracket(self, text: &str) -> Result<(Step, &str), u32> {
        let (content, rest) = match self.fault {
            Some(Fault::KeepsBackslashes) => with_backslashes(text),
            Some(Fault::EscapedCloses) => {
                let (inside, _) = text.split_at(text.find(']').unwrap_or(text.len()));
                (unescaped(inside, |_| false).0, &text[inside.len()..])
            }
            Some(Fault::QuotesHoldBrackets) if text.starts_with('\'') => {
                let (mut content, rest) = unescaped(&text[1..], |letter| letter == '\'');
                content.text.insert(0, '\'');
                match rest.strip_prefix('\'') {
                    Some(rest) => {
                        content.push('\'', false);
                        (content, rest)
                    }
                    None => (content, rest),
                }
            }
            _ => unescaped(text, |letter| letter == ']'),
        };
        let element = self.element(&content).ok_or(75);
        match rest.strip_prefix(']') {
            Some(rest) => Ok((element?, rest)),
            None if self.is(Fault::UnclosedLast) => element.and(Err(74)),
            None => Err(74),
        }
    }

    /// A quoted name or a number.
    fn element(self, content: &Content) -> Option<Step> {
        if let Some(name) = self.quoted(content) {
            return Some(Step::Name(name.to_string()));
        }
        match self.number(&content.text) {
            None if self.is(Fault::BareNames) => Some(Step::Name(content.text.clone())),
            number => number.map(Step::Index),
        }
    }

    /// The name between two quotes of a kind.
    fn quoted(self, content: &Content) -> Option<&str> {
        let text = &content.text;
        let quotes: &[char] = match self.fault {
            Some(Fault::SingleQuotesOnly) => &['\''],
            _ => &['\'', '"'],
        };
        let (first, last) = (text.chars().next()?, text.chars().last()?);
        let is_pair = first == last || quotes.contains(&last) && self.is(Fault::MixedQuotes);
        if !quotes.contains(&first) || !is_pair {
            return None;
        }
        match text.len() {
            1 => self.is(Fault::OneQuote).then_some(""),
            2 if self.is(Fault::NoEmptyQuotes) => None,
            _ if self.is(Fault::QuotesBeforeEscapes) && content.escaped.contains(&true) => None,
            length => Some(&text[1..length - 1]),
        }
    }

    /// A number below 2 to the 64th, before which a plus may stand.
    fn number(self, text: &str) -> Option<u64> {
        let digits = match self.fault {
            Some(Fault::NoPlus) => text,
            Some(Fault::ManyPluses) => text.trim_start_matches('+'),
            Some(Fault::TakesMinus) => text.strip_prefix(['+', '-']).unwrap_or(text),
            Some(Fault::TrimsNumbers) => text.trim().strip_prefix('+').unwrap_or(text.trim()),
            _ => text.strip_prefix('+').unwrap_or(text),
        };
        let no_digits = digits.is_empty() && !self.is(Fault::NoDigitsIsZero);
        let zeros = digits.len() > 1 && digits.starts_with('0') && self.is(Fault::NoLeadingZeros);
        if no_digits || zeros || !digits.bytes().all(|byte| byte.is_ascii_digit()) {
            return None;
        }
        let add = |sum: u128, digit: u8| {
            sum.saturating_mul(10)
                .saturating_add(u128::from(digit - b'0'))
        };
        let number = digits.bytes().fold(0, add);
        match self.fault {
            Some(Fault::WrapsIndices) => Some(number as u64),
            Some(Fault::IndicesOfFourBytes) => u32::try_from(number).ok().map(u64::from),
            _ => u64::try_from(number).ok(),
        }
    }
}

/// A text up to the first character that ends it and has no backslash before it, or to its end,
/// without the backslashes; and what comes after. A backslash that is the last character is left.
fn unescaped(text: &str, ends: impl Fn(char) -> bool) -> (Content, &str) {
    let mut content = Content::default();
    let mut letters = text.chars();
    loop {
        let rest = letters.as_str();
        match letters.next() {
            None => return (content, rest),
            Some('\\') => match letters.next() {
                None => return (content, rest),
                Some(letter) => content.push(letter, true),
            },
            Some(letter) if ends(letter) => return (content, rest),
            Some(letter) => content.push(letter, false),
        }
    }
}

/// The same up to a closing bracket, with the backslashes.
fn with_backslashes(text: &str) -> (Content, &str) {
    let (_, rest) = unescaped(text, |letter| letter == ']');
    let text = text[..text.len() - rest.len()].to_string();
    (
        Content {
            text,
            ..Content::default()
        },
        rest,
    )
}
