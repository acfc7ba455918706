//! Words of a text, each with its place: blocks go by columns.

#[derive(Clone, Debug)]
pub struct Token {
    pub text: String,
    pub line: u32,
    pub column: u32,
    /// Nothing but space before it on its line.
    pub first: bool,
    /// Space, or the line's begin, right before it.
    pub spaced: bool,
}

const BRACKETS: &str = "(){};,";

pub fn tokens(text: &str) -> Vec<Token> {
    let mut all = Vec::new();
    let mut comment = false;
    for (at, line) in text.lines().enumerate() {
        let mut reader = Line {
            chars: line.chars().collect(),
            at: 0,
            line: at as u32 + 1,
            first: true,
        };
        reader.read(&mut comment, &mut all);
    }
    all
}

struct Line {
    chars: Vec<char>,
    at: usize,
    line: u32,
    first: bool,
}

impl Line {
    fn read(&mut self, comment: &mut bool, all: &mut Vec<Token>) {
        let mut spaced = true;
        while self.at < self.chars.len() {
            if *comment {
                match self.starts("-}") {
                    true => (*comment, self.at) = (false, self.at + 2),
                    false => self.at += 1,
                }
                continue;
            }
            let c = self.chars[self.at];
            if c.is_whitespace() {
                (self.at, spaced) = (self.at + 1, true);
            } else if self.starts("{-") {
                *comment = true;
            } else if self.starts("--") {
                return;
            } else if c == '"' {
                self.push(self.at, self.quoted_end(), spaced, all);
                spaced = false;
            } else if BRACKETS.contains(c) {
                self.push(self.at, self.at + 1, spaced, all);
                spaced = false;
            } else {
                self.word(spaced, all);
                spaced = false;
            }
        }
    }

    fn starts(&self, text: &str) -> bool {
        let mut chars = self.chars[self.at..].iter();
        text.chars().all(|c| chars.next() == Some(&c))
    }

    /// Behind the quote that ends the text that begins here, or the line's end.
    fn quoted_end(&self) -> usize {
        let mut at = self.at + 1;
        while at < self.chars.len() && self.chars[at] != '"' {
            at += 1 + usize::from(self.chars[at] == '\\');
        }
        (at + 1).min(self.chars.len())
    }

    /// Up to a space or bracket. `a.b` is `a` and a tight `.b`; the dot behind a binder stands alone.
    fn word(&mut self, spaced: bool, all: &mut Vec<Token>) {
        let (start, mut end, mut quoted) = (self.at, self.at, false);
        while end < self.chars.len() {
            let c = self.chars[end];
            match c {
                '«' => quoted = true,
                '»' => quoted = false,
                _ if quoted => {}
                _ if c.is_whitespace() || BRACKETS.contains(c) => break,
                _ => {}
            }
            end += 1;
        }
        let (mut from, mut spaced, mut quoted) = (start, spaced, false);
        for at in start..end {
            match self.chars[at] {
                '«' => quoted = true,
                '»' => quoted = false,
                '.' if !quoted && at > from => {
                    self.push(from, at, spaced, all);
                    (from, spaced) = (at, false);
                }
                _ => {}
            }
        }
        self.push(from, end, spaced, all);
    }

    fn push(&mut self, from: usize, to: usize, spaced: bool, all: &mut Vec<Token>) {
        let text = self.chars[from..to].iter();
        all.push(Token {
            text: text.filter(|c| !"«»".contains(**c)).collect(),
            line: self.line,
            column: from as u32,
            first: self.first,
            spaced,
        });
        (self.first, self.at) = (false, to);
    }
}
