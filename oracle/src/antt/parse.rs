//! Reads a file's items. What is only for types and proofs is passed over.
use std::collections::HashMap;

use super::lex::{Token, tokens};
use super::syntax::{Clause, Item, Pattern, Statement, Term, Use};

/// How an operator binds: its level, and whether to the right.
pub type Fixities = HashMap<String, (u32, bool)>;

type Read<T> = Result<T, String>;

const MARKS: [&str; 4] = ["unfoldable", "abbrev", "pub", "axiom"];
const STOPS: [&str; 14] = [
    ")", "}", ";", ",", "=", "in", "←", ":", ".", "where", "|", "↦", "then", "else",
];

/// The fixities that the file declares, `infixl 70 ◌⊓◌`.
pub fn fixities(text: &str, all: &mut Fixities) {
    for line in text.lines() {
        let words: Vec<&str> = line.split_whitespace().collect();
        let [kind @ ("infix" | "infixl" | "infixr"), level, names @ ..] = words.as_slice() else {
            continue;
        };
        let Ok(level) = level.parse() else { continue };
        for name in names {
            let name = name.trim_matches('◌').to_string();
            all.insert(name, (level, *kind == "infixr"));
        }
    }
}

pub fn file(text: &str, fixities: &Fixities) -> Read<Vec<Item>> {
    block(&tokens(text), fixities)
}

/// Items one below the other, at the column of the first.
fn block(tokens: &[Token], fixities: &Fixities) -> Read<Vec<Item>> {
    let mut items = Vec::new();
    let mut rest = tokens;
    while let Some(first) = rest.first() {
        let next = rest[1..]
            .iter()
            .position(|t| t.first && t.column <= first.column);
        let (chunk, after) = rest.split_at(next.map_or(rest.len(), |n| n + 1));
        item(chunk, fixities, &mut items).map_err(|e| format!("line {}: {e}", first.line))?;
        rest = after;
    }
    Ok(items)
}

fn item(chunk: &[Token], fixities: &Fixities, items: &mut Vec<Item>) -> Read<()> {
    let marks = chunk
        .iter()
        .take_while(|t| MARKS.contains(&t.text.as_str()));
    let chunk = &chunk[marks.count()..];
    match chunk[0].text.as_str() {
        "use" => items.push(Item::Use(use_line(&chunk[1..]))),
        "mod" | "infix" | "infixl" | "infixr" | "record" | "unfolding" | "open" | "deriving" => {}
        "data" => items.push(Item::Data(chunk[1].text.clone(), constructors(chunk))),
        "mutual" => items.extend(block(&chunk[1..], fixities)?),
        "module" => {
            let at = outer(chunk, "where").ok_or("a module without where")?;
            let body = block(&chunk[at + 1..], fixities)?;
            items.push(Item::Section(parameters(&chunk[2..at]), body));
        }
        _ => match (outer(chunk, ":"), outer(chunk, "=")) {
            (Some(colon), equals) if equals.is_none_or(|e| colon < e) => {
                let result = chunk.iter().rposition(|t| t.text == "→").unwrap_or(colon);
                let type_valued = chunk.get(result + 1).is_some_and(|t| t.text == "Type");
                items.push(Item::Signature(chunk[0].text.clone(), type_valued));
            }
            (_, Some(equals)) => items.push(clause(chunk, equals, fixities)?),
            _ => return Err(format!("neither signature nor clause: {}", chunk[0].text)),
        },
    }
    Ok(())
}

/// The first such word that stands in no bracket.
fn outer(chunk: &[Token], word: &str) -> Option<usize> {
    let mut depth = 0;
    for (at, token) in chunk.iter().enumerate() {
        match token.text.as_str() {
            "(" | "{" => depth += 1,
            ")" | "}" => depth -= 1,
            text if depth == 0 && text == word => return Some(at),
            _ => {}
        }
    }
    None
}

fn use_line(line: &[Token]) -> Use {
    let brace = line.iter().position(|t| t.text == "{");
    let (path, rest) = line.split_at(brace.unwrap_or(line.len()));
    let alias = path.iter().position(|t| t.text == "as");
    let whole: String = path[..alias.unwrap_or(path.len())]
        .iter()
        .map(|t| t.text.as_str())
        .collect();
    let path = whole.trim_end_matches('.').to_string();
    let alias = match (brace, alias) {
        (Some(_), _) => None,
        (None, Some(at)) => line.get(at + 1).map(|t| t.text.clone()),
        (None, None) => path.rsplit('.').next().map(str::to_string),
    };
    let inner = rest.iter().filter(|t| t.text != "{" && t.text != "}");
    let inner: Vec<&str> = inner.map(|t| t.text.as_str()).collect();
    let names = inner.split(|t| *t == ",").filter(|n| !n.is_empty());
    let names = names.map(|name| match name {
        [there @ .., "as", here] => (there.concat(), here.to_string()),
        _ => (name.concat(), name.concat()),
    });
    Use {
        path,
        names: names.collect(),
        alias,
    }
}

/// The names of `(x y : A)`; those in braces are types, or can be left out.
fn parameters(tokens: &[Token]) -> Vec<String> {
    let mut names = Vec::new();
    let mut at = 0;
    while at < tokens.len() {
        let end = matching(tokens, at);
        if tokens[at].text == "(" {
            let bound = tokens[at + 1..end].iter().take_while(|t| t.text != ":");
            names.extend(bound.map(|t| t.text.clone()));
        }
        at = end + 1;
    }
    names
}

/// The place of the bracket that closes the one at `at`; `at` where there is none.
fn matching(tokens: &[Token], at: usize) -> usize {
    let mut depth = 0;
    for (n, token) in tokens.iter().enumerate().skip(at) {
        match token.text.as_str() {
            "(" | "{" => depth += 1,
            ")" | "}" => depth -= 1,
            _ => {}
        }
        if depth == 0 {
            return n;
        }
    }
    tokens.len()
}

fn constructors(chunk: &[Token]) -> Vec<String> {
    let Some(at) = outer(chunk, "where") else {
        return Vec::new();
    };
    let lines = chunk[at + 1..].iter().enumerate();
    let starts = lines.filter(|(_, t)| t.first && t.column == chunk[at + 1].column);
    let named = starts.flat_map(|(n, _)| chunk[at + 1 + n..].iter().take_while(|t| t.text != ":"));
    named.map(|t| t.text.clone()).collect()
}

fn clause(chunk: &[Token], equals: usize, fixities: &Fixities) -> Read<Item> {
    let (name, patterns) = left_side(&chunk[..equals], fixities)?;
    let left = chunk[..equals].windows(3);
    let braced = left.filter(|part| part[0].text == "{" && part[2].text == "}");
    let implicit = braced.map(|part| part[1].text.clone()).collect();
    let right = &chunk[equals + 1..];
    let helpers_at = outer(right, "where");
    let helpers = match helpers_at {
        Some(at) => block(&right[at + 1..], fixities)?,
        None => Vec::new(),
    };
    let right = &right[..helpers_at.unwrap_or(right.len())];
    let mut reader = Reader::new(right, fixities);
    let body = reader.term().and_then(|term| match reader.peek() {
        None => Ok(term),
        Some(token) => Err(format!("{} is not understood here", token.text)),
    });
    let clause = Clause {
        line: chunk[0].line,
        patterns,
        implicit,
        body,
        helpers,
    };
    Ok(Item::Clause(name, clause))
}

/// `f p q`, or `p ⊕ q` for `◌⊕◌`.
fn left_side(left: &[Token], fixities: &Fixities) -> Read<(String, Vec<Pattern>)> {
    let mut reader = Reader::new(left, fixities);
    let mut parts = Vec::new();
    while let Some(token) = reader.peek() {
        if token.text == "{" {
            reader.skip_brackets();
        } else if fixities.contains_key(&token.text) {
            let name = format!("◌{}◌", token.text);
            reader.at += 1;
            let right = reader.pattern()?;
            let left = join(parts)?;
            return Ok((name, vec![left, right]));
        } else {
            parts.push(reader.pattern_atom()?);
        }
    }
    let mut parts = parts.into_iter();
    match parts.next() {
        Some(Pattern::Name(name)) => Ok((name, parts.collect())),
        _ => Err("a clause without a name".into()),
    }
}

/// A constructor with its fields, or a lone pattern.
fn join(mut parts: Vec<Pattern>) -> Read<Pattern> {
    match (parts.len(), parts.first().cloned()) {
        (1, Some(one)) => Ok(one),
        (_, Some(Pattern::Name(name))) => Ok(Pattern::Made(name, parts.split_off(1))),
        _ => Err("a pattern that is not understood".into()),
    }
}

/// The characters' numbers of a quoted text; of the escapes those that the definitions use.
fn quoted(text: &str) -> Read<Vec<i64>> {
    let inner = text[1..].strip_suffix('"').ok_or("a text does not end")?;
    let mut codes = Vec::new();
    let mut chars = inner.chars();
    while let Some(c) = chars.next() {
        let meant = match (c, c == '\\') {
            (_, true) => match chars.next() {
                Some('n') => '\n',
                Some(same @ ('"' | '\\')) => same,
                other => return Err(format!("the escape {other:?} is not understood")),
            },
            (plain, false) => plain,
        };
        codes.push(i64::from(u32::from(meant)));
    }
    Ok(codes)
}

fn number(text: &str) -> Option<i64> {
    if !text.starts_with(|c: char| c.is_ascii_digit()) {
        return None;
    }
    let text = text.replace('_', "");
    match text.split_at_checked(2) {
        Some(("0x", digits)) => i64::from_str_radix(digits, 16).ok(),
        Some(("0o", digits)) => i64::from_str_radix(digits, 8).ok(),
        Some(("0b", digits)) => i64::from_str_radix(digits, 2).ok(),
        _ => text.parse().ok(),
    }
}

struct Reader<'a> {
    tokens: &'a [Token],
    at: usize,
    fixities: &'a Fixities,
    /// Where the statement that is read begins, and the column of its block.
    layout: Option<(usize, u32)>,
}

impl<'a> Reader<'a> {
    fn new(tokens: &'a [Token], fixities: &'a Fixities) -> Self {
        Self {
            tokens,
            at: 0,
            fixities,
            layout: None,
        }
    }

    /// The next word, none at the end of the statement.
    fn peek(&self) -> Option<&'a Token> {
        let token = self.tokens.get(self.at)?;
        match self.layout {
            Some((start, column)) if self.at > start && token.first && token.column <= column => {
                None
            }
            _ => Some(token),
        }
    }

    fn is(&self, text: &str) -> bool {
        self.peek().is_some_and(|t| t.text == text)
    }

    fn eat(&mut self, text: &str) -> Read<()> {
        if !self.is(text) {
            let found = self.peek().map_or("the end", |t| &t.text);
            return Err(format!("{text} is expected, not {found}"));
        }
        self.at += 1;
        Ok(())
    }

    fn word(&mut self) -> Read<&'a str> {
        let token = self.peek().ok_or("a word is expected, not the end")?;
        self.at += 1;
        Ok(&token.text)
    }

    fn skip_brackets(&mut self) {
        self.at = matching(self.tokens, self.at) + 1;
    }

    /// What stands before such a word is a type.
    fn skip_to(&mut self, word: &str) -> Read<()> {
        while !self.is(word) {
            let token = self.peek().ok_or(format!("{word} is missing"))?;
            match token.text.as_str() {
                "(" | "{" => self.skip_brackets(),
                _ => self.at += 1,
            }
        }
        Ok(())
    }

    fn term(&mut self) -> Read<Term> {
        self.operation(0)
    }

    fn operation(&mut self, least: u32) -> Read<Term> {
        let mut left = self.application()?;
        while let Some(token) = self.peek() {
            let Some(&(level, to_right)) = self.fixities.get(&token.text) else {
                return Ok(left);
            };
            if level < least {
                return Ok(left);
            }
            self.at += 1;
            let right = self.operation(if to_right { level } else { level + 1 })?;
            let name = Term::Name(format!("◌{}◌", token.text));
            left = Term::App(Box::new(name), vec![left, right]);
        }
        Ok(left)
    }

    fn application(&mut self) -> Read<Term> {
        let mut head = self.atom()?;
        let mut arguments = Vec::new();
        while let Some(token) = self.peek() {
            let text = token.text.as_str();
            if text.len() > 1 && text.starts_with('.') {
                self.at += 1;
                head = Term::Field(Box::new(applied(head, arguments)), text[1..].to_string());
                arguments = Vec::new();
            } else if text == "{" {
                self.skip_brackets();
            } else if STOPS.contains(&text) || self.fixities.contains_key(text) {
                break;
            } else {
                let last = matches!(text, "λ" | "let" | "do" | "if");
                arguments.push(self.atom()?);
                if last {
                    break;
                }
            }
        }
        Ok(applied(head, arguments))
    }

    /// With the fields written tight behind it.
    fn atom(&mut self) -> Read<Term> {
        let mut term = self.bare_atom()?;
        while let Some(token) = self.peek() {
            if token.spaced || token.text.len() < 2 || !token.text.starts_with('.') {
                break;
            }
            self.at += 1;
            term = Term::Field(Box::new(term), token.text[1..].to_string());
        }
        Ok(term)
    }

    fn bare_atom(&mut self) -> Read<Term> {
        let text = self.word()?;
        match text {
            "(" => self.bracketed(),
            "λ" => self.lambda(),
            "let" => {
                let (pattern, value) = self.binding()?;
                self.eat("in")?;
                Ok(Term::Let(pattern, Box::new(value), Box::new(self.term()?)))
            }
            "do" => self.statements(),
            "if" => self.choice(),
            "record" => self.record(),
            _ if STOPS.contains(&text) => Err(format!("a term is expected, not {text}")),
            "elim" | "unfold" | "open" => Err(format!("{text} is not understood")),
            _ if text.starts_with('"') => quoted(text).map(Term::Text),
            _ => Ok(number(text).map_or_else(|| Term::Name(text.to_string()), Term::Number)),
        }
    }

    /// `if b then x else y`.
    fn choice(&mut self) -> Read<Term> {
        let test = self.term()?;
        self.eat("then")?;
        let first = self.term()?;
        self.eat("else")?;
        let head = Term::Name("if◌then◌else◌".to_string());
        Ok(Term::App(Box::new(head), vec![test, first, self.term()?]))
    }

    fn bracketed(&mut self) -> Read<Term> {
        // Only the innermost bracket's layout counts, and that is what it opens itself.
        let mut parts = vec![self.term()?];
        while self.is(",") {
            self.at += 1;
            parts.push(self.term()?);
        }
        self.eat(")")?;
        Ok(match parts.len() {
            1 => parts.remove(0),
            _ => Term::Tuple(parts),
        })
    }

    fn lambda(&mut self) -> Read<Term> {
        let mut binders = Vec::new();
        while !self.is(".") {
            binders.extend(self.binders()?);
        }
        self.eat(".")?;
        Ok(Term::Lambda(binders, Box::new(self.term()?)))
    }

    /// `x`, `(x y : A)` or `(x, y)`.
    fn binders(&mut self) -> Read<Vec<Pattern>> {
        if !self.is("(") {
            return Ok(vec![self.pattern_atom()?]);
        }
        let end = matching(self.tokens, self.at);
        let inner = &self.tokens[self.at + 1..end];
        match outer(inner, ":") {
            Some(colon) => {
                self.at = end + 1;
                let names = inner[..colon].iter();
                Ok(names.map(|t| name_pattern(&t.text)).collect())
            }
            None => Ok(vec![self.pattern_atom()?]),
        }
    }

    /// `x = e` or `x : A = e`.
    fn binding(&mut self) -> Read<(Pattern, Term)> {
        let pattern = self.pattern_atom()?;
        if self.is(":") {
            self.skip_to("=")?;
        }
        self.eat("=")?;
        Ok((pattern, self.term()?))
    }

    fn statements(&mut self) -> Read<Term> {
        let outer_layout = self.layout;
        let column = self.peek().ok_or("an empty do")?.column;
        let mut all = Vec::new();
        loop {
            self.layout = Some((self.at, column));
            all.push(self.statement()?);
            let next = self.tokens.get(self.at);
            if next.is_some_and(|t| t.text == ";") {
                self.at += 1;
            } else if !next.is_some_and(|t| t.first && t.column == column) {
                break;
            }
        }
        self.layout = outer_layout;
        Ok(Term::Do(all))
    }

    fn statement(&mut self) -> Read<Statement> {
        if self.binds() {
            let mut binders = self.binders()?;
            self.eat("←")?;
            let binder = binders.pop().ok_or("nothing is bound")?;
            return Ok(Statement::Bind(binder, self.term()?));
        }
        if self.is("let") {
            self.at += 1;
            let (pattern, value) = self.binding()?;
            if !self.is("in") {
                return Ok(Statement::Let(pattern, value));
            }
            self.at += 1;
            let body = Box::new(self.term()?);
            return Ok(Statement::Plain(Term::Let(pattern, Box::new(value), body)));
        }
        Ok(Statement::Plain(self.term()?))
    }

    /// Whether the statement is `x ← e`.
    fn binds(&self) -> bool {
        let after = match self.is("(") {
            true => matching(self.tokens, self.at) + 1,
            false => self.at + 1,
        };
        self.tokens.get(after).is_some_and(|t| t.text == "←")
    }

    fn record(&mut self) -> Read<Term> {
        self.eat("{")?;
        let mut fields = Vec::new();
        while !self.is("}") {
            let name = self.word()?.to_string();
            self.eat("=")?;
            fields.push((name, self.term()?));
            if self.is(";") {
                self.at += 1;
            }
        }
        self.eat("}")?;
        Ok(Term::Record(fields))
    }

    /// `p`, `c p q` or `p ∷ q`.
    fn pattern(&mut self) -> Read<Pattern> {
        let mut parts = Vec::new();
        while let Some(token) = self.peek() {
            if self.fixities.contains_key(&token.text) {
                let name = format!("◌{}◌", token.text);
                self.at += 1;
                return Ok(Pattern::Made(name, vec![join(parts)?, self.pattern()?]));
            }
            match token.text.as_str() {
                "{" => self.skip_brackets(),
                text if STOPS.contains(&text) => break,
                _ => parts.push(self.pattern_atom()?),
            }
        }
        join(parts)
    }

    fn pattern_atom(&mut self) -> Read<Pattern> {
        let text = self.word()?;
        if text != "(" {
            return Ok(number(text).map_or_else(|| name_pattern(text), Pattern::Number));
        }
        let mut parts = vec![self.pattern()?];
        while self.is(",") {
            self.at += 1;
            parts.push(self.pattern()?);
        }
        self.eat(")")?;
        Ok(match parts.len() {
            1 => parts.remove(0),
            _ => Pattern::Tuple(parts),
        })
    }
}

fn name_pattern(text: &str) -> Pattern {
    match text {
        "_" => Pattern::Any,
        _ => Pattern::Name(text.to_string()),
    }
}

fn applied(head: Term, arguments: Vec<Term>) -> Term {
    match arguments.is_empty() {
        true => head,
        false => Term::App(Box::new(head), arguments),
    }
}
