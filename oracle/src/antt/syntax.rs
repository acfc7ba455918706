//! What a file of definitions says, types left out.

#[derive(Clone, Debug)]
pub enum Term {
    Name(String),
    Number(i64),
    /// A quoted text: its characters' numbers.
    Text(Vec<i64>),
    /// With explicit arguments only.
    App(Box<Term>, Vec<Term>),
    Field(Box<Term>, String),
    Lambda(Vec<Pattern>, Box<Term>),
    Let(Pattern, Box<Term>, Box<Term>),
    Do(Vec<Statement>),
    Record(Vec<(String, Term)>),
    Tuple(Vec<Term>),
}

#[derive(Clone, Debug)]
pub enum Statement {
    Bind(Pattern, Term),
    Let(Pattern, Term),
    Plain(Term),
}

#[derive(Clone, Debug)]
pub enum Pattern {
    Any,
    /// A variable, or a constructor without fields where one of that name is in scope.
    Name(String),
    Number(i64),
    Made(String, Vec<Pattern>),
    Tuple(Vec<Pattern>),
}

#[derive(Clone, Debug)]
pub struct Clause {
    pub line: u32,
    pub patterns: Vec<Pattern>,
    /// The names of those in braces.
    pub implicit: Vec<String>,
    /// Or what could not be read in it.
    pub body: Result<Term, String>,
    pub helpers: Vec<Item>,
}

#[derive(Clone, Debug)]
pub struct Use {
    pub path: String,
    /// Name there, and name here.
    pub names: Vec<(String, String)>,
    /// The module's own name here, of a line without braces.
    pub alias: Option<String>,
}

#[derive(Clone, Debug)]
pub enum Item {
    Use(Use),
    /// A signature; whether its values are types.
    Signature(String, bool),
    Clause(String, Clause),
    /// A type and its constructors.
    Data(String, Vec<String>),
    /// A section with its explicit parameters.
    Section(Vec<String>, Vec<Item>),
}
