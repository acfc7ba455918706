//! Definitions made ready to run: variables are places in a frame.
use std::cell::Cell;
use std::collections::HashMap;

use super::natives::{self, Native};
use super::scope::{Body, FnId, Ir, IrClause, IrPattern, Library, VarId};
use super::value::{ConId, Names, ShapeId, Value};

pub type CodeId = u32;

pub enum Expr {
    Const(Value),
    Local(u32),
    If(Box<(Expr, Expr, Expr)>),
    Let(u32, Box<(Expr, Expr)>),
    One(Native, Box<Expr>),
    Both(Native, Box<(Expr, Expr)>),
    GetD(Box<(Expr, Expr, Expr)>),
    /// A definition with all its arguments.
    Call(CodeId, Box<[Expr]>),
    Native(Native, Box<[Expr]>),
    Apply(Box<Expr>, Box<[Expr]>),
    /// A function that lacks arguments.
    Hold(CodeId, Box<[Expr]>),
    Field(Box<Field>),
    Record(ShapeId, Box<[Expr]>),
    Made(ConId, Box<[Expr]>),
    Bad(String),
}

pub struct Field {
    pub of: Expr,
    pub name: String,
    /// The shape met last, and the field's place in it.
    pub known: Cell<(ShapeId, u16)>,
}

pub enum Pattern {
    Any,
    Int(i64),
    Bool(bool),
    Put(u32),
    Suc(Box<Pattern>),
    Pos(Box<Pattern>),
    NegSuc(Box<Pattern>),
    Nil,
    Cons(Box<(Pattern, Pattern)>),
    Con(ConId, Vec<Pattern>),
    Record(ShapeId, Vec<Pattern>),
}

pub struct Clause {
    /// Tests of arguments, by their places; plain variables need none.
    pub tests: Vec<(u32, Pattern)>,
    pub body: Expr,
}

pub enum Run {
    Plain(Expr),
    Clauses(Vec<Clause>),
    Native(Native),
}

pub struct Code {
    pub name: String,
    /// What it takes: what a λ finds around it, then arguments.
    pub takes: usize,
    pub frame: usize,
    /// Answers of a function of one number are kept.
    pub kept: bool,
    pub run: Run,
}

/// The program's constructors, which are carried out as soon as they are met.
#[derive(Clone, Copy)]
pub struct Steps {
    pub done: ConId,
    pub read: ConId,
    pub write: ConId,
    pub test: ConId,
    pub seq: ConId,
    pub repeat: ConId,
    pub snapshot: ConId,
}

impl Steps {
    pub fn new(names: &Names) -> Self {
        let of = |name: &str| names.constructor(&format!("store.Program.{name}"));
        Self {
            done: of("done"),
            read: of("read"),
            write: of("write"),
            test: of("test"),
            seq: of("seq"),
            repeat: of("loop"),
            snapshot: of("snapshot"),
        }
    }
}

pub struct Program {
    pub codes: Vec<Code>,
    pub names: Names,
    pub steps: Steps,
    /// The kinds of the store's cells.
    pub kinds: Vec<ConId>,
    by_name: HashMap<String, CodeId>,
}

impl Program {
    pub fn new(mut library: Library) -> Self {
        let names = std::mem::take(&mut library.names);
        let steps = Steps::new(&names);
        let kinds = library.types.remove("store.Store.Kind").unwrap_or_default();
        let mut maker = Maker {
            codes: Vec::new(),
            arities: library.functions.iter().map(|f| f.arity).collect(),
            natives: library
                .functions
                .iter()
                .map(|f| match f.body {
                    Body::Native(native) => Some(native),
                    _ => None,
                })
                .collect(),
            steps,
            branches: library.own_natives,
        };
        let mut by_name = HashMap::new();
        // A definition's code has the definition's number.
        for function in &library.functions {
            by_name.insert(function.name.clone(), maker.codes.len() as CodeId);
            maker.codes.push(Code {
                name: function.name.clone(),
                takes: function.arity,
                frame: function.arity,
                kept: natives::KEPT.contains(&function.name.as_str()),
                run: Run::Plain(Expr::Bad(format!("{} has no clauses", function.name))),
            });
        }
        for (id, function) in library.functions.into_iter().enumerate() {
            let (run, frame) = match function.body {
                Body::Native(native) => (Run::Native(native), function.arity),
                Body::Clauses(clauses) if clauses.is_empty() => continue,
                Body::Clauses(clauses) => maker.clauses(function.arity, clauses),
            };
            maker.codes[id].run = run;
            maker.codes[id].frame = frame;
        }
        Self {
            codes: maker.codes,
            names,
            steps,
            kinds,
            by_name,
        }
    }

    pub fn code(&self, name: &str) -> Option<CodeId> {
        self.by_name.get(name).copied()
    }

    pub fn definitions(&self) -> impl Iterator<Item = &str> {
        self.by_name.keys().map(String::as_str)
    }
}

struct Maker {
    codes: Vec<Code>,
    arities: Vec<usize>,
    natives: Vec<Option<Native>>,
    steps: Steps,
    /// Whether `test` is made as the branch that its test takes.
    branches: bool,
}

/// The places of a frame that is being made.
#[derive(Default)]
struct Frame {
    places: HashMap<VarId, u32>,
    next: u32,
    most: u32,
}

impl Frame {
    fn place(&mut self, var: VarId) -> u32 {
        let place = self.unnamed();
        self.places.insert(var, place);
        place
    }

    fn unnamed(&mut self) -> u32 {
        self.next += 1;
        self.most = self.most.max(self.next);
        self.next - 1
    }
}

impl Maker {
    fn clauses(&mut self, arity: usize, clauses: Vec<IrClause>) -> (Run, usize) {
        let mut most = 0;
        let mut made = Vec::new();
        for clause in clauses {
            let mut frame = Frame {
                next: arity as u32,
                most: arity as u32,
                ..Frame::default()
            };
            let mut tests = Vec::new();
            for (at, pattern) in clause.patterns.iter().enumerate() {
                match pattern {
                    IrPattern::Any => {}
                    IrPattern::Var(var) => {
                        frame.places.insert(*var, at as u32);
                    }
                    _ => tests.push((at as u32, test(pattern, &mut frame))),
                }
            }
            let body = self.term(&clause.body, &mut frame);
            most = most.max(frame.most as usize);
            made.push(Clause { tests, body });
        }
        let run = match (made.len(), made.first().is_some_and(|c| c.tests.is_empty())) {
            (1, true) => Run::Plain(made.remove(0).body),
            _ => Run::Clauses(made),
        };
        (run, most)
    }

    fn terms(&mut self, all: &[Ir], frame: &mut Frame) -> Box<[Expr]> {
        all.iter().map(|ir| self.term(ir, frame)).collect()
    }

    fn term(&mut self, ir: &Ir, frame: &mut Frame) -> Expr {
        match ir {
            Ir::Var(var) => Expr::Local(frame.places[var]),
            Ir::Int(n) => Expr::Const(Value::Int(*n)),
            Ir::Text(codes) => Expr::Const(Value::ints(codes.clone())),
            Ir::Bool(b) => Expr::Const(Value::Bool(*b)),
            Ir::Nil => Expr::Const(Value::list(Vec::new())),
            Ir::Bad(text) | Ir::LeftOut(text) => Expr::Bad(text.clone()),
            Ir::Global(id) => self.call(*id, &[], frame),
            Ir::Con(con, parts) => {
                if let [test, then, other] = &parts[..]
                    && self.branches
                    && *con == self.steps.test
                {
                    // Its test is known, so it is the branch.
                    let parts = [test, then, other].map(|part| self.term(part, frame));
                    return Expr::If(Box::new(parts.into()));
                }
                match parts.is_empty() {
                    true => Expr::Const(Value::Con(*con)),
                    false => Expr::Made(*con, self.terms(parts, frame)),
                }
            }
            Ir::App(head, arguments) => match **head {
                Ir::Global(id) => self.call(id, arguments, frame),
                _ => {
                    let head = self.term(head, frame);
                    Expr::Apply(Box::new(head), self.terms(arguments, frame))
                }
            },
            Ir::Lam(vars, body) => self.lambda(vars, body, frame),
            Ir::Let(var, value, body) => {
                let value = self.term(value, frame);
                let next = frame.next;
                let place = frame.place(*var);
                let body = self.term(body, frame);
                frame.next = next;
                Expr::Let(place, Box::new((value, body)))
            }
            Ir::Field(of, name) => Expr::Field(Box::new(Field {
                of: self.term(of, frame),
                name: name.clone(),
                known: Cell::new((ShapeId::MAX, 0)),
            })),
            Ir::Record(shape, parts) => Expr::Record(*shape, self.terms(parts, frame)),
        }
    }

    fn call(&mut self, id: FnId, arguments: &[Ir], frame: &mut Frame) -> Expr {
        let arity = self.arities[id as usize];
        let mut made = self.terms(arguments, frame).into_vec();
        if made.len() < arity {
            return Expr::Hold(id, made.into());
        }
        let more = made.split_off(arity);
        let call = match self.natives[id as usize] {
            Some(native) => native_call(native, made),
            None => Expr::Call(id, made.into()),
        };
        match more.is_empty() {
            true => call,
            false => Expr::Apply(Box::new(call), more.into()),
        }
    }

    /// A function that takes what it finds around it first.
    fn lambda(&mut self, vars: &[VarId], body: &Ir, frame: &mut Frame) -> Expr {
        let mut around = Vec::new();
        free(body, &mut vars.to_vec(), &mut around);
        let mut inner = Frame::default();
        for &var in around.iter().chain(vars) {
            inner.place(var);
        }
        let body = self.term(body, &mut inner);
        let code = self.codes.len() as CodeId;
        self.codes.push(Code {
            name: "λ".to_string(),
            takes: around.len() + vars.len(),
            frame: inner.most as usize,
            kept: false,
            run: Run::Plain(body),
        });
        let held = around.iter().map(|var| Expr::Local(frame.places[var]));
        Expr::Hold(code, held.collect())
    }
}

fn native_call(native: Native, mut arguments: Vec<Expr>) -> Expr {
    match (native, arguments.len()) {
        (Native::Pos, 1) => arguments.remove(0),
        (_, 1) => Expr::One(native, Box::new(arguments.remove(0))),
        (Native::Cond, 3) => {
            let mut next = || arguments.remove(0);
            Expr::If(Box::new((next(), next(), next())))
        }
        (Native::GetD, 3) => {
            let mut next = || arguments.remove(0);
            Expr::GetD(Box::new((next(), next(), next())))
        }
        (Native::Map | Native::Tab, _) => Expr::Native(native, arguments.into()),
        (_, 2) => {
            let mut next = || arguments.remove(0);
            Expr::Both(native, Box::new((next(), next())))
        }
        _ => Expr::Native(native, arguments.into()),
    }
}

fn test(pattern: &IrPattern, frame: &mut Frame) -> Pattern {
    let mut inner = |pattern: &IrPattern| Box::new(test(pattern, frame));
    match pattern {
        IrPattern::Any => Pattern::Any,
        IrPattern::Int(n) => Pattern::Int(*n),
        IrPattern::Bool(b) => Pattern::Bool(*b),
        IrPattern::Nil => Pattern::Nil,
        IrPattern::Suc(n) => Pattern::Suc(inner(n)),
        IrPattern::Pos(n) => Pattern::Pos(inner(n)),
        IrPattern::NegSuc(n) => Pattern::NegSuc(inner(n)),
        IrPattern::Cons(x, xs) => Pattern::Cons(Box::new((*inner(x), *inner(xs)))),
        IrPattern::Con(con, parts) => Pattern::Con(*con, parts.iter().map(|p| *inner(p)).collect()),
        IrPattern::Record(shape, parts) => {
            Pattern::Record(*shape, parts.iter().map(|p| *inner(p)).collect())
        }
        IrPattern::Var(var) => Pattern::Put(frame.place(*var)),
    }
}

/// The variables of a term that it does not bind, each once.
fn free(ir: &Ir, bound: &mut Vec<VarId>, all: &mut Vec<VarId>) {
    match ir {
        Ir::Var(var) if !bound.contains(var) && !all.contains(var) => all.push(*var),
        Ir::App(head, arguments) => {
            free(head, bound, all);
            arguments.iter().for_each(|part| free(part, bound, all));
        }
        Ir::Con(_, parts) | Ir::Record(_, parts) => {
            parts.iter().for_each(|part| free(part, bound, all));
        }
        Ir::Lam(vars, body) => {
            let before = bound.len();
            bound.extend(vars);
            free(body, bound, all);
            bound.truncate(before);
        }
        Ir::Let(var, value, body) => {
            free(value, bound, all);
            bound.push(*var);
            free(body, bound, all);
            bound.pop();
        }
        Ir::Field(of, _) => free(of, bound, all),
        _ => {}
    }
}
