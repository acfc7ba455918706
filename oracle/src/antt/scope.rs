//! Names to what they mean: every variable by a number of its own, every definition by its place in a list.
use std::collections::HashMap;
use std::path::{Path, PathBuf};
use std::{fs, io};

use super::natives::{self, Native};
use super::parse::{self, Fixities};
use super::syntax::{Clause, Item, Pattern, Statement, Term, Use};
use super::value::{ConId, Names, ShapeId};

/// The constructors of the library's own types.
const CONSTRUCTORS: [&str; 4] = [
    "Rattle.std.specs.Prelude.Ok",
    "Rattle.std.specs.Prelude.Err",
    "Rattle.std.specs.Prelude.Some",
    "Rattle.std.specs.Prelude.None",
];

pub type VarId = u32;
pub type FnId = u32;

#[derive(Clone, Debug)]
pub enum Ir {
    Var(VarId),
    Int(i64),
    Text(Vec<i64>),
    Bool(bool),
    Nil,
    Global(FnId),
    Con(ConId, Vec<Ir>),
    App(Box<Ir>, Vec<Ir>),
    Lam(Vec<VarId>, Box<Ir>),
    Let(VarId, Box<Ir>, Box<Ir>),
    Field(Box<Ir>, String),
    /// Fields in the shape's order.
    Record(ShapeId, Vec<Ir>),
    /// Not understood, or not a value: only a fault if it is evaluated.
    Bad(String),
    /// An implicit argument, which is left out as types are: a fault if it is evaluated.
    LeftOut(String),
}

#[derive(Clone, Debug)]
pub enum IrPattern {
    Any,
    Var(VarId),
    Int(i64),
    Bool(bool),
    Suc(Box<IrPattern>),
    Pos(Box<IrPattern>),
    NegSuc(Box<IrPattern>),
    Nil,
    Cons(Box<IrPattern>, Box<IrPattern>),
    Con(ConId, Vec<IrPattern>),
    Record(ShapeId, Vec<IrPattern>),
}

#[derive(Clone, Debug)]
pub struct IrClause {
    pub patterns: Vec<IrPattern>,
    pub body: Ir,
}

#[derive(Clone, Debug)]
pub enum Body {
    Native(Native),
    Clauses(Vec<IrClause>),
}

/// A definition; its sections' parameters come first.
#[derive(Clone, Debug)]
pub struct Function {
    pub name: String,
    pub arity: usize,
    pub body: Body,
}

#[derive(Clone, Debug)]
enum Entity {
    Function(FnId),
    Con(ConId),
    Zero,
    True,
    False,
    Nil,
    Module(String),
    Unknown(String),
}

/// A section's parameter: the section, the name.
type Parameter = (u32, String);

struct Pending {
    function: FnId,
    module: String,
    prefix: Vec<Parameter>,
    clauses: Vec<Clause>,
}

#[derive(Default)]
pub struct Library {
    pub functions: Vec<Function>,
    pub names: Names,
    pub variables: VarId,
    /// Each data type's constructors.
    pub types: HashMap<String, Vec<ConId>>,
    by_name: HashMap<String, Entity>,
    prefixes: HashMap<FnId, Vec<Parameter>>,
    scopes: HashMap<String, HashMap<String, Entity>>,
    pending: Vec<Pending>,
    sections: u32,
    /// Whether the names of `natives::OWN` are carried out by the interpreter.
    pub own_natives: bool,
}

/// All texts of the crates' definitions, by module name as `frame.Frame`.
pub fn texts(crates: &Path) -> io::Result<Vec<(String, String)>> {
    let files = files(crates)?.into_iter();
    files
        .map(|(module, path)| Ok((module, fs::read_to_string(path)?)))
        .collect()
}

fn files(crates: &Path) -> io::Result<Vec<(String, PathBuf)>> {
    let mut all = Vec::new();
    for entry in fs::read_dir(crates)? {
        let folder = entry?.path();
        let specs = folder.join("specs");
        let name = folder.file_name().unwrap().to_string_lossy().into_owned();
        if specs.is_dir() {
            collect(&specs, &name, &mut all)?;
        }
    }
    all.sort();
    Ok(all)
}

fn collect(folder: &Path, prefix: &str, all: &mut Vec<(String, PathBuf)>) -> io::Result<()> {
    for entry in fs::read_dir(folder)? {
        let path = entry?.path();
        let stem = path.file_stem().unwrap().to_string_lossy().into_owned();
        let name = format!("{prefix}.{stem}");
        if path.is_dir() {
            collect(&path, &name, all)?;
        } else if path.extension().is_some_and(|e| e == "antt") {
            all.push((name, path));
        }
    }
    Ok(())
}

/// `Rattle.mv.specs.Packing` is `mv.Packing`; those of std and others stay.
fn module_name(path: &str) -> String {
    let own = path
        .strip_prefix("Rattle.")
        .filter(|rest| !rest.starts_with("std."));
    match own.and_then(|rest| rest.split_once(".specs.")) {
        Some((name, module)) => format!("{name}.{module}"),
        None => path.to_string(),
    }
}

impl Library {
    /// The definitions of these texts, each with its module's name.
    pub fn new(texts: &[(String, String)], own_natives: bool) -> Result<Self, String> {
        let mut fixities: Fixities = natives::FIXITIES
            .iter()
            .map(|&(name, level, right)| (name.to_string(), (level, right)))
            .collect();
        for (_, text) in texts {
            parse::fixities(text, &mut fixities);
        }
        let mut library = Library {
            own_natives,
            ..Library::default()
        };
        library.enter_natives();
        let mut files = Vec::new();
        let given = texts.iter().map(|(module, text)| (&module[..], &text[..]));
        for (module, text) in natives::CLAUSES.iter().copied().chain(given) {
            let items = parse::file(text, &fixities).map_err(|e| format!("{module}: {e}"))?;
            files.push((module, items));
        }
        for (module, items) in &files {
            library.declare(module, items, &mut Vec::new());
        }
        for (module, items) in &files {
            for item in items {
                if let Item::Use(line) = item {
                    library.bring(module, line);
                }
            }
        }
        while let Some(pending) = library.pending.pop() {
            library.resolve(pending);
        }
        Ok(library)
    }

    /// What is not understood, or is not a value, in each definition.
    pub fn unread(&self) -> Vec<String> {
        let mut all = Vec::new();
        for function in &self.functions {
            if let Body::Clauses(clauses) = &function.body {
                clauses
                    .iter()
                    .for_each(|clause| bad(&clause.body, &mut all));
            }
        }
        all
    }

    /// How many definitions are run from their clauses.
    pub fn count(&self) -> usize {
        let own = |f: &&Function| matches!(&f.body, Body::Clauses(clauses) if !clauses.is_empty());
        self.functions.iter().filter(own).count()
    }

    fn enter_natives(&mut self) {
        for &(name, native, arity) in natives::LIBRARY {
            self.add_function(name.to_string(), arity, Body::Native(native));
        }
        let constants = [
            ("Rattle.std.specs.Prelude.zero", Entity::Zero),
            ("Rattle.std.specs.Prelude.true", Entity::True),
            ("Rattle.std.specs.Prelude.false", Entity::False),
            ("Rattle.std.specs.Prelude.[]", Entity::Nil),
        ];
        for (name, entity) in constants {
            self.by_name.insert(name.to_string(), entity);
        }
    }

    fn add_function(&mut self, name: String, arity: usize, body: Body) -> FnId {
        let id = self.functions.len() as FnId;
        self.by_name.insert(name.clone(), Entity::Function(id));
        self.functions.push(Function { name, arity, body });
        id
    }

    fn new_section(&mut self) -> u32 {
        self.sections += 1;
        self.sections
    }

    fn enter_scope(&mut self, module: &str, name: &str, entity: Entity) {
        let scope = self.scopes.entry(module.to_string()).or_default();
        scope.insert(name.to_string(), entity);
    }

    fn declare(&mut self, module: &str, items: &[Item], prefix: &mut Vec<Parameter>) {
        for item in items {
            match item {
                Item::Section(names, inner) => {
                    let (section, before) = (self.new_section(), prefix.len());
                    prefix.extend(names.iter().map(|name| (section, name.clone())));
                    self.declare(module, inner, prefix);
                    prefix.truncate(before);
                }
                Item::Data(of, constructors) => {
                    let mut all = Vec::new();
                    for name in constructors {
                        let whole = format!("{module}.{name}");
                        let con = self.names.constructor(&whole);
                        self.by_name.insert(whole, Entity::Con(con));
                        self.enter_scope(module, name, Entity::Con(con));
                        all.push(con);
                    }
                    self.types.insert(format!("{module}.{of}"), all);
                }
                Item::Signature(name, false) => {
                    let clauses = clauses_of(items, name);
                    let id = self.declare_function(module, module, name, prefix, clauses);
                    self.enter_scope(module, name, Entity::Function(id));
                }
                _ => {}
            }
        }
    }

    fn declare_function(
        &mut self,
        module: &str,
        parent: &str,
        name: &str,
        prefix: &[Parameter],
        clauses: Vec<Clause>,
    ) -> FnId {
        let whole = format!("{parent}.{name}");
        let mut own = natives::OWN.iter();
        let own = own.find(|(own, _, _)| self.own_natives && *own == whole);
        let arity = clauses.first().map_or(0, |clause| clause.patterns.len());
        let id = match own {
            Some(&(_, native, arity)) => self.add_function(whole, arity, Body::Native(native)),
            None => {
                let arity = prefix.len() + arity;
                let id = self.add_function(whole, arity, Body::Clauses(Vec::new()));
                self.pending.push(Pending {
                    function: id,
                    module: module.to_string(),
                    prefix: prefix.to_vec(),
                    clauses,
                });
                id
            }
        };
        self.prefixes.insert(id, prefix.to_vec());
        id
    }

    /// What a `use` line brings. A name that is not known is a type, or is never evaluated.
    fn bring(&mut self, module: &str, line: &Use) {
        let path = module_name(&line.path);
        if let Some(alias) = &line.alias {
            self.enter_scope(module, alias, Entity::Module(path.clone()));
        }
        for (there, here) in &line.names {
            let whole = format!("{path}.{there}");
            let entity = match self.by_name.get(&whole) {
                Some(entity) => entity.clone(),
                None if path.ends_with(".TheVariants")
                    || CONSTRUCTORS.contains(&whole.as_str()) =>
                {
                    Entity::Con(self.names.constructor(&whole))
                }
                None => Entity::Unknown(whole),
            };
            self.enter_scope(module, here, entity);
        }
    }

    fn resolve(&mut self, pending: Pending) {
        let Pending {
            function,
            module,
            prefix,
            clauses,
        } = pending;
        let resolved = clauses.iter().map(|clause| {
            let mut inside = Inside {
                parent: self.functions[function as usize].name.clone(),
                library: self,
                module: &module,
                prefix: Vec::new(),
                locals: Vec::new(),
                helpers: HashMap::new(),
                implicit: clause.implicit.clone(),
            };
            inside.clause(&prefix, clause)
        });
        let resolved = resolved.collect();
        self.functions[function as usize].body = Body::Clauses(resolved);
    }

    fn fresh(&mut self) -> VarId {
        self.variables += 1;
        self.variables
    }
}

fn clauses_of(items: &[Item], name: &str) -> Vec<Clause> {
    let own = items.iter().filter_map(|item| match item {
        Item::Clause(of, clause) if of == name => Some(clause.clone()),
        _ => None,
    });
    own.collect()
}

/// Inside one clause.
struct Inside<'a> {
    library: &'a mut Library,
    module: &'a str,
    parent: String,
    /// The parameters of the sections around, as this clause has them.
    prefix: Vec<(Parameter, VarId)>,
    locals: Vec<(String, VarId)>,
    helpers: HashMap<String, FnId>,
    /// The clause's implicit arguments.
    implicit: Vec<String>,
}

impl Inside<'_> {
    fn clause(&mut self, prefix: &[Parameter], clause: &Clause) -> IrClause {
        let mut patterns = Vec::new();
        for parameter in prefix {
            let var = self.library.fresh();
            self.prefix.push((parameter.clone(), var));
            self.locals.push((parameter.1.clone(), var));
            patterns.push(IrPattern::Var(var));
        }
        for pattern in &clause.patterns {
            patterns.push(self.pattern(pattern));
        }
        self.declare_helpers(prefix, clause);
        let body = match &clause.body {
            Ok(term) => self.term(term),
            Err(e) => Ir::Bad(format!("{}, line {}: {e}", self.module, clause.line)),
        };
        IrClause { patterns, body }
    }

    /// A helper takes the clause's variables as a section's parameters.
    fn declare_helpers(&mut self, prefix: &[Parameter], clause: &Clause) {
        if clause.helpers.is_empty() {
            return;
        }
        let section = self.library.new_section();
        let mut whole = prefix.to_vec();
        for (name, var) in self.locals[prefix.len()..].iter().cloned() {
            let parameter = (section, name);
            self.prefix.push((parameter.clone(), var));
            whole.push(parameter);
        }
        let parent = format!("{}·{}", self.parent, clause.line);
        for item in &clause.helpers {
            if let Item::Signature(name, false) = item {
                let clauses = clauses_of(&clause.helpers, name);
                let id = self
                    .library
                    .declare_function(self.module, &parent, name, &whole, clauses);
                self.helpers.insert(name.clone(), id);
                // A helper sees itself and its siblings by their whole names.
                let hidden = format!("{parent}.{name}");
                self.library.by_name.insert(hidden, Entity::Function(id));
            }
        }
    }

    fn bind(&mut self, name: &str) -> VarId {
        let var = self.library.fresh();
        self.locals.push((name.to_string(), var));
        var
    }

    fn entity(&self, name: &str) -> Option<Entity> {
        if let Some(&id) = self.helpers.get(name) {
            return Some(Entity::Function(id));
        }
        // A helper's own clauses find the helpers beside it.
        if let Some((around, _)) = self.parent.rsplit_once('.')
            && around.contains('·')
            && let Some(entity) = self.library.by_name.get(&format!("{around}.{name}"))
        {
            return Some(entity.clone());
        }
        let scope = self.library.scopes.get(self.module)?;
        scope.get(name).cloned()
    }

    fn pattern(&mut self, pattern: &Pattern) -> IrPattern {
        match pattern {
            Pattern::Any => IrPattern::Any,
            Pattern::Number(n) => IrPattern::Int(*n),
            Pattern::Tuple(parts) => {
                let (shape, parts) = (self.tuple_shape(parts.len()), parts.clone());
                IrPattern::Record(shape, parts.iter().map(|p| self.pattern(p)).collect())
            }
            Pattern::Name(name) => match self.entity(name) {
                Some(Entity::Zero) => IrPattern::Int(0),
                Some(Entity::True) => IrPattern::Bool(true),
                Some(Entity::False) => IrPattern::Bool(false),
                Some(Entity::Nil) => IrPattern::Nil,
                Some(Entity::Con(con)) => IrPattern::Con(con, Vec::new()),
                _ => IrPattern::Var(self.bind(name)),
            },
            Pattern::Made(name, parts) => {
                let entity = self.entity(name);
                let mut parts: Vec<IrPattern> = parts.iter().map(|p| self.pattern(p)).collect();
                if let Some(Entity::Con(con)) = entity {
                    return IrPattern::Con(con, parts);
                }
                let native = match entity {
                    Some(Entity::Function(id)) => &self.library.functions[id as usize].body,
                    _ => panic!("{}: {name} is no constructor", self.parent),
                };
                let Body::Native(native) = native else {
                    panic!("{}: {name} is no constructor", self.parent)
                };
                let mut next = || Box::new(parts.remove(0));
                match native {
                    Native::Suc => IrPattern::Suc(next()),
                    Native::Pos => IrPattern::Pos(next()),
                    Native::NegSuc => IrPattern::NegSuc(next()),
                    Native::Cons => IrPattern::Cons(next(), next()),
                    _ => panic!("{}: {name} is no constructor", self.parent),
                }
            }
        }
    }

    fn tuple_shape(&self, size: usize) -> ShapeId {
        let labels: Vec<String> = (0..size).map(|n| n.to_string()).collect();
        self.library.names.shape(&labels)
    }

    fn name(&mut self, name: &str) -> Ir {
        if let Some((_, var)) = self.locals.iter().rev().find(|(local, _)| local == name) {
            return Ir::Var(*var);
        }
        match self.entity(name) {
            Some(entity) => self.of_entity(entity),
            // the one value of the unit type
            None if name == "tt" => Ir::Record(self.tuple_shape(0), Vec::new()),
            None if self.implicit.iter().any(|implicit| implicit == name) => {
                Ir::LeftOut(format!("{}: {name} is implicit", self.parent))
            }
            None => Ir::Bad(format!("{}: {name} is not in scope", self.parent)),
        }
    }

    fn of_entity(&self, entity: Entity) -> Ir {
        match entity {
            Entity::Zero => Ir::Int(0),
            Entity::True => Ir::Bool(true),
            Entity::False => Ir::Bool(false),
            Entity::Nil => Ir::Nil,
            Entity::Con(con) => Ir::Con(con, Vec::new()),
            Entity::Function(id) => self.global(id),
            Entity::Module(name) | Entity::Unknown(name) => {
                Ir::Bad(format!("{}: {name} has no value here", self.parent))
            }
        }
    }

    /// A definition; one of a section around this clause is given that section's parameters.
    fn global(&self, id: FnId) -> Ir {
        let theirs = self.library.prefixes.get(&id);
        let theirs = theirs.map_or(&[][..], Vec::as_slice);
        let shared = theirs.iter().zip(&self.prefix);
        let shared = shared.take_while(|(theirs, (ours, _))| *theirs == ours);
        let given: Vec<Ir> = shared.map(|(_, (_, var))| Ir::Var(*var)).collect();
        match given.is_empty() {
            true => Ir::Global(id),
            false => Ir::App(Box::new(Ir::Global(id)), given),
        }
    }

    fn term(&mut self, term: &Term) -> Ir {
        match term {
            Term::Name(name) => self.name(name),
            Term::Number(n) => Ir::Int(*n),
            Term::Text(codes) => Ir::Text(codes.clone()),
            Term::App(head, arguments) => {
                let head = self.term(head);
                let arguments = arguments.iter().map(|a| self.term(a)).collect();
                apply(head, arguments)
            }
            Term::Field(of, field) => self.field(of, field),
            Term::Lambda(binders, body) => {
                let before = self.locals.len();
                let vars: Vec<VarId> = binders.iter().map(|_| self.library.fresh()).collect();
                let body = self.under(binders, &vars, |inside| inside.term(body));
                self.locals.truncate(before);
                Ir::Lam(vars, Box::new(body))
            }
            Term::Let(pattern, value, body) => {
                self.let_in(pattern, value, |inside| inside.term(body))
            }
            Term::Do(statements) => self.statements(statements),
            Term::Record(fields) => {
                let names: Vec<String> = fields.iter().map(|(name, _)| name.clone()).collect();
                let shape = self.library.names.shape(&names);
                let order = self.library.names.fields(shape);
                let in_order = order.iter().map(|name| {
                    let (_, term) = fields.iter().find(|(own, _)| own == name).unwrap();
                    self.term(term)
                });
                Ir::Record(shape, in_order.collect())
            }
            Term::Tuple(parts) => {
                let shape = self.tuple_shape(parts.len());
                Ir::Record(shape, parts.iter().map(|part| self.term(part)).collect())
            }
        }
    }

    fn field(&mut self, of: &Term, field: &str) -> Ir {
        if let Term::Name(name) = of
            && !self.locals.iter().any(|(local, _)| local == name)
            && let Some(Entity::Module(module)) = self.entity(name)
        {
            let whole = format!("{module}.{field}");
            return match self.library.by_name.get(&whole).cloned() {
                Some(entity) => self.of_entity(entity),
                None => Ir::Bad(format!("{whole} has no value")),
            };
        }
        Ir::Field(Box::new(self.term(of)), field.to_string())
    }

    /// A term under binders whose values the variables have.
    fn under(
        &mut self,
        binders: &[Pattern],
        vars: &[VarId],
        inner: impl FnOnce(&mut Self) -> Ir,
    ) -> Ir {
        let mut parts = Vec::new();
        for (binder, &var) in binders.iter().zip(vars) {
            self.open(binder, Ir::Var(var), Some(var), &mut parts);
        }
        let body = inner(self);
        parts.into_iter().rev().fold(body, |body, (var, value)| {
            Ir::Let(var, Box::new(value), Box::new(body))
        })
    }

    /// The variables of a binder, each with its value.
    fn open(
        &mut self,
        binder: &Pattern,
        value: Ir,
        var: Option<VarId>,
        parts: &mut Vec<(VarId, Ir)>,
    ) {
        match binder {
            Pattern::Any => {}
            Pattern::Name(name) => match var {
                Some(var) => self.locals.push((name.clone(), var)),
                None => {
                    let var = self.bind(name);
                    parts.push((var, value));
                }
            },
            Pattern::Tuple(inner) => {
                for (n, part) in inner.iter().enumerate() {
                    let value = Ir::Field(Box::new(value.clone()), n.to_string());
                    self.open(part, value, None, parts);
                }
            }
            _ => panic!("{}: a binder that is not understood", self.parent),
        }
    }

    fn let_in(
        &mut self,
        pattern: &Pattern,
        value: &Term,
        inner: impl FnOnce(&mut Self) -> Ir,
    ) -> Ir {
        let value = self.term(value);
        let before = self.locals.len();
        let var = self.library.fresh();
        let body = self.under(std::slice::from_ref(pattern), &[var], inner);
        self.locals.truncate(before);
        Ir::Let(var, Box::new(value), Box::new(body))
    }

    fn statements(&mut self, statements: &[Statement]) -> Ir {
        let (first, rest) = statements.split_first().expect("an empty do");
        match first {
            Statement::Plain(term) if rest.is_empty() => self.term(term),
            Statement::Plain(term) => {
                let (first, rest) = (self.term(term), self.statements(rest));
                apply(self.name("◌>>◌"), vec![first, rest])
            }
            Statement::Bind(pattern, term) => {
                let first = self.term(term);
                let before = self.locals.len();
                let var = self.library.fresh();
                let pattern = std::slice::from_ref(pattern);
                let body = self.under(pattern, &[var], |inside| inside.statements(rest));
                self.locals.truncate(before);
                let rest = Ir::Lam(vec![var], Box::new(body));
                apply(self.name("◌>>=◌"), vec![first, rest])
            }
            Statement::Let(pattern, term) => {
                self.let_in(pattern, term, |inside| inside.statements(rest))
            }
        }
    }
}

fn bad(ir: &Ir, all: &mut Vec<String>) {
    match ir {
        Ir::Bad(text) => all.push(text.clone()),
        _ => parts(ir).into_iter().for_each(|part| bad(part, all)),
    }
}

pub fn parts(ir: &Ir) -> Vec<&Ir> {
    match ir {
        Ir::App(head, arguments) => std::iter::once(&**head).chain(arguments).collect(),
        Ir::Con(_, parts) | Ir::Record(_, parts) => parts.iter().collect(),
        Ir::Lam(_, body) => vec![body],
        Ir::Let(_, value, body) => vec![value, body],
        Ir::Field(of, _) => vec![of],
        _ => Vec::new(),
    }
}

pub fn apply(head: Ir, arguments: Vec<Ir>) -> Ir {
    match head {
        _ if arguments.is_empty() => head,
        Ir::App(head, mut first) => {
            first.extend(arguments);
            Ir::App(head, first)
        }
        Ir::Con(con, mut first) => {
            first.extend(arguments);
            Ir::Con(con, first)
        }
        head => Ir::App(Box::new(head), arguments),
    }
}
