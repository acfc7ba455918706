//! Runs definitions. Arguments are computed first, the branches of `cond`, `_&&_` and `_||_` where they
//! are taken. A call in last place takes over the frame of its caller, so that a loop written as such a
//! call runs in the same space.
use std::rc::Rc;

use super::code::{Clause, Code, CodeId, Expr, Field, Pattern, Program, Run};
use super::natives::Native;
use super::store::{Running, Snapshot};
use super::value::{ConId, Fun, List, Made, Value, field_at, made_record};

const KEPT_LIMIT: i64 = 4_096;

pub struct Machine {
    pub program: &'static Program,
    stack: Vec<Value>,
    constants: Vec<Option<Value>>,
    kept: Vec<Vec<Option<Value>>>,
    /// Parts of definitions that were evaluated.
    pub steps: u64,
}

fn natural(n: i64) -> i64 {
    assert!(n >= 0, "a natural number is below 0");
    n
}

fn checked(n: Option<i64>) -> i64 {
    n.expect("a number is past 64 bits")
}

fn arithmetic(native: Native, a: i64, b: i64) -> i64 {
    match native {
        Native::Add | Native::AddZ => checked(a.checked_add(b)),
        Native::Sub => (a - b).max(0),
        Native::SubZ => checked(a.checked_sub(b)),
        Native::Mul | Native::MulZ => checked(a.checked_mul(b)),
        Native::Div if b == 0 => 0,
        Native::Mod if b == 0 => a,
        Native::Div => a / b,
        Native::Mod => a % b,
        Native::Pow => checked(u32::try_from(b).ok().and_then(|b| a.checked_pow(b))),
        Native::Min => a.min(b),
        Native::Max => a.max(b),
        Native::QuotZ if b == 0 => 0,
        Native::QuotZ => a / b,
        Native::RemZ if b == 0 => a,
        Native::RemZ => a % b,
        // By a natural number, rounded down; by 0 it is 0, and -1 below 0.
        Native::ShrZ if b == 0 => -i64::from(a < 0),
        Native::ShrZ => a.div_euclid(b),
        _ => unreachable!(),
    }
}

fn is_arithmetic(native: Native) -> bool {
    matches!(
        native,
        Native::Add
            | Native::Sub
            | Native::Mul
            | Native::Div
            | Native::Mod
            | Native::Pow
            | Native::Min
            | Native::Max
            | Native::AddZ
            | Native::SubZ
            | Native::MulZ
            | Native::QuotZ
            | Native::RemZ
            | Native::ShrZ
    )
}

fn is_comparison(native: Native) -> bool {
    matches!(
        native,
        Native::Leb | Native::Ltb | Native::Eqb | Native::LtZ | Native::LeZ
    )
}

fn comparison(native: Native, a: i64, b: i64) -> bool {
    match native {
        Native::Leb | Native::LeZ => a <= b,
        Native::Ltb | Native::LtZ => a < b,
        Native::Eqb => a == b,
        _ => unreachable!(),
    }
}

fn unary(native: Native, n: i64) -> i64 {
    match native {
        Native::Suc => checked(natural(n).checked_add(1)),
        Native::Pred => (n - 1).max(0),
        Native::Pos => natural(n),
        Native::NegSuc => -natural(n) - 1,
        Native::NatAbs => checked(n.checked_abs()),
        Native::NegZ => checked(n.checked_neg()),
        Native::SucZ => checked(n.checked_add(1)),
        Native::PredZ => checked(n.checked_sub(1)),
        _ => unreachable!(),
    }
}

impl Machine {
    pub fn new(program: &'static Program) -> Self {
        let count = program.codes.len();
        Self {
            program,
            stack: Vec::new(),
            constants: vec![None; count],
            kept: vec![Vec::new(); count],
            steps: 0,
        }
    }

    /// A definition's value at these arguments.
    pub fn call_by_name(&mut self, name: &str, arguments: Vec<Value>) -> Value {
        let Some(code) = self.program.code(name) else {
            panic!("there is no definition {name}");
        };
        let held = Vec::new();
        self.apply(Value::Fun(Rc::new(Fun { code, held })), arguments)
    }

    fn code(&self, id: CodeId) -> &'static Code {
        &self.program.codes[id as usize]
    }

    #[inline]
    fn eval(&mut self, e: &'static Expr, base: usize) -> Value {
        match e {
            Expr::Const(value) => value.clone(),
            Expr::Local(place) => self.stack[base + *place as usize].clone(),
            _ => {
                let top = self.stack.len();
                let value = self.run(e, base, top);
                self.stack.truncate(top);
                value
            }
        }
    }

    /// Where a frame is left behind, it lies from `top` on.
    fn run(&mut self, mut e: &'static Expr, mut base: usize, top: usize) -> Value {
        loop {
            self.steps += 1;
            match e {
                Expr::Const(value) => return value.clone(),
                Expr::Local(place) => return self.stack[base + *place as usize].clone(),
                Expr::If(parts) => {
                    let taken = self.truth(&parts.0, base);
                    e = if taken { &parts.1 } else { &parts.2 };
                }
                Expr::Let(place, parts) => {
                    let value = self.eval(&parts.0, base);
                    self.stack[base + *place as usize] = value;
                    e = &parts.1;
                }
                Expr::One(..) | Expr::Both(..) => return self.primitive(e, base),
                Expr::GetD(parts) => {
                    if let Some(value) = self.element(parts, base) {
                        return value;
                    }
                    e = &parts.2;
                }
                Expr::Call(id, arguments) => {
                    let code = self.code(*id);
                    if code.takes == 0 {
                        return self.constant(*id);
                    }
                    if code.kept {
                        let n = self.int(&arguments[0], base);
                        return self.kept_answer(*id, n);
                    }
                    let start = self.push_all(arguments, base);
                    self.stack.drain(top..start);
                    base = top;
                    e = self.enter(code, base);
                }
                Expr::Native(native, arguments) => {
                    let arguments = arguments.iter().map(|a| self.eval(a, base)).collect();
                    return self.native(*native, arguments);
                }
                Expr::Apply(head, arguments) => {
                    let head = self.eval(head, base);
                    let arguments: Vec<Value> =
                        arguments.iter().map(|a| self.eval(a, base)).collect();
                    match self.enter_value(&head, &arguments, top) {
                        Some(next) => (e, base) = (next, top),
                        None => return self.apply(head, arguments),
                    }
                }
                Expr::Hold(code, held) => {
                    let held: Vec<Value> = held.iter().map(|h| self.eval(h, base)).collect();
                    if held.is_empty() && self.code(*code).takes == 0 {
                        return self.constant(*code);
                    }
                    let code = *code;
                    return Value::Fun(Rc::new(Fun { code, held }));
                }
                Expr::Field(field) => return self.field(field, base),
                Expr::Record(shape, parts) => {
                    if let [first, second] = &parts[..] {
                        let (first, second) = (self.eval(first, base), self.eval(second, base));
                        return made_record(*shape, vec![first, second]);
                    }
                    let parts = parts.iter().map(|part| self.eval(part, base)).collect();
                    return made_record(*shape, parts);
                }
                Expr::Made(con, parts) => {
                    let fields = parts.iter().map(|part| self.eval(part, base)).collect();
                    return Value::Made(Rc::new(Made { con: *con, fields }));
                }
                Expr::Bad(text) => panic!("{text}"),
            }
        }
    }

    /// Puts the arguments on the stack, and answers where they begin.
    fn push_all(&mut self, arguments: &'static [Expr], base: usize) -> usize {
        let start = self.stack.len();
        for argument in arguments {
            let value = self.eval(argument, base);
            self.stack.push(value);
        }
        start
    }

    /// The body of a code whose arguments lie at the base.
    fn enter(&mut self, code: &'static Code, base: usize) -> &'static Expr {
        self.stack.resize(base + code.frame, Value::Int(0));
        match &code.run {
            Run::Plain(body) => body,
            Run::Clauses(clauses) => self.clause(code, clauses, base),
            Run::Native(_) => unreachable!(),
        }
    }

    fn clause(
        &mut self,
        code: &'static Code,
        clauses: &'static [Clause],
        base: usize,
    ) -> &'static Expr {
        for clause in clauses {
            let mut tests = clause.tests.iter();
            if tests.all(|(at, pattern)| {
                let value = self.stack[base + *at as usize].clone();
                self.fits(pattern, value, base)
            }) {
                return &clause.body;
            }
        }
        panic!("no clause of {} fits", code.name);
    }

    fn fits(&mut self, pattern: &'static Pattern, value: Value, base: usize) -> bool {
        match pattern {
            Pattern::Any => true,
            Pattern::Put(place) => {
                self.stack[base + *place as usize] = value;
                true
            }
            Pattern::Int(n) => value.int() == *n,
            Pattern::Bool(b) => value.bool() == *b,
            Pattern::Suc(inner) => {
                let n = value.int();
                n > 0 && self.fits(inner, Value::Int(n - 1), base)
            }
            Pattern::Pos(inner) => {
                let n = value.int();
                n >= 0 && self.fits(inner, Value::Int(n), base)
            }
            Pattern::NegSuc(inner) => {
                let n = value.int();
                n < 0 && self.fits(inner, Value::Int(-n - 1), base)
            }
            Pattern::Nil => match value {
                Value::List(start, list) => start as usize >= list.len(),
                _ => panic!("a list is expected, not {}", value.kind()),
            },
            Pattern::Cons(parts) => {
                let Value::List(start, list) = value else {
                    panic!("a list is expected, not {}", value.kind())
                };
                let Some(head) = list.get(start as usize) else {
                    return false;
                };
                self.fits(&parts.0, head, base)
                    && self.fits(&parts.1, Value::List(start + 1, list), base)
            }
            Pattern::Con(con, parts) => match value {
                Value::Con(other) => other == *con && parts.is_empty(),
                Value::Made(made) => {
                    made.con == *con
                        && made.fields.len() == parts.len()
                        && parts
                            .iter()
                            .zip(&made.fields)
                            .all(|(part, field)| self.fits(part, field.clone(), base))
                }
                _ => panic!("a constructor is expected, not {}", value.kind()),
            },
            Pattern::Record(shape, parts) => {
                let theirs = match &value {
                    Value::Two(shape, ..) => *shape,
                    Value::Record(record) => record.shape,
                    _ => panic!("a record is expected, not {}", value.kind()),
                };
                assert_eq!(theirs, *shape, "another record is expected");
                let mut places = parts.iter().enumerate();
                places.all(|(place, part)| self.fits(part, field_at(&value, place), base))
            }
        }
    }

    fn constant(&mut self, id: CodeId) -> Value {
        if let Some(value) = &self.constants[id as usize] {
            return value.clone();
        }
        let value = self.call(self.code(id), Vec::new());
        self.constants[id as usize] = Some(value.clone());
        value
    }

    fn kept_answer(&mut self, id: CodeId, n: i64) -> Value {
        let known = self.kept[id as usize].get(n as usize);
        if let Some(Some(value)) = known {
            return value.clone();
        }
        let value = self.call(self.code(id), vec![Value::Int(n)]);
        if (0..KEPT_LIMIT).contains(&n) {
            let kept = &mut self.kept[id as usize];
            kept.resize(KEPT_LIMIT as usize, None);
            kept[n as usize] = Some(value.clone());
        }
        value
    }

    /// A code with all that it takes.
    fn call(&mut self, code: &'static Code, arguments: Vec<Value>) -> Value {
        if let Run::Native(native) = code.run {
            return self.native(native, arguments);
        }
        let top = self.stack.len();
        self.stack.extend(arguments);
        let body = self.enter(code, top);
        let value = self.run(body, top, top);
        self.stack.truncate(top);
        value
    }

    /// The body of a function that has all its arguments now, its frame at `top`.
    fn enter_value(
        &mut self,
        head: &Value,
        arguments: &[Value],
        top: usize,
    ) -> Option<&'static Expr> {
        let Value::Fun(fun) = head else { return None };
        let code = self.code(fun.code);
        let whole = fun.held.len() + arguments.len() == code.takes;
        if !whole || matches!(code.run, Run::Native(_)) {
            return None;
        }
        self.stack.truncate(top);
        self.stack.extend(fun.held.iter().cloned());
        self.stack.extend(arguments.iter().cloned());
        Some(self.enter(code, top))
    }

    pub fn apply(&mut self, head: Value, mut arguments: Vec<Value>) -> Value {
        if arguments.is_empty() {
            if let Value::Fun(fun) = &head
                && self.code(fun.code).takes == 0
            {
                return self.constant(fun.code);
            }
            return head;
        }
        match &head {
            Value::Fun(fun) => {
                let code = self.code(fun.code);
                let mut held = fun.held.clone();
                let missing = code.takes - held.len();
                if arguments.len() < missing {
                    held.extend(arguments);
                    let code = fun.code;
                    return Value::Fun(Rc::new(Fun { code, held }));
                }
                let more = arguments.split_off(missing);
                held.extend(arguments);
                let value = match code.takes {
                    0 => self.constant(fun.code),
                    _ => self.call(code, held),
                };
                match more.is_empty() {
                    true => value,
                    false => self.apply(value, more),
                }
            }
            Value::Con(con) => Value::Made(Rc::new(Made {
                con: *con,
                fields: arguments,
            })),
            Value::Was(snapshot) => {
                let Value::Con(kind) = arguments.remove(0) else {
                    panic!("a kind is expected")
                };
                self.apply(Value::WasOf(kind, snapshot.clone()), arguments)
            }
            Value::WasOf(kind, snapshot) => self.was(*kind, snapshot, arguments.remove(0).int()),
            _ => panic!("a function is expected, not {}", head.kind()),
        }
    }

    fn was(&mut self, kind: u32, snapshot: &Rc<Snapshot>, at: i64) -> Value {
        let kind = snapshot.fixed.kind(&Value::Con(kind));
        match self.owns(&snapshot.fixed, kind, at) {
            true => snapshot.get(kind, at),
            false => snapshot.fixed.blank[kind].clone(),
        }
    }

    fn field(&mut self, field: &'static Field, base: usize) -> Value {
        if let Expr::Local(place) = &field.of {
            let value = &self.stack[base + *place as usize];
            return field_at(value, place_of(self.program, field, value));
        }
        let value = self.eval(&field.of, base);
        field_at(&value, place_of(self.program, field, &value))
    }

    fn element(&mut self, parts: &'static (Expr, Expr, Expr), base: usize) -> Option<Value> {
        let at = self.int(&parts.1, base);
        let list = self.eval(&parts.0, base);
        match &list {
            Value::List(start, list) => list.get(*start as usize + at as usize),
            _ => panic!("a list is expected, not {}", list.kind()),
        }
    }

    fn int(&mut self, e: &'static Expr, base: usize) -> i64 {
        match e {
            Expr::Const(value) => value.int(),
            Expr::Local(place) => self.stack[base + *place as usize].int(),
            Expr::Both(native, parts) if is_arithmetic(*native) => {
                self.steps += 1;
                let (a, b) = (self.int(&parts.0, base), self.int(&parts.1, base));
                arithmetic(*native, a, b)
            }
            Expr::Field(field) => {
                self.steps += 1;
                self.field(field, base).int()
            }
            _ => self.eval(e, base).int(),
        }
    }

    fn truth(&mut self, e: &'static Expr, base: usize) -> bool {
        match e {
            Expr::Both(native, parts) if is_comparison(*native) => {
                self.steps += 1;
                let (a, b) = (self.int(&parts.0, base), self.int(&parts.1, base));
                comparison(*native, a, b)
            }
            Expr::Both(Native::And, parts) => {
                self.truth(&parts.0, base) && self.truth(&parts.1, base)
            }
            Expr::Both(Native::Or, parts) => {
                self.truth(&parts.0, base) || self.truth(&parts.1, base)
            }
            Expr::One(Native::Not, part) => !self.truth(part, base),
            _ => self.eval(e, base).bool(),
        }
    }

    fn primitive(&mut self, e: &'static Expr, base: usize) -> Value {
        match e {
            Expr::One(native, part) => match native {
                Native::Not => Value::Bool(!self.truth(part, base)),
                Native::BoolByte => Value::Int(i64::from(self.truth(part, base))),
                Native::NonNeg => Value::Bool(self.int(part, base) >= 0),
                Native::Length => {
                    let list = self.eval(part, base);
                    self.native(*native, vec![list])
                }
                _ => Value::Int(unary(*native, self.int(part, base))),
            },
            Expr::Both(native, parts) => match native {
                Native::And | Native::Or => Value::Bool(self.truth(e, base)),
                Native::Beq => {
                    Value::Bool(self.truth(&parts.0, base) == self.truth(&parts.1, base))
                }
                Native::Xor => {
                    Value::Bool(self.truth(&parts.0, base) != self.truth(&parts.1, base))
                }
                _ if is_arithmetic(*native) => Value::Int(self.int(e, base)),
                _ if is_comparison(*native) => Value::Bool(self.truth(e, base)),
                _ => {
                    let arguments = vec![self.eval(&parts.0, base), self.eval(&parts.1, base)];
                    self.native(*native, arguments)
                }
            },
            _ => unreachable!(),
        }
    }

    /// A native on values.
    fn native(&mut self, native: Native, mut arguments: Vec<Value>) -> Value {
        let mut next = || arguments.remove(0);
        match native {
            Native::Cond => {
                let (test, then, other) = (next().bool(), next(), next());
                if test { then } else { other }
            }
            Native::Not => Value::Bool(!next().bool()),
            Native::And => Value::Bool(next().bool() & next().bool()),
            Native::Or => Value::Bool(next().bool() | next().bool()),
            Native::Beq => Value::Bool(next().bool() == next().bool()),
            Native::Xor => Value::Bool(next().bool() != next().bool()),
            Native::BoolByte => Value::Int(i64::from(next().bool())),
            Native::NonNeg => Value::Bool(next().int() >= 0),
            Native::Cons => {
                let mut items = vec![next()];
                items.extend(next().items());
                Value::list(items)
            }
            Native::Append => {
                let mut items = next().items();
                items.extend(next().items());
                Value::list(items)
            }
            Native::Length => Value::Int(next().items_len() as i64),
            Native::GetD => {
                let (list, at, other) = (next(), next().int(), next());
                get(list, at, other)
            }
            Native::CharAt => {
                let (text, at) = (next(), next().int());
                get(text, at, Value::Int(0))
            }
            Native::Take => {
                let count = next().int() as usize;
                let mut items = next().items();
                items.truncate(count);
                Value::list(items)
            }
            Native::Drop => {
                let count = next().int() as usize;
                let list = next();
                let count = count.min(list.items_len());
                match list {
                    Value::List(start, list) => Value::List(start + count as u32, list),
                    _ => unreachable!(),
                }
            }
            Native::Set => {
                let (list, at, value) = (next(), next().int() as usize, next());
                set(list, at, value)
            }
            Native::Replicate => {
                let (count, value) = (next().int(), next());
                Value::list(vec![value; count as usize])
            }
            Native::Map => {
                let f = next();
                let items = next().items().into_iter();
                let items = items.map(|item| self.apply(f.clone(), vec![item]));
                Value::list(items.collect())
            }
            Native::Tab => {
                let (count, f) = (next().int(), next());
                let items = (0..count).map(|n| self.apply(f.clone(), vec![Value::Int(n)]));
                Value::list(items.collect())
            }
            Native::Over => {
                let (f, d, n, p, s) = (next(), next().int(), next().int(), next().int(), next());
                self.over(f, d, n, p, s)
            }
            Native::Span => {
                let (f, a, b, s) = (next(), next().int(), next().int(), next());
                self.over(f, 1, (b - a).max(0), a, s)
            }
            Native::SpanBy => {
                let (d, f, a, b, s) = (next().int(), next(), next().int(), next().int(), next());
                let turns = arithmetic(Native::Div, (b - a).max(0) + (d - 1).max(0), d);
                self.over(f, d, turns, a, s)
            }
            Native::Run => {
                let (own, program, store) = (next(), next(), next());
                self.run_program(own, program, &store)
            }
            _ if arguments.len() == 1 => Value::Int(unary(native, arguments[0].int())),
            _ => {
                let (a, b) = (arguments[0].int(), arguments[1].int());
                match is_arithmetic(native) {
                    true => Value::Int(arithmetic(native, a, b)),
                    false => Value::Bool(comparison(native, a, b)),
                }
            }
        }
    }

    fn over(&mut self, f: Value, d: i64, n: i64, p: i64, mut s: Value) -> Value {
        let mut at = p;
        for _ in 0..n {
            s = self.apply(f.clone(), vec![Value::Int(at), s]);
            at += d;
        }
        s
    }
}

/// `run` on arrays.
impl Machine {
    fn run_program(&mut self, own: Value, program: Value, store: &Value) -> Value {
        let names = &self.program.names;
        let kinds = <[ConId; 4]>::try_from(&self.program.kinds[..]).expect("four kinds of cells");
        let blank =
            kinds.map(|kind| self.call_by_name("store.Store.blank", vec![Value::Con(kind)]));
        let mut running = Running::new(names, kinds, store, own, blank);
        self.carry_out(program, &mut running);
        running.into_store(names)
    }

    fn owns(&mut self, fixed: &Rc<super::store::Fixed>, kind: usize, at: i64) -> bool {
        if let Some(known) = fixed.known(kind, at) {
            return known;
        }
        let arguments = vec![Value::Con(fixed.kinds[kind]), Value::Int(at)];
        let own = self.apply(fixed.owner.own.clone(), arguments).bool();
        fixed.learn(kind, at, own);
        own
    }

    fn read(&mut self, running: &Running, kind: usize, at: i64) -> Value {
        match self.owns(&running.fixed, kind, at) {
            true => running.get(kind, at),
            false => running.fixed.blank[kind].clone(),
        }
    }

    fn write(&mut self, running: &mut Running, kind: usize, at: i64, value: &Value) {
        if self.owns(&running.fixed.clone(), kind, at) {
            running.put(kind, at, value);
        }
    }

    /// A program that is a value.
    fn carry_out(&mut self, mut program: Value, running: &mut Running) {
        let steps = self.program.steps;
        loop {
            let made = match &program {
                Value::Con(con) if *con == steps.done => return,
                Value::Made(made) => made.clone(),
                _ => panic!("a program is expected, not {}", program.kind()),
            };
            let fields = &made.fields;
            if made.con == steps.read {
                let kind = running.fixed.kind(&fields[0]);
                let cell = self.read(running, kind, fields[1].int());
                program = self.apply(fields[2].clone(), vec![cell]);
            } else if made.con == steps.write {
                let kind = running.fixed.kind(&fields[0]);
                return self.write(running, kind, fields[1].int(), &fields[2]);
            } else if made.con == steps.test {
                let branch = if fields[0].bool() { 1 } else { 2 };
                program = fields[branch].clone();
            } else if made.con == steps.seq {
                self.carry_out(fields[0].clone(), running);
                program = fields[1].clone();
            } else if made.con == steps.repeat {
                let (d, n, p) = (fields[0].int(), fields[1].int(), fields[2].int());
                return self.repeat(&fields[3], d, n, p, running);
            } else if made.con == steps.snapshot {
                let was = Value::Was(running.snapshot());
                program = self.apply(fields[0].clone(), vec![was]);
            } else {
                panic!("a program is expected");
            }
        }
    }

    fn repeat(&mut self, body: &Value, d: i64, n: i64, p: i64, running: &mut Running) {
        let mut at = p;
        for _ in 0..n {
            self.carry_out_at(body, Value::Int(at), running);
            at += d;
        }
    }

    /// The program that a function gives at an argument.
    fn carry_out_at(&mut self, body: &Value, argument: Value, running: &mut Running) {
        let top = self.stack.len();
        let argument = [argument];
        match self.enter_value(body, &argument, top) {
            Some(next) => self.execute_from(next, top, top, running),
            None => {
                let [argument] = argument;
                let program = self.apply(body.clone(), vec![argument]);
                self.carry_out(program, running);
            }
        }
        self.stack.truncate(top);
    }

    fn execute(&mut self, e: &'static Expr, base: usize, running: &mut Running) {
        let top = self.stack.len();
        self.execute_from(e, base, top, running);
        self.stack.truncate(top);
    }

    /// A program that is about to be made, carried out instead.
    fn execute_from(
        &mut self,
        mut e: &'static Expr,
        mut base: usize,
        top: usize,
        running: &mut Running,
    ) {
        let steps = self.program.steps;
        loop {
            self.steps += 1;
            let (function, argument) = match e {
                Expr::If(parts) => {
                    let taken = self.truth(&parts.0, base);
                    e = if taken { &parts.1 } else { &parts.2 };
                    continue;
                }
                Expr::Let(place, parts) => {
                    let value = self.eval(&parts.0, base);
                    self.stack[base + *place as usize] = value;
                    e = &parts.1;
                    continue;
                }
                Expr::Call(id, arguments) if self.code(*id).takes > 0 => {
                    let start = self.push_all(arguments, base);
                    self.stack.drain(top..start);
                    base = top;
                    e = self.enter(self.code(*id), base);
                    continue;
                }
                Expr::Made(con, parts) if *con == steps.write => {
                    let kind = self.eval(&parts[0], base);
                    let (kind, at) = (running.fixed.kind(&kind), self.int(&parts[1], base));
                    let value = self.eval(&parts[2], base);
                    return self.write(running, kind, at, &value);
                }
                Expr::Made(con, parts) if *con == steps.seq => {
                    self.execute(&parts[0], base, running);
                    e = &parts[1];
                    continue;
                }
                Expr::Made(con, parts) if *con == steps.repeat => {
                    let d = self.int(&parts[0], base);
                    let n = self.int(&parts[1], base);
                    let p = self.int(&parts[2], base);
                    let body = self.eval(&parts[3], base);
                    return self.repeat(&body, d, n, p, running);
                }
                Expr::Made(con, parts) if *con == steps.read => {
                    let kind = self.eval(&parts[0], base);
                    let (kind, at) = (running.fixed.kind(&kind), self.int(&parts[1], base));
                    let cell = self.read(running, kind, at);
                    (self.eval(&parts[2], base), cell)
                }
                Expr::Made(con, parts) if *con == steps.snapshot => {
                    let was = Value::Was(running.snapshot());
                    (self.eval(&parts[0], base), was)
                }
                Expr::Apply(head, arguments) if arguments.len() == 1 => {
                    let head = self.eval(head, base);
                    (head, self.eval(&arguments[0], base))
                }
                _ => {
                    let program = self.eval(e, base);
                    return self.carry_out(program, running);
                }
            };
            let argument = [argument];
            match self.enter_value(&function, &argument, top) {
                Some(next) => (e, base) = (next, top),
                None => {
                    let [argument] = argument;
                    let program = self.apply(function, vec![argument]);
                    return self.carry_out(program, running);
                }
            }
        }
    }
}

impl Value {
    fn items_len(&self) -> usize {
        match self {
            Value::List(start, list) => list.len() - *start as usize,
            _ => panic!("a list is expected, not {}", self.kind()),
        }
    }
}

fn place_of(program: &Program, field: &Field, value: &Value) -> usize {
    let shape = match value {
        Value::Two(shape, ..) => *shape,
        Value::Record(record) => record.shape,
        _ => panic!("no record with {}, but {}", field.name, value.kind()),
    };
    let (known, place) = field.known.get();
    if known == shape {
        return place as usize;
    }
    let Some(place) = program.names.place(shape, &field.name) else {
        panic!(
            "no field {} in {:?}",
            field.name,
            program.names.fields(shape)
        );
    };
    field.known.set((shape, place as u16));
    place
}

/// The element at a place, or the other where there is none.
fn get(list: Value, at: i64, other: Value) -> Value {
    let Value::List(start, list) = list else {
        panic!("a list is expected")
    };
    list.get(start as usize + at as usize).unwrap_or(other)
}

/// The list with another element; past its end nothing changes.
fn set(list: Value, at: usize, value: Value) -> Value {
    let Value::List(start, list) = list else {
        panic!("a list is expected, not {}", list.kind())
    };
    let at = start as usize + at;
    if at >= list.len() {
        return Value::List(start, list);
    }
    let mut list = list;
    match (Rc::get_mut(&mut list), &value) {
        (Some(List::Values(items)), _) => items[at] = value,
        (Some(List::Ints(items)), Value::Int(n)) => items[at] = *n,
        _ => {
            let mut items = Value::List(start, list).items();
            items[at - start as usize] = value;
            return Value::list(items);
        }
    }
    Value::List(start, list)
}
