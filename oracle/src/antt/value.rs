//! What a definition computes. A ℕ and a ℤ are both a number: `pos n` is n, `negsuc n` is -n - 1.
use std::cell::RefCell;
use std::collections::HashMap;
use std::rc::Rc;

use super::code::CodeId;
use super::store::Snapshot;

pub type ShapeId = u16;
pub type ConId = u32;

#[derive(Clone)]
pub enum Value {
    Int(i64),
    Bool(bool),
    /// A record of two numbers of 32 bits.
    Two(ShapeId, i32, i32),
    Record(Rc<Record>),
    /// A constructor without fields.
    Con(ConId),
    Made(Rc<Made>),
    /// The list from this place on.
    List(u32, Rc<List>),
    Fun(Rc<Fun>),
    /// The cells as they were, up to two arguments of a reader taken.
    Was(Rc<Snapshot>),
    WasOf(ConId, Rc<Snapshot>),
}

pub struct Record {
    pub shape: ShapeId,
    pub fields: Vec<Value>,
}

pub struct Made {
    pub con: ConId,
    pub fields: Vec<Value>,
}

pub enum List {
    Values(Vec<Value>),
    Ints(Vec<i64>),
}

/// A function and the first of what it needs: what a λ found around it, then arguments.
pub struct Fun {
    pub code: CodeId,
    pub held: Vec<Value>,
}

impl List {
    pub fn len(&self) -> usize {
        match self {
            List::Values(all) => all.len(),
            List::Ints(all) => all.len(),
        }
    }

    pub fn get(&self, at: usize) -> Option<Value> {
        match self {
            List::Values(all) => all.get(at).cloned(),
            List::Ints(all) => all.get(at).map(|&n| Value::Int(n)),
        }
    }
}

impl Value {
    pub fn int(&self) -> i64 {
        match self {
            Value::Int(n) => *n,
            _ => panic!("a number is expected, not {}", self.kind()),
        }
    }

    pub fn bool(&self) -> bool {
        match self {
            Value::Bool(b) => *b,
            _ => panic!("a Bool is expected, not {}", self.kind()),
        }
    }

    pub fn kind(&self) -> &'static str {
        match self {
            Value::Int(_) => "a number",
            Value::Bool(_) => "a Bool",
            Value::Two(..) | Value::Record(_) => "a record",
            Value::Con(_) | Value::Made(_) => "a constructor",
            Value::List(..) => "a list",
            Value::Fun(_) | Value::Was(_) | Value::WasOf(..) => "a function",
        }
    }

    pub fn list(items: Vec<Value>) -> Value {
        Value::List(0, Rc::new(List::Values(items)))
    }

    pub fn ints(items: Vec<i64>) -> Value {
        Value::List(0, Rc::new(List::Ints(items)))
    }

    /// The elements of a list.
    pub fn items(&self) -> Vec<Value> {
        match self {
            Value::List(start, list) => (*start as usize..list.len())
                .map(|at| list.get(at).unwrap())
                .collect(),
            _ => panic!("a list is expected, not {}", self.kind()),
        }
    }

    /// The elements of a list of numbers.
    pub fn int_items(&self) -> Vec<i64> {
        match self {
            Value::List(start, list) => match &**list {
                List::Ints(all) => all[*start as usize..].to_vec(),
                List::Values(all) => all[*start as usize..].iter().map(Value::int).collect(),
            },
            _ => panic!("a list is expected, not {}", self.kind()),
        }
    }
}

/// The sets of field names that records have, and the constructors' names.
#[derive(Default)]
pub struct Names {
    shapes: RefCell<Vec<Rc<Vec<String>>>>,
    by_fields: RefCell<HashMap<Rc<Vec<String>>, ShapeId>>,
    constructors: RefCell<Vec<String>>,
    by_name: RefCell<HashMap<String, ConId>>,
}

impl Names {
    /// The fields in the order in which a record of this shape keeps them.
    pub fn fields(&self, shape: ShapeId) -> Rc<Vec<String>> {
        self.shapes.borrow()[shape as usize].clone()
    }

    pub fn place(&self, shape: ShapeId, field: &str) -> Option<usize> {
        let fields = self.fields(shape);
        fields.iter().position(|name| name == field)
    }

    pub fn shape(&self, fields: &[String]) -> ShapeId {
        let mut sorted = fields.to_vec();
        sorted.sort();
        let sorted = Rc::new(sorted);
        if let Some(&shape) = self.by_fields.borrow().get(&sorted) {
            return shape;
        }
        let mut shapes = self.shapes.borrow_mut();
        let shape = shapes.len() as ShapeId;
        shapes.push(sorted.clone());
        self.by_fields.borrow_mut().insert(sorted, shape);
        shape
    }

    /// The constructor of this whole name.
    pub fn constructor(&self, name: &str) -> ConId {
        if let Some(&con) = self.by_name.borrow().get(name) {
            return con;
        }
        let mut all = self.constructors.borrow_mut();
        let con = all.len() as ConId;
        all.push(name.to_string());
        self.by_name.borrow_mut().insert(name.to_string(), con);
        con
    }

    pub fn constructor_name(&self, con: ConId) -> String {
        self.constructors.borrow()[con as usize].clone()
    }

    /// A record of these fields, in any order.
    pub fn record(&self, fields: Vec<(&str, Value)>) -> Value {
        let names: Vec<String> = fields.iter().map(|(name, _)| name.to_string()).collect();
        let shape = self.shape(&names);
        let mut fields = fields;
        fields.sort_by_key(|(name, _)| *name);
        made_record(shape, fields.into_iter().map(|(_, value)| value).collect())
    }

    pub fn field(&self, value: &Value, field: &str) -> Value {
        let shape = match value {
            Value::Two(shape, ..) => *shape,
            Value::Record(record) => record.shape,
            _ => panic!("no record with {field}, but {}", value.kind()),
        };
        let Some(place) = self.place(shape, field) else {
            panic!("no field {field} in {:?}", self.fields(shape));
        };
        field_at(value, place)
    }
}

/// The fields in the shape's order.
pub fn made_record(shape: ShapeId, fields: Vec<Value>) -> Value {
    if let [Value::Int(a), Value::Int(b)] = fields[..]
        && let (Ok(a), Ok(b)) = (i32::try_from(a), i32::try_from(b))
    {
        return Value::Two(shape, a, b);
    }
    Value::Record(Rc::new(Record { shape, fields }))
}

pub fn field_at(value: &Value, place: usize) -> Value {
    match value {
        Value::Two(_, a, b) => Value::Int(i64::from(if place == 0 { *a } else { *b })),
        Value::Record(record) => record.fields[place].clone(),
        _ => unreachable!(),
    }
}
