//! The store on arrays: what `run` reads and writes, each cell through its owner's test.
use std::cell::RefCell;
use std::rc::Rc;

use super::value::{ConId, Names, ShapeId, Value};

/// Reference bytes among the kinds: field vectors, reference bytes, trajectories, maps, as `Kind` has them.
pub const BYTES: usize = 1;

/// The store's lists, by kind: y, then x; reference bytes have no x.
pub const LISTS: [(&str, Option<&str>); 4] = [
    ("field_y", Some("field_x")),
    ("field_ref", None),
    ("traj_y", Some("traj_x")),
    ("map_y", Some("map_x")),
];

#[derive(Clone, Default)]
struct Cells {
    y: Rc<Vec<i64>>,
    x: Rc<Vec<i64>>,
}

/// Whose cells they are, asked once for each.
pub struct Owner {
    pub own: Value,
    known: [RefCell<Vec<Option<bool>>>; 4],
}

pub struct Running {
    cells: [Cells; 4],
    pub fixed: Rc<Fixed>,
}

/// What stays the same throughout a run.
pub struct Fixed {
    pub owner: Owner,
    pub blank: [Value; 4],
    pub kinds: [ConId; 4],
    shape: ShapeId,
    /// y and x in the order of a cell's fields.
    x_first: bool,
}

/// The cells as they were.
pub struct Snapshot {
    cells: [Cells; 4],
    pub fixed: Rc<Fixed>,
}

impl Fixed {
    pub fn kind(&self, value: &Value) -> usize {
        let Value::Con(con) = value else {
            panic!("a kind is expected, not {}", value.kind())
        };
        let place = self.kinds.iter().position(|kind| kind == con);
        place.expect("a kind is expected")
    }

    /// What is known of the owner of a cell.
    pub fn known(&self, kind: usize, at: i64) -> Option<bool> {
        let known = self.owner.known[kind].borrow();
        known.get(usize::try_from(at).ok()?).copied().flatten()
    }

    pub fn learn(&self, kind: usize, at: i64, own: bool) {
        let mut known = self.owner.known[kind].borrow_mut();
        if let Some(slot) = known.get_mut(at as usize) {
            *slot = Some(own);
        }
    }

    fn get(&self, cells: &[Cells; 4], kind: usize, at: i64) -> Value {
        let of = |list: &Vec<i64>| list.get(at as usize).copied().unwrap_or(0);
        let (y, x) = (of(&cells[kind].y), of(&cells[kind].x));
        let (first, second) = if self.x_first { (x, y) } else { (y, x) };
        Value::Two(self.shape, first as i32, second as i32)
    }
}

impl Snapshot {
    pub fn get(&self, kind: usize, at: i64) -> Value {
        self.fixed.get(&self.cells, kind, at)
    }
}

impl Running {
    /// `blank` is the empty cell of each kind.
    pub fn new(
        names: &Names,
        kinds: [ConId; 4],
        store: &Value,
        own: Value,
        blank: [Value; 4],
    ) -> Self {
        let list = |name: &str| Rc::new(names.field(store, name).int_items());
        let cells = LISTS.map(|(y, x)| Cells {
            y: list(y),
            x: x.map(list).unwrap_or_default(),
        });
        let shape = match blank[0] {
            Value::Two(shape, ..) => shape,
            _ => panic!("a cell is a pair of numbers"),
        };
        let fields = names.fields(shape);
        let x_first = matches!(fields[0].as_str(), "x");
        let known = [0, 1, 2, 3].map(|kind: usize| RefCell::new(vec![None; cells[kind].y.len()]));
        let fixed = Rc::new(Fixed {
            owner: Owner { own, known },
            blank,
            kinds,
            shape,
            x_first,
        });
        Self { cells, fixed }
    }

    pub fn get(&self, kind: usize, at: i64) -> Value {
        self.fixed.get(&self.cells, kind, at)
    }

    pub fn put(&mut self, kind: usize, at: i64, value: &Value) {
        let Value::Two(_, first, second) = *value else {
            panic!("a cell of two numbers is expected, not {}", value.kind())
        };
        let (x, y) = match self.fixed.x_first {
            true => (first, second),
            false => (second, first),
        };
        let y = if kind == BYTES { y.abs() } else { y };
        let Cells { y: ys, x: xs } = &mut self.cells[kind];
        for (list, value) in [(ys, y), (xs, x)] {
            if (at as usize) < list.len() {
                Rc::make_mut(list)[at as usize] = i64::from(value);
            }
        }
    }

    pub fn snapshot(&self) -> Rc<Snapshot> {
        Rc::new(Snapshot {
            cells: self.cells.clone(),
            fixed: self.fixed.clone(),
        })
    }

    pub fn into_store(self, names: &Names) -> Value {
        let mut fields = Vec::new();
        for ((y, x), cells) in LISTS.into_iter().zip(self.cells) {
            let list = |list: Rc<Vec<i64>>| Value::ints(Rc::unwrap_or_clone(list));
            fields.push((y, list(cells.y)));
            if let Some(x) = x {
                fields.push((x, list(cells.x)));
            }
        }
        names.record(fields)
    }
}
