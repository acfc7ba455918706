//! A load's call and the store it is lent, as the scope states them.
use std::rc::Rc;

use crate::entry::Frame;
use crate::reference::EMPTY_Y;

pub const SLOTS: usize = 7;
pub const MAP_PLANES: usize = 3;
pub const BLOCK_BYTES: usize = 6;
pub const ROWS_ABOVE: usize = 3;
pub const STORE_LISTS: usize = 7;

/// What the loader works out of a setup, in cells.
#[derive(Clone, Copy, Debug)]
pub struct Geometry {
    pub side: usize,
    pub block: usize,
    pub edge: usize,
    pub step: usize,
    pub wide: usize,
    pub high: usize,
    pub stride: usize,
}

impl Geometry {
    pub fn new(frame: &Frame) -> Self {
        let step = frame.tmvp_sample_step as usize;
        let block = if frame.sb128 != 0 && step == 2 { 16 } else { 8 };
        Self {
            side: 8 << frame.sb128,
            block,
            edge: if step == 2 { block } else { block / 2 },
            step,
            wide: (frame.width as usize).div_ceil(8),
            high: (frame.height as usize).div_ceil(8),
            stride: (frame.width as usize).div_ceil(256) * 32,
        }
    }

    pub fn plane(&self) -> usize {
        self.side * self.stride
    }

    pub fn field(&self, whole_frame: bool) -> usize {
        let rows = match whole_frame {
            true => self.high.next_multiple_of(32),
            false => self.side + ROWS_ABOVE,
        };
        rows * self.stride
    }

    pub fn planes(&self) -> usize {
        SLOTS * self.high * self.stride * BLOCK_BYTES
    }
}

#[derive(Clone, Debug)]
pub struct Call {
    pub setup: Frame,
    pub whole_frame: bool,
    pub traj: bool,
    pub holes: bool,
    pub columns: (usize, usize),
    pub rows: (usize, usize),
    /// Seven planes of six bytes a block.
    pub planes: Rc<Vec<i8>>,
}

impl Call {
    pub fn geometry(&self) -> Geometry {
        Geometry::new(&self.setup)
    }

    /// Where the tile's first row begins in the field.
    pub fn offset(&self) -> usize {
        let rows = match self.whole_frame {
            true => self.rows.0,
            false => ROWS_ABOVE,
        };
        rows * self.geometry().stride
    }

    /// The tile's last row of the frame, not included.
    pub fn bottom(&self) -> usize {
        self.rows.1.min(self.geometry().high)
    }
}

/// The lent slices. They may be longer than the scope states.
#[derive(Clone, Debug, PartialEq)]
pub struct Store {
    pub field_y: Vec<i32>,
    pub field_x: Vec<i32>,
    pub field_ref: Vec<u8>,
    pub traj_y: Vec<i32>,
    pub traj_x: Vec<i32>,
    pub map_y: Vec<i8>,
    pub map_x: Vec<i8>,
}

impl Store {
    /// All zeros, with so many elements more than the scope states.
    pub fn zeroed(geometry: &Geometry, whole_frame: bool, more: usize) -> Self {
        let field = geometry.field(whole_frame) + more;
        let traj = SLOTS * geometry.plane() + more;
        let map = MAP_PLANES * SLOTS * geometry.plane() + more;
        Self {
            field_y: vec![0; field],
            field_x: vec![0; field],
            field_ref: vec![0; field],
            traj_y: vec![0; traj],
            traj_x: vec![0; traj],
            map_y: vec![0; map],
            map_x: vec![0; map],
        }
    }

    /// All cells empty.
    pub fn emptied(mut self) -> Self {
        self.field_y.fill(EMPTY_Y);
        self.traj_y.fill(EMPTY_Y);
        self.map_y.fill(-128);
        self.map_x.fill(-128);
        self
    }

    /// Of all seven lists.
    pub fn elements(&self) -> u64 {
        let field = self.field_y.len() + self.field_x.len() + self.field_ref.len();
        let trajs = self.traj_y.len() + self.traj_x.len();
        (field + trajs + self.map_y.len() + self.map_x.len()) as u64
    }

    /// Each list's name, and its elements as numbers.
    pub fn lists(&self) -> [(&'static str, Vec<i64>); STORE_LISTS] {
        fn wide<T: Copy + Into<i64>>(list: &[T]) -> Vec<i64> {
            list.iter().map(|&n| n.into()).collect()
        }
        [
            ("field_y", wide(&self.field_y)),
            ("field_x", wide(&self.field_x)),
            ("field_ref", wide(&self.field_ref)),
            ("traj_y", wide(&self.traj_y)),
            ("traj_x", wide(&self.traj_x)),
            ("map_y", wide(&self.map_y)),
            ("map_x", wide(&self.map_x)),
        ]
    }

    /// The store with these elements, in the order of `lists`. None where one does not fit its list.
    pub fn of_lists(lists: &[Vec<i64>; STORE_LISTS]) -> Option<Self> {
        fn narrow<T: TryFrom<i64>>(list: &[i64]) -> Option<Vec<T>> {
            list.iter().map(|&n| n.try_into().ok()).collect()
        }
        let [field_y, field_x, field_ref, traj_y, traj_x, map_y, map_x] = lists;
        Some(Self {
            field_y: narrow(field_y)?,
            field_x: narrow(field_x)?,
            field_ref: narrow(field_ref)?,
            traj_y: narrow(traj_y)?,
            traj_x: narrow(traj_x)?,
            map_y: narrow(map_y)?,
            map_x: narrow(map_x)?,
        })
    }
}
