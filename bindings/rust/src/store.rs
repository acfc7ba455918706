//! The store: field, trajectories and maps.
use std::ops::Range;

use crate::cells::ROWS_ABOVE;
use crate::hints::Slot;
use crate::refusal::Refusal;
use crate::setup::Setup;
use crate::vectors::{Mv, QMv};

/// How much of the field a store holds.
#[derive(Clone, Copy, Debug, PartialEq, Eq, Hash)]
pub enum Mode {
    /// A superblock row, with the three rows above it.
    Row,
    /// The whole frame.
    WholeFrame,
}

/// A field cell that is not empty.
#[derive(Clone, Copy, Debug, PartialEq, Eq, Hash)]
pub struct Cell {
    /// Its vector.
    pub mv: Mv,
    /// Its reference byte: the distance that the vector goes over.
    pub reference: u8,
}

/// A store that owns its seven lists.
///
/// ```
/// use refmvs::{init_frame, Header, Mode, Store};
///
/// let setup = init_frame(&Header { width: 64, height: 64, tmvp_sample_step: 1, ..Header::default() })?;
/// let store = Store::new(&setup, Mode::Row);
/// assert_eq!(store.field(&setup, &(0..8))?.cells().filter(|(_, _, cell)| cell.is_some()).count(), 0);
/// # Ok::<(), refmvs::Refusal>(())
/// ```
#[derive(Clone, Debug, PartialEq, Eq)]
pub struct Store {
    mode: Mode,
    field_y: Vec<i32>,
    field_x: Vec<i32>,
    field_ref: Vec<u8>,
    traj_y: Vec<i32>,
    traj_x: Vec<i32>,
    map_y: Vec<i8>,
    map_x: Vec<i8>,
}

impl Store {
    /// An empty store for frames of this setup's size and superblock code.
    ///
    /// ```
    /// # use refmvs::{init_frame, Header, Mode, Store};
    /// # let setup = init_frame(&Header { width: 64, height: 64, tmvp_sample_step: 1, ..Header::default() })?;
    /// let mut store = Store::new(&setup, Mode::WholeFrame);
    /// assert_eq!(store.lend().field_y.len(), setup.cells().field_len(Mode::WholeFrame));
    /// # Ok::<(), refmvs::Refusal>(())
    /// ```
    pub fn new(setup: &Setup, mode: Mode) -> Store {
        let cells = setup.cells();
        let (field, traj, map) = (cells.field_len(mode), cells.traj_len(), cells.map_len());
        Store {
            mode,
            field_y: vec![Mv::EMPTY_Y; field],
            field_x: vec![0; field],
            field_ref: vec![0; field],
            traj_y: vec![Mv::EMPTY_Y; traj],
            traj_x: vec![0; traj],
            map_y: vec![QMv::MARK.y; map],
            map_x: vec![QMv::MARK.x; map],
        }
    }

    /// The mode that the store was made for.
    ///
    /// ```
    /// # use refmvs::{init_frame, Header, Mode, Store};
    /// # let setup = init_frame(&Header { width: 64, height: 64, tmvp_sample_step: 1, ..Header::default() })?;
    /// assert_eq!(Store::new(&setup, Mode::Row).mode(), Mode::Row);
    /// # Ok::<(), refmvs::Refusal>(())
    /// ```
    pub const fn mode(&self) -> Mode {
        self.mode
    }

    /// The seven lists, lent for loads.
    ///
    /// ```
    /// # use refmvs::{init_frame, Header, Mode, Store};
    /// # let setup = init_frame(&Header { width: 64, height: 64, tmvp_sample_step: 1, ..Header::default() })?;
    /// let mut store = Store::new(&setup, Mode::Row);
    /// let lent = store.lend();
    /// assert_eq!((lent.map_y[0], lent.map_x[0]), (-128, -128)); // empty
    /// # Ok::<(), refmvs::Refusal>(())
    /// ```
    pub fn lend(&mut self) -> StoreMut<'_> {
        StoreMut {
            mode: self.mode,
            field_y: &mut self.field_y,
            field_x: &mut self.field_x,
            field_ref: &mut self.field_ref,
            traj_y: &mut self.traj_y,
            traj_x: &mut self.traj_x,
            map_y: &mut self.map_y,
            map_x: &mut self.map_x,
        }
    }

    /// The field of a superblock row; see [`StoreMut::field`].
    ///
    /// ```
    /// # use refmvs::{init_frame, Header, Mode, Refusal, Store};
    /// # let setup = init_frame(&Header { width: 64, height: 64, tmvp_sample_step: 1, ..Header::default() })?;
    /// let store = Store::new(&setup, Mode::Row);
    /// assert_eq!(store.field(&setup, &(0..8))?.cell(0, 0), None);
    /// assert_eq!(store.field(&setup, &(4..8)).err(), Some(Refusal::Tile));
    /// # Ok::<(), Refusal>(())
    /// ```
    pub fn field(&self, setup: &Setup, rows: &Range<usize>) -> Result<Field<'_>, Refusal> {
        Field::of(
            [&self.field_y, &self.field_x],
            &self.field_ref,
            self.mode,
            setup,
            rows,
        )
    }

    /// The trajectories of a slot; see [`StoreMut::trajectories`].
    ///
    /// ```
    /// # use refmvs::{init_frame, Header, Mode, Slot, Store};
    /// # let setup = init_frame(&Header { width: 64, height: 64, tmvp_sample_step: 1, ..Header::default() })?;
    /// let store = Store::new(&setup, Mode::Row);
    /// assert!(store.trajectories(&setup, Slot::ALL[6])?.all(|(_, _, mv)| mv.is_none()));
    /// # Ok::<(), refmvs::Refusal>(())
    /// ```
    pub fn trajectories(
        &self,
        setup: &Setup,
        slot: Slot,
    ) -> Result<impl Iterator<Item = (usize, usize, Option<Mv>)> + '_, Refusal> {
        trajectories([&self.traj_y, &self.traj_x], setup, slot)
    }
}

/// A store of lists that are lent. They may be longer than stated in [`Cells`](crate::Cells); what lies behind is
/// neither read nor written.
///
/// ```
/// use refmvs::{Cells, Mode, Mv, StoreMut};
///
/// let cells = Cells::new(64, 64, 0)?;
/// let (field, traj, map) = (cells.field_len(Mode::Row), cells.traj_len(), cells.map_len());
/// let (mut field_y, mut field_x, mut field_ref) = (vec![Mv::EMPTY_Y; field], vec![0; field], vec![0; field]);
/// let (mut traj_y, mut traj_x) = (vec![Mv::EMPTY_Y; traj], vec![0; traj]);
/// let (mut map_y, mut map_x) = (vec![-128; map], vec![-128; map]);
/// let lent = StoreMut {
///     mode: Mode::Row,
///     field_y: &mut field_y,
///     field_x: &mut field_x,
///     field_ref: &mut field_ref,
///     traj_y: &mut traj_y,
///     traj_x: &mut traj_x,
///     map_y: &mut map_y,
///     map_x: &mut map_x,
/// };
/// # let _ = lent;
/// # Ok::<(), refmvs::Refusal>(())
/// ```
///
/// No list can stand for two:
///
/// ```compile_fail,E0499
/// use refmvs::{Mode, StoreMut};
///
/// let (mut list, mut bytes, mut map_y, mut map_x) = (vec![0; 9], vec![0; 9], vec![0; 9], vec![0; 9]);
/// let lent = StoreMut {
///     mode: Mode::Row,
///     field_y: &mut list,
///     field_x: &mut list,
///     field_ref: &mut bytes,
///     traj_y: &mut list,
///     traj_x: &mut list,
///     map_y: &mut map_y,
///     map_x: &mut map_x,
/// };
/// lent.field_y[0] = 0;
/// ```
#[derive(Debug, PartialEq, Eq)]
pub struct StoreMut<'a> {
    /// How much of the field the lists hold.
    pub mode: Mode,
    /// The field's vectors, y; empty is [`Mv::EMPTY_Y`].
    pub field_y: &'a mut [i32],
    /// The field's vectors, x.
    pub field_x: &'a mut [i32],
    /// The field's reference bytes.
    pub field_ref: &'a mut [u8],
    /// The trajectories, y: slot by slot, row by row.
    pub traj_y: &'a mut [i32],
    /// The trajectories, x.
    pub traj_x: &'a mut [i32],
    /// The maps, y: plane by plane, slot by slot, row by row; both bytes −128 is empty.
    pub map_y: &'a mut [i8],
    /// The maps, x.
    pub map_x: &'a mut [i8],
}

impl StoreMut<'_> {
    /// The field of a superblock row, to be read.
    ///
    /// Refuses rows that are not those of a superblock row, [`Refusal::Tile`], and lists that are shorter than stated,
    /// [`Refusal::Length`].
    ///
    /// ```
    /// # use refmvs::{init_frame, Header, Mode, Refusal, Store};
    /// # let setup = init_frame(&Header { width: 64, height: 64, tmvp_sample_step: 1, ..Header::default() })?;
    /// let mut store = Store::new(&setup, Mode::Row);
    /// let mut lent = store.lend();
    /// lent.field_y[3 * 32] = 0; // the superblock row begins behind the three rows above it
    /// assert!(lent.field(&setup, &(0..8))?.cell(0, 0).is_some());
    /// lent.field_x = &mut [];
    /// assert_eq!(lent.field(&setup, &(0..8)).err(), Some(Refusal::Length));
    /// # Ok::<(), Refusal>(())
    /// ```
    pub fn field(&self, setup: &Setup, rows: &Range<usize>) -> Result<Field<'_>, Refusal> {
        Field::of(
            [self.field_y, self.field_x],
            self.field_ref,
            self.mode,
            setup,
            rows,
        )
    }

    /// The trajectories of a slot in the superblock row that was loaded last: row (from the superblock row's first),
    /// column, and the trajectory where there is one.
    ///
    /// Refuses lists that are shorter than stated, [`Refusal::Length`].
    ///
    /// ```
    /// # use refmvs::{init_frame, Header, Mode, Mv, Slot, Store};
    /// # let setup = init_frame(&Header { width: 64, height: 64, tmvp_sample_step: 1, ..Header::default() })?;
    /// let mut store = Store::new(&setup, Mode::Row);
    /// let lent = store.lend();
    /// lent.traj_y[8 * 32] = 7; // slot 1, row 0, column 0
    /// assert_eq!(lent.trajectories(&setup, Slot::ALL[1])?.next(), Some((0, 0, Some(Mv { y: 7, x: 0 }))));
    /// # Ok::<(), refmvs::Refusal>(())
    /// ```
    pub fn trajectories(
        &self,
        setup: &Setup,
        slot: Slot,
    ) -> Result<impl Iterator<Item = (usize, usize, Option<Mv>)> + '_, Refusal> {
        trajectories([self.traj_y, self.traj_x], setup, slot)
    }
}

fn trajectories<'a>(
    [ys, xs]: [&'a [i32]; 2],
    setup: &Setup,
    slot: Slot,
) -> Result<impl Iterator<Item = (usize, usize, Option<Mv>)> + 'a, Refusal> {
    let cells = *setup.cells();
    if ys.len().min(xs.len()) < cells.traj_len() {
        return Err(Refusal::Length);
    }
    let start = slot.index() * cells.side();
    Ok((0..cells.side()).flat_map(move |row| {
        (0..cells.wide()).map(move |column| {
            let at = (start + row) * cells.stride() + column;
            (row, column, Mv::of_components(ys[at], xs[at]))
        })
    }))
}

/// The field of a superblock row, cell by cell.
#[derive(Clone, Debug)]
pub struct Field<'a> {
    // Both from the superblock row's first cell on, a whole row's rest behind the last.
    mvs: [&'a [i32]; 2],
    references: &'a [u8],
    wide: usize,
    stride: usize,
    rows: Range<usize>,
}

impl<'a> Field<'a> {
    fn of(
        mvs: [&'a [i32]; 2],
        references: &'a [u8],
        mode: Mode,
        setup: &Setup,
        rows: &Range<usize>,
    ) -> Result<Field<'a>, Refusal> {
        let cells = setup.cells();
        if !cells.has_rows(rows) {
            return Err(Refusal::Tile);
        }
        let shortest = mvs[0].len().min(mvs[1].len()).min(references.len());
        if shortest < cells.field_len(mode) {
            return Err(Refusal::Length);
        }
        let first = match mode {
            Mode::Row => ROWS_ABOVE,
            Mode::WholeFrame => rows.start,
        };
        let at = first * cells.stride();
        Ok(Field {
            mvs: mvs.map(|list| &list[at..]),
            references: &references[at..],
            wide: cells.wide(),
            stride: cells.stride(),
            rows: rows.start..rows.end.min(cells.high()),
        })
    }

    /// The cell of a row and a column of the frame: `None` where it is empty.
    ///
    /// # Panics
    ///
    /// Where the row is not of this superblock row or the column not of the frame.
    ///
    /// ```
    /// # use refmvs::{init_frame, Cell, Header, Mode, Mv, Store};
    /// # let setup = init_frame(&Header { width: 64, height: 64, tmvp_sample_step: 1, ..Header::default() })?;
    /// let mut store = Store::new(&setup, Mode::WholeFrame);
    /// let lent = store.lend();
    /// (lent.field_y[2 * 32 + 5], lent.field_ref[2 * 32 + 5]) = (0, 1);
    /// let field = store.field(&setup, &(0..8))?;
    /// assert_eq!(field.cell(2, 5), Some(Cell { mv: Mv { y: 0, x: 0 }, reference: 1 })); // still, and not empty
    /// assert_eq!(field.cell(2, 6), None);
    /// # Ok::<(), refmvs::Refusal>(())
    /// ```
    pub fn cell(&self, row: usize, column: usize) -> Option<Cell> {
        assert!(
            self.rows.contains(&row),
            "row {row} is not one of {:?}",
            self.rows
        );
        assert!(
            column < self.wide,
            "column {column} is not one of {:?}",
            0..self.wide
        );
        let at = (row - self.rows.start) * self.stride + column;
        let mv = Mv::of_components(self.mvs[0][at], self.mvs[1][at])?;
        Some(Cell {
            mv,
            reference: self.references[at],
        })
    }

    /// The cells of a row of the frame, from the left: `None` where one is empty.
    ///
    /// # Panics
    ///
    /// Where the row is not of this superblock row.
    ///
    /// ```
    /// # use refmvs::{init_frame, Header, Mode, Store};
    /// # let setup = init_frame(&Header { width: 64, height: 64, tmvp_sample_step: 1, ..Header::default() })?;
    /// let store = Store::new(&setup, Mode::Row);
    /// assert!(store.field(&setup, &(0..8))?.row(3).eq([None; 8]));
    /// # Ok::<(), refmvs::Refusal>(())
    /// ```
    pub fn row(
        &self,
        row: usize,
    ) -> impl DoubleEndedIterator<Item = Option<Cell>> + ExactSizeIterator + '_ {
        (0..self.wide).map(move |column| self.cell(row, column))
    }

    /// All cells with their row and column, row by row: `None` where one is empty.
    ///
    /// ```
    /// # use refmvs::{init_frame, Header, Mode, Store};
    /// # let setup = init_frame(&Header { width: 64, height: 64, tmvp_sample_step: 1, ..Header::default() })?;
    /// let store = Store::new(&setup, Mode::Row);
    /// assert_eq!(store.field(&setup, &(0..8))?.cells().last(), Some((7, 7, None)));
    /// # Ok::<(), refmvs::Refusal>(())
    /// ```
    pub fn cells(&self) -> impl Iterator<Item = (usize, usize, Option<Cell>)> + '_ {
        let rows = self.rows.clone();
        rows.flat_map(move |row| {
            self.row(row)
                .enumerate()
                .map(move |(column, cell)| (row, column, cell))
        })
    }
}
