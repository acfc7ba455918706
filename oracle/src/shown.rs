//! What docs/FRAME_FILE.md wants shown of a frame file, from the published setup and loads.
use std::io::Write;

use crate::expected;
use crate::frame_file::{FrameFile, Problem};
use crate::load::{Geometry, Store};
use crate::reference::{self, EMPTY_Y, Held};

pub struct Field {
    width: usize,
    height: usize,
    geometry: Geometry,
    store: Store,
}

/// What a cell shows.
#[derive(Clone, Copy, PartialEq)]
pub enum Cell {
    Empty,
    Vector { y: i32, x: i32, reference: u8 },
}

/// The form of the answer.
#[derive(Clone, Copy, Debug, PartialEq)]
pub enum Form {
    Text,
    Picture,
}

/// What is to be written, or why nothing is.
pub fn shown(bytes: &[u8], form: Form) -> Result<Vec<u8>, Problem> {
    let field = Field::of(&FrameFile::read(bytes)?)?;
    Ok(field.shown(form))
}

impl Field {
    /// The field of a file that was read.
    pub fn of(file: &FrameFile) -> Result<Self, Problem> {
        let setup = reference::init_frame(&file.header);
        let calls = file.calls(&setup);
        let geometry = Geometry::new(&setup);
        let mut store = Store::zeroed(&geometry, true, 0).emptied();
        let mut held = Held::set_up(&file.header, &calls[0], &store);
        for call in &calls {
            // An accepted load leaves trajectories in range, so the first store tells of each call.
            match expected::load_refusal(call, &store) {
                0 => held.load_tmvs(call),
                number => return Err(Problem::Load(number)),
            }
        }
        held.take(&mut store);
        Ok(Self {
            width: setup.width as usize,
            height: setup.height as usize,
            geometry,
            store,
        })
    }

    fn cell(&self, row: usize, column: usize) -> Cell {
        let at = row * self.geometry.stride + column;
        match (self.store.field_y[at], self.store.field_x[at]) {
            (EMPTY_Y, _) => Cell::Empty,
            (y, x) => Cell::Vector {
                y,
                x,
                reference: self.store.field_ref[at],
            },
        }
    }

    /// Row and column of each cell, and the cell.
    pub fn cells(&self) -> impl Iterator<Item = (usize, usize, Cell)> {
        let Geometry { wide, high, .. } = self.geometry;
        let places = (0..high).flat_map(move |row| (0..wide).map(move |column| (row, column)));
        places.map(|(row, column)| (row, column, self.cell(row, column)))
    }

    pub fn shown(&self, form: Form) -> Vec<u8> {
        match form {
            Form::Text => self.text(),
            Form::Picture => self.picture(),
        }
    }

    fn text(&self) -> Vec<u8> {
        let mut out = Vec::new();
        for (row, column, cell) in self.cells() {
            match cell {
                Cell::Empty => writeln!(out, "{row} {column} empty"),
                Cell::Vector { y, x, reference } => {
                    writeln!(out, "{row} {column} {y} {x} {reference}")
                }
            }
            .unwrap();
        }
        out
    }

    fn picture(&self) -> Vec<u8> {
        let mut out = format!("P6\n{} {}\n255\n", self.width, self.height).into_bytes();
        for py in 0..self.height {
            for px in 0..self.width {
                out.extend(match self.cell(py / 8, px / 8) {
                    Cell::Empty => hatch(px, py),
                    Cell::Vector { y, x, .. } => colour(y, x),
                });
            }
        }
        out
    }
}

const WHITE: [u8; 3] = [255; 3];
const GREY: [u8; 3] = [128; 3];
const BLACK: [u8; 3] = [0; 3];

fn hatch(px: usize, py: usize) -> [u8; 3] {
    if (px + py) % 8 < 4 { GREY } else { BLACK }
}

fn colour(y: i32, x: i32) -> [u8; 3] {
    let length = i64::from(y).abs() + i64::from(x).abs();
    if length == 0 {
        return WHITE;
    }
    let bright = (64 + length).min(255);
    hue(y.into(), x.into()).map(|channel| (i64::from(channel) * bright / 255) as u8)
}

/// The colour at full brightness. The corners of the wheel, and how far it is from one to the next.
fn hue(y: i64, x: i64) -> [u8; 3] {
    let part = |side: i64| 384 * side.abs() / (y.abs() + x.abs());
    let h = match (y, x) {
        (0.., 1..) => part(y),
        (1.., ..=0) => 384 + part(x),
        (..=0, ..=-1) => 768 + part(y),
        _ => 1_152 + part(x),
    };
    let (up, down) = ((h % 256) as u8, 255 - (h % 256) as u8);
    match h / 256 {
        0 => [255, up, 0],
        1 => [down, 255, 0],
        2 => [0, 255, up],
        3 => [0, down, 255],
        4 => [up, 0, 255],
        _ => [255, 0, down],
    }
}
