//! Frame files as docs/FRAME_FILE.md has them: written, read, and turned into loads.
use std::rc::Rc;

use crate::entry::{Frame, Header, OrderHint, Saved};
use crate::expected;
use crate::load::{BLOCK_BYTES, Call, Geometry, SLOTS};

/// The bytes before the tile columns' ends.
pub const HEAD: usize = 103;
pub const MAGIC: &[u8; 5] = b"RMVF\x01";
/// The longest side that is shown, in pixels.
pub const SHOWN_LIMIT: u32 = 2_048;

#[derive(Clone)]
pub struct FrameFile {
    pub header: Header,
    pub traj: u8,
    pub holes: u8,
    /// Each tile column's end in cells.
    pub ends: Vec<u32>,
    /// H rows of W blocks for each slot that is present, and nothing between them.
    pub planes: Vec<i8>,
}

/// Why a file cannot be shown.
#[derive(Clone, Copy, Debug, PartialEq)]
pub enum Problem {
    TooShort,
    NotAFrameFile,
    Setup(u32),
    TooLarge,
    TileColumns,
    TooLong,
    Load(u32),
    Usage,
}

impl Problem {
    /// What is written to standard error.
    pub fn line(self) -> String {
        let what = match self {
            Problem::TooShort => "the file is too short".into(),
            Problem::NotAFrameFile => "not a frame file of version 1".into(),
            Problem::Setup(n) => format!("the setup is refused, {n}: {}", reason(n)),
            Problem::TooLarge => "the frame is larger than 2048 x 2048 pixels".into(),
            Problem::TileColumns => "the tile columns do not end at the frame's width".into(),
            Problem::TooLong => "the file is too long".into(),
            Problem::Load(n) => format!("the load is refused, {n}: {}", reason(n)),
            Problem::Usage => "usage: show_field [text | picture] < FILE".into(),
        };
        format!("show_field: {what}\n")
    }
}

/// A refusal's number in words.
fn reason(number: u32) -> &'static str {
    match number {
        3 => "hint bits above 8",
        4 => "slots above 7",
        5 => "superblock code above 2",
        6 => "step not 1 or 2",
        7 => "width or height not 1..65536",
        8 => "TIP slot not a slot in use",
        10 => "a tile's columns or rows",
        12 => "a saved block out of range",
        _ => unreachable!("no file is refused with {number}"),
    }
}

impl FrameFile {
    pub fn bytes(&self) -> Vec<u8> {
        let h = &self.header;
        let mut all = MAGIC.to_vec();
        for word in [h.order_hint_n_bits, h.width, h.height, h.n_ref_frames] {
            all.extend(word.to_le_bytes());
        }
        all.extend([h.tip, h.sb128, h.tmvp_sample_step]);
        all.extend([h.use_ref_frame_mvs, h.has_bothside_refs, h.tip_frame_mode]);
        all.extend(h.tip_reference.map(|slot| slot as u8));
        all.push(h.frame_offset.value);
        all.extend(h.ref_poc.map(|hint| hint.value));
        for saved in h.saved {
            all.extend(saved.ref_poc.map(|hint| hint.value));
            all.push(saved.refcnt);
        }
        all.extend(h.rp_ref);
        all.extend([self.traj, self.holes, self.ends.len() as u8]);
        assert_eq!(all.len(), HEAD);
        all.extend(self.ends.iter().flat_map(|end| end.to_le_bytes()));
        all.extend(self.planes.iter().map(|&byte| byte as u8));
        all
    }

    /// Cells wide and high.
    pub fn cells(header: &Header) -> (usize, usize) {
        let cells = |pixels: u32| pixels.div_ceil(8) as usize;
        (cells(header.width), cells(header.height))
    }

    /// The file's contents, or the first problem that the document's table has, the load's refusals apart.
    pub fn read(bytes: &[u8]) -> Result<Self, Problem> {
        let (head, rest) = bytes.split_at_checked(HEAD).ok_or(Problem::TooShort)?;
        if head[..5] != *MAGIC {
            return Err(Problem::NotAFrameFile);
        }
        let header = header(head);
        if let Some(number) = expected::setup_refusal(&header) {
            return Err(Problem::Setup(number));
        }
        if header.width.max(header.height) > SHOWN_LIMIT {
            return Err(Problem::TooLarge);
        }
        let (wide, high) = Self::cells(&header);
        let present = header.rp_ref.iter().filter(|&&plane| plane != 0).count();
        let columns = 4 * usize::from(head[102]);
        let planes = present * wide * high * BLOCK_BYTES;
        let (ends, rest) = rest.split_at_checked(columns).ok_or(Problem::TooShort)?;
        let (planes, rest) = rest.split_at_checked(planes).ok_or(Problem::TooShort)?;
        let ends: Vec<u32> = ends.chunks_exact(4).map(word).collect();
        if ends.last() != Some(&(wide as u32)) {
            return Err(Problem::TileColumns);
        }
        if !rest.is_empty() {
            return Err(Problem::TooLong);
        }
        Ok(Self {
            header,
            traj: head[100],
            holes: head[101],
            ends,
            planes: planes.iter().map(|&byte| byte as i8).collect(),
        })
    }

    /// Every tile of every superblock row, from the top and in a row from the left.
    pub fn calls(&self, setup: &Frame) -> Vec<Call> {
        let geometry = Geometry::new(setup);
        let call = Call {
            setup: *setup,
            whole_frame: true,
            traj: self.traj != 0,
            holes: self.holes != 0,
            columns: (0, 0),
            rows: (0, 0),
            planes: Rc::new(self.strided(&geometry)),
        };
        let mut all = Vec::new();
        for top in (0..geometry.high).step_by(geometry.side) {
            let mut left = 0;
            for &end in &self.ends {
                all.push(Call {
                    columns: (left, end as usize),
                    rows: (top, top + geometry.side),
                    ..call.clone()
                });
                left = end as usize;
            }
        }
        all
    }

    /// Seven planes with rows a stride apart, as a load reads them.
    fn strided(&self, geometry: &Geometry) -> Vec<i8> {
        let (row, stride) = (geometry.wide * BLOCK_BYTES, geometry.stride * BLOCK_BYTES);
        let present = (0..SLOTS).filter(|&slot| self.header.rp_ref[slot] != 0);
        let places = present.flat_map(|slot| (0..geometry.high).map(move |y| (slot, y)));
        let mut all = vec![0; geometry.planes()];
        for (line, (slot, y)) in self.planes.chunks_exact(row).zip(places) {
            all[(slot * geometry.high + y) * stride..][..row].copy_from_slice(line);
        }
        all
    }
}

fn word(bytes: &[u8]) -> u32 {
    u32::from_le_bytes([bytes[0], bytes[1], bytes[2], bytes[3]])
}

fn hints(bytes: &[u8]) -> [OrderHint; 7] {
    std::array::from_fn(|n| OrderHint { value: bytes[n] })
}

fn header(head: &[u8]) -> Header {
    Header {
        order_hint_n_bits: word(&head[5..]),
        width: word(&head[9..]),
        height: word(&head[13..]),
        n_ref_frames: word(&head[17..]),
        tip: head[21],
        sb128: head[22],
        tmvp_sample_step: head[23],
        use_ref_frame_mvs: head[24],
        has_bothside_refs: head[25],
        tip_frame_mode: head[26],
        tip_reference: [head[27] as i8, head[28] as i8],
        frame_offset: OrderHint { value: head[29] },
        ref_poc: hints(&head[30..]),
        saved: std::array::from_fn(|slot| Saved {
            ref_poc: hints(&head[37 + 8 * slot..]),
            refcnt: head[37 + 8 * slot + 7],
        }),
        rp_ref: std::array::from_fn(|slot| head[93 + slot]),
    }
}
