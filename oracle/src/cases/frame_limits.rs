//! Frame files at and past each limit of docs/FRAME_FILE.md, and what it says of each.
use super::frame;
use super::setup;
use crate::entry::Header;
use crate::frame_file::{FrameFile, HEAD, Problem, SHOWN_LIMIT};
use crate::load::BLOCK_BYTES;
use crate::reference;
use crate::rng::Rng;

/// A file, and its problem; none where it is shown.
pub struct Stated {
    pub name: String,
    pub bytes: Vec<u8>,
    pub problem: Option<Problem>,
}

/// Words behind the program's name that are refused whatever the file is.
pub const USAGE: [&[&str]; 10] = [
    &["txt"],
    &["tex"],
    &["textt"],
    &["Picture"],
    &[""],
    &["picturepicturepicturepicture"],
    &["text", "text"],
    &["picture", "text"],
    &["text", ""],
    &["a", "b", "c"],
];

#[derive(Default)]
struct List(Vec<Stated>);

impl List {
    fn add(&mut self, name: impl Into<String>, bytes: Vec<u8>, problem: Option<Problem>) {
        self.0.push(Stated {
            name: name.into(),
            bytes,
            problem,
        });
    }

    fn shown(&mut self, name: impl Into<String>, file: &FrameFile) {
        self.add(name, file.bytes(), None);
    }

    fn bad(&mut self, name: impl Into<String>, bytes: Vec<u8>, problem: Problem) {
        self.add(name, bytes, Some(problem));
    }
}

pub fn all() -> Vec<Stated> {
    let mut list = List::default();
    heads(&mut list);
    setups(&mut list);
    sizes(&mut list);
    lengths(&mut list);
    columns(&mut list);
    blocks(&mut list);
    list.0
}

/// 38 by 25 cells, S = 16, step 2, three tile columns, two superblock rows; all planes, and sources that are read.
fn base() -> FrameFile {
    let header = Header {
        width: 300,
        height: 200,
        ..setup::accepted()
    };
    let file = frame::of_header(&mut Rng::new(1), header);
    FrameFile {
        ends: vec![16, 32, 38],
        ..file
    }
}

fn with(mut bytes: Vec<u8>, at: usize, byte: u8) -> Vec<u8> {
    bytes[at] = byte;
    bytes
}

fn heads(list: &mut List) {
    let whole = base().bytes();
    for length in [0, 1, 4, 5, 9, 102] {
        let bytes = whole[..length].to_vec();
        list.bad(format!("{length} bytes"), bytes, Problem::TooShort);
    }
    let other = with(whole[..HEAD - 1].to_vec(), 0, b'X');
    list.bad("102 bytes of another file", other, Problem::TooShort);
    for (at, byte) in [
        (0, b'r'),
        (1, b'N'),
        (2, 0),
        (3, b'E'),
        (4, 0),
        (4, 2),
        (4, 255),
        (4, b'1'),
    ] {
        let name = format!("byte {at} is {byte}");
        let bytes = with(whole.clone(), at, byte);
        list.bad(&name, bytes[..HEAD].to_vec(), Problem::NotAFrameFile);
        // The setup would be refused, too.
        let bytes = with(bytes, 22, 3);
        list.bad(name + ", and the code is 3", bytes, Problem::NotAFrameFile);
    }
    list.bad("zeros", vec![0; 200], Problem::NotAFrameFile);
}

fn setups(list: &mut List) {
    let file = |header: Header| FrameFile { header, ..base() };
    for (n, (number, header)) in setup::past_limits().into_iter().enumerate() {
        let (name, bytes) = (format!("refused setup {n}"), file(header).bytes());
        let problem = Problem::Setup(number);
        list.bad(&name, bytes[..HEAD].to_vec(), problem);
        list.bad(name + ", a whole file", bytes, problem);
    }
    for (n, header) in setup::refused_pairs().into_iter().enumerate() {
        let number = crate::expected::setup_refusal(&header).unwrap();
        let bytes = file(header).bytes();
        list.bad(
            format!("setup refused twice {n}"),
            bytes,
            Problem::Setup(number),
        );
    }
    let mut rng = Rng::new(2);
    for (n, header) in setup::at_limits().into_iter().enumerate() {
        let name = format!("setup at a limit {n}");
        match header.width.max(header.height) > SHOWN_LIMIT {
            true => list.bad(name, file(header).bytes(), Problem::TooLarge),
            false => list.shown(name, &frame::of_header(&mut rng, header)),
        }
    }
    for trap in setup::traps() {
        list.shown(trap.name, &frame::of_header(&mut rng, trap.header));
    }
}

fn sizes(list: &mut List) {
    let mut rng = Rng::new(3);
    let past = SHOWN_LIMIT + 1;
    for (width, height) in [
        (SHOWN_LIMIT, SHOWN_LIMIT),
        (SHOWN_LIMIT, 1),
        (1, SHOWN_LIMIT),
        (past, 1),
        (1, past),
        (past, past),
        (65_536, 1),
        (1, 65_536),
    ] {
        let header = Header {
            width,
            height,
            ..setup::accepted()
        };
        let (name, file) = (
            format!("{width} x {height}"),
            frame::of_header(&mut rng, header),
        );
        if width.max(height) <= SHOWN_LIMIT {
            list.shown(name, &file);
            continue;
        }
        let bytes = file.bytes();
        list.bad(&name, bytes[..HEAD].to_vec(), Problem::TooLarge);
        list.bad(name + ", a whole file", bytes, Problem::TooLarge);
    }
}

fn lengths(list: &mut List) {
    let file = base();
    let whole = file.bytes();
    let planes = whole.len() - file.planes.len();
    let plane = file.planes.len() / 7;
    for length in [
        HEAD,
        planes - 1,
        planes,
        planes + 1,
        planes + plane,
        whole.len() - plane,
        whole.len() - BLOCK_BYTES,
        whole.len() - 1,
    ] {
        let bytes = whole[..length].to_vec();
        list.bad(format!("cut at {length}"), bytes, Problem::TooShort);
    }
    let wrong = with(whole[..whole.len() - 1].to_vec(), planes - 4, 0);
    list.bad("a byte short, wrong columns", wrong, Problem::TooShort);

    let longer = |more: usize| [whole.clone(), vec![0; more]].concat();
    for more in [1, BLOCK_BYTES, plane, 100_000] {
        list.bad(format!("{more} more"), longer(more), Problem::TooLong);
    }
    let wrong = with(longer(1), planes - 4, 0);
    list.bad("a byte more, wrong columns", wrong, Problem::TileColumns);
    let wrong = with(longer(1), HEAD, 15);
    list.bad(
        "a byte more, a column past a superblock",
        wrong,
        Problem::TooLong,
    );

    let mut none = file.clone();
    none.header.rp_ref = [0; 7];
    none.planes.clear();
    list.shown("no planes", &none);
    let bytes = none.bytes();
    let cut = bytes[..bytes.len() - 1].to_vec();
    list.bad("no planes, a byte short", cut, Problem::TooShort);
    let longer = [bytes, vec![0]].concat();
    list.bad("no planes, a byte more", longer, Problem::TooLong);
    none.ends.clear();
    list.bad("a head alone", none.bytes(), Problem::TileColumns);
    // A plane more than the file has.
    none.header.rp_ref[6] = 255;
    list.bad("a head without its plane", none.bytes(), Problem::TooShort);
}

fn columns(list: &mut List) {
    let file = |ends: &[u32]| FrameFile {
        ends: ends.to_vec(),
        ..base()
    };
    let name = |ends: &[u32]| match ends.len() {
        255 => format!("255 columns of {}", ends[0]),
        _ => format!("columns {ends:?}"),
    };
    for ends in [&[38][..], &[16, 38], &[32, 38], &[16, 32, 38]] {
        list.shown(name(ends), &file(ends));
    }
    for ends in [
        &[][..],
        &[0],
        &[16],
        &[37],
        &[39],
        &[48],
        &[38 + 256],
        &[38 + 65_536],
        &[38 + 16_777_216],
        &[u32::MAX],
        &[16, 32],
        &[38, 0],
        &[38; 255].map(|end| end + 1),
    ] {
        let bytes = file(ends).bytes();
        list.bad(name(ends), bytes, Problem::TileColumns);
    }
    for ends in [
        &[15, 38][..],
        &[17, 38],
        &[8, 38],
        &[0, 38],
        &[16, 16, 38],
        &[32, 16, 38],
        &[48, 38],
        &[37, 38],
        &[38, 38],
        &[16, 31, 38],
        &[16, 39, 38],
        &[16 + 65_536, 38],
        &[u32::MAX, 38],
        &[38; 255],
    ] {
        let bytes = file(ends).bytes();
        list.bad(name(ends), bytes, Problem::Load(10));
    }
}

/// A file's block, to be changed.
struct Place {
    file: FrameFile,
    at: usize,
    dir: usize,
}

impl Place {
    /// The block at (y, x) of the first source's plane, and its direction or the other.
    fn new(y: usize, x: usize, other: bool) -> Self {
        let file = base();
        let source = reference::init_frame(&file.header).sources.mfmv[0];
        assert_ne!(source.ref2cur, -32);
        let (wide, high) = FrameFile::cells(&file.header);
        let slot = source.reference.value as usize;
        Self {
            file,
            at: ((slot * high + y) * wide + x) * BLOCK_BYTES,
            dir: source.dir as usize ^ usize::from(other),
        }
    }

    fn put(mut self, reference: i8, vector: [i8; 2]) -> FrameFile {
        let block = &mut self.file.planes[self.at..][..BLOCK_BYTES];
        block[2 * self.dir..][..2].copy_from_slice(&vector);
        block[4 + self.dir] = reference;
        self.file
    }
}

fn blocks(list: &mut List) {
    let out_of_range = [
        (7, [0, 0]),
        (-2, [0, 0]),
        (127, [0, 0]),
        (-128, [-128, -128]),
        (0, [-128, 0]),
        (6, [0, -128]),
        (0, [-128, -127]),
        (6, [127, -128]),
    ];
    let in_range = [
        (-1, [-128, 0]),
        (-1, [0, -128]),
        (0, [-128, -128]),
        (6, [-128, -128]),
        (6, [-127, 127]),
    ];
    // The first, the last of a row, the first and the last of the second superblock row.
    for (y, x) in [(0, 0), (0, 36), (16, 0), (24, 36)] {
        for (reference, vector) in out_of_range {
            let name = format!("block {y} {x} is {reference} {vector:?}");
            let file = Place::new(y, x, false).put(reference, vector);
            list.bad(name, file.bytes(), Problem::Load(12));
        }
        for (reference, vector) in in_range {
            let name = format!("block {y} {x} is {reference} {vector:?}");
            list.shown(name, &Place::new(y, x, false).put(reference, vector));
        }
    }
    for (y, x) in [(1, 0), (0, 1), (1, 1), (23, 37), (24, 37)] {
        let name = format!("block {y} {x} out of range, not sampled");
        list.shown(name, &Place::new(y, x, false).put(7, [-128, 0]));
    }
    let mut both = Place::new(16, 0, false).put(7, [0, 0]);
    both.ends = vec![16, 31, 38];
    list.bad("a column before a block", both.bytes(), Problem::Load(10));
    let mut both = Place::new(0, 0, false).put(7, [0, 0]);
    both.ends = vec![16, 31, 38];
    list.bad("a block before a column", both.bytes(), Problem::Load(12));
    both.ends = vec![15, 38];
    list.bad("a column and a block", both.bytes(), Problem::Load(10));
}
