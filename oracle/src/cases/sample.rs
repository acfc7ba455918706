//! A frame file for people: two fish before a still background, weed and a corner without motion.
use crate::entry::{Header, OrderHint, Saved};
use crate::frame_file::FrameFile;
use crate::reference;

const WIDTH: i32 = 640;
const HEIGHT: i32 = 360;
/// The frame's own hint, and those of the slot before it and of the slot after it.
const NOW: i32 = 10;
const SLOTS: [i32; 2] = [8, 12];
/// How far back the saved vectors of both slots point.
const SPAN: i32 = 4;

/// A fish now: where it is, how long and high it is, in pixels; where it swims, in eighths of a pixel a hint.
struct Fish {
    at: (i32, i32),
    length: i32,
    height: i32,
    swims: (i32, i32),
}

/// y before x.
const FISH: [Fish; 2] = [
    Fish {
        at: (116, 216),
        length: 92,
        height: 44,
        swims: (-7, -42),
    },
    Fish {
        at: (250, 436),
        length: 64,
        height: 30,
        swims: (20, 17),
    },
];

impl Fish {
    /// The vector that a block at (y, x) has, SPAN hints back; none beside the fish.
    fn vector(&self, y: i32, x: i32, hint: i32) -> Option<[i32; 2]> {
        let (vy, vx) = self.swims;
        let moved = |speed: i32| speed * (hint - NOW) / 8;
        let dy = y - self.at.0 - moved(vy);
        // Above 0 towards the head.
        let dx = (x - self.at.1 - moved(vx)) * vx.signum();
        let (a, b) = (self.length, self.height);
        let body = (dx * b).pow(2) + (dy * a).pow(2) <= (a * b).pow(2);
        let behind = -dx - a * 3 / 4;
        let tail = (0..=a * 3 / 4).contains(&behind) && dy.abs() <= 8 + behind * 2 / 3;
        // The tail beats: it is as quick as the body, and goes aside.
        let aside = if tail && !body { behind } else { 0 };
        (body || tail).then_some([-SPAN * vy + aside, -SPAN * vx])
    }
}

/// Blades of weed on the ground, and a corner that has just come into sight.
fn without_motion(y: i32, x: i32) -> bool {
    let blade = [40, 90, 530, 570, 610].iter().zip([90, 150, 200, 120, 170]);
    let weed = blade.into_iter().any(|(&root, height)| {
        let up = HEIGHT - y;
        let sway = (up % 96 - 48).abs() / 3;
        up <= height && (x - root - sway).abs() <= 4 + (height - up) / 12
    });
    weed || x > WIDTH - 150 && y < 120 - (WIDTH - x) * 4 / 5
}

/// Vector 0 with its reference; the other one has none.
fn block(y: i32, x: i32, hint: i32) -> [i8; 6] {
    let none = [0, 0, 0, 0, -1, -1];
    if without_motion(y, x) {
        return none;
    }
    let fish = FISH.iter().find_map(|fish| fish.vector(y, x, hint));
    let [y, x] = fish.unwrap_or([0, 0]);
    let [y, x] = reference::quantize_mv(y, x);
    [y, x, 0, 0, 0, -1]
}

fn plane(hint: i32) -> Vec<i8> {
    let mut all = Vec::new();
    for y in (4..HEIGHT + 4).step_by(8) {
        for x in (4..WIDTH).step_by(8) {
            all.extend(block(y, x, hint));
        }
    }
    all
}

fn hint(value: i32) -> OrderHint {
    OrderHint { value: value as u8 }
}

pub fn file() -> FrameFile {
    let mut header = Header {
        order_hint_n_bits: 7,
        width: WIDTH as u32,
        height: HEIGHT as u32,
        n_ref_frames: SLOTS.len() as u32,
        sb128: 1,
        tmvp_sample_step: 1,
        use_ref_frame_mvs: 1,
        has_bothside_refs: 1,
        frame_offset: hint(NOW),
        ..Header::default()
    };
    let mut planes = Vec::new();
    for (slot, value) in SLOTS.into_iter().enumerate() {
        header.ref_poc[slot] = hint(value);
        header.saved[slot] = Saved {
            ref_poc: [hint(value - SPAN); 7],
            refcnt: 1,
        };
        header.rp_ref[slot] = 1;
        planes.extend(plane(value));
    }
    FrameFile {
        header,
        traj: 1,
        holes: 0,
        ends: vec![32, 64, 80],
        planes,
    }
}
