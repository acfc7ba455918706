//! Sizes and places of fields, held against those that a C compiler finds in include/refmvs.h.
use std::mem::{offset_of, size_of};
use std::path::Path;
use std::process::{self, Command};
use std::{env, fs};

use super::{Header, Setup};
use crate::hints::{OrderHint, Slot};
use crate::setup::{Frame, Saved, Source, Sources, Tip};

/// C expressions, and the numbers that they have to have.
type Expected = Vec<(String, usize)>;

fn size_of_field<S, T>(_: fn(&S) -> &T) -> usize {
    size_of::<T>()
}

/// For a type of the header and the Rust type, with all its fields (the pattern says so): sizes and places.
macro_rules! layout {
    ($c:ident = $rust:ident { $($field:ident),* }) => {{
        let _all = |s: &$rust| { let $rust { $($field: _),* } = s; };
        let mut expected: Expected = vec![(format!("sizeof({})", stringify!($c)), size_of::<$rust>())];
        $({
            let (c, field) = (stringify!($c), stringify!($field));
            expected.push((format!("offsetof({c}, {field})"), offset_of!($rust, $field)));
            expected.push((format!("sizeof((({c} *)0)->{field})"), size_of_field(|s: &$rust| &s.$field)));
        })*
        expected
    }};
}

fn expected() -> Expected {
    [
        // C has a name for the byte, and the tuple structs a number.
        vec![
            ("sizeof(refmvs_order_hint)".into(), size_of::<OrderHint>()),
            (
                "offsetof(refmvs_order_hint, value)".into(),
                offset_of!(OrderHint, 0),
            ),
            ("sizeof(refmvs_slot)".into(), size_of::<Slot>()),
            ("offsetof(refmvs_slot, value)".into(), offset_of!(Slot, 0)),
            ("sizeof(size_t)".into(), size_of::<usize>()),
        ],
        layout!(refmvs_saved = Saved { ref_poc, refcnt }),
        layout!(
            refmvs_header = Header {
                order_hint_n_bits,
                width,
                height,
                n_ref_frames,
                tip,
                sb128,
                tmvp_sample_step,
                use_ref_frame_mvs,
                has_bothside_refs,
                tip_frame_mode,
                tip_reference,
                frame_offset,
                ref_poc,
                saved,
                rp_ref
            }
        ),
        layout!(
            refmvs_source = Source {
                reference,
                tgt,
                dir,
                ref2cur,
                ref2ref,
                ref2idx,
                ref2sf0,
                ref2sf1
            }
        ),
        layout!(refmvs_tip = Tip { delta, sf }),
        layout!(
            refmvs_sources = Sources {
                mfmv,
                n_mfmvs,
                mfmv_mask
            }
        ),
        layout!(
            refmvs_frame = Frame {
                width,
                height,
                sb128,
                tmvp_sample_step,
                n_ref_frames,
                tip_frame_mode,
                tip_reference,
                rp_ref,
                ref_sign,
                pocdiff,
                abspocdiff,
                ref_flip,
                tip,
                use_ref_frame_mvs,
                sources
            }
        ),
        layout!(refmvs_setup = Setup { refusal, frame }),
    ]
    .concat()
}

/// A C program that prints each expression's value on a line.
fn program(expected: &Expected) -> String {
    let mut text = String::from(
        "#include <stddef.h>\n#include <stdio.h>\n#include \"refmvs.h\"\n\nint main(void)\n{\n",
    );
    for (expression, _) in expected {
        text += &format!("    printf(\"%zu\\n\", (size_t)({expression}));\n");
    }
    text + "    return 0;\n}\n"
}

/// What the program prints; compiled by $CC, or by cc, which links Rust programs too.
fn run(text: &str) -> String {
    let stem = env::temp_dir().join(format!("refmvs-layout-{}", process::id()));
    let source = stem.with_extension("c");
    fs::write(&source, text).expect("the C program is written");
    let include = Path::new(env!("CARGO_MANIFEST_DIR")).join("../../include");
    let compiler = env::var_os("CC").unwrap_or_else(|| "cc".into());
    let built = Command::new(compiler)
        .arg("-I")
        .arg(include)
        .arg(&source)
        .arg("-o")
        .arg(&stem)
        .status();
    assert!(
        built.expect("there is a C compiler").success(),
        "the header compiles"
    );
    let output = Command::new(&stem)
        .output()
        .expect("the C program runs")
        .stdout;
    fs::remove_file(&source)
        .and_then(|()| fs::remove_file(&stem))
        .expect("the C program is removed");
    String::from_utf8(output).expect("numbers")
}

#[test]
fn layout_is_that_of_the_header() {
    let expected = expected();
    let printed = run(&program(&expected));
    let found: Vec<usize> = printed
        .lines()
        .map(|line| line.parse().expect("a number"))
        .collect();
    assert_eq!(found.len(), expected.len());
    for ((expression, ours), theirs) in expected.iter().zip(found) {
        assert_eq!(*ours, theirs, "{expression}");
    }
}
