//! The library's records as the definitions have them.
use crate::antt::{Names, Value};
use crate::entry::{Frame, Header, OrderHint, Saved, Slot, Source, Sources, Tip};
use crate::load::{Call, Store};

fn int(n: impl Into<i64>) -> Value {
    Value::Int(n.into())
}

fn switch(byte: u8) -> Value {
    Value::Bool(byte != 0)
}

fn list<T>(items: &[T], value: impl Fn(&T) -> Value) -> Value {
    Value::list(items.iter().map(value).collect())
}

fn numbers<T: Copy + Into<i64>>(items: &[T]) -> Value {
    Value::ints(items.iter().map(|&item| item.into()).collect())
}

/// A tuple struct of one number.
fn single(names: &Names, n: u8) -> Value {
    names.record(vec![("0", int(n))])
}

pub fn vector(names: &Names, y: i32, x: i32) -> Value {
    names.record(vec![("y", int(y)), ("x", int(x))])
}

pub fn hint(names: &Names, hint: OrderHint) -> Value {
    single(names, hint.value)
}

fn hints(names: &Names, all: &[OrderHint]) -> Value {
    list(all, |one| hint(names, *one))
}

fn saved(names: &Names, saved: &Saved) -> Value {
    names.record(vec![
        ("ref_poc", hints(names, &saved.ref_poc)),
        ("refcnt", int(saved.refcnt)),
    ])
}

pub fn header(names: &Names, h: &Header) -> Value {
    let pocs = names.record(vec![
        ("nbits", int(h.order_hint_n_bits)),
        ("poc", hint(names, h.frame_offset)),
        ("n_refs", int(h.n_ref_frames)),
        ("ref_poc", hints(names, &h.ref_poc)),
        ("saved", list(&h.saved, |one| saved(names, one))),
    ]);
    names.record(vec![
        ("width", int(h.width)),
        ("height", int(h.height)),
        ("sb128", int(h.sb128)),
        ("tmvp_sample_step", int(h.tmvp_sample_step)),
        ("tip", switch(h.tip)),
        ("use_ref_frame_mvs", switch(h.use_ref_frame_mvs)),
        ("has_bothside_refs", switch(h.has_bothside_refs)),
        ("tip_frame_mode", int(h.tip_frame_mode)),
        ("tip0", int(h.tip_reference[0])),
        ("tip1", int(h.tip_reference[1])),
        ("rp_ref", list(&h.rp_ref, |&byte| switch(byte))),
        ("pocs", pocs),
    ])
}

fn source(names: &Names, s: &Source) -> Value {
    names.record(vec![
        ("reference", single(names, s.reference.value)),
        ("tgt", int(s.tgt)),
        ("dir", int(s.dir)),
        ("ref2cur", int(s.ref2cur)),
        ("ref2ref", numbers(&s.ref2ref)),
        ("ref2idx", numbers(&s.ref2idx)),
        ("ref2sf0", numbers(&s.ref2sf0)),
        ("ref2sf1", numbers(&s.ref2sf1)),
    ])
}

pub fn frame(names: &Names, f: &Frame) -> Value {
    let tip = names.record(vec![
        ("delta", int(f.tip.delta)),
        ("sf0", int(f.tip.sf[0])),
        ("sf1", int(f.tip.sf[1])),
    ]);
    let sources = names.record(vec![
        ("mfmv", list(&f.sources.mfmv, |one| source(names, one))),
        ("n_mfmvs", int(f.sources.n_mfmvs as i64)),
        ("mfmv_mask", int(f.sources.mfmv_mask)),
    ]);
    names.record(vec![
        ("width", int(f.width)),
        ("height", int(f.height)),
        ("sb128", int(f.sb128)),
        ("tmvp_sample_step", int(f.tmvp_sample_step)),
        ("n_refs", int(f.n_ref_frames as i64)),
        ("tip_frame_mode", int(f.tip_frame_mode)),
        ("tip0", int(f.tip_reference[0])),
        ("tip1", int(f.tip_reference[1])),
        ("rp_ref", list(&f.rp_ref, |&byte| switch(byte))),
        ("ref_sign", list(&f.ref_sign, |&byte| switch(byte))),
        ("pocdiff", numbers(&f.pocdiff)),
        ("abspocdiff", numbers(&f.abspocdiff)),
        ("ref_flip", int(f.ref_flip as i64)),
        ("tip", tip),
        ("use_ref_frame_mvs", switch(f.use_ref_frame_mvs)),
        ("sources", sources),
    ])
}

pub fn call(names: &Names, c: &Call) -> Value {
    names.record(vec![
        ("setup", frame(names, &c.setup)),
        ("whole_frame", Value::Bool(c.whole_frame)),
        ("traj", Value::Bool(c.traj)),
        ("holes", Value::Bool(c.holes)),
        ("col_start", int(c.columns.0 as i64)),
        ("col_end", int(c.columns.1 as i64)),
        ("row_start", int(c.rows.0 as i64)),
        ("row_end", int(c.rows.1 as i64)),
        ("planes", numbers(&c.planes)),
    ])
}

pub fn store(names: &Names, store: &Store) -> Value {
    let lists = store.lists();
    names.record(lists.map(|(name, list)| (name, Value::ints(list))).into())
}

/// A record's fields as numbers. A number that does not fit its field is a fault.
struct Fields<'a> {
    names: &'a Names,
    record: Value,
}

impl Fields<'_> {
    fn int<T: TryFrom<i64>>(&self, field: &str) -> T {
        let n = self.names.field(&self.record, field).int();
        let Ok(n) = T::try_from(n) else {
            panic!("{n} does not fit {field}");
        };
        n
    }

    fn switch(&self, field: &str) -> u8 {
        u8::from(self.names.field(&self.record, field).bool())
    }

    fn ints<T: TryFrom<i64>, const N: usize>(&self, field: &str) -> [T; N] {
        let all = self.names.field(&self.record, field).int_items();
        let all = all.into_iter().map(|n| match T::try_from(n) {
            Ok(n) => n,
            Err(_) => panic!("{n} does not fit {field}"),
        });
        let all: Vec<T> = all.collect();
        let Ok(all) = <[T; N]>::try_from(all) else {
            panic!("{field} has another length")
        };
        all
    }

    fn switches<const N: usize>(&self, field: &str) -> [u8; N] {
        let all = self.names.field(&self.record, field).items();
        let all: Vec<u8> = all.iter().map(|one| u8::from(one.bool())).collect();
        all.try_into().expect("another length")
    }

    fn inner(&self, field: &str) -> Fields<'_> {
        Fields {
            names: self.names,
            record: self.names.field(&self.record, field),
        }
    }

    fn each(&self, field: &str) -> Vec<Fields<'_>> {
        let all = self.names.field(&self.record, field).items().into_iter();
        let names = self.names;
        all.map(|record| Fields { names, record }).collect()
    }
}

pub fn vector_of(names: &Names, record: Value) -> [i32; 2] {
    let vector = Fields { names, record };
    [vector.int("y"), vector.int("x")]
}

fn source_of(s: &Fields) -> Source {
    Source {
        reference: Slot {
            value: s.inner("reference").int("0"),
        },
        tgt: s.int("tgt"),
        dir: s.int("dir"),
        ref2cur: s.int("ref2cur"),
        ref2ref: s.ints("ref2ref"),
        ref2idx: s.ints("ref2idx"),
        ref2sf0: s.ints("ref2sf0"),
        ref2sf1: s.ints("ref2sf1"),
    }
}

pub fn frame_of(names: &Names, record: Value) -> Frame {
    let f = Fields { names, record };
    let (tip, sources) = (f.inner("tip"), f.inner("sources"));
    let all: Vec<Source> = sources.each("mfmv").iter().map(source_of).collect();
    Frame {
        width: f.int("width"),
        height: f.int("height"),
        sb128: f.int("sb128"),
        tmvp_sample_step: f.int("tmvp_sample_step"),
        n_ref_frames: f.int("n_refs"),
        tip_frame_mode: f.int("tip_frame_mode"),
        tip_reference: [f.int("tip0"), f.int("tip1")],
        rp_ref: f.switches("rp_ref"),
        ref_sign: f.switches("ref_sign"),
        pocdiff: f.ints("pocdiff"),
        abspocdiff: f.ints("abspocdiff"),
        ref_flip: f.int("ref_flip"),
        tip: Tip {
            delta: tip.int("delta"),
            sf: [tip.int("sf0"), tip.int("sf1")],
        },
        use_ref_frame_mvs: f.switch("use_ref_frame_mvs"),
        sources: Sources {
            mfmv: all.try_into().expect("four sources"),
            n_mfmvs: sources.int("n_mfmvs"),
            mfmv_mask: sources.int("mfmv_mask"),
        },
    }
}
