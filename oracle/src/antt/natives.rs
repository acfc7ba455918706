//! The names that the interpreter knows by itself. The libraries' meanings are those of their own clauses.

#[derive(Clone, Copy, Debug, PartialEq)]
pub enum Native {
    // ℕ; subtraction stops at 0, x / 0 is 0 and x % 0 is x.
    Suc,
    Pred,
    Add,
    Sub,
    Mul,
    Div,
    Mod,
    Pow,
    Min,
    Max,
    Leb,
    Ltb,
    Eqb,
    // ℤ
    Pos,
    NegSuc,
    NatAbs,
    NegZ,
    SucZ,
    PredZ,
    AddZ,
    SubZ,
    MulZ,
    QuotZ,
    RemZ,
    ShrZ,
    LtZ,
    LeZ,
    NonNeg,
    // Bool
    Cond,
    Not,
    And,
    Or,
    Beq,
    Xor,
    BoolByte,
    // lists
    Cons,
    Append,
    Length,
    GetD,
    Take,
    Drop,
    Set,
    Replicate,
    Map,
    // texts: the lists of their characters' numbers
    CharAt,
    // of this repository
    Over,
    Span,
    SpanBy,
    Tab,
    Run,
}

/// Name and number of explicit arguments.
pub const LIBRARY: &[(&str, Native, usize)] = &[
    ("Rattle.std.specs.Prelude.suc", Native::Suc, 1),
    ("Rattle.std.specs.Prelude.pred", Native::Pred, 1),
    ("Rattle.std.specs.Prelude.◌+◌", Native::Add, 2),
    ("Rattle.std.specs.Prelude.◌-◌", Native::Sub, 2),
    ("Rattle.std.specs.Prelude.◌*◌", Native::Mul, 2),
    ("Rattle.std.specs.Prelude.◌/◌", Native::Div, 2),
    ("Rattle.std.specs.Prelude.◌%◌", Native::Mod, 2),
    ("Rattle.std.specs.Prelude.◌^◌", Native::Pow, 2),
    ("Rattle.std.specs.Prelude.min", Native::Min, 2),
    ("Rattle.std.specs.Prelude.max", Native::Max, 2),
    ("Rattle.std.specs.Prelude.leb", Native::Leb, 2),
    ("Rattle.std.specs.Prelude.ltb", Native::Ltb, 2),
    ("Rattle.std.specs.Prelude.eqb", Native::Eqb, 2),
    ("Rattle.std.specs.Prelude.pos", Native::Pos, 1),
    ("Rattle.std.specs.Prelude.negsuc", Native::NegSuc, 1),
    ("Rattle.std.specs.Prelude.nat_abs", Native::NatAbs, 1),
    ("Rattle.std.specs.Prelude.neg_ℤ", Native::NegZ, 1),
    ("lib.IntN.suc_ℤ", Native::SucZ, 1),
    ("lib.IntN.pred_ℤ", Native::PredZ, 1),
    ("Rattle.std.specs.Prelude.◌+ℤ◌", Native::AddZ, 2),
    ("Rattle.std.specs.Prelude.◌-ℤ◌", Native::SubZ, 2),
    ("Rattle.std.specs.Prelude.◌*ℤ◌", Native::MulZ, 2),
    ("lib.Signed.quot_z", Native::QuotZ, 2),
    ("lib.Signed.rem_z", Native::RemZ, 2),
    ("lib.Signed.shr_z", Native::ShrZ, 2),
    ("Rattle.std.specs.Int.Signed.lt_z", Native::LtZ, 2),
    ("Rattle.std.specs.Int.Signed.le_z", Native::LeZ, 2),
    ("Rattle.std.specs.Int.Signed.non_neg", Native::NonNeg, 1),
    ("Rattle.std.specs.Prelude.cond", Native::Cond, 3),
    ("Rattle.std.specs.Prelude.not", Native::Not, 1),
    ("Rattle.std.specs.Prelude.◌&&◌", Native::And, 2),
    ("Rattle.std.specs.Prelude.◌||◌", Native::Or, 2),
    ("Rattle.std.specs.Bool.beq", Native::Beq, 2),
    ("Rattle.std.specs.Bool.xor", Native::Xor, 2),
    ("mir.Val.bool_byte", Native::BoolByte, 1),
    ("Rattle.std.specs.Prelude.◌∷◌", Native::Cons, 2),
    ("Rattle.std.specs.Prelude.◌++◌", Native::Append, 2),
    ("Rattle.std.specs.Prelude.map", Native::Map, 2),
    ("Rattle.std.specs.Prelude.length", Native::Length, 1),
    ("Rattle.std.specs.Prelude.get_or", Native::GetD, 3),
    ("Rattle.std.specs.Prelude.take", Native::Take, 2),
    ("Rattle.std.specs.Prelude.drop", Native::Drop, 2),
    ("Rattle.std.specs.Prelude.set", Native::Set, 3),
    ("Rattle.std.specs.Prelude.replicate", Native::Replicate, 2),
    ("Rattle.std.specs.Prelude.nat_lt", Native::Ltb, 2),
    ("Rattle.std.specs.Prelude.nat_le", Native::Leb, 2),
    ("Rattle.std.specs.Prelude.◌==◌", Native::Eqb, 2),
    ("Rattle.std.specs.Prelude.unsigned_abs", Native::NatAbs, 1),
    ("Rattle.std.specs.Prelude.slice_index_or", Native::GetD, 3),
    ("Rattle.std.specs.Prelude.slice_set", Native::Set, 3),
    ("Rattle.std.specs.Prelude.slice_index", Native::CharAt, 2),
    ("Rattle.std.specs.Prelude.if◌then◌else◌", Native::Cond, 3),
    ("Rattle.std.specs.Prelude.nat_eq", Native::Eqb, 2),
    ("Prim.Native.Char.code", Native::Pos, 1),
    ("Prim.Native.String.len", Native::Length, 1),
    ("Prim.Native.String.char_at", Native::CharAt, 2),
];

/// Definitions of this repository that are carried out by the interpreter and not from their clauses.
pub const OWN: &[(&str, Native, usize)] = &[
    ("loops.Over.over", Native::Over, 5),
    ("loops.Over.span", Native::Span, 4),
    ("loops.Over.span_by", Native::SpanBy, 5),
    ("store.Store.tab", Native::Tab, 2),
    ("store.Program.run", Native::Run, 3),
];

/// Definitions of the libraries that are run from their clauses, as they stand there: a module's name, and what the crates cite of it.
/// A text is the list of its characters' numbers here, so `codes` gives it as it is.
pub const CLAUSES: &[(&str, &str)] = &[
    (
        "Rattle.std.specs.Prelude",
        "use Rattle.std.specs.Prelude.{true, false, not, Some, None, Ok, Err, [], ◌∷◌, ◌++◌, zero, suc, ◌+◌, ◌/◌, ◌%◌, ◌==◌, if◌then◌else◌, nat_lt}
abbrev pub is_some : {T : Type 0} → Option T → Bool
is_some None = false
is_some (Some x) = true

abbrev pub is_none : {T : Type 0} → Option T → Bool
is_none o = not (is_some o)

abbrev pub is_err : {T E : Type 0} → Result T E → Bool
is_err (Ok x) = false
is_err (Err e) = true

abbrev pub codes : String → List ℕ
codes text = text

abbrev pub flat_map : {X A : Type 0} → (X → List A) → List X → List A
flat_map f [] = []
flat_map f (x ∷ xs) = f x ++ flat_map f xs

digit_glyph : ℕ → ℕ
digit_glyph d = if nat_lt d 10 then 48 + d else 87 + d

digits_onto : ℕ → ℕ → List ℕ → List ℕ
digits_onto zero n acc = acc
digits_onto (suc k) n acc = if n / 10 == 0 then digit_glyph (n % 10) ∷ acc else digits_onto k (n / 10) (digit_glyph (n % 10) ∷ acc)

abbrev pub decimal : ℕ → List ℕ
decimal n = digits_onto 64 n []
",
    ),
    (
        "Rattle.std.specs.Fmt",
        "use Rattle.std.specs.Prelude.{◌∷◌, pos, negsuc, suc, decimal}
abbrev pub signed_decimal : ℤ → List ℕ
signed_decimal (pos n) = decimal n
signed_decimal (negsuc n) = 45 ∷ decimal (suc n)
",
    ),
    (
        "Rattle.std.specs.Bool",
        "use Rattle.std.specs.Prelude.{true, false, Some, None}
abbrev pub then_some : {T : Type 0} → Bool → T → Option T
then_some true x = Some x
then_some false x = None
",
    ),
    (
        "Rattle.std.specs.Char",
        "use Rattle.std.specs.Prelude.{◌&&◌, nat_le}
is_in_range : ℕ → ℕ → ℕ → Bool
is_in_range lo hi c = nat_le lo c && nat_le c hi

abbrev pub is_ascii_digit : ℕ → Bool
is_ascii_digit c = is_in_range 48 57 c

abbrev pub is_ascii_lowercase : ℕ → Bool
is_ascii_lowercase c = is_in_range 97 122 c
",
    ),
    (
        "Rattle.std.specs.List",
        "use Rattle.std.specs.Prelude.{[], ◌∷◌}
abbrev pub fold : {A B : Type 0} → (B → A → B) → B → List A → B
fold f a [] = a
fold f a (x ∷ xs) = fold f (f a x) xs
",
    ),
    (
        "Rattle.std.specs.Str",
        "use Rattle.std.specs.Prelude.{true, false, ◌&&◌, [], ◌∷◌, nat_eq}
abbrev pub bytes_eq : List ℕ → List ℕ → Bool
bytes_eq [] [] = true
bytes_eq [] (y ∷ ys) = false
bytes_eq (x ∷ xs) [] = false
bytes_eq (x ∷ xs) (y ∷ ys) = nat_eq x y && bytes_eq xs ys
",
    ),
];

/// Functions of one number whose answers are kept once they are computed, from their clauses.
pub const KEPT: &[&str] = &["mv.Packing.unpack_mag", "mv.Packing.pack_code"];

/// How tightly the libraries' operators bind: level, and whether to the right.
pub const FIXITIES: &[(&str, u32, bool)] = &[
    ("+", 65, false),
    ("-", 65, false),
    ("*", 70, false),
    ("/", 70, false),
    ("%", 70, false),
    ("^", 75, true),
    ("+ℤ", 6, false),
    ("-ℤ", 6, false),
    ("*ℤ", 7, false),
    ("&&", 35, false),
    ("||", 30, false),
    ("∷", 67, true),
    ("++", 65, false),
    ("≡", 4, false),
    ("==", 40, false),
    ("≤", 50, false),
    ("<", 50, false),
    ("≤ℤ", 50, false),
    ("<ℤ", 50, false),
    ("⊎", 2, true),
];

/// The list as it is printed.
pub fn text() -> String {
    let mut text = String::from("carried out by the interpreter, of this repository:\n");
    for (name, _, _) in OWN {
        text += &format!("  {name}\n");
    }
    text += "kept once computed from their clauses:\n";
    for name in KEPT {
        text += &format!("  {name}\n");
    }
    text += "run from their clauses, of the libraries:\n";
    for (module, clauses) in CLAUSES {
        for line in clauses.lines() {
            if let Some((name, _)) = line.split_once(" : ") {
                let name = name.trim_start_matches("abbrev pub ");
                text += &format!("  {module}.{name}\n");
            }
        }
    }
    text += "carried out by the interpreter, of the libraries:\n";
    for (name, _, _) in LIBRARY {
        text += &format!("  {name}\n");
    }
    text
}
