//! Runs the definitions of crates/*/specs from their own text.
use std::path::{Path, PathBuf};

mod code;
mod inline;
mod lex;
mod machine;
pub mod natives;
mod parse;
mod scope;
mod store;
mod syntax;
mod value;

pub use machine::Machine;
pub use value::{Names, Value};

/// Where the definitions lie, `REFMVS_CRATES` or the folder beside the oracle's.
pub fn crates() -> PathBuf {
    let own = Path::new(env!("CARGO_MANIFEST_DIR")).join("../crates");
    std::env::var_os("REFMVS_CRATES").map_or(own, PathBuf::from)
}

/// Which of the repository's definitions the interpreter carries out by itself.
#[derive(Clone, Copy, PartialEq)]
pub enum Own {
    /// Those of `natives::OWN`.
    Native,
    /// None: all are run from their clauses.
    Clauses,
}

/// A machine that knows all definitions of the folder. Says how many, and what of them has no value.
pub fn load(crates: &Path, own: Own) -> Result<Machine, String> {
    let texts = scope::texts(crates).map_err(|e| format!("{}: {e}", crates.display()))?;
    let library = scope::Library::new(&texts, own == Own::Native)?;
    println!("{} definitions read", library.count());
    for text in library.unread() {
        println!("not read: {text}");
    }
    Ok(machine(library))
}

fn machine(mut library: scope::Library) -> Machine {
    inline::run(&mut library);
    let program = code::Program::new(library);
    // It lives as long as the oracle runs.
    Machine::new(Box::leak(Box::new(program)))
}

/// Definitions are recursive, and lists are long.
const STACK: usize = 1 << 30;

/// Runs on a thread with a large stack.
pub fn with_stack<T: Send + 'static>(run: impl FnOnce() -> T + Send + 'static) -> T {
    let thread = std::thread::Builder::new().stack_size(STACK).spawn(run);
    match thread.expect("no thread").join() {
        Ok(value) => value,
        Err(panic) => std::panic::resume_unwind(panic),
    }
}

#[cfg(test)]
mod tests {
    use super::*;

    const USES: &str = "use Rattle.std.specs.Prelude.{Bool, true, false, cond, not, ◌&&◌, ◌||◌, List, [], ◌∷◌, ◌++◌, ℕ, zero, suc, ◌+◌, ◌-◌, ◌*◌, ◌/◌, ◌%◌, ◌^◌, leb, ltb, eqb, ℤ, pos, negsuc, nat_abs, ◌+ℤ◌, ◌-ℤ◌, ◌*ℤ◌, length, get_or, set, drop, if◌then◌else◌, ◌==◌}
use Rattle.loops.specs.Over.{span}
";
    const LOOPS: &str = "span : {S : Type 0} → (ℕ → S → S) → ℕ → ℕ → S → S
span f a b s = s
";

    /// The number that the text's definition `it` has.
    fn it(text: &str) -> i64 {
        let texts = [
            ("loops.Over".to_string(), LOOPS.to_string()),
            ("x.X".to_string(), format!("{USES}{text}")),
        ];
        let library = scope::Library::new(&texts, true).unwrap();
        assert_eq!(library.unread(), Vec::<String>::new());
        machine(library).call_by_name("x.X.it", vec![]).int()
    }

    #[test]
    fn operators_bind_as_in_the_libraries() {
        assert_eq!(
            it("it : ℕ\nit = 2 + 3 * 4 - 1 - 20 % 6 / 2 + 2 ^ 3 ^ 1"),
            20
        );
        assert_eq!(
            it("it : ℤ\nit = pos 2 +ℤ pos 3 *ℤ negsuc 3 -ℤ pos (1 + 1)"),
            -12
        );
        assert_eq!(it("it : ℕ\nit = cond (true || false && false) 1 2"), 1);
        assert_eq!(it("it : ℕ\nit = 5 - 7 + (7 / 0) + 7 % 0"), 7);
        assert_eq!(
            it("it : ℕ\nit = 2 * (if 1 + 1 == 2 && true then 3 else 4) + 1"),
            7
        );
        assert_eq!(it("it : ℕ\nit = length ((1 + 1) ∷ 2 ∷ []) + 0x1f"), 33);
    }

    #[test]
    fn texts_are_lists_of_numbers() {
        let ascii = "use Prim.Native.Char.{code}
use Prim.Native.String.{String, char_at, len}
from : String → ℕ → ℕ → List ℕ
from word zero i = []
from word (suc n) i = code (char_at word i) ∷ from word n (i + 1)
ascii : String → List ℕ
ascii word = from word (len word) 0
";
        let at = |k: u32| {
            it(&format!(
                "{ascii}it : ℕ\nit = get_or (ascii \"a (b)\\n\" ++ ascii \" -- c\") {k} 0"
            ))
        };
        assert_eq!(
            (0..11).map(at).collect::<Vec<_>>(),
            [97, 32, 40, 98, 41, 10, 32, 45, 45, 32, 99]
        );
    }

    #[test]
    fn definitions_of_the_libraries_are_run() {
        let uses = "use Rattle.std.specs.Prelude.{is_some, is_err, codes, decimal, flat_map, Some, None, Ok, Err}
use Rattle.std.specs.Fmt.{signed_decimal}
use Rattle.std.specs.Bool.{then_some}
use Rattle.std.specs.Char.{is_ascii_digit, is_ascii_lowercase}
use Rattle.std.specs.List.{fold}
use Rattle.std.specs.Str.{bytes_eq}
";
        let says = |term: &str| it(&format!("{uses}it : ℕ\nit = {term}"));
        let holds = |term: &str| says(&format!("cond ({term}) 1 0")) == 1;
        assert!(holds("bytes_eq (decimal 1905) (codes \"1905\")"));
        assert!(holds("bytes_eq (decimal 0) (codes \"0\")"));
        assert!(holds(
            "bytes_eq (signed_decimal (negsuc 31)) (codes \"-32\")"
        ));
        assert!(!holds("bytes_eq (codes \"ab\") (codes \"a\")"));
        assert!(holds("is_some (Some 3) && not (is_some None)"));
        assert!(holds("is_err (Err 3) && not (is_err (Ok 3))"));
        assert!(holds(
            "is_some (then_some true 3) && not (is_some (then_some false 3))"
        ));
        assert!(holds("is_ascii_digit 57 && not (is_ascii_digit 58)"));
        assert!(holds(
            "is_ascii_lowercase 97 && not (is_ascii_lowercase 96)"
        ));
        assert_eq!(
            says("fold (λ a x. a + x) 1 (flat_map (λ x. x ∷ x ∷ []) (2 ∷ 3 ∷ []))"),
            11
        );
    }

    #[test]
    fn an_implicit_argument_is_no_fault_where_it_is_not_evaluated() {
        assert_eq!(
            it("f : {W : ℕ} → ℕ → ℕ\nf {W} n = (n, W).0\n\nit : ℕ\nit = f 4"),
            4
        );
    }

    #[test]
    fn sections_give_their_parameters_inside() {
        let text = "module _ (g : ℕ) {A : Type 0} (h : ℕ → ℕ) where
  -- a sibling takes them by itself
  abbrev pub f : ℕ → ℕ
  f x = h (x + g)

  twice : ℕ → ℕ
  twice x = f (f x)

module _ (g : ℕ) where
  outside : ℕ
  outside = twice g (λ x. x * 2) 1

it : ℕ
it = outside 3";
        assert_eq!(it(text), (((1 + 3) * 2) + 3) * 2);
    }

    #[test]
    fn helpers_see_the_clause() {
        let text = "count : ℕ → List ℕ → ℕ
count n [] = zero
count n (x ∷ xs) = go x + count n xs
  where
    go : ℕ → ℕ
    go zero = n
    go (suc k) = 1 + go k

it : ℕ
it = count 100 (0 ∷ 2 ∷ [])";
        assert_eq!(it(text), 202);
    }

    #[test]
    fn tuples_records_and_patterns() {
        let text = "swap : ℕ × ℕ → ℕ × ℕ
swap (a, b) = (b, a)

both : ℤ → ℤ → ℕ
both (pos (suc a)) (negsuc b) = a * 10 + b
both (pos zero) z = 7
both (negsuc a) z = 9
both (pos (suc a)) (pos b) = 8

it : ℕ
it =
    let (a, b) : ℕ × ℕ = swap (1, 2) in
    let r = record { «n_refs» = a; inner = record { y = b; x = 5 } } in
    (λ (p, q) (z : ℕ). p - q + z) (r.«n_refs», r .inner .y) (both (pos 4) (negsuc 5)) + r.inner.x";
        assert_eq!(it(text), 1 + 35 + 5);
    }

    #[test]
    fn blocks_of_statements() {
        let text = "◌>>=◌ : (ℕ → ℕ × ℕ) → (ℕ → ℕ → ℕ × ℕ) → ℕ → ℕ × ℕ
◌>>=◌ m f s = let r = m s in f (r .0) (r .1)

◌>>◌ : (ℕ → ℕ × ℕ) → (ℕ → ℕ × ℕ) → ℕ → ℕ × ℕ
◌>>◌ m n s = n (m s .1)

tick : ℕ → ℕ × ℕ
tick s = (s, suc s)

when : Bool → (ℕ → ℕ × ℕ) → ℕ → ℕ × ℕ
when b m s = cond b (m s) (0, s)

ticks : ℕ → ℕ × ℕ
ticks = do
  a ← tick
  tick
  let c = a * 100
  when (ltb a 5) do
    tick
    tick
  b ← tick
  λ s. (c + b, s)

it : ℕ
it = ticks 1 .0";
        assert_eq!(it(text), 105);
    }

    #[test]
    fn loops_run_by_themselves() {
        assert_eq!(
            it("it : ℕ\nit = span (λ i s. i + s) 3 100000 0"),
            4_999_949_997
        );
    }
}
