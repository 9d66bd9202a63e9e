//! Small made-up repositories in a temporary folder, removed afterwards.

use believed::tree::Tree;
use std::fs;
use std::path::PathBuf;
use std::process::{id, Command, Output};
use std::sync::atomic::{AtomicUsize, Ordering};

static NEXT: AtomicUsize = AtomicUsize::new(0);

pub const PROMISES: &str = "\
# Promises

## What must be believed

| what | files (below `crates/`) |
|---|---|
| structs | `low/src/lib.rt` |
| numbers | `low/specs/Numbers`, `Pairs` |
| doubles, with one `word` of prose | `high/specs/Doubles` |
| the contracts of the calls | `high/src/lib.rt` |
| the theorems | `high/proofs/Final: twice, same, all_even` |

    definitions: 3 files, 1,019 lines, 7 of them neither blank nor `use`
    structs and enums: 2 in 1 file, 8 lines
    contracts: 2 parts in 1 file, 4 lines
    theorems: 3 statements in 1 file, 9 lines

## Wrong answers

| contract | edits |
|---|---|
| `double` | `low/half`, `third`, `high/quarter`, `fifth` |

The edit `high/sixth` too.
";

pub const SUMS: &str = "\
definitions: 3 files, 1019 lines, 7 of them neither blank nor `use`
structs and enums: 2 in 1 file, 8 lines
contracts: 2 parts in 1 file, 4 lines
theorems: 3 statements in 1 file, 9 lines
";

const NUMBERS: &str = "\
-- Numbers under one roof.
pub use Rattle.std.specs.Prelude.{ℕ, ◌+◌}
";

const PAIRS: &str = "\
-- A pair's sum.
use Rattle.low.specs.Numbers.{ℕ, ◌+◌}
use Rattle.low.specs.declared.Pair.{Pair}
use Rattle.low.specs.declared.Side.TheVariants.{Left}

abbrev pub sum : Pair → ℕ
sum p = p.left + p.right
";

const DOUBLES: &str = "\
-- Doubles.
use Rattle.low.specs.Numbers.{ℕ, ◌+◌}
use Rattle.low.specs.Pairs.{sum}

abbrev pub double◌twice◌ : ℕ → ℕ → ℕ
double a twice b = a + a + b
";

const LOW: &str = "\
use sets::Tag;

// Two words
// side by side.
pub struct Pair {
    pub left: u32,
}

pub struct Unspoken {
    pub left: u32,
}

pub enum Side {
    Left,
}
";

const HIGH: &str = "\
ghost use Rattle.std.specs.Prelude.{◌≡◌};
ghost use Rattle.high.specs.Doubles.{double◌twice◌};
ghost use Rattle.high.specs.Inner.{unsaid};

// Not counted.
pub fn call(n: u32) -> u32
    requires { double n twice n ≡ n }
    ensures { result ≡ double n twice n }
{
    let unsaid = inner(n);
    unsaid
}

pub fn plain(n: u32) -> u32 {
    n
}

fn inner(n: u32) -> u32
    ensures { result ≡ unsaid n }
{
    n
}
";

const FINAL: &str = "\
-- The end.
use mathlib.Core.Path.{◌≡◌, refl}
use Rattle.low.specs.Numbers.{ℕ}
use Rattle.high.specs.Doubles.{double◌twice◌}
use Rattle.high.proofs.Laws.{law, Even, half◌of◌}

lemma : (n : ℕ) → Even n
lemma = law

-- any number
module _ (n : ℕ)
    (m : ℕ) where
  abbrev pub twice : ℕ
  twice = double n twice m

  pub same : twice ≡ twice
  unfolding twice
  same = go lemma
    where
      all : Even n
      all = law

  -- law and Even are no words of it
  pub all_even : twice
      ≡ n
  all_even = law
";

pub struct Repository {
    root: PathBuf,
}

impl Repository {
    /// One whose list is closed.
    pub fn closed() -> Repository {
        let name = format!("believed-{}-{}", id(), NEXT.fetch_add(1, Ordering::Relaxed));
        let repository = Repository { root: std::env::temp_dir().join(name) };
        repository.write("docs/PROMISES.md", PROMISES);
        // Long, so that a number of the text has a comma.
        repository.write("crates/low/specs/Numbers.antt", &format!("{NUMBERS}{}", "\n".repeat(1004)));
        repository.write("crates/low/specs/Pairs.antt", PAIRS);
        repository.write("crates/high/specs/Doubles.antt", DOUBLES);
        repository.write("crates/low/src/lib.rt", LOW);
        repository.write("crates/high/src/lib.rt", HIGH);
        repository.write("crates/high/proofs/Final.antt", FINAL);
        for edit in ["low/must-fail/half", "low/must-fail/third", "high/must-fail/quarter", "high/must-fail/fifth"] {
            repository.write(&format!("crates/{edit}.edit"), "");
        }
        repository.write("crates/high/must-fail/sixth.edit", "");
        repository
    }

    pub fn write(&self, path: &str, text: &str) {
        let path = self.root.join(path);
        fs::create_dir_all(path.parent().unwrap()).unwrap();
        fs::write(path, text).unwrap();
    }

    pub fn remove(&self, path: &str) {
        fs::remove_file(self.root.join(path)).unwrap();
    }

    /// Puts one text for another that stands once in the file.
    pub fn edit(&self, path: &str, old: &str, new: &str) {
        let text = fs::read_to_string(self.root.join(path)).unwrap();
        assert_eq!(text.matches(old).count(), 1, "{old} in {path}");
        self.write(path, &text.replace(old, new));
    }

    /// The sentences.
    pub fn faults(&self) -> Vec<String> {
        believed::believed(&Tree::new(&self.root)).unwrap_or_else(|why| panic!("{why}")).faults
    }

    /// The sentences but for those on sums, which most edits make too.
    pub fn other_faults(&self) -> Vec<String> {
        self.faults().into_iter().filter(|fault| !fault.starts_with("the section does not say")).collect()
    }

    pub fn run(&self, words: &[&str]) -> Output {
        Command::new(env!("CARGO_BIN_EXE_believed")).args(words).arg(&self.root).output().unwrap()
    }
}

impl Drop for Repository {
    fn drop(&mut self) {
        let _ = fs::remove_dir_all(&self.root);
    }
}
