//! Each rule of a closed list, on small made-up repositories that break it.

mod common;

use common::{Repository, SUMS};

const PROMISES: &str = "docs/PROMISES.md";
const FINAL: &str = "crates/high/proofs/Final.antt";

/// The repository after one edit, and all that is then said but for the sums.
fn after(path: &str, old: &str, new: &str) -> Vec<String> {
    let repository = Repository::closed();
    repository.edit(path, old, new);
    repository.other_faults()
}

fn text(bytes: &[u8]) -> &str {
    std::str::from_utf8(bytes).unwrap()
}

#[test]
fn a_closed_list_is_counted() {
    let repository = Repository::closed();
    let output = repository.run(&[]);
    assert_eq!((text(&output.stdout), text(&output.stderr)), (SUMS, ""));
    assert_eq!(output.status.code(), Some(0));
}

#[test]
fn files_one_by_one() {
    let output = Repository::closed().run(&["--files"]);
    let expected = "    low/specs/Numbers: 1006 lines, 1 of them neither blank nor `use`
    low/specs/Pairs: 7 lines, 3 of them neither blank nor `use`
    high/specs/Doubles: 6 lines, 3 of them neither blank nor `use`
definitions: 3 files, 1019 lines, 7 of them neither blank nor `use`
    low/src/lib.rt: 2, 8 lines
structs and enums: 2 in 1 file, 8 lines
    high/src/lib.rt: 2 parts, 4 lines
contracts: 2 parts in 1 file, 4 lines
    high/proofs/Final: 3 statements, 9 lines
theorems: 3 statements in 1 file, 9 lines
";
    assert_eq!(text(&output.stdout), expected);
}

#[test]
fn a_fault_is_said_and_fails() {
    let repository = Repository::closed();
    repository.remove("crates/high/src/lib.rt");
    repository.edit(PROMISES, "contracts: 2 parts in 1 file, 4 lines", "contracts: 0 parts in 0 files, 0 lines");
    let output = repository.run(&[]);
    assert_eq!(text(&output.stderr), "believed: `high/src/lib.rt` is listed, and there is no crates/high/src/lib.rt\n");
    assert_eq!(output.status.code(), Some(1));
}

#[test]
fn no_section_and_no_list() {
    let repository = Repository::closed();
    repository.edit(PROMISES, "## What must be believed", "## What may be believed");
    let output = repository.run(&[]);
    assert_eq!(text(&output.stderr), "believed: docs/PROMISES.md has no section `## What must be believed`\n");
    assert_eq!(output.status.code(), Some(1));
}

// 1: every file and name listed is there.

#[test]
fn files_that_are_not_there() {
    for (path, listed) in [
        ("crates/high/specs/Doubles.antt", "high/specs/Doubles"),
        ("crates/low/src/lib.rt", "low/src/lib.rt"),
        ("crates/high/src/lib.rt", "high/src/lib.rt"),
        (FINAL, "high/proofs/Final"),
    ] {
        let repository = Repository::closed();
        repository.remove(path);
        let expected = format!("`{listed}` is listed, and there is no {path}");
        assert_eq!(repository.other_faults()[0], expected);
    }
}

#[test]
fn a_statement_that_is_not_there() {
    let said = ["`high/proofs/Final` is listed with `all`, and states no such thing"];
    assert_eq!(after(PROMISES, "twice, same, all_even", "twice, same, all"), said);
}

#[test]
fn a_file_listed_twice() {
    assert_eq!(after(PROMISES, "`Pairs`", "`Pairs`, `low/specs/Numbers`"), ["`low/specs/Numbers` is listed twice"]);
}

#[test]
fn a_token_that_names_nothing() {
    let said = ["`high/src/lib.rt` is listed in the row `numbers`, where it names nothing"];
    assert_eq!(after(PROMISES, "`Pairs`", "`Pairs`, `high/src/lib.rt`"), said);
    let said = ["`high/proofs/Final` is listed in the row `the theorems`, where it names nothing"];
    assert_eq!(after(PROMISES, ": twice, same, all_even", ""), said);
}

// 2: no file looks ahead.

#[test]
fn a_file_that_looks_ahead() {
    let said = ["`low/specs/Pairs` uses `low/specs/Numbers`, which is listed after it"];
    assert_eq!(after(PROMISES, "`low/specs/Numbers`, `Pairs`", "`low/specs/Pairs`, `Numbers`"), said);
}

#[test]
fn a_file_that_is_left_out() {
    let said = ["`high/specs/Doubles` uses `low/specs/Pairs`, which is not listed"];
    let repository = Repository::closed();
    repository.edit(PROMISES, ", `Pairs`", "");
    assert_eq!(repository.other_faults(), said);
}

#[test]
fn a_definition_by_proofs() {
    let said = ["`low/specs/Pairs` uses `low/proofs/Laws`, which holds no definitions"];
    let line = "use Rattle.low.proofs.Laws.{law}\nuse Rattle.low.specs.Numbers";
    assert_eq!(after("crates/low/specs/Pairs.antt", "use Rattle.low.specs.Numbers", line), said);
}

#[test]
fn a_struct_that_no_listed_file_has() {
    let said = ["`low/specs/Pairs` uses `Pair`, declared in `low`, which stands in no listed file of structs"];
    assert_eq!(after("crates/low/src/lib.rt", "pub struct Pair {", "pub struct Pairs {"), said);
}

// 3: the words of statements and contracts.

#[test]
fn a_word_of_proofs_in_a_statement() {
    let said = ["`all_even` of `high/proofs/Final` uses `Even` of `high/proofs/Laws`, which holds no definitions"];
    assert_eq!(after(FINAL, "      ≡ n\n", "      ≡ n → Even n\n"), said);
}

#[test]
fn a_word_of_proofs_in_a_header() {
    let said = ["twice", "same", "all_even"].map(|name| {
        format!("`{name}` of `high/proofs/Final` uses `Even` of `high/proofs/Laws`, which holds no definitions")
    });
    assert_eq!(after(FINAL, "(m : ℕ) where", "(m : Even n) where"), said);
}

#[test]
fn a_name_of_parts_appears_when_all_do() {
    let said = ["`all_even` of `high/proofs/Final` uses `half◌of◌` of `high/proofs/Laws`, which holds no definitions"];
    assert_eq!(after(FINAL, "      ≡ n\n", "      ≡ (half n of m)\n"), said);
    assert!(after(FINAL, "      ≡ n\n", "      ≡ (half n)\n").is_empty());
}

#[test]
fn a_name_with_underscores_is_one_word() {
    let said = ["`all_even` of `high/proofs/Final` uses `half_of` of `high/proofs/Laws`, which holds no definitions"];
    let repository = Repository::closed();
    repository.edit(FINAL, "half◌of◌", "half_of");
    repository.edit(FINAL, "      ≡ n\n", "      ≡ (half of n)\n");
    assert!(repository.other_faults().is_empty());
    repository.edit(FINAL, "half of n", "half_of n");
    assert_eq!(repository.other_faults(), said);
}

#[test]
fn a_word_under_another_name() {
    let said = ["`all_even` of `high/proofs/Final` uses `E` of `high/proofs/Laws`, which holds no definitions"];
    for line in ["{law, Even as E}", "{law}\nuse Rattle.high.proofs.Laws.Even as E"] {
        let repository = Repository::closed();
        repository.edit(FINAL, "{law, Even, half◌of◌}", line);
        repository.edit(FINAL, "      ≡ n\n", "      ≡ n → E n\n");
        let said =
            said.map(|one| if line.contains('\n') { one.replace("/Laws`", "/Laws/Even`") } else { one.to_string() });
        assert_eq!(repository.other_faults(), said);
    }
}

#[test]
fn names_on_lines_of_their_own() {
    let said = ["`all_even` of `high/proofs/Final` uses `Even` of `high/proofs/Laws`, which holds no definitions"];
    let repository = Repository::closed();
    repository.edit(FINAL, "{law, Even, half◌of◌}", "{\n  law,\n  Even,\n}");
    repository.edit(FINAL, "      ≡ n\n", "      ≡ n → Even n\n");
    assert_eq!(repository.other_faults(), said);
    let said = ["a contract of `high/src/lib.rt` uses `unsaid` of `high/specs/Inner`, which is not listed"];
    let repository = Repository::closed();
    repository.edit("crates/high/src/lib.rt", "{unsaid}", "{\n    said,\n    unsaid,\n}");
    repository.edit("crates/high/src/lib.rt", "twice n ≡ n", "twice n ≡ unsaid n");
    assert_eq!(repository.other_faults(), said);
}

/// The prover's own library needs no listing; one of another name does.
#[test]
fn a_library_that_is_not_the_provers() {
    let line =
        "use Rattle.LIBRARY.proofs.Math.{half}\nuse Rattle.LIBRARY.specs.Halves.{whole}\nuse Rattle.low.specs.Numbers";
    let after = |library| {
        after("crates/low/specs/Pairs.antt", "use Rattle.low.specs.Numbers", &line.replace("LIBRARY", library))
    };
    assert!(after("std").is_empty());
    let said = [
        "`low/specs/Pairs` uses `standard/proofs/Math`, which holds no definitions",
        "`low/specs/Pairs` uses `standard/specs/Halves`, which is not listed",
    ];
    assert_eq!(after("standard"), said);
}

#[test]
fn a_word_of_an_unlisted_definition() {
    let said = ["`all_even` of `high/proofs/Final` uses `odd` of `high/specs/Inner`, which is not listed"];
    let repository = Repository::closed();
    repository.edit(FINAL, "{law, Even, half◌of◌}", "{law}\nuse Rattle.high.specs.Inner.{odd}");
    repository.edit(FINAL, "      ≡ n\n", "      ≡ odd n\n");
    assert_eq!(repository.other_faults(), said);
}

#[test]
fn a_declared_word_of_a_statement() {
    let said = [
        "`all_even` of `high/proofs/Final` uses `Unseen`, declared in `low`, which stands in no listed file of structs",
    ];
    let repository = Repository::closed();
    repository.edit(FINAL, "{law, Even, half◌of◌}", "{law}\nuse Rattle.low.specs.declared.Unseen.{Unseen}");
    repository.edit(FINAL, "      ≡ n\n", "      ≡ Unseen n\n");
    assert_eq!(repository.other_faults(), said);
}

#[test]
fn a_word_that_the_same_file_gives() {
    let said = ["same", "all_even"]
        .map(|name| format!("`{name}` of `high/proofs/Final` uses `twice` of the same file, which is not listed"));
    assert_eq!(after(PROMISES, "twice, same", "same"), said);
}

#[test]
fn a_word_of_an_unlisted_definition_in_a_contract() {
    let said = ["a contract of `high/src/lib.rt` uses `unsaid` of `high/specs/Inner`, which is not listed"];
    assert_eq!(after("crates/high/src/lib.rt", "twice n ≡ n", "twice n ≡ unsaid n"), said);
}

/// The name of a clause is no word of it.
#[test]
fn a_clause_with_a_name() {
    let path = "crates/high/src/lib.rt";
    assert!(after(path, "ensures { result ≡ double", "ensures unsaid { result ≡ double").is_empty());
    let said = ["a contract of `high/src/lib.rt` uses `unsaid` of `high/specs/Inner`, which is not listed"];
    assert_eq!(after(path, "requires { double n twice n ≡ n }", "requires fits { unsaid n ≡ n }"), said);
}

// 4: the text says the sums.

/// A reader reads what stands right above a struct too.
#[test]
fn the_lines_above_a_struct() {
    for (above, lines) in [("#[derive(Clone, Copy)]\n", 9), ("// And more.\n#[derive(Clone, Copy)]\n", 10), ("\n", 6)] {
        let repository = Repository::closed();
        repository.edit("crates/low/src/lib.rt", "pub struct Pair {", &format!("{above}pub struct Pair {{"));
        let expected = format!("the section does not say: structs and enums: 2 in 1 file, {lines} lines");
        assert_eq!(repository.faults(), [expected]);
    }
}

/// A contract speaks by the members of a trait, so the trait and its instances are read whole; an `impl` of methods is not.
#[test]
fn a_trait_in_a_contract() {
    let code = "pub trait Doubled {
    ghost by: { ℕ };
}

impl Doubled for Two {
    ghost by = { 2 };
}

impl Two {
}

";
    let repository = Repository::closed();
    let file = "crates/high/src/lib.rt";
    repository.edit(file, "// Not counted.", &format!("{code}// Not counted."));
    assert_eq!(repository.faults(), ["the section does not say: contracts: 4 parts in 1 file, 10 lines"]);
}

#[test]
fn a_sum_that_is_not_said() {
    for (old, new, sum) in [
        ("1,019 lines", "1,020 lines", 0),
        ("structs and enums: 2 in", "structs and enums: 3 in", 1),
        ("contracts: 2 parts", "contracts: 2 calls", 2),
        ("theorems: 3", "theorems: 4", 3),
    ] {
        let repository = Repository::closed();
        repository.edit(PROMISES, old, new);
        let expected = format!("the section does not say: {}", SUMS.lines().nth(sum).unwrap());
        assert_eq!(repository.faults(), [expected]);
    }
}

// 5: every edit is named.

#[test]
fn an_edit_that_is_not_named() {
    for (old, new, edit) in [
        ("`low/half`, `third`", "`low/half`", "low/third"),
        ("`high/sixth`", "`sixth`", "high/sixth"),
        ("`high/quarter`, `fifth`", "`high/quarter` | `fifth`", "high/fifth"),
    ] {
        let expected = format!("the must-fail edit `{edit}` is not named in docs/PROMISES.md");
        assert_eq!(after(PROMISES, old, new), [expected]);
    }
}
