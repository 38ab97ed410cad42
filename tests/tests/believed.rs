//! `tools/believed` on copies of the repository in which one thing is wrong.

mod tools_check;

use fir_tests::sheet::program::root;
use tools_check::Tool;

const BELIEVED: Tool = Tool {
    name: "believed",
    parts: &["crates", "docs"],
    check: &[],
};

#[test]
fn nothing_wrong() {
    let (status, out) = BELIEVED.run(&root(), &[]);
    assert_eq!(status, Some(0), "{out}");
    let (status, out) = BELIEVED.run(&root(), &["--list"]);
    assert_eq!(status, Some(0));
    // A file comes after what it imports.
    let place = |file: &str| out.find(file).unwrap_or_else(|| panic!("no {file}"));
    assert!(place("refusal/specs/Answer.antt") < place("run_calls/specs/Run.antt"));
    assert!(place("run_calls/specs/Run.antt") < place("guarantee/specs/Demand3.antt"));
    assert!(!out.contains("Inner.antt"));
}

#[test]
fn belief_in_an_inner_definition() {
    let old = "use Rattle.refusal.specs.Answer";
    let new = "use Rattle.sequence.specs.Inner.{front}\nuse Rattle.refusal.specs.Answer";
    let says = "cites the inner definitions of crates/sequence/specs/Inner.antt";
    BELIEVED.refuses("crates/run_calls/specs/Run.antt", old, new, says);
}

#[test]
fn belief_in_a_proof() {
    let old = "use Rattle.refusal.specs.Answer";
    let new = "use Rattle.run_convolution.proofs.Theorems.{Holds}\nuse Rattle.refusal.specs.Answer";
    let file = "crates/run_calls/specs/Run.antt";
    BELIEVED.refuses(file, old, new, "imports a proof");
    let new = "use Rattle.run_convolution.proofs as P\nuse Rattle.refusal.specs.Answer";
    BELIEVED.refuses(file, old, new, "imports a proof");
}

#[test]
fn a_contract_that_is_not_the_relation() {
    let file = "crates/run_network/src/lib.rt";
    let says = "run_network::run does not ensure Ran";
    BELIEVED.refuses(file, "{ Ran ", "{ Other ", says);
    BELIEVED.refuses(file, "{ Ran ", "{ Unit {0} ⊎ Ran ", says);
    let says = "run_network::run ensures more or less than Ran";
    BELIEVED.refuses(file, "outputs.new }", "outputs.new ⊎ Unit {0} }", says);
    let says = "says nothing of outputs after the call";
    BELIEVED.refuses(file, "outputs.new }", "outputs.old }", says);
    let old = "    ensures { Ran";
    let new = "    requires { Unit {0} }\n    ensures { Ran";
    BELIEVED.refuses(file, old, new, "run_network::run has a requires");
    let file = "crates/fir_networks/specs/Run.antt";
    BELIEVED.refuses(
        file,
        "ran : Ran ",
        "ran : Other ",
        "RanWord does not hold Ran",
    );
}

#[test]
fn an_entry_or_a_name_that_is_not_there() {
    let file = "docs/STATEMENTS.md";
    BELIEVED.refuses(
        file,
        "`register_sum`",
        "`register_sums`",
        "no register_sums in",
    );
    BELIEVED.refuses(
        file,
        "| `run_network::run` |",
        "| run_network::run |",
        "fir_run is not among the entries",
    );
    let says = "sheet_text::sheet is not among the entries";
    BELIEVED.refuses(file, "| `sheet_text::sheet` |", "| sheet |", says);
    let claims = "| `signed_digit/specs/Claims.antt` `DigitClaims` |";
    BELIEVED.refuses(file, claims, "| digits |", "DigitClaims of");
    let file = "crates/run_calls/proofs/Claims.antt";
    let says = "no proof running_claims of RunningClaims";
    BELIEVED.refuses(
        file,
        "running_claims : RunningClaims",
        "running_claims : Unit",
        says,
    );
    let file = "crates/run_convolution/specs/Words.antt";
    let says = "outcome stands in";
    BELIEVED.refuses(
        file,
        "abbrev pub wrapped :",
        "abbrev pub outcome : ℤ → ℕ\n\nabbrev pub wrapped :",
        says,
    );
}
