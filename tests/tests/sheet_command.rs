//! The command ./sheet: the program's sheet, an exit status, and words on standard error.

use fir_tests::commands::clone::Clone;
use fir_tests::sheet::input::{packed, Input};
use fir_tests::sheet::literal;
use fir_tests::sheet::program::{run, Delivery, Ended};
use std::ffi::OsStr;
use std::fs::create_dir_all;
use std::os::unix::ffi::OsStrExt;
use std::process::Command;

const EXAMPLE: [f64; 4] = [3.0 / 32768.0, -6.0 / 32768.0, 45.0 / 32768.0, 0.0];
const USAGE: &str = "sheet: usage: sheet [F [FILE]]\n";
const BYTES: &str =
    "sheet: a tap is 8 bytes here; ./fir sheet takes text, and ./fir taps packs it\n";
const ZERO: &str = "sheet: every coefficient is 0; \
    a tap is 8 bytes here; ./fir sheet takes text, and ./fir taps packs it\n";
const TEXT: &str = "the input is text, and \
    a tap is 8 bytes here; ./fir sheet takes text, and ./fir taps packs it\n";

fn run_input(clone: &Clone, input: &Input) -> Ended {
    let mut command = clone.command("sheet");
    command.args(input.argument.iter().map(|text| OsStr::from_bytes(text)));
    run(&mut command, &input.bytes, Delivery::AtOnce)
}

fn accepted(clone: &Clone, input: &Input, words: &str) {
    let ended = run_input(clone, input);
    assert_eq!(ended.out, literal::sheet(input), "{}", input.show());
    assert_eq!((ended.status, ended.errors.as_str()), (Some(0), words));
}

/// The sheet as the program has it, and words on standard error.
fn refused(clone: &Clone, input: &Input, words: &str, hint: &str) {
    let ended = run_input(clone, input);
    assert_eq!(ended.out, literal::sheet(input), "{}", input.show());
    assert_eq!(ended.status, Some(1), "{}", input.show());
    assert_eq!(ended.errors, format!("sheet: {words}\n{hint}"));
}

#[test]
fn sheets() {
    let clone = &Clone::built();
    accepted(clone, &Input::without_argument(&EXAMPLE), "");
    accepted(clone, &Input::new(&EXAMPLE, "15"), "");
    accepted(
        clone,
        &Input::new(&EXAMPLE, &("0".repeat(100_000) + "20")),
        "",
    );
    accepted(clone, &Input::new(&[0.0; 256], "0"), ZERO);
    let large: Vec<f64> = (0..256).map(|i| (0x7fff_fffd - 1234 * i) as f64).collect();
    accepted(clone, &Input::new(&large, "0"), "");
}

#[test]
fn refusals_in_words() {
    let clone = &Clone::built();
    let fraction_bits = "F is not a decimal number from 0 to 31 (refusal 4)";
    for argument in [
        "", "abc", "32", " 5", "-h", "--help", "*", "a b", "$(exit)", "\\n", "5\n", "%s",
    ] {
        refused(clone, &Input::new(&EXAMPLE, argument), fraction_bits, USAGE);
    }
    let zeros = "0".repeat(100_000) + "32";
    refused(clone, &Input::new(&EXAMPLE, &zeros), fraction_bits, USAGE);
    let none = "there are no taps (refusal 1)";
    refused(clone, &Input::new(&[], "15"), none, USAGE);
    let many = "there are more than 256 taps (refusal 2)";
    refused(clone, &Input::new(&[1.0; 257], "15"), many, BYTES);
    let mut piece = Input::new(&EXAMPLE, "15");
    piece.bytes.pop();
    let inside = "the input ends inside a tap of 8 bytes (refusal 12)";
    refused(clone, &piece, inside, BYTES);
    let taps = [0.0, 1e9, 0.0, f64::NAN];
    let not_finite = "tap 3 is infinite or not a number (refusal 5)";
    refused(clone, &Input::new(&taps, "15"), not_finite, BYTES);
    let outside = "tap 1 times 2^F rounds to a coefficient outside -2^31 to 2^31 - 1 (refusal 6)";
    refused(clone, &Input::new(&taps[..3], "15"), outside, BYTES);
}

#[test]
fn taps_from_a_file() {
    let clone = Clone::built();
    let folder = clone.path("some folder");
    create_dir_all(&folder).unwrap();
    std::fs::write(folder.join("some taps"), packed(&EXAMPLE)).unwrap();
    std::fs::write(folder.join("piece"), [0; 9]).unwrap();
    let on = |arguments: &[&str]| {
        let mut command = clone.command("sheet");
        command.current_dir(&folder).args(arguments);
        run(&mut command, b"\0not these", Delivery::AtOnce)
    };
    let ended = on(&["15", "some taps"]);
    assert_eq!(ended.out, literal::sheet(&Input::new(&EXAMPLE, "15")));
    assert_eq!((ended.status, ended.errors.as_str()), (Some(0), ""));
    let ended = on(&["", "some taps"]);
    assert_eq!(ended.out, literal::sheet(&Input::new(&EXAMPLE, "")));
    assert_eq!(ended.status, Some(1));
    let ended = on(&["15", "piece"]);
    let inside = "sheet: the input ends inside a tap of 8 bytes (refusal 12)\n";
    assert_eq!(ended.errors, format!("{inside}{BYTES}"));
    let ended = on(&["15", "-"]);
    assert_eq!(ended.errors, format!("{inside}{BYTES}"));
    let ended = on(&["some taps"]);
    assert_eq!(ended.status, Some(1));
    let hint = "sheet: some taps is a file, and F comes before the file\n";
    assert!(ended.errors.starts_with(hint), "{}", ended.errors);
}

/// A column of `0.12500` and line ends is a multiple of 8 bytes, and small numbers.
#[test]
fn text_for_bytes() {
    let clone = Clone::built();
    let text = "0.12500\n".repeat(8);
    clone.write("column", &text);
    clone.write("line", "0.25 0.5\n");
    let input = Input {
        bytes: text.clone().into_bytes(),
        argument: Some("15".into()),
    };
    let words = format!("sheet: every coefficient is 0; {TEXT}");
    accepted(&clone, &input, &words);
    let column = clone.path("column").display().to_string();
    let ended = clone.run(&["sheet", "15", &column], b"");
    assert_eq!(
        (ended.status, &ended.out),
        (Some(0), &literal::sheet(&input))
    );
    assert_eq!(ended.errors, words);
    let line = clone.path("line").display().to_string();
    let ended = clone.run(&["sheet", "15", &line], b"");
    assert_eq!(ended.status, Some(1));
    assert!(ended.errors.ends_with(&format!("sheet: {TEXT}")));
    let mut shell = Command::new("sh");
    shell.args(["-c", "exec \"$0\" 15 <\"$1\""]);
    shell.arg(clone.path("sheet")).arg(&column);
    clone.prepare(&mut shell);
    assert_eq!(run(&mut shell, b"", Delivery::AtOnce).errors, words);
    for text in ["0.5\n", "0.5 0.25\n", "1e-3 1e-3\n1e-3 1\n"] {
        let ended = clone.run(&["sheet"], text.as_bytes());
        assert!(ended.errors.ends_with(&format!("sheet: {TEXT}")), "{text}");
    }
    let many = "0.5 # Mitte der Glättung\n".repeat(100);
    assert!(clone
        .run(&["sheet"], many.as_bytes())
        .errors
        .ends_with(BYTES));
}

/// Input that ends in an error is no sheet of what came before it.
#[test]
fn unreadable() {
    let clone = Clone::built();
    for line in ["exec \"$0\" 15 </", "exec 3</; exec \"$0\" 15 <&3"] {
        let mut shell = Command::new("sh");
        shell.args(["-c", line]).arg(clone.path("sheet"));
        clone.prepare(&mut shell);
        let ended = run(&mut shell, b"", Delivery::AtOnce);
        assert_eq!(
            (ended.status, ended.out.len()),
            (Some(2), 0),
            "{}",
            ended.errors
        );
        assert!(ended
            .errors
            .ends_with("sheet: the input could not be read, or there is no room for it\n"));
    }
    let mut command = clone.command("sheet");
    command.env("TMPDIR", "/no/such/folder");
    let ended = run(&mut command, &packed(&EXAMPLE), Delivery::AtOnce);
    assert_eq!((ended.status, ended.out.len()), (Some(2), 0));
    assert!(ended.errors.ends_with("sheet: no room for the input\n"));
}

#[test]
fn no_sheet() {
    let clone = Clone::built();
    for arguments in [
        &["sheet", "15", "/no/such/file"][..],
        &["sheet", "15", "/"],
        &["sheet", "15", "/dev/null", "x"],
    ] {
        let ended = clone.run(arguments, b"");
        assert_eq!((ended.status, ended.out.len()), (Some(2), 0));
        assert!(!ended.errors.is_empty());
    }
}

/// Through a shell: a closed standard input is no input, and a full disk is no sheet.
#[test]
fn closed_and_full() {
    let clone = Clone::built();
    let through = |line: &str| {
        let mut shell = Command::new("sh");
        shell.args(["-c", line]).arg(clone.path("sheet"));
        clone.prepare(&mut shell);
        run(&mut shell, &packed(&EXAMPLE), Delivery::AtOnce)
    };
    let ended = through("exec \"$0\" <&-");
    assert_eq!(ended.out, literal::sheet(&Input::without_argument(&[])));
    assert_eq!(ended.status, Some(1));
    for line in ["exec \"$0\" >/dev/full", "exec \"$0\" >&-"] {
        let ended = through(line);
        assert_eq!(ended.status, Some(2));
        assert!(!ended.errors.is_empty());
    }
}
