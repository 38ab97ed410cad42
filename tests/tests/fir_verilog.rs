//! ./fir verilog beside the sheet of the same taps, and what it turns down.

use fir_tests::commands::clone::Clone;
use fir_tests::commands::{ends_with, fir, printed, Folder};
use fir_tests::random::Random;
use fir_tests::sheet::input::{packed, Input};
use fir_tests::sheet::literal;
use fir_tests::sheet::program::{root, run, Delivery};
use std::fs::{read, write};
use std::process::Command;
use std::thread;

const EXAMPLE: &[u8] = b"9.1552734375e-05 -0.00018310546875 0x2.dp-11 0";
const MODULE: &str = "\
module smoother(input signed [15:0] x, output signed [63:0] t0, output signed [63:0] t1, \
output signed [63:0] t2, output signed [63:0] t3);
wire signed [63:0] n0;
wire signed [63:0] n1;
wire signed [63:0] n2;
assign n0 = x;
assign n1 = (n0 <<< 1) + n0;
assign n2 = (n1 <<< 4) - n1;
assign t0 = n1 <<< 0;
assign t1 = -(n1 <<< 1);
assign t2 = n2 <<< 0;
assign t3 = 0;
endmodule
";

/// What a line of a sheet becomes: a port, a wire and an assign, each empty where there is none.
fn parts(line: &str) -> [String; 3] {
    let fields: Vec<&str> = line.split(',').collect();
    let [kind, number, left, shift, sign, right, _] = fields[..] else {
        panic!("{line}")
    };
    let wire = format!("wire signed [63:0] n{number};\n");
    let port = format!(", output signed [63:0] t{number}");
    let assigned = match (kind, sign) {
        ("node", "") => "x".into(),
        ("node", "r") => format!("n{right} - (n{left} <<< {shift})"),
        ("node", _) => format!("(n{left} <<< {shift}) {sign} n{right}"),
        ("tap", "") => "0".into(),
        ("tap", "-") => format!("-(n{left} <<< {shift})"),
        _ => format!("n{left} <<< {shift}"),
    };
    match kind {
        "node" => ["".into(), wire, format!("assign n{number} = {assigned};\n")],
        "tap" => [port, "".into(), format!("assign t{number} = {assigned};\n")],
        _ => Default::default(),
    }
}

/// The module of the network on a sheet.
fn module(sheet: &[u8]) -> String {
    let sheet = String::from_utf8(sheet.to_vec()).unwrap();
    let lines: Vec<[String; 3]> = sheet.lines().map(parts).collect();
    let [ports, wires, assigns] = [0, 1, 2].map(|part| {
        let texts = lines.iter().map(|line| line[part].as_str());
        texts.collect::<String>()
    });
    format!("module smoother(input signed [15:0] x{ports});\n{wires}{assigns}endmodule\n")
}

/// 256 taps with many digits, for a text that no buffer holds.
fn large() -> Vec<u8> {
    let mut random = Random::new(61);
    let taps: Vec<f64> = (0..256).map(|_| random.sign() * random.unit()).collect();
    packed(&taps)
}

#[test]
fn example() {
    assert_eq!(MODULE.len(), 376);
    assert_eq!(printed(&["verilog", "15"], EXAMPLE), MODULE.as_bytes());
    let bytes = packed(&[3.0, -6.0, 45.0, 0.0]);
    assert_eq!(printed(&["verilog", "-b", "00"], &bytes), MODULE.as_bytes());
    let folder = Folder::new();
    let path = folder.join("some taps").display().to_string();
    write(&path, EXAMPLE).unwrap();
    for arguments in [["verilog", "15", &path], ["verilog", "15", "-"]] {
        assert_eq!(printed(&arguments, EXAMPLE), MODULE.as_bytes());
    }
    assert_eq!(module(&printed(&["sheet", "15"], EXAMPLE)), MODULE);
}

#[test]
fn as_the_sheet() {
    let mut random = Random::new(62);
    for i in 0..30 {
        let count = if i == 0 { 1 } else { random.from_to(1, 256) } as usize;
        let taps: Vec<f64> = (0..count).map(|_| random.sign() * random.unit()).collect();
        let f = random.from_to(4, 30).to_string();
        let wanted = module(&literal::sheet(&Input::new(&taps, &f)));
        let text: Vec<String> = taps.iter().map(|tap| format!("{tap:e}")).collect();
        let found = printed(&["verilog", &f], text.join("\n").as_bytes());
        assert!(found == wanted.as_bytes(), "F {f}, taps {taps:?}");
        assert!(printed(&["verilog", "-b", &f], &packed(&taps)) == found);
    }
}

#[test]
fn examples() {
    for name in [
        "exponential",
        "gaussian",
        "low_pass",
        "moving_average",
        "raised_cosine",
    ] {
        let path = root().join("examples").join(name);
        let text = path.with_extension("txt").display().to_string();
        let sheet = read(path.with_extension("csv")).unwrap();
        let found = printed(&["verilog", "15", &text], b"");
        assert_eq!(String::from_utf8(found).unwrap(), module(&sheet), "{name}");
    }
}

/// In the order of the table, with nothing on standard output.
#[test]
fn refusals() {
    let says = |words: &str| format!("fir verilog: {words}\n");
    let none = says("there are no taps (refusal 1)");
    ends_with(1, &["verilog", "15"], b" # none\n", &none);
    ends_with(1, &["verilog", "x", "-b"], b"1234567", &none);
    let many = says("there are more than 256 taps (refusal 2)");
    ends_with(1, &["verilog", "x"], "1 ".repeat(257).as_bytes(), &many);
    ends_with(1, &["verilog", "x", "-b"], &[0; 8 * 257 + 1], &many);
    let cut = says("the input ends inside a tap of 8 bytes (refusal 12)");
    ends_with(1, &["verilog", "x", "-b"], &[255; 9], &cut);
    let f = says("F is not a decimal number from 0 to 31 (refusal 4)");
    for text in ["", "32", "+5", " 5", "0x5", "x", "-1"] {
        ends_with(1, &["verilog", "--", text], b"nan", &f);
    }
    let nan = says("tap 1 is infinite or not a number (refusal 5)");
    ends_with(1, &["verilog", "31"], b"1 inf nan", &nan);
    let outside =
        says("tap 2 times 2^F rounds to a coefficient outside -2^31 to 2^31 - 1 (refusal 6)");
    ends_with(1, &["verilog", "31"], b"-1 0.5 1", &outside);
}

/// Unreadable text is said with its line, and nothing is printed.
#[test]
fn text_that_is_no_taps() {
    let words = "fir verilog: line 2: not a number: 3,4\n";
    ends_with(2, &["verilog", "15"], b"1 2\n3,4", words);
}

#[test]
fn a_file_for_f() {
    let folder = Folder::new();
    let path = folder.join("taps.txt").display().to_string();
    write(&path, "1").unwrap();
    let words = format!(
        "fir verilog: {path} is a file, and F comes before the file\n\
        fir verilog: F is not a decimal number from 0 to 31 (refusal 4)\n"
    );
    ends_with(1, &["verilog", &path], b"1", &words);
}

/// A module of zeros is a module; words say that it is one.
#[test]
fn zeros() {
    let wanted = module(&literal::sheet(&Input::new(&[0.0, 0.0], "0")));
    for (arguments, bytes, words) in [
        (&["verilog", "0"][..], b"0.1 0".to_vec(), ""),
        (
            &["verilog", "-b", "0"],
            packed(&[0.1, 0.0]),
            "; with -b a tap is 8 bytes",
        ),
    ] {
        let ended = fir(arguments, &bytes);
        assert_eq!((ended.status, ended.out), (Some(0), wanted.clone().into()));
        let words = format!("fir verilog: every coefficient is 0{words}\n");
        assert_eq!(ended.errors, words);
    }
}

/// A text that is written in pieces: a full disk, a limit on files, a reader that has gone.
#[test]
fn output_that_ends_early() {
    let through = |line: &str| {
        let mut shell = Command::new("bash");
        shell.args(["-c", line]).arg(root().join("fir"));
        run(&mut shell, &large(), Delivery::AtOnce)
    };
    let whole = printed(&["verilog", "-b", "30"], &large());
    assert!(whole.len() > 100_000, "{}", whole.len());
    let ended = through("exec \"$0\" verilog -b 30 >/dev/full");
    let words = "fir verilog: cannot write the output: No space left on device\n";
    assert_eq!((ended.status, ended.errors.as_str()), (Some(2), words));
    let folder = Folder::new();
    let path = folder.join("smoother.v").display().to_string();
    let ended = through(&format!(
        "ulimit -f 32; exec \"$0\" verilog -b 30 >'{path}'"
    ));
    let words = "fir verilog: cannot write the output: File too large\n";
    assert_eq!((ended.status, ended.errors.as_str()), (Some(2), words));
    let ended = through("\"$0\" verilog -b 30 | head -n 1");
    assert_eq!((ended.status, ended.errors.as_str()), (Some(0), ""));
    assert_eq!(
        ended.out,
        whole.split_inclusive(|b| *b == b'\n').next().unwrap()
    );
}

/// First calls at once make the library once, and each prints its own.
#[test]
fn two_at_once() {
    let clone = Clone::fresh();
    clone.write("bin/rest", "");
    let large = large();
    let (first, second) = thread::scope(|scope| {
        let first = scope.spawn(|| clone.run(&["fir", "verilog", "15"], EXAMPLE));
        let second = scope.spawn(|| clone.run(&["fir", "verilog", "-b", "30"], &large));
        (first.join().unwrap(), second.join().unwrap())
    });
    assert_eq!((first.status, second.status), (Some(0), Some(0)));
    assert_eq!(first.out, MODULE.as_bytes());
    assert!(second.out == printed(&["verilog", "-b", "30"], &large));
    assert_eq!(clone.calls().len(), 6, "{:?}", clone.calls());
}
