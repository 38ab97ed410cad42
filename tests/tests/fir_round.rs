//! ./fir round and ./fir sheet: taps from text and bytes, beside the literal rules.

use fir_tests::commands::{ends_with, fir, printed, Folder};
use fir_tests::random::Random;
use fir_tests::sheet::input::{packed, Input};
use fir_tests::sheet::literal;
use fir_tests::sheet::program::root;
use fir_tests::taps::literal::{tap, Tap};
use std::fs::{read, write};

fn words(arguments: &[&str], bytes: &[u8]) -> Vec<Vec<String>> {
    let text = String::from_utf8(printed(arguments, bytes)).unwrap();
    let line = |line: &str| line.split_whitespace().map(String::from).collect();
    text.lines().map(line).collect()
}

/// The lines for these taps: each by the literal rule, and what stands below them.
fn check(taps: &[f64], fraction_bits: u32, normalised: bool, printed: &[Vec<String>]) {
    let sum = taps.iter().fold(0.0, |sum, tap| sum + tap);
    let divisor = if normalised { sum } else { 1.0 };
    assert_eq!(printed[0], ["number", "tap", "coefficient", "leftover"]);
    let [mut total, mut largest] = [0.0, 0.0];
    for (i, given) in taps.iter().enumerate() {
        let (n, leftover) = match tap((given / divisor).to_bits(), fraction_bits) {
            Tap::Exact(n) => (n, 0.0),
            Tap::Rounded(n, leftover) => (n, f64::from_bits(leftover)),
            Tap::Refused(number) => panic!("refusal {number}"),
        };
        let line = &printed[1 + i];
        assert_eq!((&line[0], &line[2]), (&i.to_string(), &n.to_string()));
        assert_eq!(line[1].parse::<f64>().unwrap().to_bits(), given.to_bits());
        assert_eq!(
            line[3].parse::<f64>().unwrap().to_bits(),
            leftover.to_bits()
        );
        total += n as f64;
        if f64::abs(leftover) > f64::abs(largest) {
            largest = leftover;
        }
    }
    let last = &printed[1 + taps.len()..];
    assert_eq!(last[0][0], "divisor");
    assert_eq!(last[0][1].parse(), Ok(divisor));
    assert_eq!(last[1][..2].join(" "), "largest leftover");
    assert_eq!(last[1][2].parse(), Ok(largest));
    let gain = total / 2f64.powi(fraction_bits as i32);
    assert_eq!(last[2][3].parse(), Ok(gain));
    let wanted = format!("gain at rest {} ({total} / 2^{fraction_bits})", last[2][3]);
    assert_eq!(last[2].join(" "), wanted);
    assert_eq!(last.len(), 3);
}

#[test]
fn random_sets() {
    let mut random = Random::new(15);
    for i in 0..60 {
        let count = random.from_to(1, if i == 0 { 256 } else { 40 }) as usize;
        let taps: Vec<f64> = (0..count).map(|_| random.sign() * random.unit()).collect();
        let fraction_bits = random.from_to(0, 30) as u32;
        let f = fraction_bits.to_string();
        let text: Vec<String> = taps.iter().map(|tap| format!("{tap:e}")).collect();
        let text = text.join(random.pick(&[" ", "\n", "\r\n", "\t # 7\n"]));
        check(
            &taps,
            fraction_bits,
            false,
            &words(&["round", &f], text.as_bytes()),
        );
        check(
            &taps,
            fraction_bits,
            false,
            &words(&["round", &f, "-b"], &packed(&taps)),
        );
        let positive: Vec<f64> = taps.iter().map(|tap| tap.abs()).collect();
        check(
            &positive,
            fraction_bits,
            true,
            &words(&["round", "-n", "-b", &f], &packed(&positive)),
        );
    }
}

/// A half goes to the even number, and its leftover's sign says where that is.
#[test]
fn halves() {
    let taps = [0.375, 0.625, -0.625, -0.375, 0.125, 0.5];
    let lines = words(&["round", "2"], b"0.375 0.625 -0.625 -0.375 0.125 0.5");
    check(&taps, 2, false, &lines);
    let column = |number: usize| lines[1..7].iter().map(move |line| line[number].as_str());
    assert!(column(2).eq(["2", "2", "-2", "-2", "0", "2"]));
    assert!(column(3).eq(["-0.5", "0.5", "-0.5", "0.5", "0.5", "0"]));
    assert_eq!(lines[8].join(" "), "largest leftover -0.5");
}

#[test]
fn refusals() {
    let says = |number: &str| format!("fir round: {number}\n");
    let none = says("there are no taps (refusal 1)");
    ends_with(1, &["round", "15"], b" # none\n", &none);
    ends_with(1, &["round", "x", "-b"], b"1234567", &none);
    let many = says("there are more than 256 taps (refusal 2)");
    ends_with(1, &["round", "15"], "1 ".repeat(257).as_bytes(), &many);
    ends_with(1, &["round", "x", "-b"], &[0; 8 * 257 + 1], &many);
    let cut = says("the input ends inside a tap of 8 bytes (refusal 12)");
    ends_with(1, &["round", "x", "-b"], &[255; 9], &cut);
    let f = says("F is not a decimal number from 0 to 31 (refusal 4)");
    for text in [
        "",
        "32",
        "+5",
        " 5",
        "5 ",
        "0x5",
        "1e1",
        "4294967311",
        "x",
        "15.0",
        "-1",
    ] {
        ends_with(1, &["round", "--", text], b"nan", &f);
    }
    let nan = says("tap 1 is infinite or not a number (refusal 5)");
    ends_with(1, &["round", "-n", "31"], b"1 inf nan", &nan);
    let sum =
        "the sum of the taps is zero, infinite or not a number, or tap 0 divided by it is infinite";
    ends_with(
        1,
        &["round", "-n", "31"],
        b"1 -1",
        &says(&format!("{sum} (refusal 7)")),
    );
    let quotient = says("tap 1 divided by the sum of the taps is infinite (refusal 7)");
    ends_with(
        1,
        &["round", "-n", "31"],
        b"0 1e300 -1e300 5e-324",
        &quotient,
    );
    let outside =
        says("tap 2 times 2^F rounds to a coefficient outside -2^31 to 2^31 - 1 (refusal 6)");
    ends_with(1, &["round", "31"], b"-1 0.5 1", &outside);
}

/// A file where F should be gets a hint, whatever the refusal.
#[test]
fn a_file_for_f() {
    let folder = Folder::new();
    let path = folder.join("taps.txt").display().to_string();
    write(&path, "1").unwrap();
    let hint = |name| format!("fir {name}: {path} is a file, and F comes before the file\n");
    let words = hint("round") + "fir round: F is not a decimal number from 0 to 31 (refusal 4)\n";
    ends_with(1, &["round", &path, &path], b"", &words);
    let ended = fir(&["sheet", &path], b"1");
    assert_eq!(
        (ended.status, ended.out),
        (Some(1), literal::sheet(&Input::new(&[1.0], "x")))
    );
    assert!(ended.errors.starts_with(&hint("sheet")), "{}", ended.errors);
}

/// Unreadable text is said with its line, and nothing is printed.
#[test]
fn text_that_is_no_taps() {
    for command in ["round", "sheet"] {
        for (text, words) in [
            ("1 2\n3,4", "line 2: not a number: 3,4"),
            ("\n# 1\n1e400", "line 3: past the range of binary64: 1e400"),
            (
                "1 \u{1}\u{7f}",
                "line 1: not a number: ??; taps of 8 bytes are read with -b",
            ),
        ] {
            ends_with(
                2,
                &[command, "15"],
                text.as_bytes(),
                &format!("fir {command}: {words}\n"),
            );
        }
    }
}

/// A sheet from text and from bytes is the program's.
#[test]
fn sheets() {
    let example = [3.0, -6.0, 45.0, 0.0].map(|tap| tap / 32768.0);
    let text = "9.1552734375e-05 -0.00018310546875 0x2.dp-11 0";
    let wanted = literal::sheet(&Input::new(&example, "15"));
    assert_eq!(printed(&["sheet"], text.as_bytes()), wanted);
    assert_eq!(printed(&["sheet", "15"], text.as_bytes()), wanted);
    assert_eq!(printed(&["sheet", "-b", "015"], &packed(&example)), wanted);
    let mut random = Random::new(16);
    for _ in 0..30 {
        let count = random.from_to(1, 256) as usize;
        let taps: Vec<f64> = (0..count).map(|_| random.sign() * random.unit()).collect();
        let f = random.from_to(8, 30).to_string();
        let text: Vec<String> = taps.iter().map(|tap| format!("{tap:e}")).collect();
        let wanted = literal::sheet(&Input::new(&taps, &f));
        assert_eq!(printed(&["sheet", &f], text.join("\n").as_bytes()), wanted);
        assert_eq!(printed(&["sheet", "-b", &f], &packed(&taps)), wanted);
    }
}

/// The refused sheet is printed too, with words and status 1.
#[test]
fn refused_sheets() {
    let many = "1 ".repeat(300);
    for (text, taps, words) in [
        ("", vec![], "there are no taps (refusal 1)"),
        (
            "1 nan",
            vec![1.0, f64::NAN],
            "tap 1 is infinite or not a number (refusal 5)",
        ),
        (
            many.as_str(),
            vec![1.0; 257],
            "there are more than 256 taps (refusal 2)",
        ),
    ] {
        let ended = fir(&["sheet", "15"], text.as_bytes());
        assert_eq!(ended.out, literal::sheet(&Input::new(&taps, "15")));
        assert_eq!(
            (ended.status, ended.errors),
            (Some(1), format!("fir sheet: {words}\n"))
        );
    }
    let mut input = Input::new(&[1.0], "32");
    assert_eq!(
        fir(&["sheet", "-b", "32"], &input.bytes).out,
        literal::sheet(&input)
    );
    input.bytes.push(7);
    let ended = fir(&["sheet", "-b", "32"], &input.bytes);
    assert_eq!(ended.out, literal::sheet(&input));
    let words = "fir sheet: the input ends inside a tap of 8 bytes (refusal 12)\n";
    assert_eq!((ended.status, ended.errors.as_str()), (Some(1), words));
    let ended = fir(&["sheet", "0"], b"0.1 0");
    assert_eq!(
        (ended.status, ended.errors.as_str()),
        (Some(0), "fir sheet: every coefficient is 0\n")
    );
}

/// The examples have their sheets beside them.
#[test]
fn examples() {
    let names = [
        "exponential",
        "gaussian",
        "low_pass",
        "moving_average",
        "raised_cosine",
    ];
    for name in names {
        let path = root().join("examples").join(name);
        let text = path.with_extension("txt").display().to_string();
        let sheet = printed(&["sheet", "15", &text], b"");
        assert_eq!(sheet, read(path.with_extension("csv")).unwrap(), "{name}");
        let bytes = printed(&["taps", &text], b"");
        let input = Input {
            bytes,
            argument: Some("15".into()),
        };
        assert_eq!(sheet, literal::sheet(&input), "{name}");
    }
    let texts = root().join("examples").read_dir().unwrap();
    let texts =
        texts.filter(|file| file.as_ref().unwrap().path().extension() == Some("txt".as_ref()));
    assert_eq!(texts.count(), names.len());
}
