//! ./fir planes: its text added up to coefficients, which are rounded here, and what it turns down.

use fir_tests::commands::{ends_with, fir, printed, Folder};
use fir_tests::random::Random;
use fir_tests::sheet::input::packed;
use fir_tests::sheet::program::{root, run, Delivery};
use std::fs::write;
use std::process::Command;

/// A Gaussian of 5 by 5 taps, standard deviation 1: exp(-(r^2 + c^2) / 2), divided by the sum.
const GAUSSIAN: &str = "
0.0029690167439504972 0.013306209891013655 0.021938231279714646 0.013306209891013655 0.0029690167439504972
0.013306209891013655 0.059634295436180144 0.09832033134884578 0.059634295436180144 0.013306209891013655
0.021938231279714646 0.09832033134884578 0.16210282163712667 0.09832033134884578 0.021938231279714646
0.013306209891013655 0.059634295436180144 0.09832033134884578 0.059634295436180144 0.013306209891013655
0.0029690167439504972 0.013306209891013655 0.021938231279714646 0.013306209891013655 0.0029690167439504972
";

/// The digits of each cell, place 0 first, where every line has the form that it should have.
fn digits(text: &[u8], height: usize, width: usize) -> Vec<[i64; 32]> {
    let text = std::str::from_utf8(text).unwrap();
    let mut lines = text.strip_suffix("\r\n").unwrap().split("\r\n");
    assert_eq!(lines.next(), Some("plane,row,digits"));
    let mut cells = vec![[0; 32]; height * width];
    for plane in 0..32 {
        for row in 0..height {
            let line = lines.next().unwrap();
            let marks = line.strip_prefix(&format!("{plane},{row},")).unwrap();
            assert_eq!(marks.len(), width, "{line}");
            for (column, mark) in marks.chars().enumerate() {
                let digit = ['n', '0', '1'].iter().position(|known| *known == mark);
                cells[row * width + column][plane] = digit.unwrap() as i64 - 1;
            }
        }
    }
    assert_eq!(lines.next(), None);
    cells
}

/// The digits add up to the coefficients, and no two neighbours are nonzero: no other string of digits
/// has both, and the first form is such a one.
fn check(taps: &[f64], fraction_bits: i32, width: usize, text: &[u8]) {
    let cells = digits(text, taps.len() / width, width);
    for (tap, digits) in taps.iter().zip(cells) {
        let worth = |place: usize| digits[place] << place;
        let coefficient = (tap * 2f64.powi(fraction_bits)).round_ties_even() as i64;
        assert_eq!((0..32).map(worth).sum::<i64>(), coefficient, "{tap}");
        assert!(digits.windows(2).all(|pair| pair[0] * pair[1] == 0));
    }
}

fn taps_of(text: &str) -> Vec<f64> {
    let words = text.split_whitespace();
    words.map(|word| word.parse().unwrap()).collect()
}

/// 4-1, -8+2, 64-16-4+1 and 0.
#[test]
fn example() {
    let planes = [
        ["n0", "10"],
        ["01", "00"],
        ["10", "n0"],
        ["0n", "00"],
        ["00", "n0"],
        ["00", "00"],
        ["00", "10"],
    ];
    let mut text = String::from("plane,row,digits\r\n");
    for plane in 0..32 {
        let rows = planes.get(plane).unwrap_or(&["00", "00"]);
        text += &format!("{plane},0,{}\r\n{plane},1,{}\r\n", rows[0], rows[1]);
    }
    assert_eq!(
        printed(&["planes", "0", "2"], b"3 -6 45 0"),
        text.as_bytes()
    );
    let bytes = packed(&[3.0, -6.0, 45.0, 0.0]);
    for arguments in [["planes", "-b", "00", "02"], ["planes", "0", "2", "-b"]] {
        assert_eq!(printed(&arguments, &bytes), text.as_bytes());
    }
}

#[test]
fn gaussian() {
    let taps = taps_of(GAUSSIAN);
    assert_eq!(taps.len(), 25);
    let folder = Folder::new();
    let path = folder.join("some taps").display().to_string();
    write(&path, GAUSSIAN).unwrap();
    for f in ["4", "8", "15", "31"] {
        let text = printed(&["planes", f, "5"], GAUSSIAN.as_bytes());
        check(&taps, f.parse().unwrap(), 5, &text);
        assert!(printed(&["planes", f, "5", &path], b"") == text);
        assert!(printed(&["planes", "-b", f, "5", "-"], &packed(&taps)) == text);
    }
}

/// The smallest, the largest and the longest grids, and others at random.
#[test]
fn random_grids() {
    let mut random = Random::new(71);
    let mut sides = vec![(1, 1), (16, 16), (1, 16), (16, 1)];
    sides.extend((0..36).map(|_| (1 + random.below(16), 1 + random.below(16))));
    for (height, width) in sides {
        let taps: Vec<f64> = (0..height * width).map(|_| random.unit()).collect();
        let f = random.from_to(4, 31) as i32;
        let words = ["planes", &f.to_string(), &width.to_string()];
        let text: Vec<String> = taps.iter().map(|tap| format!("{tap:e}")).collect();
        let found = printed(&words, text.join("\n").as_bytes());
        check(&taps, f, width, &found);
        let words = [&words[..], &["-b"]].concat();
        assert!(printed(&words, &packed(&taps)) == found, "{words:?}");
    }
}

/// The coefficients at both bounds, a half and a subnormal tap.
#[test]
fn bounds() {
    let taps = [
        -1.0,
        1.0 - 2f64.powi(-31),
        0.0,
        -0.0,
        5e-324,
        5.0 * 2f64.powi(-32),
    ];
    let text = printed(&["planes", "31", "3", "-b"], &packed(&taps));
    check(&taps, 31, 3, &text);
    let lines: Vec<&[u8]> = text.split(|b| *b == b'\n').collect();
    assert_eq!(lines[1 + 2 * 31], b"31,0,n10\r");
    assert_eq!(lines[1..3], [b"0,0,0n0\r", b"0,1,000\r"]);
    assert_eq!(lines[3..5], [b"1,0,000\r", b"1,1,001\r"]);
}

/// What is wrong with F or the taps is said before anything about the grid.
#[test]
fn refusals() {
    let says = |words: &str| format!("fir planes: {words}\n");
    let none = says("there are no taps (refusal 1)");
    ends_with(1, &["planes", "15", "0"], b" # none\n", &none);
    ends_with(1, &["planes", "x", "0", "-b"], b"1234567", &none);
    let many = says("there are more than 256 taps (refusal 2)");
    ends_with(1, &["planes", "x", "0"], "1 ".repeat(257).as_bytes(), &many);
    ends_with(1, &["planes", "x", "0", "-b"], &[0; 8 * 257 + 1], &many);
    let cut = says("the input ends inside a tap of 8 bytes (refusal 12)");
    ends_with(1, &["planes", "x", "0", "-b"], &[255; 9], &cut);
    let f = says("F is not a decimal number from 0 to 31 (refusal 4)");
    for text in ["", "32", "+5", " 5", "0x5", "x", "-1"] {
        ends_with(1, &["planes", "--", text, "0"], b"nan", &f);
    }
    let nan = says("tap 1 is infinite or not a number (refusal 5)");
    ends_with(1, &["planes", "31", "17"], b"1 inf nan", &nan);
    let outside =
        says("tap 2 times 2^F rounds to a coefficient outside -2^31 to 2^31 - 1 (refusal 6)");
    ends_with(1, &["planes", "31", "2"], b"-1 0.5 1", &outside);
}

/// No side is divided by where it is 0, and none wraps where it is long.
#[test]
fn sides() {
    let words = "fir planes: a side of the grid is 0 or above 16 (refusal 14)\n";
    for width in [
        "0",
        "000",
        "17",
        "256",
        "4294967296",
        "4294967297",
        "18446744073709551616",
        "18446744073709551617",
        "99999999999999999999",
    ] {
        for count in [1, 16, 17, 256] {
            let taps = "1 ".repeat(count);
            ends_with(1, &["planes", "0", width], taps.as_bytes(), words);
        }
    }
    let long = "0".repeat(5000) + "17";
    ends_with(1, &["planes", "0", &long], b"1", words);
    // More than 16 rows, whether the last is full or not.
    for (count, width) in [(17, "1"), (256, "1"), (34, "2"), (33, "2"), (241, "15")] {
        let taps = "1 ".repeat(count);
        ends_with(1, &["planes", "0", width], taps.as_bytes(), words);
    }
}

#[test]
fn rows_that_are_not_full() {
    for (count, width, words) in [
        (1, "2", "1 of 2"),
        (1, "16", "1 of 16"),
        (3, "2", "1 of 2"),
        (31, "2", "1 of 2"),
        (47, "3", "2 of 3"),
        (255, "16", "15 of 16"),
    ] {
        let words = format!("fir planes: the last row has only {words} taps\n");
        let taps = "1 ".repeat(count);
        ends_with(2, &["planes", "0", width], taps.as_bytes(), &words);
        let bytes = packed(&vec![1.0; count]);
        ends_with(2, &["planes", "-b", "0", width], &bytes, &words);
    }
}

/// Unreadable text is said with its line, and nothing is printed.
#[test]
fn text_that_is_no_taps() {
    let words = "fir planes: line 2: not a number: 3,4\n";
    ends_with(2, &["planes", "15", "0"], b"1 2\n3,4", words);
}

#[test]
fn a_file_for_a_number() {
    let folder = Folder::new();
    let path = folder.join("taps.txt").display().to_string();
    write(&path, "1").unwrap();
    let words = format!(
        "fir planes: {path} is a file, and F comes before the file\n\
        fir planes: F is not a decimal number from 0 to 31 (refusal 4)\n"
    );
    ends_with(1, &["planes", &path, "1"], b"1", &words);
    let words = format!(
        "fir planes: {path} is no whole number from 0 on\n\
        fir planes: usage: fir planes F WIDTH [-b] [FILE]\n"
    );
    ends_with(2, &["planes", "15", &path], b"1", &words);
}

/// Planes of zeros are planes; words say that they are.
#[test]
fn zeros() {
    for (arguments, bytes, words) in [
        (&["planes", "0", "2"][..], b"0.1 0".to_vec(), ""),
        (
            &["planes", "-b", "0", "2"],
            packed(&[0.1, 0.0]),
            "; with -b a tap is 8 bytes",
        ),
    ] {
        let ended = fir(arguments, &bytes);
        assert_eq!(ended.status, Some(0));
        assert_eq!(digits(&ended.out, 1, 2), [[0; 32]; 2]);
        let words = format!("fir planes: every coefficient is 0{words}\n");
        assert_eq!(ended.errors, words);
    }
}

/// The largest text, which is written in pieces: a full disk, a limit on files, a reader that has gone.
#[test]
fn output_that_ends_early() {
    let taps = "1 ".repeat(256);
    let through = |line: &str| {
        let mut shell = Command::new("bash");
        shell.args(["-c", line]).arg(root().join("fir"));
        run(&mut shell, taps.as_bytes(), Delivery::AtOnce)
    };
    let whole = printed(&["planes", "0", "16"], taps.as_bytes());
    assert!(whole.len() > 10_000, "{}", whole.len());
    let ended = through("exec \"$0\" planes 0 16 >/dev/full");
    let words = "fir planes: cannot write the output: No space left on device\n";
    assert_eq!((ended.status, ended.errors.as_str()), (Some(2), words));
    let folder = Folder::new();
    let path = folder.join("planes.csv").display().to_string();
    let ended = through(&format!("ulimit -f 4; exec \"$0\" planes 0 16 >'{path}'"));
    let words = "fir planes: cannot write the output: File too large\n";
    assert_eq!((ended.status, ended.errors.as_str()), (Some(2), words));
    let ended = through("\"$0\" planes 0 16 | head -n 1");
    assert_eq!((ended.status, ended.errors.as_str()), (Some(0), ""));
    assert_eq!(ended.out, b"plane,row,digits\r\n");
}
