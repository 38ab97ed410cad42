//! ./fir taps: text to 8 bytes a tap, and back.

use fir_tests::commands::{ends_with, printed};
use fir_tests::random::Random;
use fir_tests::sheet::input::packed;

const RANDOM_TAPS: usize = 20_000;

#[test]
fn taps_from_text() {
    let text = b"0.5 -0.25\r\n# a comment 7\n\n\t1e-3#8\n 0x1.8p-4 +2 .5 -0 1e-400 inf";
    let small = [0.5, -0.25, 1e-3, 0.09375, 2.0, 0.5, -0.0, 0.0];
    let taps = [&small[..], &[f64::INFINITY]].concat();
    assert_eq!(printed(&["taps"], text), packed(&taps));
    assert_eq!(printed(&["taps"], b" # none\n"), b"");
    let nan = printed(&["taps"], b"nan");
    assert!(f64::from_le_bytes(nan.try_into().unwrap()).is_nan());
    let text = printed(&["taps", "-b"], &packed(&[0.1, -0.0, 1e300, f64::NAN]));
    assert_eq!(text, b"0.1\n-0\n1e+300\nnan\n");
    let text = printed(&["taps", "--hex"], &packed(&[0.1, -1.0, f64::NAN]));
    assert_eq!(text, b"0x1.999999999999ap-4\n-0x1p+0\nnan\n");
}

/// Line ends of every kind close a comment and count; a mark of UTF-8 at the start is none of the text.
#[test]
fn line_ends_and_marks() {
    for end in ["\n", "\r\n", "\r"] {
        let text = format!("0.5 # first{end}0.25{end}#{end}##{end}-1#x");
        assert_eq!(
            printed(&["taps"], text.as_bytes()),
            packed(&[0.5, 0.25, -1.0]),
            "{end:?}"
        );
        let wrong = format!("#{end}1 # 2{end}{end}\t1 x");
        ends_with(
            2,
            &["taps"],
            wrong.as_bytes(),
            "fir taps: line 4: not a number: x\n",
        );
    }
    for text in [
        "\u{feff}0.5",
        "\u{feff} 0.5",
        "\u{feff}\n0.5\n",
        "\u{feff}#\n0.5",
    ] {
        assert_eq!(
            printed(&["taps"], text.as_bytes()),
            packed(&[0.5]),
            "{text:?}"
        );
    }
    assert_eq!(printed(&["taps"], "\u{feff}".as_bytes()), b"");
    assert_eq!(
        printed(&["taps"], format!("0.5{}", "0".repeat(1996)).as_bytes()),
        packed(&[0.5])
    );
}

#[test]
fn text_that_is_no_taps() {
    for (text, words) in [
        ("1 2\n3,4", "line 2: not a number: 3,4"),
        ("0.5x", "line 1: not a number: 0.5x"),
        ("1 --2", "line 1: not a number: --2"),
        ("\n# 1\n1e400", "line 3: past the range of binary64: 1e400"),
        (
            "1 \0",
            "line 1: not a number: ?; taps of 8 bytes are read with -b",
        ),
    ] {
        ends_with(
            2,
            &["taps"],
            text.as_bytes(),
            &format!("fir taps: {words}\n"),
        );
    }
    let long = "0.".to_string() + &"0".repeat(5000) + "1";
    let shown = format!(
        "fir taps: line 1: too long for a number: 0.{}..\n",
        "0".repeat(38)
    );
    ends_with(2, &["taps"], long.as_bytes(), &shown);
    let cut = "fir taps: the input ends inside a tap of 8 bytes (refusal 12)\n";
    ends_with(1, &["taps", "-b"], &packed(&[1.0, 2.0])[..15], cut);
}

/// Random taps to both kinds of text and back; and decimal text beside Rust's own reading of it.
#[test]
fn random_taps() {
    let mut random = Random::new(41);
    let bits = |_| f64::from_bits(random.bits());
    let taps: Vec<f64> = (0..RANDOM_TAPS)
        .map(bits)
        .filter(|tap| !tap.is_nan())
        .collect();
    for options in [&["taps", "-b"][..], &["taps", "--hex"]] {
        let text = printed(options, &packed(&taps));
        assert!(printed(&["taps"], &text) == packed(&taps), "{options:?}");
    }
    let mut decimal = || {
        let exponent = random.from_to(-330, 300);
        format!("{}.{}e{exponent}", random.below(9), random.bits())
    };
    let words: Vec<String> = (0..RANDOM_TAPS).map(|_| decimal()).collect();
    let wanted: Vec<f64> = words.iter().map(|word| word.parse().unwrap()).collect();
    assert!(printed(&["taps"], words.join("\n").as_bytes()) == packed(&wanted));
}
