//! The sheet program, as a process, against the literal sheet, byte for byte.

mod sheet_check;

use fir_tests::answer::Answer;
use fir_tests::random::Random;
use fir_tests::sheet::input::{packed, Input};
use fir_tests::sheet::mixture::{self, BAD_ARGUMENTS, MANY_ZEROS};
use fir_tests::sheet::program::{self, Delivery};
use fir_tests::sheet::{literal, text};
use sheet_check::{check, check_delivered, Tally};
use std::fs::File;
use std::process::{Command, Stdio};

const RANDOM_INPUTS: usize = 3_000;
const EXAMPLE: [f64; 4] = [3.0 / 32768.0, -6.0 / 32768.0, 45.0 / 32768.0, 0.0];
const EXAMPLE_SHEET: &str = "kind,number,left,shift,sign,right,value\r
node,0,,,,,1\r
node,1,0,1,+,0,3\r
node,2,1,4,-,1,45\r
tap,0,1,0,+,,3\r
tap,1,1,1,-,,-6\r
tap,2,2,0,+,,45\r
tap,3,,,,,0\r
total,4,,,,,\r
";

fn is_refused(input: &Input, refusal: u32, place: u32) {
    check(input, &mut Tally::default());
    let wanted = text::refused(Answer { refusal, place });
    assert_eq!(literal::sheet(input), wanted.as_bytes(), "{}", input.show());
}

#[test]
fn figures_of_the_sheet() {
    let tally = &mut Tally::default();
    for input in [
        Input::without_argument(&EXAMPLE),
        Input::new(&EXAMPLE, "15"),
        Input::new(&EXAMPLE, "015"),
        Input::new(&EXAMPLE.map(|tap| tap * 32768.0), "0"),
    ] {
        check(&input, tally);
        assert_eq!(literal::sheet(&input), EXAMPLE_SHEET.as_bytes());
    }
    let refused = literal::sheet(&Input::new(&[1.0, 1e300], "15"));
    let wanted = "kind,number,left,shift,sign,right,value\r\nrefused,6,,,,,1\r\n";
    assert_eq!(refused, wanted.as_bytes());
}

/// 0.5, 1.5, 2.5 and their negatives times 2^-F, and the halves beyond both ends of the range.
#[test]
fn taps_that_are_halves() {
    let sheet = "kind,number,left,shift,sign,right,value\r
node,0,,,,,1\r
tap,0,,,,,0\r
tap,1,0,1,+,,2\r
tap,2,0,1,+,,2\r
tap,3,,,,,0\r
tap,4,0,1,-,,-2\r
tap,5,0,1,-,,-2\r
total,3,,,,,\r
";
    let tally = &mut Tally::default();
    for fraction_bits in 0..=31 {
        let unit = (1u64 << fraction_bits) as f64;
        let taps = [0.5, 1.5, 2.5, -0.5, -1.5, -2.5].map(|tap| tap / unit);
        let input = Input::new(&taps, &fraction_bits.to_string());
        check(&input, tally);
        assert_eq!(literal::sheet(&input), sheet.as_bytes());
        let ends = [-2147483648.5, 2147483647.5].map(|tap| tap / unit);
        is_refused(&Input::new(&ends, &fraction_bits.to_string()), 6, 1);
        let least = Input::new(&ends[..1], &fraction_bits.to_string());
        check(&least, tally);
        let sheet = String::from_utf8(literal::sheet(&least)).unwrap();
        assert!(sheet.contains("\r\ntap,0,0,31,-,,-2147483648\r\n"));
    }
    assert_eq!(tally.accepted, 2 * 32);
}

#[test]
fn every_fraction_bits() {
    let tally = &mut Tally::default();
    let taps = [0.3, -0.7, 0.0001, 0.5, -1.0];
    for fraction_bits in 0..=31 {
        for zeros in [0, 1, 9, 10, 300, MANY_ZEROS, 131_000] {
            let argument = "0".repeat(zeros) + &fraction_bits.to_string();
            check(&Input::new(&taps, &argument), tally);
        }
    }
    assert_eq!(tally.accepted, 32 * 7);
    check(&Input::new(&taps, &"0".repeat(131_071)), tally);
    assert_eq!(tally.accepted, 32 * 7 + 1);
}

#[test]
fn arguments_that_are_refused() {
    for argument in BAD_ARGUMENTS {
        is_refused(&Input::new(&EXAMPLE, argument), 4, 0);
        is_refused(&Input::new(&[], argument), 1, 0);
    }
    for end in ["32", "x", " ", "15 ", "4294967311"] {
        let argument = "0".repeat(MANY_ZEROS) + end;
        is_refused(&Input::new(&EXAMPLE, &argument), 4, 0);
    }
    for byte in (1..=255).filter(|byte: &u8| !byte.is_ascii_digit()) {
        for argument in [vec![byte], vec![b'1', byte], vec![byte, b'1']] {
            let input = Input {
                bytes: packed(&EXAMPLE),
                argument: Some(argument),
            };
            is_refused(&input, 4, 0);
        }
    }
}

#[test]
fn further_arguments_are_ignored() {
    for further in [&["abc"][..], &["", "31"], &["0", "0", "0"]] {
        let mut command = Command::new(program::sheet());
        command.arg("15").args(further);
        let ended = program::run(&mut command, &packed(&EXAMPLE), Delivery::AtOnce);
        assert_eq!(ended.out, EXAMPLE_SHEET.as_bytes());
    }
}

/// Every number of bytes up to five taps and around 256, with a good and a bad argument.
#[test]
fn pieces_of_taps() {
    let bytes = packed(&[0.25; 260]);
    let mut tally = Tally::default();
    for count in (0..=41).chain(2040..=2070) {
        for argument in ["4", "abc"] {
            let input = Input {
                bytes: bytes[..count].to_vec(),
                argument: Some(argument.into()),
            };
            check(&input, &mut tally);
        }
    }
    assert_eq!(tally.accepted, 7);
    assert!([1, 2, 4, 12].iter().all(|n| tally.refused[*n] >= 7));
}

#[test]
fn order_of_the_refusals() {
    let with = |taps: &[f64], piece: &[u8], argument: &str| Input {
        bytes: [&packed(taps), piece].concat(),
        argument: Some(argument.into()),
    };
    let many = vec![f64::NAN; 257];
    is_refused(&with(&[], &[0; 7], "x"), 1, 0);
    is_refused(&with(&many, &[1], "x"), 2, 0);
    is_refused(&with(&many[1..], &[1], "x"), 12, 0);
    is_refused(&with(&many[1..], &[], "x"), 4, 0);
    is_refused(
        &with(&[1e9, -1e300, f64::NAN, f64::INFINITY], &[], "15"),
        5,
        2,
    );
    is_refused(&with(&[0.0, -1e300, 1e9], &[], "15"), 6, 1);
    is_refused(&with(&[0.5, 1.0], &[], "31"), 6, 1);
    for place in 0..256 {
        let mut taps = [0.5; 256];
        taps[place] = 1e10;
        is_refused(&with(&taps, &[], "1"), 6, place as u32);
        taps[255 - place] = f64::NAN;
        is_refused(&with(&taps, &[], "1"), 5, 255 - place as u32);
    }
}

#[test]
fn input_in_pieces() {
    let mut random = Random::new(31);
    let mut tally = Tally::default();
    for size in [1, 1, 1, 2, 3, 5, 7, 8, 9, 64, 2055] {
        for count in [1, 4, 30] {
            let input = mixture::large_set(&mut random, count);
            check_delivered(&input, Delivery::Pieces(size), &mut tally);
        }
        let mut piece = Input::new(&[0.25; 256], "2");
        check_delivered(&piece, Delivery::Pieces(size), &mut tally);
        piece.bytes.push(0);
        check_delivered(&piece, Delivery::Pieces(size), &mut tally);
        piece.bytes.extend([0; 100]);
        check_delivered(&piece, Delivery::Pieces(size), &mut tally);
    }
    assert_eq!(tally.accepted, 44);
}

/// Nothing past 257 taps need be read, and a program that reads no more may close the pipe.
#[test]
fn endless_input() {
    let input = Input {
        bytes: vec![0x3f; 1_000_000],
        argument: None,
    };
    is_refused(&input, 2, 0);
    let mut command = Command::new(program::sheet());
    command.stdin(File::open("/dev/zero").unwrap());
    let out = command.output().unwrap().stdout;
    assert_eq!(out, literal::sheet(&input));
}

/// A read that fails ends the input.
#[test]
fn input_that_cannot_be_read() {
    let none = literal::sheet(&Input::without_argument(&[]));
    for input in ["/", "/dev/null"] {
        let mut command = Command::new(program::sheet());
        command.stdin(File::open(input).unwrap());
        assert_eq!(command.output().unwrap().stdout, none, "{input}");
    }
    let mut command = Command::new(program::sheet());
    assert_eq!(command.stdin(Stdio::null()).output().unwrap().stdout, none);
}

/// Said on standard error.
#[test]
fn output_that_cannot_be_written() {
    let full = File::options().write(true).open("/dev/full").unwrap();
    let mut command = Command::new(program::sheet());
    let output = command.stdin(Stdio::null()).stdout(full).output().unwrap();
    let words = String::from_utf8(output.stderr).unwrap();
    assert!(words.starts_with("sheet: "), "{words}");
}

#[test]
fn sets_of_zeros() {
    let mut tally = Tally::default();
    for count in 1..=256 {
        let zero = [0.0, -0.0, 1e-300, f64::from_bits(1)][count % 4];
        check(&Input::without_argument(&vec![zero; count]), &mut tally);
    }
    assert_eq!(tally.accepted, 256);
}

#[test]
fn large_sets() {
    let mut random = Random::new(32);
    let mut tally = Tally::default();
    for count in [256, 256, 256, 256, 200, 128] {
        check(&mixture::large_set(&mut random, count), &mut tally);
    }
    let dense: Vec<f64> = (0..256).map(|i| (0x5555_5555 - 2 * i) as f64).collect();
    check(&Input::new(&dense, "0"), &mut tally);
    tally.print();
    assert!(tally.accepted == 7 && tally.longest > 50_000);
}

#[test]
fn random_inputs() {
    let mut random = Random::new(33);
    let mut tally = Tally::default();
    for _ in 0..RANDOM_INPUTS {
        check(&mixture::input(&mut random), &mut tally);
    }
    tally.print();
    assert!(tally.accepted > RANDOM_INPUTS / 3 && tally.places.len() > 20);
    let refused = [1, 2, 4, 5, 6, 12].map(|n| tally.refused[n]);
    assert!(refused.iter().all(|count| *count > RANDOM_INPUTS / 60));
    let pairs = [
        (1, 12),
        (1, 4),
        (2, 12),
        (2, 4),
        (2, 5),
        (2, 6),
        (12, 4),
        (12, 5),
        (4, 5),
        (5, 6),
    ];
    for (first, second) in pairs {
        let often = tally.beside[first][second];
        println!("{first} beside {second}: {often}");
        assert!(often > 0);
    }
}
