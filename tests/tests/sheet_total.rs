//! The total of a sheet, the adders of the filter: in sets chosen for it, and in every stored sheet.

mod sheet_check;

use fir_tests::sheet::input::Input;
use fir_tests::sheet::literal;
use fir_tests::sheet::program::root;
use sheet_check::{check, Tally};
use std::fs::{read_dir, read_to_string};
use std::path::{Path, PathBuf};

/// Taps at F = 0, with the rows and the adders that join the taps.
#[test]
fn chosen_sets() {
    let sets: [(&[f64], usize, usize); 19] = [
        (&[0.0], 1, 0),
        (&[0.0, -0.0, 0.0], 1, 0),
        (&[0.4, -0.4], 1, 0),
        (&[1.0], 1, 0),
        (&[-6.0], 2, 0),
        (&[0.0, 0.0, 7.0], 2, 0),
        (&[7.0, 0.0, 0.0], 2, 0),
        (&[0.0, 7.0, 0.0], 2, 0),
        (&[1.0, 1.0], 1, 1),
        (&[1.0, -1.0], 1, 1),
        (&[0.3, 1.0, 1.0], 1, 1),
        (&[3.0, 0.0, 0.0, 3.0], 2, 1),
        (&[0.0, 3.0, 0.0, -3.0, 0.0], 2, 1),
        (&[3.0; 4], 2, 3),
        (&[3.0, -3.0, 6.0, -12.0], 2, 3),
        (&[3.0, -6.0, 45.0, 0.0], 3, 2),
        (&[-2147483648.0, 2147483647.0], 2, 1),
        (&[1.0; 256], 1, 255),
        (&[-3.0; 255], 2, 254),
    ];
    for (taps, rows, joining) in sets {
        let input = Input::new(taps, "0");
        check(&input, &mut Tally::default());
        let sheet = String::from_utf8(literal::sheet(&input)).unwrap();
        let total = format!("\ntotal,{},,,,,\r\n", rows - 1 + joining);
        assert!(sheet.ends_with(&total), "{taps:?}: {sheet}");
        assert_eq!(sheet.matches("\nnode,").count(), rows, "{taps:?}");
    }
}

/// One nonzero tap at every place among zeros, two of them, and a zero at every place among others.
#[test]
fn zeros_at_every_place() {
    let number = |place: usize| 3.0 * place as f64 - 385.0;
    let mut tally = Tally::default();
    for place in 0..256 {
        let mut taps = [0.0; 256];
        taps[place] = number(place);
        check(&Input::new(&taps, "0"), &mut tally);
        taps[255 - place] = -3.0;
        check(&Input::new(&taps, "0"), &mut tally);
    }
    for place in 0..16 {
        let mut taps: Vec<f64> = (0..16).map(number).collect();
        taps[place] = 0.0;
        check(&Input::new(&taps, "0"), &mut tally);
    }
    tally.print();
    assert_eq!(tally.accepted, 2 * 256 + 16);
}

fn stored() -> Vec<PathBuf> {
    let files = read_dir(root().join("examples")).unwrap();
    let sheets = files
        .map(|file| file.unwrap().path())
        .filter(|path| path.extension() == Some("csv".as_ref()));
    sheets.chain([root().join("crates/sheet/stdout")]).collect()
}

/// The lines of a sheet but for the last, and the total there.
fn parts(path: &Path) -> (Vec<String>, usize) {
    let text = read_to_string(path).unwrap();
    let mut lines: Vec<String> = text.split_inclusive('\n').map(String::from).collect();
    let last = lines.pop().unwrap();
    let total = last.strip_prefix("total,").unwrap();
    let total = total.strip_suffix(",,,,,\r\n").unwrap();
    (lines, total.parse().unwrap())
}

/// Every stored sheet is as it was when the total had the adders of the rows alone, but for its total.
#[test]
fn stored_sheets_as_before() {
    let before = root().join("tests/before/02-total");
    let stored = stored();
    for path in &stored {
        let name = path.file_stem().unwrap().to_str().unwrap();
        let (then, old) = parts(&before.join(format!("{name}.csv")));
        let (now, new) = parts(path);
        assert_eq!(then, now, "{name}");
        let rows = now.iter().filter(|line| line.starts_with("node,")).count();
        let taps = now.iter().filter(|line| line.starts_with("tap,"));
        let nonzero = taps.filter(|line| !line.ends_with(",0\r\n")).count();
        assert_eq!(old, rows - 1, "{name}");
        assert_eq!(new, rows - 1 + nonzero.saturating_sub(1), "{name}");
    }
    assert_eq!(stored.len(), read_dir(before).unwrap().count());
}
