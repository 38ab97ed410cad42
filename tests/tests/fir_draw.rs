//! ./fir draw: sheets that it draws, and those that it does not.

use fir_tests::commands::{ends_with, fir, printed, Folder};
use fir_tests::random::Random;
use fir_tests::sheet::input::Input;
use fir_tests::sheet::literal;
use fir_tests::sheet::program::{root, run, Delivery, Ended};
use std::env;
use std::fs::{read, set_permissions, write, Permissions};
use std::os::unix::fs::{symlink, PermissionsExt};
use std::process::Command;
use std::time::Instant;

fn example() -> String {
    String::from_utf8(literal::sheet(&Input::new(&[3.0, -6.0, 45.0, 0.0], "0"))).unwrap()
}

/// The sheet of 256 random coefficients of 31 bits: 2,000 rows and more.
fn large() -> Vec<u8> {
    let mut random = Random::new(17);
    let odd = |_| (random.bits() >> 33 | 1 << 30 | 1) as f64;
    let taps: Vec<f64> = (0..256).map(odd).collect();
    literal::sheet(&Input::new(&taps, "0"))
}

/// As many rows and taps as there may be: row i is 2 times row i - 1 plus or minus row 0.
fn largest() -> Vec<u8> {
    let mut lines = vec![
        "kind,number,left,shift,sign,right,value".into(),
        "node,0,,,,,1".into(),
    ];
    for i in 1..4096 {
        let (left, value) = if i % 30 == 1 {
            (0, 3)
        } else {
            (i - 1, (2u64 << ((i - 1) % 30 + 1)) - 1)
        };
        lines.push(format!("node,{i},{left},1,+,0,{value}"));
    }
    lines.extend((0..256).map(|i| format!("tap,{i},{},0,-,,-3", 30 * (i % 100) + 1)));
    lines.push("total,4350,,,,,\r\n".into());
    lines.join("\r\n").into_bytes()
}

fn squeezed(text: Vec<u8>) -> Vec<String> {
    let text = String::from_utf8(text).unwrap();
    let line = |line: &str| line.split_whitespace().collect::<Vec<_>>().join(" ");
    text.lines().map(line).collect()
}

#[test]
fn text() {
    let wanted = [
        "depth 0 node 0 = x = 1x",
        "depth 1 node 1 = (x << 1) + x = 3x",
        "depth 2 node 2 = (node 1 << 4) - node 1 = 45x",
        "tap 0 = node 1 = 3x",
        "tap 1 = -(node 1 << 1) = -6x",
        "tap 2 = node 2 = 45x",
        "tap 3 = 0",
        "4 adders: 2 in the rows, 2 joining the taps; longest path to a row: 2",
    ];
    assert_eq!(squeezed(printed(&["draw"], example().as_bytes())), wanted);
    let unix = example().replace('\r', "");
    assert_eq!(squeezed(printed(&["draw"], unix.as_bytes())), wanted);
    let path = root()
        .join("examples/raised_cosine.csv")
        .display()
        .to_string();
    let lines = squeezed(printed(&["draw", &path], b""));
    let row = "depth 4 node 4 = node 3 - (x << 2) = 75x";
    assert!(lines.iter().any(|line| line.starts_with(row)), "{lines:?}");
    let depths: Vec<&String> = lines
        .iter()
        .filter(|line| line.starts_with("depth"))
        .collect();
    let depth = |line: &&String| line.split(' ').nth(1).unwrap().parse::<u32>().unwrap();
    assert!(depths
        .windows(2)
        .all(|pair| depth(&pair[0]) <= depth(&pair[1])));
}

/// The last line where there are no adders, or those of one kind alone.
#[test]
fn adders() {
    let sets: [(&[f64], &str); 3] = [
        (&[0.0, 0.0], "0 adders: 0 in the rows, 0 joining the taps"),
        (&[0.0, 3.0], "1 adder: 1 in the rows, 0 joining the taps"),
        (
            &[1.0, 0.0, -1.0],
            "1 adder: 0 in the rows, 1 joining the taps",
        ),
    ];
    for (taps, wanted) in sets {
        let lines = squeezed(printed(&["draw"], &literal::sheet(&Input::new(taps, "0"))));
        let last = lines.last().unwrap();
        assert!(last.starts_with(&format!("{wanted}; ")), "{last}");
    }
}

#[test]
fn for_graphviz() {
    let text = String::from_utf8(printed(&["draw", "--dot"], example().as_bytes())).unwrap();
    assert!(
        text.starts_with("digraph network {\n") && text.ends_with("}\n"),
        "{text}"
    );
    for part in [
        "label=\"4 adders: 2 in the rows, 2 joining the taps; longest path to a row: 2\"",
        "    node0 [label=\"x\", shape=circle];\n",
        "    node2 [label=\"node 2\\n45\", shape=box];\n",
        "    tap3 [label=\"tap 3\\n0\", shape=ellipse];\n",
        "    { rank=same; node1; }\n",
        "    { rank=sink; edge [style=invis]; tap0 -> tap1 -> tap2 -> tap3; }\n",
        "    node1 -> node2 [label=\"+ << 4\"];\n",
        "    node1 -> node2 [label=\"-\", style=dashed];\n",
        "    node1 -> tap1 [label=\"- << 1\", style=dashed];\n",
    ] {
        assert!(text.contains(part), "{part}: {text}");
    }
    assert_eq!(
        text.matches("fontname=\"Helvetica\"").count(),
        text.matches("fontname").count()
    );
    assert_eq!(text.matches(" -> node").count(), 2 * 2);
}

/// In a folder of programs, with a `dot` of this text or none.
fn with_dot(dot: Option<&str>, arguments: &[&str], bytes: &[u8]) -> Ended {
    let folder = Folder::new();
    let path = env::var("PATH").unwrap();
    for directory in path.split(':') {
        let Ok(entries) = std::fs::read_dir(directory) else {
            continue;
        };
        for entry in entries
            .map(|entry| entry.unwrap())
            .filter(|entry| entry.file_name() != "dot")
        {
            let _ = symlink(entry.path(), folder.path().join(entry.file_name()));
        }
    }
    if let Some(text) = dot {
        write(folder.join("dot"), text).unwrap();
        set_permissions(folder.join("dot"), Permissions::from_mode(0o755)).unwrap();
    }
    let mut command = Command::new(root().join("fir"));
    command
        .env("PATH", folder.path())
        .arg("draw")
        .args(arguments);
    run(&mut command, bytes, Delivery::AtOnce)
}

/// Text unless SVG is asked for, with Graphviz and without; SVG is never text.
#[test]
fn never_one_for_the_other() {
    let sheet = example();
    let repeats = "#!/bin/sh\necho \"$@\"\ncat\n";
    let text = printed(&["draw"], sheet.as_bytes());
    for dot in [None, Some(repeats)] {
        let ended = with_dot(dot, &[], sheet.as_bytes());
        assert_eq!((ended.status, ended.errors.as_str()), (Some(0), ""));
        assert_eq!(ended.out, text);
    }
    let ended = with_dot(Some(repeats), &["--svg"], sheet.as_bytes());
    let dot = printed(&["draw", "--dot"], sheet.as_bytes());
    assert_eq!(ended.out, [b"-Tsvg\n".to_vec(), dot].concat());
    assert_eq!((ended.status, ended.errors.as_str()), (Some(0), ""));
    for dot in [
        None,
        Some("#!/bin/sh\n"),
        Some("#!/bin/sh\necho half\nexit 1\n"),
        Some("#!/bin/sh\necho half\nkill $$\n"),
    ] {
        let ended = with_dot(dot, &["--svg"], sheet.as_bytes());
        assert_eq!((ended.status, ended.out.len()), (Some(2), 0));
        assert!(ended.errors.contains("Graphviz"), "{}", ended.errors);
    }
}

/// A large network goes to Graphviz with a place for everything.
#[test]
fn large_networks_are_placed() {
    let sheet = large();
    let ended = with_dot(Some("#!/bin/sh\necho \"$@\"\ncat\n"), &["--svg"], &sheet);
    let text = String::from_utf8(ended.out).unwrap();
    assert!(
        text.starts_with("-Kneato -n2 -Tsvg\ndigraph"),
        "{}",
        &text[..80]
    );
    let lines = String::from_utf8(sheet).unwrap();
    let rows = lines.matches("\nnode,").count();
    assert!(rows > 1500);
    assert_eq!(text.matches(", pos=\"").count(), rows + 256);
}

/// One row and one tap, which no line joins to another.
#[test]
fn one_tap() {
    let sheet = literal::sheet(&Input::new(&[0.5], "15"));
    let text = String::from_utf8(printed(&["draw", "--dot"], &sheet)).unwrap();
    assert!(
        text.contains("    { rank=sink; edge [style=invis]; tap0; }\n"),
        "{text}"
    );
    assert_eq!(text.matches("invis").count(), 1);
}

/// A deep network of few rows, over which dot would take minutes.
#[test]
fn deep_networks_are_placed() {
    let mut sheet = "kind,number,left,shift,sign,right,value\r\nnode,0,,,,,1\r\n".to_string();
    for i in 1..100 {
        sheet += &format!("node,{i},{},1,-,0,1\r\n", i - 1);
    }
    sheet += "tap,0,99,0,+,,1\r\ntotal,99,,,,,\r\n";
    let ended = with_dot(
        Some("#!/bin/sh\necho \"$@\"\n"),
        &["--svg"],
        sheet.as_bytes(),
    );
    assert_eq!(ended.out, b"-Kneato -n2 -Tsvg\n");
}

/// With the real Graphviz, where it is installed.
#[test]
fn drawn_by_graphviz() {
    let there = Command::new("dot").arg("-V").output().is_ok();
    for (sheet, parts) in [(example().into_bytes(), 7), (large(), 0), (largest(), 0)] {
        let text = printed(&["draw"], &sheet);
        let begun = Instant::now();
        let ended = fir(&["draw", "--svg"], &sheet);
        if !there {
            println!("no Graphviz here: SVG is left out");
            assert_eq!((ended.status, ended.out.len()), (Some(2), 0));
            continue;
        }
        println!("drawn in {:?}", begun.elapsed());
        assert_eq!((ended.status, ended.errors.as_str()), (Some(0), ""));
        let svg = String::from_utf8(ended.out).unwrap();
        let last = String::from_utf8(text)
            .unwrap()
            .lines()
            .last()
            .unwrap()
            .to_string();
        assert!(svg.contains("<svg ") && svg.ends_with("</svg>\n") && svg.contains(&last));
        assert!(
            parts == 0 || svg.matches("class=\"node\"").count() == parts,
            "{svg}"
        );
    }
}

/// README's picture is of this network.
#[test]
fn committed_picture() {
    let svg = String::from_utf8(read(root().join("docs/network.svg")).unwrap()).unwrap();
    for part in [
        "node 1",
        "node 2",
        "tap 0",
        "tap 3",
        "45",
        "&#45;6",
        "4 adders: 2 in the rows, 2 joining the taps; longest path to a row: 2",
    ] {
        assert!(svg.contains(&format!(">{part}<")), "{part}");
    }
    assert_eq!(svg.matches("class=\"node\"").count(), 7);
    assert_eq!(svg.matches("stroke-dasharray").count(), 2);
}

#[test]
fn broken_sheets() {
    let sheet = example();
    let row = "fir draw: row 1 breaks the row rule, or there are no rows or more than 4096 (refusal 10)\n";
    for (old, new) in [
        ("node,1,0,1,+,0,3", "node,1,7,1,+,0,3"),
        ("node,1,0,1,+,0,3", "node,1,1,1,+,0,3"),
        ("node,1,0,1,+,0,3", "node,1,0,1,+,1,3"),
        ("node,1,0,1,+,0,3", "node,1,0,1,+,0,5"),
        ("node,1,0,1,+,0,3", "node,1,0,1,r,0,3"),
        ("node,1,0,1,+,0,3", "node,1,0,1,*,0,3"),
        ("node,1,0,1,+,0,3", "node,1,0,0,+,0,3"),
    ] {
        assert!(sheet.contains(old));
        ends_with(1, &["draw"], sheet.replace(old, new).as_bytes(), row);
    }
    let tap = "fir draw: tap 1 breaks the tap row rule (refusal 11)\n";
    for new in ["tap,1,3,1,-,,-6", "tap,1,1,32,-,,-6", "tap,1,1,1,r,,-6"] {
        ends_with(
            1,
            &["draw"],
            sheet.replace("tap,1,1,1,-,,-6", new).as_bytes(),
            tap,
        );
    }
    let value = "fir draw: tap 1 has another value than its row, shift and sign give\n";
    for new in [
        "tap,1,1,1,-,,-7",
        "tap,1,1,1,+,,-6",
        "tap,1,1,2,-,,-6",
        "tap,1,2,1,-,,-6",
    ] {
        ends_with(
            2,
            &["draw"],
            sheet.replace("tap,1,1,1,-,,-6", new).as_bytes(),
            value,
        );
    }
    for total in [2, 3, 5] {
        let new = format!("total,{total},,,,,");
        let words =
            format!("fir draw: the total is {total}, but by its rows and nonzero taps it is 4\n");
        ends_with(
            2,
            &["draw"],
            sheet.replace("total,4,,,,,", &new).as_bytes(),
            &words,
        );
    }
}

fn taps(numbers: std::ops::Range<usize>) -> String {
    numbers.map(|i| format!("tap,{i},,,,,0\r\n")).collect()
}

#[test]
fn what_is_no_sheet() {
    let sheet = example();
    let header = "the first line is not a sheet's header";
    let refused = String::from_utf8(literal::sheet(&Input::new(&[1e300], "0"))).unwrap();
    let says = "there is nothing to draw, the sheet says refused:\nfir draw: \
        tap 0 times 2^F rounds to a coefficient outside -2^31 to 2^31 - 1 (refusal 6)";
    ends_with(
        1,
        &["draw"],
        refused.as_bytes(),
        &format!("fir draw: {says}\n"),
    );
    let cut = &sheet[..sheet.len() - 14];
    for (text, words) in [
        (cut.to_string(), "the sheet has no total line"),
        ("".into(), header),
        ("hello\r\n".into(), header),
        (sheet.replace("kind,", "Kind,"), header),
        (
            sheet.clone() + "node,3\r\n",
            "line 10 is no line of a sheet",
        ),
        (sheet.clone() + &sheet, "line 10 is no line of a sheet"),
        (
            sheet.replace("node,1,0,1,+,0,3", "node,1,0,1,+,0"),
            "line 3 is no line of a sheet",
        ),
        (
            sheet.replace("node,1,0,1,+,0,3", "node,1,0,1,+,0,3,"),
            "line 3 is no line of a sheet",
        ),
        (
            sheet.replace("node,1,0,1,+,0,3", "node,2,0,1,+,0,3"),
            "line 3 is no line of a sheet",
        ),
        (
            sheet.replace("node,1,0,1,+,0,3", "node,1,0,1,++,0,3"),
            "line 3 is no line of a sheet",
        ),
        (
            sheet.replace("node,1,0,1,+,0,3", "node,1,0,,+,0,3"),
            "line 3 is no line of a sheet",
        ),
        (
            sheet.replace("node,1,0,1,+,0,3", "node,1,-1,1,+,0,3"),
            "line 3 is no line of a sheet",
        ),
        (
            sheet.replace("node,1,0,1,+,0,3", "node,1,0,1,+,0,99999999999"),
            "line 3 is no line of a sheet",
        ),
        (
            sheet.replace("node,1,0,1,+,0,3", "node,1,0,01,+,0,3"),
            "line 3 is no line of a sheet",
        ),
        (
            sheet.replace("tap,3,,,,,0", "tap,3,,,,,-0"),
            "line 8 is no line of a sheet",
        ),
        (sheet.clone() + "x", "line 10 is no line of a sheet"),
        (
            sheet.replace("node,0,,,,,1", "node,0,0,,,,1"),
            "line 2 is no line of a sheet",
        ),
        (
            sheet.replace("tap,3,,,,,0", "tap,3,,,,,1"),
            "line 8 is no line of a sheet",
        ),
        (
            sheet.replace("tap,3,,,,,0", "tap,3,,,,0,0"),
            "line 8 is no line of a sheet",
        ),
        (
            sheet.replace("tap,0,", "tap,4,"),
            "line 5 is no line of a sheet",
        ),
        (
            sheet.replace("tap,0,", "row,0,"),
            "line 5 is no line of a sheet",
        ),
        (
            sheet.replace("total,4,,,,,", "total,4294967300,,,,,"),
            "line 9 is no line of a sheet",
        ),
        (
            sheet.replace("total,4,,,,,", "total,4,,,,,2"),
            "line 9 is no line of a sheet",
        ),
        (
            sheet.replace("total,4,,,,,", "total,4,,,,,\r\ntotal,4,,,,,"),
            "line 10 is no line of a sheet",
        ),
        (
            sheet.replace("total,4,,,,,\r\n", "total,4,,,,,"),
            "line 9 is no line of a sheet",
        ),
        (
            sheet.replace(",45", &",45".repeat(80)),
            "line 4 is no line of a sheet",
        ),
    ] {
        for option in [&["draw"][..], &["draw", "--svg"], &["draw", "--dot"]] {
            ends_with(2, option, text.as_bytes(), &format!("fir draw: {words}\n"));
        }
    }
    let followed = refused + "\r\n";
    ends_with(
        2,
        &["draw"],
        followed.as_bytes(),
        "fir draw: line 3 is no line of a sheet\n",
    );
    let many = sheet.replace("tap,3,,,,,0\r\n", &taps(3..257));
    ends_with(
        1,
        &["draw"],
        many.as_bytes(),
        "fir draw: there are more than 256 taps (refusal 2)\n",
    );
    let rows = "fir draw: row 0 breaks the row rule, or there are no rows or more than 4096 (refusal 10)\n";
    let row = |i: usize| format!("node,{i},0,1,+,0,3\r\n");
    let many = sheet.replace(
        "node,2,1,4,-,1,45\r\n",
        &(2..4097).map(row).collect::<String>(),
    );
    ends_with(1, &["draw"], many.as_bytes(), rows);
    let none = "fir draw: there are no taps (refusal 1)\n";
    let start = "kind,number,left,shift,sign,right,value\r\nnode,0,,,,,1\r\ntotal,0,,,,,\r\n";
    ends_with(1, &["draw"], start.as_bytes(), none);
}
