//! The core's checks of networks and their coefficients, and the fast version's, against the literal
//! ones.

mod network_check;

use fir_tests::answer::{Answer, ACCEPTED};
use fir_tests::network::hard::{edges, sheet};
use fir_tests::network::{damage, literal, mixture, Network};
use fir_tests::network::{MINUS, PLUS, REVERSED, ROW_WORDS, TAP_WORDS};
use fir_tests::random::Random;
use network_check::{check, show, Tally};
use std::collections::HashSet;

const RANDOM_NETWORKS: usize = 8_000;
const DAMAGED_NETWORKS: usize = 60_000;

fn refused(network: &Network, refusal: u32, place: u32) {
    let answer = check(network, 256, &mut Tally::default());
    assert_eq!(answer, Answer { refusal, place }, "{}", show(network));
}

#[test]
fn figures_of_networks() {
    let figure = |network: &Network, coefficients: &[i32]| {
        assert_eq!(check(network, 256, &mut Tally::default()), ACCEPTED);
        let given = literal::coefficients(network, false);
        assert_eq!(given.unwrap(), coefficients);
    };
    figure(&sheet(), &[3, -6, 45, 0]);
    let (most, least) = (i32::MAX, i32::MIN);
    let middle = 3 << 29;
    let wanted = [most, -most, least, 1 << 30, 0, least, middle, -middle, 1];
    figure(&edges(), &wanted);
}

/// Rows whose stored value is the one worked out, or its lower 32 bits, and is not within the bounds.
#[test]
fn rows_past_the_bounds() {
    let edge = |left, right, shift, sign, value: i64| {
        let row = [left, right, shift, sign, value as u32];
        let largest = [0, 0, 31, MINUS, 0x7fff_ffff];
        let rows = [[0, 0, 0, PLUS, 1], largest, row];
        Network::new(&rows, &[[PLUS, 2, 0]])
    };
    let largest = (1 << 31) - 1;
    let past = [
        edge(0, 0, 31, PLUS, (1 << 31) + 1),
        edge(0, 1, 1, PLUS, (1 << 31) + 1),
        edge(1, 0, 1, MINUS, (1 << 32) - 3),
        edge(1, 0, 1, PLUS, (1 << 32) - 1),
        edge(1, 1, 31, PLUS, (largest << 31) + largest),
        edge(1, 1, 31, MINUS, (largest << 31) - largest),
        edge(1, 1, 31, REVERSED, largest - (largest << 31)),
        edge(0, 0, 1, REVERSED, -1),
        edge(1, 1, 2, REVERSED, -3 * largest),
        edge(0, 1, 1, MINUS, 2 - largest),
        edge(0, 0, 32, PLUS, (1 << 32) + 1),
        edge(0, 0, 0, PLUS, 2),
    ];
    past.iter().for_each(|network| refused(network, 10, 2));
    for within in [edge(0, 0, 1, MINUS, 1), edge(1, 1, 1, MINUS, largest)] {
        assert_eq!(check(&within, 1, &mut Tally::default()), ACCEPTED);
    }
}

/// Taps whose product is just within the bounds and just not.
#[test]
fn taps_past_the_bounds() {
    let rows = [[0, 0, 0, PLUS, 1], [0, 0, 31, MINUS, 0x7fff_ffff]];
    let rows = [&rows[..], &[[0, 0, 1, PLUS, 3]]].concat();
    let network = |tap| Network::new(&rows, &[[PLUS, 0, 0], tap]);
    for sign in [PLUS, MINUS] {
        for (row, most) in [(0, 30), (1, 0), (2, 29)] {
            for shift in most + 1..=40 {
                let least = (sign, row, shift) == (MINUS, 0, 31);
                if !least {
                    refused(&network([sign, row, shift]), 11, 1);
                }
            }
            let within = network([sign, row, most]);
            assert_eq!(check(&within, 2, &mut Tally::default()), ACCEPTED);
        }
    }
    let least = network([MINUS, 0, 31]);
    assert_eq!(check(&least, 2, &mut Tally::default()), ACCEPTED);
}

/// Each check before the next, with all the later ones broken as well.
#[test]
fn order_of_refusals() {
    let mut network = sheet();
    network.taps[TAP_WORDS] = REVERSED;
    refused(&network, 11, 1);
    network.rows[2 * ROW_WORDS + 4] = 44;
    refused(&network, 10, 2);
    network.row_count = 5000;
    refused(&network, 10, 0);
    network.rows.pop();
    refused(&network, 3, 0);
    network.tap_count = 257;
    refused(&network, 2, 0);
    network.tap_count = 0;
    refused(&network, 1, 0);
}

/// Every field of every row and tap row of a network, changed to everything that it might be.
#[test]
fn every_field_changed() {
    let mut tally = Tally::default();
    for network in [sheet(), edges()] {
        for (i, field) in places(network.row_count, ROW_WORDS) {
            for word in damage::row_words(&network, i, field) {
                let mut damaged = network.clone();
                damaged.rows[ROW_WORDS * i + field] = word;
                check(&damaged, 256, &mut tally);
            }
        }
        for (j, field) in places(network.tap_count, TAP_WORDS) {
            for word in damage::tap_words(&network, j, field) {
                let mut damaged = network.clone();
                damaged.taps[TAP_WORDS * j + field] = word;
                check(&damaged, 256, &mut tally);
            }
        }
    }
    let (rows, taps) = (tally.refusals.refused[10], tally.refusals.refused[11]);
    println!("accepted {}, refused {rows} and {taps}", tally.accepted);
    assert!(rows > 900 && taps > 300 && tally.accepted > 100);
    assert!(tally.refusals.places[10].len() == 10 && tally.refusals.places[11].len() == 9);
}

fn places(count: usize, words: usize) -> impl Iterator<Item = (usize, usize)> {
    (0..count).flat_map(move |i| (0..words).map(move |field| (i, field)))
}

/// Every pair of counts with every pair of tables, over rules that are kept and broken.
#[test]
fn counts_and_tables() {
    let mut tally = Tally::default();
    let mut random = Random::new(10);
    let whole = mixture::network_of(&mut random, 4096, 256);
    let mut broken = whole.clone();
    broken.rows[3] = MINUS;
    broken.taps[0] = REVERSED;
    for network in [whole, broken] {
        for (row_count, row_words) in pairs(&damage::ROW_COUNTS, &damage::ROW_TABLES) {
            for (tap_count, tap_words) in pairs(&damage::TAP_COUNTS, &damage::TAP_TABLES) {
                let network = Network {
                    rows: network.rows[..row_words].to_vec(),
                    row_count,
                    taps: network.taps[..tap_words].to_vec(),
                    tap_count,
                };
                let table = random.pick(&[0, 1, 255, 256, 300]);
                check(&network, table, &mut tally);
            }
        }
    }
    println!("accepted {}, refused {:?}", tally.accepted, tally.refusals);
    assert!(tally.accepted > 0 && tally.refusals.refused[3] > 1000);
    tally
        .refusals
        .assert_pairs("1-3 1-10 2-3 2-10 2-11 3-10 3-11 10-11", 5);
}

fn pairs(counts: &[usize], tables: &[usize]) -> Vec<(usize, usize)> {
    let with_tables = |count: usize| tables.iter().map(move |table| (count, *table));
    counts.iter().copied().flat_map(with_tables).collect()
}

/// Coefficients for every number of taps, in tables that are just long enough, longer and shorter.
#[test]
fn tables_of_coefficients() {
    let mut random = Random::new(11);
    let mut tally = Tally::default();
    for taps in 1..=256 {
        let network = mixture::network_of(&mut random, 20, taps);
        for table in [0, taps - 1, taps, taps + 1, 300] {
            check(&network, table, &mut tally);
        }
    }
    assert_eq!(
        (tally.accepted, tally.refusals.refused[3]),
        (3 * 256, 2 * 256)
    );
}

#[test]
fn random_networks() {
    let mut random = Random::new(12);
    let mut tally = Tally::default();
    let [mut fullest, mut rows, mut shared] = [0; 3];
    for _ in 0..RANDOM_NETWORKS {
        let network = mixture::network(&mut random);
        let table = network.tap_count + random.pick(&[0, 0, 1, 50]);
        assert_eq!(check(&network, table, &mut tally), ACCEPTED);
        fullest += (network.row_count == 4096) as usize;
        rows += network.row_count;
        shared += has_equal_values(&network) as usize;
    }
    println!("rows {rows}, full {fullest}, with equal values {shared}");
    println!("least {}, greatest {}", tally.least, tally.greatest);
    assert_eq!(tally.accepted, RANDOM_NETWORKS);
    let often = RANDOM_NETWORKS / 40;
    assert!(fullest > often && shared > often);
    assert!(tally.least > often && tally.greatest > often && tally.zeros > often);
}

fn has_equal_values(network: &Network) -> bool {
    let rows = network.rows.chunks(ROW_WORDS).take(network.row_count);
    let values: HashSet<u32> = rows.map(|row| row[4]).collect();
    values.len() < network.row_count
}

#[test]
fn damaged_networks() {
    let mut random = Random::new(13);
    let mut tally = Tally::default();
    let mut network = mixture::network(&mut random);
    for i in 0..DAMAGED_NETWORKS {
        if i % 8 == 0 {
            network = mixture::network(&mut random);
        }
        let mut damaged = network.clone();
        if !random.one_in(12) {
            damage::fields(&mut random, &mut damaged);
        }
        if random.one_in(6) {
            damage::counts_and_tables(&mut random, &mut damaged);
        }
        let table = random.pick(&[0, 200, 256, 256, 256, 300]);
        check(&damaged, table, &mut tally);
    }
    println!("accepted {}, refused {:?}", tally.accepted, tally.refusals);
    let often = DAMAGED_NETWORKS / 200;
    assert!(tally.accepted > often);
    assert!([1, 2, 3, 10, 11].map(|n| tally.refusals.refused[n] > often) == [true; 5]);
    assert!(tally.refusals.places[10].len() > 500 && tally.refusals.places[11].len() > 200);
    let all = "1-3 1-10 2-3 2-10 2-11 3-10 3-11 10-11";
    tally.refusals.assert_pairs(all, DAMAGED_NETWORKS / 1000);
}
