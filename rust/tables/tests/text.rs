//! Any bytes are shown as a text that assembles to the same bytes.

use barfigol_format::{assemble, pretty, show};
use barfigol_tables::random::{self, Plan};
use barfigol_tables::suite::rounds;
use barfigol_tables::{damage, examples, limits, trials, Random};

/// Says that both texts of some bytes are read back, and are safe to print.
fn assert_read_back(bytes: &[u8]) {
    for text in [show(bytes), pretty(bytes)] {
        assert_eq!(assemble(&text).as_deref(), Ok(bytes), "{text}");
        let is_safe = |letter: char| letter == '\n' || !letter.is_control();
        assert!(text.chars().all(is_safe), "{text:?}");
        assert!(text.is_empty() || text.ends_with('\n'));
    }
}

#[test]
fn examples_and_trials() {
    for (_, table) in examples::all() {
        assert_read_back(&table.bytes());
    }
    assert_read_back(&trials::every_kind().bytes());
    for table in limits::both_sides() {
        assert_read_back(&table.bytes());
    }
}

#[test]
fn random_tables() {
    let mut random = Random::new(61);
    let plan = Plan {
        wild: 10,
        ..Plan::MIDDLE
    };
    for _ in 0..rounds(2_000) {
        let table = random::table(&mut random, &plan);
        assert_read_back(&table.bytes());
        assert_read_back(&damage::scrambled(&mut random, &table));
        for number in 2..=6 {
            if let Some(damaged) = damage::with_fault(&mut random, &table, number) {
                assert_read_back(&damaged.bytes);
            }
        }
    }
}

#[test]
fn wrong_lengths() {
    let mut random = Random::new(62);
    for _ in 0..rounds(200) {
        let table = random::table(&mut random, &Plan::SMALL);
        if let Some(damaged) = damage::with_fault(&mut random, &table, 1) {
            assert_read_back(&damaged.bytes);
        }
    }
}

#[test]
fn arbitrary_bytes() {
    let mut random = Random::new(63);
    for length in 0..400 {
        let bytes: Vec<u8> = (0..length).map(|_| random.bits() as u8).collect();
        assert_read_back(&bytes);
    }
    let long: Vec<u8> = (0..1_000_001).map(|_| random.bits() as u8).collect();
    assert_read_back(&long);
    assert_read_back(&vec![0; 1_000_000]);
}

/// Bytes that a text has signs for: blanks, ends of lines, `#`, `\`, digits.
#[test]
fn bytes_of_signs() {
    let mut random = Random::new(64);
    let signs = *b"HDVRND \t\r\n#\\x0179?!:\x7f\x1b\xc3\xa9";
    for _ in 0..rounds(2_000) {
        let length = random.below(60);
        let bytes: Vec<u8> = (0..length).map(|_| random.pick(&signs)).collect();
        assert_read_back(&bytes);
    }
}
