//! The bench: the document's deck prints its four lines, and decks that break
//! the rules of decks print one.

use second::bench::bench;

fn example_deck() -> Vec<u8> {
    let mut deck = vec![0; 96];
    for (record, at, byte) in [
        (0, 0x00, 0x22),
        (0, 0x09, 0x01),
        (0, 0x0C, 0x01),
        (0, 0x0D, 0x02),
        (0, 0x12, 0x04),
        (0, 0x17, 0x20),
        (1, 0x00, 0x21),
        (1, 0x09, 0x01),
        (1, 0x0B, 0x01),
        (1, 0x12, 0x04),
        (1, 0x17, 0x40),
        (2, 0x00, 0x02),
    ] {
        deck[32 * record + at] = byte;
    }
    deck
}

#[test]
fn the_example_prints_four_lines() {
    assert_eq!(bench(&example_deck()).lines(), ["0 00", "1 00", "2 13", "steps 3"]);
}

#[test]
fn the_example_on_a_protected_drive() {
    let mut deck = example_deck();
    deck[31] = 1;
    assert_eq!(bench(&deck).lines(), ["0 00", "1 90", "2 13", "steps 3"]);
}

#[test]
fn decks_that_are_none() {
    for length in [0, 1, 31, 33, 95, 1_025, 1_056] {
        assert_eq!(bench(&vec![0; length]).lines(), ["deck"], "{length} bytes");
    }
    for (at, byte) in [(30, 1), (31, 2), (31, 255), (62, 1), (63, 1), (95, 1)] {
        let mut deck = example_deck();
        deck[at] = byte;
        assert_eq!(bench(&deck).lines(), ["deck"], "byte {at}");
    }
}

#[test]
fn decks_of_one_and_of_thirty_two() {
    assert_eq!(bench(&[0; 32]).lines(), ["0 00", "steps 1"]);
    assert_eq!(bench(&[0; 1_024]).lines(), ["0 00", "steps 1"]);
}

/// One chained No Operation with this next address.
fn chained(next: u32) -> Vec<String> {
    let mut deck = vec![0; 32];
    deck[0] = 0x20;
    deck[0x14..0x18].copy_from_slice(&next.to_be_bytes());
    bench(&deck).lines()
}

#[test]
fn chains_that_leave_the_deck() {
    assert_eq!(chained(0), ["chain 4"]);
    assert_eq!(chained(28), ["chain 4"]);
    assert_eq!(chained(30), ["0 00", "1 00", "steps 2"]);
    assert_eq!(chained(0xFE2), ["0 00", "1 00", "steps 2"]);
    assert_eq!(chained(0xFE4), ["chain 3"]);
    assert_eq!(chained(0xFFFF_FFFE), ["chain 3"]);
    assert_eq!(chained(0x21), ["0 1E", "steps 1"]);
}

#[test]
fn thirty_three_commands() {
    let mut deck = vec![0; 1_024];
    for k in 0..32u32 {
        let at = 32 * k as usize;
        deck[at] = 0x20;
        deck[at + 0x14..at + 0x18].copy_from_slice(&(32 * (k + 1)).to_be_bytes());
    }
    assert_eq!(bench(&deck).lines(), ["chain 5"]);
    deck[31 * 32] = 0;
    let lines = bench(&deck).lines();
    assert_eq!(lines.len(), 33);
    assert_eq!(lines[31..], ["31 00", "steps 32"]);
}
