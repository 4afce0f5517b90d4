//! The text that the listing program prints.

use barfigol_peer::listing;
use barfigol_tables::{trials, Node, Table};

/// The listing of a choice byte and a table.
fn listed(first: u8, table: &[u8]) -> String {
    let mut input = vec![first];
    input.extend_from_slice(table);
    String::from_utf8(listing(&input)).expect("the listing is text")
}

#[test]
fn listings() {
    let table = Table::new().variable(-3, 4).node(Node::truth(0)).bytes();
    let expected = "HD 1 0 4 0\nVR 1 0 -3 4\nND 2 0 0 0\nND 24 0 0 0\n";
    for choice in *b"123" {
        assert_eq!(listed(choice, &table), expected);
    }
    for other in *b"0456789 a\n\0\xff" {
        assert_eq!(listed(other, &table), "refused 7 0\n");
    }
    assert_eq!(listing(b""), b"refused 7 0\n");
    assert_eq!(listing(b"1"), b"refused 1 0\n");
    assert_eq!(listed(b'2', b"\n"), "refused 1 0\n");
    assert_eq!(listed(b'2', &[0; 12]), "refused 2 0\n");
}

#[test]
fn listings_of_long_tables() {
    let longest = vec![0; 60_000];
    assert_eq!(listed(b'1', &longest), "refused 2 0\n");
    let longer = vec![0; 60_012];
    assert_eq!(listed(b'1', &longer), "refused 1 0\n");
    assert_eq!(listed(b'8', &longer), "refused 7 0\n");
    let many = Table::new().nodes(&[Node::truth(1); 2_500]).bytes();
    assert_eq!(listed(b'3', &many), "refused 9 0\n");
    let constant = Table::new().variable(0, 0).node(Node::constant(i32::MAX));
    assert_eq!(listed(b'3', &constant.bytes()), "refused 8 2\n");
}

#[test]
fn listing_of_p4() {
    assert_eq!(listed(b'3', &trials::p4().bytes()), trials::P4_RELATIONAL);
}
