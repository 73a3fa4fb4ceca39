//! Search by halving (document 02, Item 3).

use model::dictionary::{search, Object, ROWS};

fn tags() -> Vec<u32> {
    ROWS.iter().map(|row| row.tag).collect()
}

/// The place of each tag searched for, none where it is not present, and never more probes than `most`.
fn finds(tags: &[u32], wanted: &[u32], places: &[Option<usize>], most: usize) {
    for (&tag, &place) in wanted.iter().zip(places) {
        let said = search(tags, tag);
        assert_eq!(said.place, place, "{tag:X} among {tags:X?}");
        assert!(said.looks <= most, "{tag:X}: {} looks", said.looks);
    }
    assert_eq!(wanted.len(), places.len());
}

#[test]
fn short_tables() {
    finds(&[], &[0x57], &[None], 0);
    finds(&[0x57], &[0x57, 0x56, 0x58], &[Some(0), None, None], 1);
    let three = [0x57, 0x5A, 0x82];
    finds(&three, &three, &[Some(0), Some(1), Some(2)], 2);
    finds(&three, &[0x56, 0x58, 0x5B, 0x83], &[None; 4], 2);
    for (n, most) in [(4, 3), (7, 3), (8, 4)] {
        let some = &tags()[..n];
        let places: Vec<_> = (0..n).map(Some).collect();
        finds(some, some, &places, most);
    }
}

#[test]
fn the_dictionary() {
    let places: Vec<_> = (0..ROWS.len()).map(Some).collect();
    finds(&tags(), &tags(), &places, 8);
    finds(&tags(), &[0, 0x70, 0xDF81, 0xFFFF_FFFF], &[None; 4], 8);
}

/// The answers are the same for every tag of one and two bytes, and for those of three around the known ones.
#[test]
fn same_answers() {
    let tags = tags();
    for tag in (0..0x1_0000).chain(0xDF_8000..0xDF_8400) {
        assert_eq!(
            search(&tags, tag).place,
            Object::of_tag(tag).map(|object| object as usize)
        );
    }
}

/// At most k probes in fewer than 2 to the k tags, for every length to 300.
#[test]
fn few_looks() {
    let tags: Vec<u32> = (0..300).map(|n| 2 * n + 1).collect();
    for n in 0..tags.len() {
        let k = (0..).find(|&k| n < 1 << k).expect("a power above n");
        for tag in 0..2 * n as u32 + 2 {
            assert!(search(&tags[..n], tag).looks <= k);
        }
    }
}
