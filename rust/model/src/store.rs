//! The store: one fixed place for each known tag (docs/HOST.md, record layout).
//!
//! A place is one byte (0 absent, else length + 1), then room for the greatest length.

use crate::dictionary::{Object, ROWS, STORE_SIZE};

/// The bytes of a store.
pub type Store = [u8; STORE_SIZE];

/// The value of an object, or none if it is absent. The store is in its ranges.
pub fn get(store: &Store, object: Object) -> Option<&[u8]> {
    let place = object.row().place;
    match store[place] {
        0 => None,
        n => Some(&store[place + 1..place + usize::from(n)]),
    }
}

/// The value of an object that has the fixed length `N`, or none if it is absent.
pub fn get_fixed<const N: usize>(store: &Store, object: Object) -> Option<&[u8; N]> {
    get(store, object)?.first_chunk()
}

/// Whether an object is present.
pub fn has(store: &Store, object: Object) -> bool {
    store[object.row().place] != 0
}

/// Whether an object is present and not empty.
pub fn has_value(store: &Store, object: Object) -> bool {
    store[object.row().place] > 1
}

/// Stores a value that fits its row. Bytes of the place after the value stay.
pub fn put(store: &mut Store, object: Object, value: &[u8]) {
    let place = object.row().place;
    store[place] = value.len() as u8 + 1;
    store[place + 1..][..value.len()].copy_from_slice(value);
}

/// Whether each object that is present fits its row, by length and digits.
pub fn fits(store: &Store) -> bool {
    ROWS.iter().all(|row| match store[row.place] {
        0 => true,
        n => {
            let length = n - 1;
            (row.least..=row.most).contains(&length)
                && row
                    .form
                    .allows(&store[row.place + 1..][..usize::from(length)])
        }
    })
}
