//! Differential test: sessions drawn from a seed, each call made on the model and on the static library.
//!
//! After each call the reply word, the whole command buffer, the count, the explanation and the whole session slice
//! must be equal. `rng`, `objects`, `track`, `terminal`, `card`, `damage` and `play` draw the sessions; `run` makes
//! the calls and counts what occurred, `verification` what the choices of a CVM reached, `limit` which limits decided,
//! `stripe` what cards without EMV mode reached, `rows` which rows of the dictionary and `padding` where runs of 00
//! stood. `reading` compares single readings, with the object count that no call hands out, `find` the search for a
//! tag in a card's bytes, and `explain` the explanations of records that no call may have left. `layout` draws lists
//! of objects and layouts of the card's side, and `personalise` compares what is written for them. `customers` draws
//! the calls of a vending cabinet, `cabinet` compares them and holds the sum, and `lookup` compares the lookup of its
//! start objects.

#![forbid(unsafe_code)]

pub mod cabinet;
pub mod card;
pub mod customers;
pub mod cvm;
pub mod damage;
pub mod explain;
pub mod find;
pub mod journal;
pub mod layout;
pub mod limit;
pub mod lookup;
pub mod mag_stripe;
pub mod objects;
pub mod padding;
pub mod personalise;
pub mod play;
pub mod reading;
pub mod rng;
pub mod rows;
pub mod run;
pub mod side;
pub mod step;
pub mod terminal;
pub mod track;

/// The counts that are 0, each named by its place.
fn never<'a>(counts: &'a [u64], what: &'a str) -> impl Iterator<Item = String> + 'a {
    let zero = counts.iter().enumerate().filter(|(_, &count)| count == 0);
    zero.map(move |(i, _)| format!("{what} {i}"))
}
