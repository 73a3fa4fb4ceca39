//! Tracks of old magnetic stripe cards and masks with the places of digits, with place for the digits and not.

use crate::rng::Rng;
use model::dictionary::Object;
use model::mag_stripe;

/// The objects that the last record of a card without EMV mode must have brought.
pub const NEEDED: [Object; 4] = [
    Object::Track2Data,
    Object::Pcvc3Track2,
    Object::PunatcTrack2,
    Object::NatcTrack2,
];

/// Nibbles of a track at its greatest length.
const MOST_NIBBLES: usize = 38;

/// A track: mostly an account number, a D, seven digits, more digits, and an F where one is needed for whole bytes.
pub fn track(rng: &mut Rng) -> Vec<u8> {
    if rng.one_in(30) {
        let length = rng.within(1..=19);
        return rng.bytes(length);
    }
    let mut nibbles = Vec::new();
    let digits = rng.pick(&[0, 3, 12, 16, 16, 16, 19]);
    put_digits(rng, &mut nibbles, digits);
    nibbles.push(if rng.one_in(40) { 0x5 } else { 0xD });
    put_digits(rng, &mut nibbles, 7);
    let room = MOST_NIBBLES - nibbles.len();
    let some = rng.within(0..=room);
    let digits = rng.pick(&[room.min(13), room.min(13), room, room - 1, some, 1]);
    put_digits(rng, &mut nibbles, digits);
    if nibbles.len() % 2 == 1 {
        nibbles.push(0xF);
    }
    if rng.one_in(3) {
        for _ in 0..rng.pick(&[1, 1, 2, 3]) {
            let at = rng.below(nibbles.len());
            nibbles[at] = rng.pick(&[0xD, 0xD, 0xF, 0xF, 0xA, 0xB, 0xC, 0xE]);
        }
    }
    nibbles
        .chunks(2)
        .map(|pair| pair[0] << 4 | pair[1])
        .collect()
}

fn put_digits(rng: &mut Rng, nibbles: &mut Vec<u8>, digits: usize) {
    nibbles.extend((0..digits).map(|_| rng.below(10) as u8));
}

/// A mask whose places are mostly among so many digits.
pub fn mask(rng: &mut Rng, digits: usize) -> Vec<u8> {
    let all = (1u64 << digits.min(16)) - 1;
    let run = (1u64 << rng.within(1..=8)) - 1;
    let mask = match rng.below(8) {
        0 => 0,
        1 => all,
        2 => 1 << rng.below(16),
        3 | 4 => run << rng.below(13),
        _ => rng.bits(),
    };
    let past = if rng.one_in(20) {
        1 << rng.below(16)
    } else {
        0
    };
    (((mask & all) | past) as u16).to_be_bytes().to_vec()
}

/// How many digits of the counter go in, mostly such that those of the number are 0 to 8.
fn counter_digits(rng: &mut Rng, mask: &[u8]) -> Vec<u8> {
    let ones: usize = mask.iter().map(|byte| byte.count_ones() as usize).sum();
    let good = rng.within(ones.saturating_sub(8)..=ones);
    let near = rng.pick(&[ones + 1, ones.saturating_sub(9), ones]);
    let any = rng.byte();
    vec![match rng.below(12) {
        0 => near as u8,
        1 => any,
        _ => good as u8,
    }]
}

/// Values of the four objects, mostly such that the digits find their places; `held` gives those that the store
/// has already.
pub fn values<'a>(rng: &mut Rng, held: impl Fn(Object) -> Option<&'a [u8]>) -> [Vec<u8>; 4] {
    let or_drawn = |object, drawn: Vec<u8>| held(object).map_or(drawn, <[u8]>::to_vec);
    let track = or_drawn(Object::Track2Data, track(rng));
    let digits = mag_stripe::places_in(&track, 0, 0, 0).map_or(13, |places| places.digits());
    let code = mask(rng, digits);
    let others = or_drawn(Object::PunatcTrack2, mask(rng, digits));
    let counter = counter_digits(rng, &others);
    [track, code, others, counter]
}
