//! The deepest stack of both readers over a record of four levels: at most 4 KiB and two stores.

use test_reading::stack;

/// A record of four levels with an object in the innermost one.
const FOUR_LEVELS: [u8; 15] = [
    0x70, 0x0B, 0x70, 0x09, 0x70, 0x07, 0x70, 0x05, 0x9F, 0x08, 0x02, 0x00, 0x02, 0x90, 0x00,
];

#[test]
fn within_bounds() {
    type Read = fn(&mut [u8], u32, u8, &[u8]) -> u32;
    let readers: [(&str, Read); 2] = [
        ("first", test_reading::read),
        ("flat", test_reading::read_flat),
    ];
    for (name, read) in readers {
        let mut store = [0; model::STORE_SIZE];
        let mut word = 0;
        let depth = stack::depth(|| word = read(&mut store, 1, 1, &FOUR_LEVELS));
        println!("{depth:6}  {name}");
        assert_eq!(word, 5, "{name}");
        assert!(
            (1..=4096 + 2 * store.len()).contains(&depth),
            "{name}: {depth}"
        );
    }
}
