//! Looking up a start object in the site's bytes and the defaults (document 02, Item 14).

mod common;

use common::{hex, Draw};
use model::lookup::Source::{self, Defaults, Nowhere, Site};
use model::lookup::{find, lookup, source, too_many};

const SITE: &str = "9A03250615 9C0100";
const DEFAULTS: &str = "9C0120 9F1A020056";

/// The word of a place.
fn word(start: u64, source: Source, length: u64) -> u64 {
    let source = match source {
        Nowhere => 0,
        Site => 0x1_0000,
        Defaults => 0x2_0000,
    };
    start * 0x1_0000_0000 + source + length
}

/// Looks a tag up: the word of its value, and the value. The part must be in place, in the list that the word names.
fn found(site: &str, defaults: &str, tag: u32) -> (u64, String) {
    let (site, defaults) = (hex(site), hex(defaults));
    let part = lookup(&site, &defaults, tag);
    let place = find(&site, &defaults, tag);
    let (start, length) = ((place >> 32) as usize, place as u16 as usize);
    assert_eq!(place >> 18 & 0x3FFF, 0, "bits 18 to 31");
    let home = match place >> 16 & 3 {
        1 => &site[start..],
        _ => &defaults[start - site.len()..],
    };
    assert_eq!(part, &home[..length]);
    assert_eq!(part.as_ptr(), home.as_ptr());
    (
        place,
        part.iter().map(|byte| format!("{byte:02X}")).collect(),
    )
}

#[test]
fn examples() {
    for (site, defaults, tag, place, value) in [
        (SITE, DEFAULTS, 0x9C, word(7, Site, 1), "00"),
        (SITE, DEFAULTS, 0x9F1A, word(8 + 6, Defaults, 2), "0056"),
        (SITE, DEFAULTS, 0x9F35, word(8, Nowhere, 0), ""),
        // Empty values at the end of each list, and a tag in neither.
        ("9C00", DEFAULTS, 0x9C, word(2, Site, 0), ""),
        ("9C00", "9F1A00", 0x9F1A, word(2 + 3, Defaults, 0), ""),
        ("9C00", "9F1A00", 0x9F35, word(2, Nowhere, 0), ""),
        ("", "9C00", 0x9C, word(2, Defaults, 0), ""),
        ("9C00", "", 0x9C, word(2, Site, 0), ""),
        ("9C00", "", 0x9F35, word(2, Nowhere, 0), ""),
        (
            "9F1A020840 7000 9C0101",
            DEFAULTS,
            0x9C,
            word(10 + 2, Defaults, 1),
            "20",
        ),
        (
            "9F1A020840 7000 9C0101",
            DEFAULTS,
            0x9F1A,
            word(3, Site, 2),
            "0840",
        ),
        ("00 9C0101", DEFAULTS, 0x9C, word(4 + 2, Defaults, 1), "20"),
        ("9C0101 9C0102", DEFAULTS, 0x9C, word(2, Site, 1), "01"),
        (
            "9C0101 9F02060000",
            "9C0120 9F0206000000001234",
            0x9C,
            word(2, Site, 1),
            "01",
        ),
        (
            "9C0101 9F02060000",
            "9C0120 9F0206000000001234",
            0x9F02,
            word(8 + 6, Defaults, 6),
            "000000001234",
        ),
    ] {
        let expected = (place, value.to_string());
        assert_eq!(found(site, defaults, tag), expected, "{site} {tag:X}");
    }
    // The empty part is the site's where the site has the tag, and the defaults' where neither has it.
    let (site, defaults) = (hex("9C00 50"), hex(DEFAULTS));
    assert_eq!(lookup(&site, &defaults, 0x9C).as_ptr(), site[2..].as_ptr());
    assert_eq!(find(&site, &defaults, 0x9C), word(2, Site, 0));
    assert_eq!(lookup(&site, &defaults, 0x9A).as_ptr(), defaults.as_ptr());
}

#[test]
fn what_ends_the_walk() {
    for (site, value) in [
        // A template that is requested, or is at the front; a tag and lengths that are refused; a truncated object.
        ("E1 00 50 01 41", "42"),
        ("E1 03 50 01 41", "42"),
        ("DF80 00 50 01 41", "42"),
        ("DF81 80 00 50 01 41", "42"),
        ("51 80 50 01 41", "42"),
        ("51 83 000000 50 01 41", "42"),
        ("51 05 50 01 41", "42"),
        ("50 02 41", "42"),
        ("50", "42"),
        ("FF 50 01 41", "42"),
        // Known and unknown objects of any length at the front.
        ("51 00 50 01 41", "41"),
        ("51 81 01 00 50 01 41", "41"),
        ("51 82 0001 00 50 82 0001 41", "41"),
        ("95 01 00 9F02 00 DF8123 01 FF 50 01 41", "41"),
        ("50 01 41 00", "41"),
        ("50 01 41 50", "41"),
        ("", "42"),
    ] {
        assert_eq!(found(site, "50 01 42", 0x50).1, value, "{site}");
        // In the defaults as in the site.
        let alone = if value == "41" { "41" } else { "" };
        assert_eq!(found("", site, 0x50).1, alone, "{site}");
        assert_eq!(found("51 01 00", site, 0x50).1, alone, "{site}");
    }
    for tag in [0x70, 0xE1, 0x00, 0x5000, 0x0050_0000, 0xFFFF_FFFF] {
        let nothing = (word(5, Nowhere, 0), String::new());
        assert_eq!(found("E1 00 50 01 41", "70 00", tag), nothing, "{tag:X}");
    }
    assert_eq!(found("", "", 0x50), (word(0, Nowhere, 0), String::new()));
}

#[test]
fn long_values() {
    let long = [&hex("9F38 82 FFFF")[..], &[0x5A; 65_535], &hex("50 01 41")].concat();
    assert_eq!(find(&long, &[], 0x9F38), word(5, Site, 65_535));
    assert_eq!(find(&[], &long, 0x9F38), word(5, Defaults, 65_535));
    let behind = word(5 + 65_535 + 2, Defaults, 1);
    assert_eq!(find(&[], &long, 0x50), behind);
    let nowhere = word(long.len() as u64, Nowhere, 0);
    assert_eq!(find(&long, &long, 0x51), nowhere);
}

#[test]
fn too_many_bytes() {
    const LIMIT: usize = 1 << 32;
    for (site, defaults, expected) in [
        (0, 0, false),
        (LIMIT - 1, 0, false),
        (0, LIMIT - 1, false),
        (1, LIMIT - 2, false),
        (LIMIT, 0, true),
        (0, LIMIT, true),
        (1, LIMIT - 1, true),
        (LIMIT / 2, LIMIT / 2, true),
        (usize::MAX, 1, true),
        (usize::MAX, usize::MAX, true),
    ] {
        assert_eq!(too_many(site, defaults), expected, "{site} {defaults}");
    }
}

/// The value of the first object of a tag, by the definition that goes from object to object.
fn first(bytes: &[u8], tag: u32) -> Option<Vec<u8>> {
    let (found, value, behind) = model::tlv::split_object(bytes)?;
    if found.is_template() {
        None
    } else if found.number == tag {
        Some(value.to_vec())
    } else {
        first(behind, tag)
    }
}

#[test]
fn drawn_lists() {
    let mut draw = Draw(0x00C0_FFEE);
    let mut seen = [0; 3];
    for _ in 0..20_000 {
        let [site, defaults] = [(); 2].map(|()| {
            let mut text = String::new();
            for _ in 0..draw.below(6) {
                text += draw.pick(&[
                    "9C0101",
                    "9C00",
                    "9C0102",
                    "9F1A020056",
                    "9F0200",
                    "DF81230133",
                    "50810141",
                    "7000",
                    "00",
                    "9C02",
                    "9F",
                    "5180",
                ]);
            }
            text
        });
        let tag = draw.pick(&[0x9C, 0x9F1A, 0x9F02, 0xDF8123, 0x50, 0x70]);
        let (_, value) = found(&site, &defaults, tag);
        let of_site = first(&hex(&site), tag);
        let of_defaults = first(&hex(&defaults), tag);
        let expected = match (&of_site, &of_defaults) {
            (Some(_), _) => Site,
            (None, Some(_)) => Defaults,
            (None, None) => Nowhere,
        };
        let of = source(&hex(&site), &hex(&defaults), tag);
        assert_eq!(of, expected, "{site} | {defaults} | {tag:X}");
        seen[expected as usize] += 1;
        let expected = of_site.or(of_defaults).unwrap_or_default();
        assert_eq!(hex(&value), expected, "{site} | {defaults} | {tag:X}");
    }
    assert!(seen.iter().all(|&count| count > 1000), "{seen:?}");
}
