//! One object at the front of some bytes, and the padding between objects (document 01, "Reading an answer"; document
//! 02, Item 6).

/// A tag: its bytes as a number, and whether it marks a template.
#[derive(Clone, Copy, Debug, PartialEq, Eq)]
pub struct Tag {
    /// The tag's bytes as a number, first byte highest.
    pub number: u32,
    first: u8,
}

impl Tag {
    /// Constructed: b6 of the first byte is set.
    pub fn is_template(self) -> bool {
        self.first & 0x20 != 0
    }

    /// Private class: b8 and b7 of the first byte are both set.
    pub fn is_private(self) -> bool {
        self.first & 0xC0 == 0xC0
    }
}

/// Splits a tag off the front; none if it begins with 00, if its number begins with 80, or if it goes on past
/// three bytes.
pub fn split_tag(bytes: &[u8]) -> Option<(Tag, &[u8])> {
    let (&first, rest) = bytes.split_first()?;
    let mut number = u32::from(first);
    if first == 0x00 {
        return None;
    }
    if first & 0x1F != 0x1F {
        return Some((Tag { number, first }, rest));
    }
    let (&second, rest) = rest.split_first()?;
    number = number << 8 | u32::from(second);
    if second == 0x80 {
        return None;
    }
    if second & 0x80 == 0 {
        return Some((Tag { number, first }, rest));
    }
    let (&third, rest) = rest.split_first()?;
    number = number << 8 | u32::from(third);
    if third & 0x80 != 0 {
        return None;
    }
    Some((Tag { number, first }, rest))
}

/// Splits a length off the front: one byte below 80, or one or two bytes after 81 or 82.
fn split_length(bytes: &[u8]) -> Option<(usize, &[u8])> {
    match *bytes {
        [n @ 0..=0x7F, ref rest @ ..] => Some((usize::from(n), rest)),
        [0x81, n, ref rest @ ..] => Some((usize::from(n), rest)),
        [0x82, high, low, ref rest @ ..] => {
            Some((usize::from(u16::from_be_bytes([high, low])), rest))
        }
        _ => None,
    }
}

/// Splits one whole object off the front: its tag, its value, the bytes after it.
pub fn split_object(bytes: &[u8]) -> Option<(Tag, &[u8], &[u8])> {
    let (tag, rest) = split_tag(bytes)?;
    let (length, rest) = split_length(rest)?;
    let (value, rest) = rest.split_at_checked(length)?;
    Some((tag, value, rest))
}

/// The contents of a template from the next tag on: a run of 00 where that would start is skipped.
pub fn skip_padding(contents: &[u8]) -> &[u8] {
    let padding = contents.iter().take_while(|&&byte| byte == 0x00).count();
    &contents[padding..]
}

/// How many objects the tree of a template's contents has, templates and what is in them; none if it is no tree of at
/// most so many levels.
///
/// Each object is one, a template is one and its contents, and padding is none.
pub fn count_objects(contents: &[u8], levels: u32) -> Option<u32> {
    match contents {
        [] => return Some(0),
        [0x00, behind @ ..] => return count_objects(behind, levels),
        _ => {}
    }
    let (tag, value, rest) = split_object(contents)?;
    let inside = if tag.is_template() {
        count_objects(value, levels.checked_sub(1)?)?
    } else {
        0
    };
    Some(1 + inside + count_objects(rest, levels)?)
}
