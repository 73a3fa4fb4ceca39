//! The AFL (document 01, "Locator").

/// A record that the AFL names.
#[derive(Clone, Copy, Debug, PartialEq, Eq)]
pub struct Record {
    /// File number, 1 to 30.
    pub file: u8,
    /// Record number.
    pub number: u8,
}

impl Record {
    /// Whether the record's objects are taken: those of files 1 to 10 are. Above that the status alone counts.
    pub fn is_read(self) -> bool {
        self.file <= 10
    }
}

/// The number of records of one entry, or none if the entry breaks the rules.
fn entry_records(entry: &[u8]) -> Option<u32> {
    let &[file, first, last, authenticated] = entry else {
        return None;
    };
    let good = file & 0x07 == 0 && (1..=30).contains(&(file >> 3)) && first != 0 && last >= first;
    let records = if good {
        u32::from(last - first) + 1
    } else {
        return None;
    };
    (u32::from(authenticated) <= records).then_some(records)
}

/// The number of records in all, 1 to 128, or none if the AFL breaks the rules.
pub fn records(locator: &[u8]) -> Option<u32> {
    let total = locator
        .chunks(4)
        .try_fold(0, |total, entry| Some(total + entry_records(entry)?))?;
    (1..=128).contains(&total).then_some(total)
}

/// The k-th record, counted from 1, of an AFL that satisfies the rules.
pub fn record(locator: &[u8], k: u32) -> Option<Record> {
    let mut before = 0;
    for entry in locator.chunks(4) {
        let records = entry_records(entry)?;
        if k <= before + records {
            return Some(Record {
                file: entry[0] >> 3,
                number: entry[1] + (k.checked_sub(before + 1)?) as u8,
            });
        }
        before += records;
    }
    None
}
