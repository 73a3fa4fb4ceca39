//! What the sessions reached of the transaction limit (document 02, Item 8).

use crate::damage::{self, LIMIT};
use model::analysis;
use model::cvm;
use model::dictionary::Object;
use model::store::Store;
use model::{COMMAND_SIZE, HEAD_SIZE, SESSION_SIZE};

/// How often each case was reached.
#[derive(Clone, Debug, Default, PartialEq, Eq)]
pub struct Reached {
    /// Amounts under, equal to and over the limit: of other cards, with on-device CVM.
    amounts: [[u64; 3]; 2],
    /// Amounts that the other limit would have let pass, or not: of other cards, with on-device CVM.
    other_limit: [u64; 2],
    /// Records refused for their limit alone, by phase 0 to 5.
    refused: [u64; 6],
}

impl Reached {
    /// The counts, with what each is of.
    fn counts(&mut self) -> [(&'static str, &mut [u64]); 3] {
        [
            (
                "amount against the limit (under, equal, over; then of phones)",
                self.amounts.as_flattened_mut(),
            ),
            ("another decision by the other limit", &mut self.other_limit),
            ("refused for the limit alone, phase", &mut self.refused),
        ]
    }

    /// Adds the counts of other sessions.
    pub fn add(&mut self, other: &Reached) {
        let mut other = other.clone();
        for ((_, to), (_, from)) in self.counts().into_iter().zip(other.counts()) {
            to.iter_mut().zip(from).for_each(|(to, from)| *to += *from);
        }
    }

    /// What was never reached.
    pub fn missing(&self) -> Vec<String> {
        let mut reached = self.clone();
        let counts = reached.counts().into_iter();
        counts
            .flat_map(|(what, counts)| crate::never(counts, what).collect::<Vec<_>>())
            .collect()
    }

    /// The counts as text.
    pub fn report(&self) -> String {
        let mut reached = self.clone();
        let counts = reached.counts().into_iter();
        counts
            .map(|(what, counts)| format!("{what}: {counts:?}\n"))
            .collect()
    }

    /// Counts the comparison of the amount with the limit, after the last record.
    pub fn count_decision(&mut self, store: &Store) {
        let phone = cvm::on_device(store);
        let amount = analysis::amount(store, Object::AmountAuthorised);
        let limits = [Object::TransactionLimit, Object::TransactionLimitOnDevice]
            .map(|object| analysis::amount(store, object));
        let [limit, other] = if phone {
            [limits[1], limits[0]]
        } else {
            limits
        };
        let relation = amount.cmp(&limit) as i8 + 1;
        self.amounts[usize::from(phone)][relation as usize] += 1;
        self.other_limit[usize::from(phone)] += u64::from((amount > limit) != (amount > other));
    }

    /// Counts a record that was refused with 25, if another limit would have kept it in its ranges.
    pub fn count_refused(&mut self, session: &[u8]) {
        if session.len() < SESSION_SIZE || session[1] > 5 {
            return;
        }
        let mut right = session[..SESSION_SIZE].to_vec();
        let limit = match session[1] {
            2 | 3 | 5 => damage::right_limit(&right),
            _ => 0,
        };
        right[LIMIT].copy_from_slice(&limit.to_be_bytes());
        if right[..HEAD_SIZE] != session[..HEAD_SIZE] && within_ranges(&mut right) {
            self.refused[usize::from(session[1])] += 1;
        }
    }
}

/// Whether a record is in its ranges, by a call that is refused for its phase alone then.
pub fn within_ranges(record: &mut [u8]) -> bool {
    model::stop(record, &mut [0; COMMAND_SIZE]) != 0x0002_0000 + 25
}
