//! What the choices of a CVM reached: every step of Book C-2's selection, every code and every condition.

use model::analysis;
use model::cvm::{self, Branch, NOT_APPLICABLE};
use model::dictionary::Object;
use model::store::{self, Store};
use std::fmt::Write as _;

/// The codes that are recognised, by their low six bits; the first one is fail.
const NAMES: [u8; 8] = [0x00, 0x01, 0x02, 0x03, 0x04, 0x05, 0x1E, 0x1F];

/// The bits of byte 2 of 9F33 that count.
const CAPABILITIES: [u8; 5] = [0x80, 0x40, 0x20, 0x10, 0x08];

/// The CVMs by number.
const METHODS: [u8; 6] = [0, 1, 2, 3, 4, NOT_APPLICABLE];

/// Reasons that an end after the choice has, and one before it or in stripe mode.
const LATER_REASONS: [usize; 9] = [0, 1, 2, 3, 4, 7, 8, 9, 10];
const EARLY_REASONS: [usize; 11] = [0, 1, 2, 3, 4, 5, 6, 7, 9, 10, 11];

/// How often each branch was reached.
#[derive(Clone, Debug, Default, PartialEq, Eq)]
pub struct Reached {
    /// Choices made.
    choices: u64,
    /// On-device CVM with an amount under, equal to and over the limit for verification.
    phones: [u64; 3],
    /// On-device CVM without and with a CVM List, of cards that do not support verification by a list and of
    /// those that do.
    phone_lists: [[u64; 2]; 2],
    /// No on-device CVM: neither bit set, that of 82 alone, that of DF811B alone.
    no_phones: [u64; 3],
    /// The card does not support verification; there is no list; no rule applies.
    without_rule: [u64; 3],
    /// Conditions 00 to 09: not met, met.
    conditions: [[u64; 2]; 10],
    /// Conditions above 09.
    not_understood: u64,
    /// Codes performed, by the place in `NAMES`.
    performed: [u64; 8],
    /// Codes that applied and did not succeed, by the place in `NAMES`.
    unsuccessful: [u64; 8],
    /// Fail, not supported, not recognised: the next rule, no rule left, b7 clear.
    after: [[u64; 3]; 3],
    /// A bit of 9F33 clear, set, when a list was used.
    capabilities: [[u64; 2]; 5],
    /// Conditions 06 to 09 in the card's currency: amount under, equal, over.
    amounts: [[u64; 3]; 4],
    /// Conditions 06 to 09 with currencies that are the same, differ, and without 5F2A, 9F42, both.
    currencies: [u64; 5],
    /// Conditions 06 to 09 with an amount over 32 bits.
    large_amounts: u64,
    /// Transaction types 01 and 17 with a list: not at the ATM, at the ATM.
    cash: [[u64; 2]; 2],
    /// Lists of even and odd length, of the least and of the greatest.
    lengths: [u64; 4],
    /// Codes performed with b8 set.
    reserved_bit: u64,
    /// Ends by CVM, in the order of `METHODS`, and reason.
    ends: [[u64; 12]; 6],
}

impl Reached {
    /// The counts, concatenated, with what each is of.
    fn counts(&mut self) -> Vec<(String, &mut u64)> {
        let mut all: Vec<(String, &mut u64)> = Vec::new();
        let list = |what: &str, names: &[&str]| -> Vec<String> {
            names.iter().map(|name| format!("{what}: {name}")).collect()
        };
        all.push(("choices of a method".into(), &mut self.choices));
        let names = list("phone", &["under", "equal", "over"]);
        all.extend(names.into_iter().zip(&mut self.phones));
        for (what, counts) in ["phone alone", "phone, 82 b5"]
            .iter()
            .zip(&mut self.phone_lists)
        {
            let names = list(what, &["no list", "a list"]);
            all.extend(names.into_iter().zip(counts));
        }
        let names = list("no phone", &["neither bit", "82 alone", "DF811B alone"]);
        all.extend(names.into_iter().zip(&mut self.no_phones));
        let names = list("no rule", &["not supported", "no list", "none applies"]);
        all.extend(names.into_iter().zip(&mut self.without_rule));
        for (condition, counts) in self.conditions.iter_mut().enumerate() {
            let names = list(&format!("condition {condition:02X}"), &["not met", "met"]);
            // Condition 00 is always met.
            let always = usize::from(condition == 0);
            all.extend(names.into_iter().zip(counts).skip(always));
        }
        all.push(("condition not understood".into(), &mut self.not_understood));
        let codes = NAMES.map(|name| format!("code {name:02X} performed"));
        all.extend(codes.into_iter().zip(&mut self.performed).skip(1));
        let codes = NAMES.map(|name| format!("code {name:02X} not successful"));
        all.extend(codes.into_iter().zip(&mut self.unsuccessful));
        for (kind, counts) in ["fail", "not supported", "not recognised"]
            .iter()
            .zip(&mut self.after)
        {
            let names = list(kind, &["next rule", "no rule left", "b7 clear"]);
            all.extend(names.into_iter().zip(counts));
        }
        for (bit, counts) in CAPABILITIES.iter().zip(&mut self.capabilities) {
            let names = list(&format!("capability {bit:02X}"), &["clear", "set"]);
            all.extend(names.into_iter().zip(counts));
        }
        for (condition, counts) in self.amounts.iter_mut().enumerate() {
            let what = format!("amount with condition {:02X}", 6 + condition);
            all.extend(
                list(&what, &["under", "equal", "over"])
                    .into_iter()
                    .zip(counts),
            );
        }
        let names = list(
            "currencies",
            &["same", "unlike", "no 5F2A", "no 9F42", "neither"],
        );
        all.extend(names.into_iter().zip(&mut self.currencies));
        all.push(("amount over 32 bits".into(), &mut self.large_amounts));
        for (kind, counts) in ["type 01", "type 17"].iter().zip(&mut self.cash) {
            let names = list(kind, &["not at the ATM", "at the ATM"]);
            all.extend(names.into_iter().zip(counts));
        }
        let names = list("list", &["even", "odd", "10 bytes", "250 bytes"]);
        all.extend(names.into_iter().zip(&mut self.lengths));
        all.push(("b8 of a code performed".into(), &mut self.reserved_bit));
        for (method, counts) in METHODS.iter().zip(&mut self.ends) {
            let reasons: &[usize] = if *method == NOT_APPLICABLE {
                &EARLY_REASONS
            } else {
                &LATER_REASONS
            };
            for (reason, count) in counts.iter_mut().enumerate() {
                if reasons.contains(&reason) {
                    all.push((format!("method {method} with reason {reason}"), count));
                }
            }
        }
        all
    }

    /// Adds the counts of other sessions.
    pub fn add(&mut self, other: &Reached) {
        let mut other = other.clone();
        for ((_, to), (_, from)) in self.counts().into_iter().zip(other.counts()) {
            *to += *from;
        }
    }

    /// What was never reached.
    pub fn missing(&self) -> Vec<String> {
        let mut reached = self.clone();
        let counts = reached.counts();
        counts
            .into_iter()
            .filter(|(_, count)| **count == 0)
            .map(|(what, _)| what)
            .collect()
    }

    /// The counts as text.
    pub fn report(&self) -> String {
        let mut reached = self.clone();
        let mut out = String::from("cardholder verification:");
        for (what, count) in reached.counts() {
            let _ = write!(out, " {what} {count},");
        }
        out.pop();
        out.push('\n');
        out
    }

    /// Counts an end by the CVM and the reason of its word.
    pub fn count_end(&mut self, method: u8, reason: u8) {
        if let Some(place) = METHODS.iter().position(|&known| known == method) {
            self.ends[place][usize::from(reason)] += 1;
        }
    }

    /// Counts the choice that was made on a store.
    pub fn count_choice(&mut self, store: &Store) {
        self.choices += 1;
        let mut branches = Vec::new();
        cvm::walk(store, &mut |branch| branches.push(branch));
        for &branch in &branches {
            self.count_branch(branch, store);
        }
        match branches[0] {
            Branch::OnDevice(_) => self.count_phone(store),
            Branch::NotSupported | Branch::NoList => self.count_no_phone(store),
            _ => {
                self.count_no_phone(store);
                self.count_list(store);
            }
        }
    }

    /// Counts an on-device CVM: its amount against the limit, and what is not examined.
    fn count_phone(&mut self, store: &Store) {
        let amount = store::get(store, Object::AmountAuthorised);
        let relation = amount.cmp(&store::get(store, Object::CvmRequiredLimit)) as i8 + 1;
        self.phones[relation as usize] += 1;
        let by_list = first_byte(store, Object::InterchangeProfile) & 0x10 != 0;
        let list = store::has_value(store, Object::CvmList);
        self.phone_lists[usize::from(by_list)][usize::from(list)] += 1;
    }

    /// Counts a card without on-device CVM by the bits that it would need.
    fn count_no_phone(&mut self, store: &Store) {
        let card = first_byte(store, Object::InterchangeProfile) & 0x02 != 0;
        let reader = first_byte(store, Object::KernelConfiguration) & 0x20 != 0;
        let bits = usize::from(card) + 2 * usize::from(reader);
        self.no_phones[bits] += 1;
    }

    fn count_branch(&mut self, branch: Branch, store: &Store) {
        let place = |code: u8| NAMES.iter().position(|&name| name == code & 0x3F);
        match branch {
            Branch::OnDevice(_) => {}
            Branch::NotSupported => self.without_rule[0] += 1,
            Branch::NoList => self.without_rule[1] += 1,
            Branch::NoRuleApplies => self.without_rule[2] += 1,
            Branch::Condition(condition @ 0..=9, met) => {
                self.conditions[usize::from(condition)][usize::from(met)] += 1;
                if condition >= 6 {
                    self.count_amount(condition, store);
                }
            }
            Branch::Condition(..) => self.not_understood += 1,
            Branch::Unrecognised(_) => {}
            Branch::Performed(code) => {
                self.performed[place(code).expect("a recognised code")] += 1;
                self.reserved_bit += u64::from(code & 0x80 != 0);
            }
            Branch::Next(code) | Branch::Failed(code) => {
                let kind = match place(code) {
                    Some(0) => 0,
                    Some(_) => 1,
                    None => 2,
                };
                let way = match branch {
                    Branch::Next(_) => 0,
                    _ if code & 0x40 != 0 => 1,
                    _ => 2,
                };
                self.after[kind][way] += 1;
                if let Some(place) = place(code) {
                    self.unsuccessful[place] += 1;
                }
            }
        }
    }

    /// Counts what a list met: capabilities, transaction type, length.
    fn count_list(&mut self, store: &Store) {
        let byte = |object, at: usize| store::get(store, object).map_or(0, |value| value[at]);
        let capabilities = byte(Object::TerminalCapabilities, 1);
        for (bit, counts) in CAPABILITIES.iter().zip(&mut self.capabilities) {
            counts[usize::from(capabilities & bit != 0)] += 1;
        }
        let at_atm = usize::from(analysis::at_atm(store));
        match byte(Object::TransactionType, 0) {
            0x01 => self.cash[0][at_atm] += 1,
            0x17 => self.cash[1][at_atm] += 1,
            _ => {}
        }
        let length = store::get(store, Object::CvmList).map_or(0, <[u8]>::len);
        self.lengths[length % 2] += 1;
        self.lengths[2] += u64::from(length == 10);
        self.lengths[3] += u64::from(length == 250);
    }

    /// Counts a comparison of the amount, by condition 06 to 09.
    fn count_amount(&mut self, condition: u8, store: &Store) {
        let transaction = store::get(store, Object::TransactionCurrency);
        let card = store::get(store, Object::ApplicationCurrency);
        let currencies = match (transaction, card) {
            (Some(transaction), Some(card)) => usize::from(transaction != card),
            (None, Some(_)) => 2,
            (Some(_), None) => 3,
            (None, None) => 4,
        };
        self.currencies[currencies] += 1;
        let Some(list) = store::get(store, Object::CvmList) else {
            return;
        };
        let digits = store::get(store, Object::AmountAuthorised).unwrap_or_default();
        let text: String = digits.iter().map(|byte| format!("{byte:02X}")).collect();
        let amount: u64 = text.parse().unwrap_or(0);
        let at = if condition < 8 { 0 } else { 4 };
        let limit = list[at..at + 4]
            .iter()
            .fold(0, |sum, &byte| sum * 256 + u64::from(byte));
        if currencies == 0 {
            let relation = amount.cmp(&limit) as i8 + 1;
            self.amounts[usize::from(condition) - 6][relation as usize] += 1;
            self.large_amounts += u64::from(amount > 0xFFFF_FFFF);
        }
    }
}

/// The first byte of an object that is present.
fn first_byte(store: &Store, object: Object) -> u8 {
    store::get(store, object).map_or(0, |value| value[0])
}
