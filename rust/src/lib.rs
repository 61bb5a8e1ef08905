//! The rule desk as safe Rust: verified packet classification.
//!
//! Five calls over the caller's own memory, each proved to answer what the rules' paper says for any input at all: any bytes, any
//! words, any order. The desk allocates nothing and keeps nothing between calls, and a refusal leaves all lent memory as it was.
//!
//! A rule table is records of [`RECORD_BYTES`], no header, at most [`MOST_RULES`] of them, possibly none. Places count from 0, and
//! the lowest place that matches wins. Numbers are big-endian:
//!
//! | bytes | content |
//! |---|---|
//! | 0-3, 4-7 | source address, destination address |
//! | 8-9, 10-11, 12 | source port, destination port, protocol |
//! | 13 to 17 | prefix lengths of these five, in that order: up to 32, 32, 16, 16 and 8 |
//! | 18, 19 | action kind, feed: kind 0 holds, with feed 0; kind 1 delivers to the feed |
//! | 20-23 | zero |
//!
//! Bits after a prefix are zero. A rule with a port length above 0 is for protocol 6 exactly or for protocol 17 exactly: headers of
//! protocols without ports carry zeros there. A packet header is [`HEADER_BYTES`]: the five values, in the same order and widths.
//!
//! A table's refusals are 1, then 2, then the fault of the lowest place that has one: of its rule's 3, 4, 5, 6 and 14 the first, in
//! that order.
//!
//! ```
//! // One rule: everything from 10.0.0.0/8 is delivered to feed 7.
//! let mut table = [0; 24];
//! table[0] = 10;
//! table[13] = 8;
//! table[18] = 1;
//! table[19] = 7;
//!
//! let mut area = [0; ruledesk::enough_words(1)];
//! ruledesk::build(&table, &mut area)?;
//!
//! let header = [10, 0, 0, 1, 192, 0, 2, 1, 0, 0, 0, 80, 6];
//! let found = ruledesk::lookup(&table, &area, &header)?;
//! assert_eq!(found.rule, Some(ruledesk::Match { place: 0, action: ruledesk::Action::Deliver(7) }));
//! # Ok::<(), ruledesk::Refusal>(())
//! ```
#![deny(missing_docs)]

mod foreign;
mod refusal;

pub use refusal::{Crossing, Refusal};

/// The bytes of a rule's record.
pub const RECORD_BYTES: usize = 24;

/// The bytes of a packet header.
pub const HEADER_BYTES: usize = 13;

/// The most rules that a table may have.
pub const MOST_RULES: usize = 256;

/// Words of an area that suffice for any table of so many rules.
pub const fn enough_words(rules: usize) -> usize {
    11 * (5 + 104 * rules)
}

/// Entries of a list that suffice for the pairs of any table of so many rules.
pub const fn enough_entries(rules: usize) -> usize {
    rules * rules.saturating_sub(1)
}

/// What is done with a packet that a rule matches.
#[derive(Clone, Copy, Debug, PartialEq, Eq)]
pub enum Action {
    /// The packet is held.
    Hold,
    /// The packet is delivered to a feed.
    Deliver(u8),
}

impl Action {
    fn from_values(kind: u64, feed: u64) -> Action {
        match kind {
            0 => Action::Hold,
            1 => Action::Deliver(feed as u8),
            _ => unreachable!("the desk's kinds end at 1"),
        }
    }
}

/// The rule that a header found.
#[derive(Clone, Copy, Debug, PartialEq, Eq)]
pub struct Match {
    /// The rule's place in the table.
    pub place: usize,
    /// The rule's action.
    pub action: Action,
}

/// What a lookup answers.
#[derive(Clone, Copy, Debug, PartialEq, Eq)]
pub struct Found {
    /// The first rule that matches, if one does.
    pub rule: Option<Match>,
    /// The number of false blocks: blocks of 32 rules that were tried in vain.
    pub false_blocks: usize,
}

/// Writes the index of the table to the area, and gives the number of words that it takes. Further words keep their values.
///
/// # Errors
///
/// The refusals of a [table](crate), then 7.
pub fn build(table: &[u8], area: &mut [u32]) -> Result<usize, Refusal> {
    let values = refusal::done(foreign::build(table, area))?;
    Ok(values[0] as usize)
}

/// The first rule that matches a header, by the index in the area, which may be longer than the index.
///
/// # Errors
///
/// The numbers 8, 1, 2, 9, then 5 for the winner alone. Over the index that [`build`] wrote of this table, both unchanged, 9 and 5
/// never come; over any other area the answer is what the same steps say of it.
pub fn lookup(table: &[u8], area: &[u32], header: &[u8]) -> Result<Found, Refusal> {
    let [false_blocks, matched, place, kind, feed, ..] =
        refusal::done(foreign::lookup(table, area, header))?;
    let rule = (matched == 1).then(|| Match {
        place: place as usize,
        action: Action::from_values(kind, feed),
    });
    Ok(Found {
        rule,
        false_blocks: false_blocks as usize,
    })
}

/// Lists the pairs of rules that share a header while neither covers the other, and gives their number: two places for each, the lower
/// first, sorted by the lower and then the higher. Later entries keep their values.
///
/// # Errors
///
/// The refusals of a [table](crate), then 10.
pub fn pairs(table: &[u8], list: &mut [u16]) -> Result<usize, Refusal> {
    let values = refusal::done(foreign::pairs(table, list))?;
    Ok(values[0] as usize)
}

/// Whether the rules may be put in another order, given as their old places in the new order. If they may, the moved table is written
/// to the output, whose further bytes stay.
///
/// # Errors
///
/// The refusals of a [table](crate), then 11, 12, 13.
pub fn judge(table: &[u8], order: &[u16], output: &mut [u8]) -> Result<(), Refusal> {
    refusal::done(foreign::judge(table, order, output))?;
    Ok(())
}

/// The record of the rule at a place, or nothing where no whole record stands there.
pub fn show(table: &[u8], place: usize) -> Option<&[u8; RECORD_BYTES]> {
    let part = foreign::show(table, place);
    table[part.start..part.start + part.length].try_into().ok()
}
