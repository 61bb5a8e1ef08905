//! The desk's refusals: their cases from the numbers, and back.
use std::error::Error;
use std::fmt;

use crate::foreign::Answer;
use crate::HEADER_BYTES;

/// Two rules that a move may not carry past each other.
#[derive(Clone, Copy, Debug, PartialEq, Eq)]
pub struct Crossing {
    /// The lower of their old places.
    pub lower: usize,
    /// The higher of their old places.
    pub higher: usize,
    /// The lowest header that both match.
    pub header: [u8; HEADER_BYTES],
}

/// Why a call was refused. Nothing that was lent has changed then.
#[derive(Clone, Copy, Debug, PartialEq, Eq)]
pub enum Refusal {
    /// 1: the table's length is no multiple of 24.
    RaggedTable,
    /// 2: the table has more than 256 rules.
    TooManyRules,
    /// 3: a prefix length of the rule at this place is above its field's limit.
    LongPrefix(usize),
    /// 4: a bit after a prefix of the rule at this place is set.
    StrayBit(usize),
    /// 5: the rule at this place has an unknown kind, or holds with a feed other than 0.
    UnknownAction(usize),
    /// 6: bytes 20-23 of the rule at this place are not all zero.
    SpareBytes(usize),
    /// 7: the area is shorter than the words needed.
    ShortArea,
    /// 8: the header is not 13 bytes.
    NotAHeader,
    /// 9: the area has under 55 words, or holds on the way what no index holds.
    DamagedArea,
    /// 10: the list is shorter than twice the number of pairs.
    ShortList,
    /// 11: the order's length is not the rule count, or an entry is repeated or too large.
    NotAnOrder,
    /// 12: the output is shorter than the table.
    ShortOutput,
    /// 13: the move is not allowed, since these rules share a header and differ in action.
    NotAllowed(Crossing),
    /// 14: the rule at this place has a port length above 0, and its protocol is not exactly 6 or exactly 17.
    StrayPort(usize),
}

impl Refusal {
    /// The refusal's number, 1 to 14.
    pub fn number(&self) -> u32 {
        match self {
            Refusal::RaggedTable => 1,
            Refusal::TooManyRules => 2,
            Refusal::LongPrefix(_) => 3,
            Refusal::StrayBit(_) => 4,
            Refusal::UnknownAction(_) => 5,
            Refusal::SpareBytes(_) => 6,
            Refusal::ShortArea => 7,
            Refusal::NotAHeader => 8,
            Refusal::DamagedArea => 9,
            Refusal::ShortList => 10,
            Refusal::NotAnOrder => 11,
            Refusal::ShortOutput => 12,
            Refusal::NotAllowed(_) => 13,
            Refusal::StrayPort(_) => 14,
        }
    }

    /// The place of the rule that is refused, which 3 to 6 and 14 carry.
    pub fn place(&self) -> Option<usize> {
        match *self {
            Refusal::LongPrefix(place)
            | Refusal::StrayBit(place)
            | Refusal::UnknownAction(place)
            | Refusal::SpareBytes(place)
            | Refusal::StrayPort(place) => Some(place),
            _ => None,
        }
    }

    fn from_answer(number: u32, values: &[u64; 15]) -> Refusal {
        let place = values[0] as usize;
        match number {
            1 => Refusal::RaggedTable,
            2 => Refusal::TooManyRules,
            3 => Refusal::LongPrefix(place),
            4 => Refusal::StrayBit(place),
            5 => Refusal::UnknownAction(place),
            6 => Refusal::SpareBytes(place),
            7 => Refusal::ShortArea,
            8 => Refusal::NotAHeader,
            9 => Refusal::DamagedArea,
            10 => Refusal::ShortList,
            11 => Refusal::NotAnOrder,
            12 => Refusal::ShortOutput,
            13 => Refusal::NotAllowed(Crossing::from_values(values)),
            14 => Refusal::StrayPort(place),
            _ => unreachable!("the desk's numbers end at 14"),
        }
    }
}

impl Crossing {
    fn from_values(values: &[u64; 15]) -> Crossing {
        let mut header = [0; HEADER_BYTES];
        for (byte, value) in header.iter_mut().zip(&values[2..]) {
            *byte = *value as u8;
        }
        Crossing {
            lower: values[0] as usize,
            higher: values[1] as usize,
            header,
        }
    }
}

/// The values of an answer that is done, or the refusal.
pub fn done(answer: Answer) -> Result<[u64; 15], Refusal> {
    match answer.number {
        0 => Ok(answer.values),
        number => Err(Refusal::from_answer(number, &answer.values)),
    }
}

impl fmt::Display for Refusal {
    /// `refused N`, `refused N at P` where a place is carried, and for 13 the pair and the header.
    fn fmt(&self, f: &mut fmt::Formatter<'_>) -> fmt::Result {
        write!(f, "refused {}", self.number())?;
        if let Some(place) = self.place() {
            write!(f, " at {place}")?;
        }
        if let Refusal::NotAllowed(crossing) = self {
            write!(
                f,
                ", rules {} and {}, header",
                crossing.lower, crossing.higher
            )?;
            for byte in crossing.header {
                write!(f, " {byte:02x}")?;
            }
        }
        Ok(())
    }
}

impl Error for Refusal {}
