//! The rule desk, read straight from the paper with the rules ("01" below) and the
//! paper with the changes asked for since ("02"; its Q-1 gives number 14), and kept
//! as plain as possible: rules are scanned one by one, the index is made from
//! a list of paths in order of first appearance. Nothing here is fast.

use std::collections::HashMap;

pub const RULE_BYTES: usize = 24;
pub const HEADER_BYTES: usize = 13;
pub const MOST_RULES: usize = 256;
pub const FIELDS: usize = 5;
pub const RECORD_WORDS: usize = 11;
/// Records 0 to 4 are the roots of the five fields.
pub const ROOT_WORDS: usize = FIELDS * RECORD_WORDS;
/// A block is 32 places.
pub const BLOCK: usize = 32;
const BLOCKS: usize = MOST_RULES / BLOCK;

/// First byte and width in bits of each field; the same in rule and header.
pub const STARTS: [usize; FIELDS] = [0, 4, 8, 10, 12];
pub const WIDTHS: [u32; FIELDS] = [32, 32, 16, 16, 8];
/// The fields that 14 is about: source port and destination port, protocol.
pub const PORTS: [usize; 2] = [2, 3];
pub const PROTOCOL: usize = 4;
/// Bytes 13 to 17 of a rule: the prefix lengths.
pub const LENGTHS_START: usize = 13;

const FIELD_NAMES: &[&str] = &[
    "source address",
    "destination address",
    "source port",
    "destination port",
    "protocol",
];
const TAIL_NAMES: &[&str] = &["byte 20", "byte 21", "byte 22", "byte 23"];
/// Which port lengths are above 0, and the protocol: another one exactly, the
/// value 6 but not exactly, length 0, or any other prefix.
const PORT_NAMES: &[&str] = &[
    "source port for another protocol",
    "source port for 6 at length 7",
    "source port for any protocol",
    "source port for another prefix",
    "destination port for another protocol",
    "destination port for 6 at length 7",
    "destination port for any protocol",
    "destination port for another prefix",
    "both ports for another protocol",
    "both ports for 6 at length 7",
    "both ports for any protocol",
    "both ports for another prefix",
];

/// A refusal: its number in 01's table (14: in 02), the values it carries, and
/// (for the counts only, never compared) which of its causes applied.
#[derive(Debug, Clone, PartialEq)]
pub struct Refusal {
    pub number: u32,
    pub carries: Vec<u32>,
    pub cause: &'static str,
}

fn refuse<T>(number: u32, cause: &'static str) -> Result<T, Refusal> {
    Err(Refusal { number, carries: vec![], cause })
}

fn refuse_at<T>(number: u32, place: usize, cause: &'static str) -> Result<T, Refusal> {
    Err(Refusal { number, carries: vec![place as u32], cause })
}

/// The causes told apart for each number.
pub fn causes(number: u32) -> &'static [&'static str] {
    match number {
        1 => &["ragged", "ragged and over 256 rules"],
        2 => &["257 rules", "more rules"],
        3 | 4 => FIELD_NAMES,
        5 => &["unknown kind", "hold with a feed"],
        6 => TAIL_NAMES,
        7 => &["one word short", "shorter"],
        8 => &["header short", "header long"],
        9 => &["under 55 words", "child 1 to 4", "child too large", "place too large"],
        10 => &["one entry short", "shorter"],
        11 => &["too short", "too long", "entry too large", "entry repeated"],
        12 => &["one byte short", "shorter"],
        13 => &["side by side in the new order", "apart in the new order"],
        14 => PORT_NAMES,
        _ => &[],
    }
}

#[derive(Debug, Clone, Copy, PartialEq)]
pub enum Action {
    Hold,
    Deliver(u8),
}

/// A lookup's answer: the false blocks, and the match if there is one.
#[derive(Debug, Clone, PartialEq)]
pub struct Found {
    pub falses: u32,
    pub hit: Option<(usize, Action)>,
}

/// The leading `length` bits of a value, as a number below 2^length.
#[derive(Debug, Clone, Copy, PartialEq, Eq, Hash)]
pub struct Prefix {
    pub bits: u64,
    pub length: u32,
}

impl Prefix {
    /// The first `length` bits of this one.
    pub fn first(self, length: u32) -> Prefix {
        Prefix { bits: self.bits >> (self.length - length), length }
    }

    /// "is a leading part of": an equal one included.
    pub fn leads(self, other: Prefix) -> bool {
        self.length <= other.length && other.first(self.length) == self
    }

    fn then(self, bit: u64) -> Prefix {
        Prefix { bits: self.bits * 2 + bit, length: self.length + 1 }
    }

    /// Length of the longest leading part in common.
    fn common(self, other: Prefix) -> u32 {
        let most = self.length.min(other.length);
        let differing = self.first(most).bits ^ other.first(most).bits;
        most - (u64::BITS - differing.leading_zeros())
    }
}

/// A field's value, big-endian, from a rule or a header.
pub fn field_value(bytes: &[u8], field: usize) -> u64 {
    let width = WIDTHS[field] as usize / 8;
    bytes[STARTS[field]..STARTS[field] + width]
        .iter()
        .fold(0, |value, byte| value * 256 + u64::from(*byte))
}

/// All bits of a header's field.
pub fn header_path(header: &[u8], field: usize) -> Prefix {
    Prefix { bits: field_value(header, field), length: WIDTHS[field] }
}

/// A checked rule's prefix of one field.
pub fn rule_prefix(rule: &[u8], field: usize) -> Prefix {
    let length = u32::from(rule[LENGTHS_START + field]);
    header_path(rule, field).first(length)
}

pub fn rule_count(table: &[u8]) -> usize {
    table.len() / RULE_BYTES
}

pub fn rule_at(table: &[u8], place: usize) -> &[u8] {
    &table[place * RULE_BYTES..(place + 1) * RULE_BYTES]
}

/// Kind 0 is hold, with feed 0; kind 1 delivers; 2 to 255 are unknown.
pub fn action(rule: &[u8], place: usize) -> Result<Action, Refusal> {
    match (rule[18], rule[19]) {
        (0, 0) => Ok(Action::Hold),
        (0, _) => refuse_at(5, place, causes(5)[1]),
        (1, feed) => Ok(Action::Deliver(feed)),
        (2..=255, _) => refuse_at(5, place, causes(5)[0]),
    }
}

// ---- Refusals 1 to 6 and 14 ----

fn check_size(table: &[u8]) -> Result<(), Refusal> {
    let over = rule_count(table) > MOST_RULES;
    if table.len() % RULE_BYTES != 0 {
        return refuse(1, causes(1)[usize::from(over)]);
    }
    if over {
        return refuse(2, causes(2)[usize::from(rule_count(table) > MOST_RULES + 1)]);
    }
    Ok(())
}

fn check_lengths(rule: &[u8], place: usize) -> Result<(), Refusal> {
    for field in 0..FIELDS {
        if u32::from(rule[LENGTHS_START + field]) > WIDTHS[field] {
            return refuse_at(3, place, causes(3)[field]);
        }
    }
    Ok(())
}

/// After a length above the limit, which is 3's fault, stands no bit.
fn check_bits(rule: &[u8], place: usize) -> Result<(), Refusal> {
    for field in 0..FIELDS {
        let after = WIDTHS[field].saturating_sub(u32::from(rule[LENGTHS_START + field]));
        if field_value(rule, field) % (1 << after) != 0 {
            return refuse_at(4, place, causes(4)[field]);
        }
    }
    Ok(())
}

fn check_tail(rule: &[u8], place: usize) -> Result<(), Refusal> {
    for byte in 20..RULE_BYTES {
        if rule[byte] != 0 {
            return refuse_at(6, place, causes(6)[byte - 20]);
        }
    }
    Ok(())
}

/// "a rule with a port length above 0 is refused unless its protocol is
/// exactly 6 or exactly 17 (length 8)"
fn check_ports(rule: &[u8], place: usize) -> Result<(), Refusal> {
    let ports = match PORTS.map(|port| rule[LENGTHS_START + port] > 0) {
        [false, false] => return Ok(()),
        [true, false] => 0,
        [false, true] => 1,
        [true, true] => 2,
    };
    let protocol = match (field_value(rule, PROTOCOL), rule[LENGTHS_START + PROTOCOL]) {
        (6 | 17, 8) => return Ok(()),
        (_, 8) => 0,
        (6, 7) => 1,
        (_, 0) => 2,
        _ => 3,
    };
    refuse_at(14, place, causes(14)[ports * 4 + protocol])
}

/// The tests of a rule in the order of trying: 3 to 6, then 14.
fn tests(rule: &[u8], place: usize) -> [Result<(), Refusal>; 5] {
    [
        check_lengths(rule, place),
        check_bits(rule, place),
        action(rule, place).map(|_| ()),
        check_tail(rule, place),
        check_ports(rule, place),
    ]
}

/// The numbers of all tests that a rule fails, in the order of trying.
pub fn faults(rule: &[u8]) -> Vec<u32> {
    let failed = tests(rule, 0).into_iter().filter_map(|test| test.err());
    failed.map(|refusal| refusal.number).collect()
}

/// The first test that fails decides.
fn check_rule(rule: &[u8], place: usize) -> Result<(), Refusal> {
    tests(rule, place).into_iter().collect()
}

/// 1, 2, then the rules, lowest place first.
pub fn check(table: &[u8]) -> Result<(), Refusal> {
    check_size(table)?;
    for place in 0..rule_count(table) {
        check_rule(rule_at(table, place), place)?;
    }
    Ok(())
}

// ---- The index ----

/// Every rule's five prefixes, for a checked table.
pub fn prefixes(table: &[u8]) -> Vec<[Prefix; FIELDS]> {
    (0..rule_count(table))
        .map(|place| std::array::from_fn(|field| rule_prefix(rule_at(table, place), field)))
        .collect()
}

/// 01's formula: 11 times (5 and, for each rule and field, the prefix's
/// length less its longest leading part in common with an earlier rule's).
pub fn words_needed(table: &[u8]) -> usize {
    let rules = prefixes(table);
    let mut records = FIELDS;
    for place in 0..rules.len() {
        for field in 0..FIELDS {
            let own = rules[place][field];
            let shared = rules[..place].iter().map(|earlier| own.common(earlier[field])).max();
            records += (own.length - shared.unwrap_or(0)) as usize;
        }
    }
    records * RECORD_WORDS
}

/// The records' fields and paths, in order of first appearance.
fn records_in_order(rules: &[[Prefix; FIELDS]]) -> Vec<(usize, Prefix)> {
    let mut records: Vec<(usize, Prefix)> =
        (0..FIELDS).map(|field| (field, Prefix { bits: 0, length: 0 })).collect();
    let mut known: HashMap<(usize, Prefix), ()> =
        records.iter().map(|record| (*record, ())).collect();
    for rule in rules {
        for (field, prefix) in rule.iter().enumerate() {
            for length in 1..=prefix.length {
                let step = (field, prefix.first(length));
                if known.insert(step, ()).is_none() {
                    records.push(step);
                }
            }
        }
    }
    records
}

/// Which rules' prefixes of the field are a leading part of the path.
pub fn vector(rules: &[[Prefix; FIELDS]], field: usize, path: Prefix) -> Vec<bool> {
    rules.iter().map(|rule| rule[field].leads(path)).collect()
}

/// One bit for each block of the vector: is any bit in it set?
pub fn aggregate(vector: &[bool], block: usize) -> Vec<bool> {
    vector.chunks(block).map(|bits| bits.contains(&true)).collect()
}

/// Bit i is 2^(i mod 32) in word i/32.
fn packed(bits: &[bool], words: &mut [u32]) {
    for (place, _) in bits.iter().enumerate().filter(|(_, bit)| **bit) {
        words[place / 32] |= 1 << (place % 32);
    }
}

/// Build: 1, 2, rules, 7. Gives the words needed.
pub fn build(table: &[u8], area: &mut [u32]) -> Result<usize, Refusal> {
    check(table)?;
    let words = words_needed(table);
    if area.len() < words {
        return refuse(7, causes(7)[usize::from(area.len() + 1 < words)]);
    }
    let rules = prefixes(table);
    let records = records_in_order(&rules);
    assert_eq!(records.len() * RECORD_WORDS, words, "01's formula and the records differ");
    let numbers: HashMap<(usize, Prefix), u32> =
        records.iter().enumerate().map(|(number, record)| (*record, number as u32)).collect();
    for (number, (field, path)) in records.iter().enumerate() {
        let record = &mut area[number * RECORD_WORDS..(number + 1) * RECORD_WORDS];
        record.fill(0);
        for bit in 0..2 {
            let child = numbers.get(&(*field, path.then(bit)));
            record[bit as usize] = *child.unwrap_or(&0);
        }
        let bits = vector(&rules, *field, *path);
        packed(&aggregate(&bits, BLOCK), &mut record[2..3]);
        packed(&bits, &mut record[3..]);
    }
    Ok(words)
}

// ---- Looking up a header ----

/// The scan, rule by rule: the first rule that matches in all five fields,
/// and the blocks before it in which each field has some matching rule.
/// For a checked table and a header of 13 bytes, with blocks of any size.
pub fn first_match(table: &[u8], header: &[u8], block: usize) -> Found {
    let paths: [Prefix; FIELDS] = std::array::from_fn(|field| header_path(header, field));
    let mut falses = 0;
    let mut place = 0;
    for rules in table.chunks(block * RULE_BYTES) {
        let mut some = [false; FIELDS];
        for rule in rules.chunks(RULE_BYTES) {
            let matches: [bool; FIELDS] =
                std::array::from_fn(|field| rule_prefix(rule, field).leads(paths[field]));
            if matches == [true; FIELDS] {
                let action = action(rule, place).expect("the table is checked");
                return Found { falses, hit: Some((place, action)) };
            }
            for field in 0..FIELDS {
                some[field] |= matches[field];
            }
            place += 1;
        }
        falses += u32::from(some == [true; FIELDS]);
    }
    Found { falses, hit: None }
}

/// Down one field "by the value's bits, from the top, until a child is
/// missing or the value is used up": the last record reached.
fn go_down(area: &[u32], field: usize, header: &[u8]) -> Result<usize, Refusal> {
    let value = field_value(header, field);
    let mut record = field;
    for step in 1..=WIDTHS[field] {
        let bit = (value >> (WIDTHS[field] - step)) % 2;
        let child = area[record * RECORD_WORDS + bit as usize] as usize;
        if child == 0 {
            break;
        }
        if child < FIELDS {
            return refuse(9, causes(9)[1]);
        }
        if child >= area.len() / RECORD_WORDS {
            return refuse(9, causes(9)[2]);
        }
        record = child;
    }
    Ok(record)
}

/// Lookup by 01's steps over any area: 8, 1, 2, 9, then 5 for the winner. Of a
/// rule it reads the action bytes alone, so 14 never comes.
pub fn lookup(table: &[u8], area: &[u32], header: &[u8]) -> Result<Found, Refusal> {
    if header.len() != HEADER_BYTES {
        return refuse(8, causes(8)[usize::from(header.len() > HEADER_BYTES)]);
    }
    check_size(table)?;
    if area.len() < ROOT_WORDS {
        return refuse(9, causes(9)[0]);
    }
    let mut ends = [0; FIELDS];
    for field in 0..FIELDS {
        ends[field] = go_down(area, field, header)? * RECORD_WORDS;
    }
    let mut falses = 0;
    for block in 0..BLOCKS {
        if ends.iter().any(|end| area[end + 2] >> block & 1 == 0) {
            continue;
        }
        let word = ends.iter().fold(u32::MAX, |word, end| word & area[end + 3 + block]);
        if word == 0 {
            falses += 1;
            continue;
        }
        let place = block * BLOCK + word.trailing_zeros() as usize;
        if place >= rule_count(table) {
            return refuse(9, causes(9)[3]);
        }
        let action = action(rule_at(table, place), place)?;
        return Ok(Found { falses, hit: Some((place, action)) });
    }
    Ok(Found { falses, hit: None })
}

/// The record's own 24 bytes, or nothing where no whole record stands. 01
/// names no refusal for it, so it works on any bytes.
pub fn show(table: &[u8], place: u32) -> &[u8] {
    let start = place as u64 * RULE_BYTES as u64;
    if start + RULE_BYTES as u64 > table.len() as u64 {
        return &[];
    }
    rule_at(table, place as usize)
}

// ---- Pairs and moves ----

/// "in each field, one prefix is a leading part of the other"
pub fn shares_header(one: &[u8], other: &[u8]) -> bool {
    (0..FIELDS).all(|field| {
        let (a, b) = (rule_prefix(one, field), rule_prefix(other, field));
        a.leads(b) || b.leads(a)
    })
}

/// "each of its prefixes is a leading part of the other's"
pub fn covers(one: &[u8], other: &[u8]) -> bool {
    (0..FIELDS).all(|field| rule_prefix(one, field).leads(rule_prefix(other, field)))
}

/// Shares a header and differs in action (checked rules).
pub fn order_matters(one: &[u8], other: &[u8]) -> bool {
    action(one, 0) != action(other, 0) && shares_header(one, other)
}

/// All listed pairs of a checked table, sorted.
pub fn listed_pairs(table: &[u8]) -> Vec<(usize, usize)> {
    let mut listed = vec![];
    for lower in 0..rule_count(table) {
        for higher in lower + 1..rule_count(table) {
            let (one, other) = (rule_at(table, lower), rule_at(table, higher));
            if shares_header(one, other) && !covers(one, other) && !covers(other, one) {
                listed.push((lower, higher));
            }
        }
    }
    listed
}

/// Pairs: 1, 2, rules, 10. Gives the number of pairs.
pub fn pairs(table: &[u8], list: &mut [u16]) -> Result<usize, Refusal> {
    check(table)?;
    let listed = listed_pairs(table);
    let entries = 2 * listed.len();
    if list.len() < entries {
        return refuse(10, causes(10)[usize::from(list.len() + 1 < entries)]);
    }
    for (number, (lower, higher)) in listed.iter().enumerate() {
        list[2 * number] = *lower as u16;
        list[2 * number + 1] = *higher as u16;
    }
    Ok(listed.len())
}

/// Refusal 11, or the new place of each old one.
fn new_places(count: usize, order: &[u16]) -> Result<Vec<usize>, Refusal> {
    if order.len() != count {
        return refuse(11, causes(11)[usize::from(order.len() > count)]);
    }
    let mut places = vec![None; count];
    for (new, old) in order.iter().enumerate() {
        let old = usize::from(*old);
        if old >= count {
            return refuse(11, causes(11)[2]);
        }
        if places[old].is_some() {
            return refuse(11, causes(11)[3]);
        }
        places[old] = Some(new);
    }
    Ok(places.into_iter().flatten().collect())
}

/// "in each field, the value of the longer prefix"
fn lowest_shared_header(one: &[u8], other: &[u8]) -> Vec<u8> {
    let mut header = vec![];
    for field in 0..FIELDS {
        let length = LENGTHS_START + field;
        let longer = if one[length] >= other[length] { one } else { other };
        let width = WIDTHS[field] as usize / 8;
        header.extend_from_slice(&longer[STARTS[field]..STARTS[field] + width]);
    }
    header
}

/// Refusal 13: the first pair by old places (lower, then higher) that
/// changes order, shares a header and differs in action.
fn check_move(table: &[u8], places: &[usize]) -> Result<(), Refusal> {
    for lower in 0..places.len() {
        for higher in lower + 1..places.len() {
            let (one, other) = (rule_at(table, lower), rule_at(table, higher));
            if places[lower] > places[higher] && order_matters(one, other) {
                let mut carries = vec![lower as u32, higher as u32];
                carries.extend(lowest_shared_header(one, other).iter().map(|b| u32::from(*b)));
                let apart = places[lower] - places[higher] > 1;
                return Err(Refusal { number: 13, carries, cause: causes(13)[usize::from(apart)] });
            }
        }
    }
    Ok(())
}

/// Moves: 1, 2, rules, 11, 12, 13.
pub fn judge(table: &[u8], order: &[u16], output: &mut [u8]) -> Result<(), Refusal> {
    check(table)?;
    let places = new_places(rule_count(table), order)?;
    if output.len() < table.len() {
        return refuse(12, causes(12)[usize::from(output.len() + 1 < table.len())]);
    }
    check_move(table, &places)?;
    for (new, old) in order.iter().enumerate() {
        output[new * RULE_BYTES..(new + 1) * RULE_BYTES]
            .copy_from_slice(rule_at(table, usize::from(*old)));
    }
    Ok(())
}

// ---- Answers as lists of numbers ----

fn answer<T>(result: &Result<T, Refusal>, values: impl Fn(&T) -> Vec<u32>) -> Vec<u32> {
    let (number, carries) = match result {
        Ok(done) => (0, values(done)),
        Err(refusal) => (refusal.number, refusal.carries.clone()),
    };
    [vec![number], carries].concat()
}

/// Build: 0, words. Pairs: 0, number of pairs.
pub fn answer_with_count(result: &Result<usize, Refusal>) -> Vec<u32> {
    answer(result, |count| vec![*count as u32])
}

/// Lookup: 0, falses, 1, place, kind, feed; or 0, falses, 0.
pub fn answer_of_lookup(result: &Result<Found, Refusal>) -> Vec<u32> {
    answer(result, |found| match found.hit {
        None => vec![found.falses, 0],
        Some((place, Action::Hold)) => vec![found.falses, 1, place as u32, 0, 0],
        Some((place, Action::Deliver(feed))) => {
            vec![found.falses, 1, place as u32, 1, u32::from(feed)]
        }
    })
}

/// Judge: 0.
pub fn answer_of_judge(result: &Result<(), Refusal>) -> Vec<u32> {
    answer(result, |()| vec![])
}

/// Show: 0, then the bytes.
pub fn answer_of_show(bytes: &[u8]) -> Vec<u32> {
    let mut numbers = vec![0];
    numbers.extend(bytes.iter().map(|byte| u32::from(*byte)));
    numbers
}
