//! Seeded random cases: tables, headers, areas, lists, orders, and ways to
//! spoil them. Small pools of nesting prefixes make rules meet one another.

use crate::desk::{self, FIELDS, HEADER_BYTES, LENGTHS_START, MOST_RULES, PORTS, PROTOCOL};
use crate::desk::{RECORD_WORDS, ROOT_WORDS, RULE_BYTES, STARTS, WIDTHS};
use crate::pipe::{MOST_ORDER_ENTRIES, MOST_TABLE_BYTES};

/// splitmix64
pub struct Random(u64);

impl Random {
    pub fn new(seed: u64) -> Random {
        Random(seed)
    }

    pub fn next(&mut self) -> u64 {
        self.0 = self.0.wrapping_add(0x9E37_79B9_7F4A_7C15);
        let mut mixed = self.0;
        mixed = (mixed ^ (mixed >> 30)).wrapping_mul(0xBF58_476D_1CE4_E5B9);
        mixed = (mixed ^ (mixed >> 27)).wrapping_mul(0x94D0_49BB_1331_11EB);
        mixed ^ (mixed >> 31)
    }

    /// A number below the limit, which is not 0.
    pub fn below(&mut self, limit: usize) -> usize {
        (self.next() % limit as u64) as usize
    }

    /// From low to high, both included.
    pub fn between(&mut self, low: usize, high: usize) -> usize {
        low + self.below(high - low + 1)
    }

    pub fn percent(&mut self, chance: usize) -> bool {
        self.below(100) < chance
    }

    pub fn pick<T: Copy>(&mut self, items: &[T]) -> T {
        items[self.below(items.len())]
    }

    pub fn bytes(&mut self, count: usize) -> Vec<u8> {
        (0..count).map(|_| self.next() as u8).collect()
    }

    pub fn words(&mut self, count: usize) -> Vec<u32> {
        (0..count).map(|_| self.next() as u32).collect()
    }

    pub fn halves(&mut self, count: usize) -> Vec<u16> {
        (0..count).map(|_| self.next() as u16).collect()
    }
}

// ---- Tables ----

/// How many rules: mostly few to middling, at times none or 256.
pub fn rule_count(random: &mut Random) -> usize {
    match random.below(100) {
        0..=2 => 0,
        3..=14 => random.between(1, 4),
        15..=54 => random.between(5, 32),
        55..=81 => random.between(33, 96),
        82..=94 => random.between(97, 255),
        _ => MOST_RULES,
    }
}

fn put_value(bytes: &mut [u8], field: usize, value: u64) {
    let width = WIDTHS[field] as usize / 8;
    let from = 8 - width;
    bytes[STARTS[field]..STARTS[field] + width].copy_from_slice(&value.to_be_bytes()[from..]);
}

fn put_prefix(rule: &mut [u8], field: usize, (value, length): (u64, u32)) {
    put_value(rule, field, value);
    rule[LENGTHS_START + field] = length as u8;
}

/// The value with the bits after the prefix made zero.
fn cut(value: u64, width: u32, length: u32) -> u64 {
    let after = width - length;
    (value >> after) << after
}

/// Any value of the field. Of protocols often 6 or 17: only these go with
/// ports, and the prefixes of rules without ports have to meet them.
fn base(random: &mut Random, field: usize) -> u64 {
    let any = random.next() & ((1 << WIDTHS[field]) - 1);
    match field {
        PROTOCOL => random.pick(&[6, 17, any]),
        _ => any,
    }
}

/// Prefixes of one field that nest and part at random bits.
fn pool(random: &mut Random, field: usize, size: usize) -> Vec<(u64, u32)> {
    let width = WIDTHS[field];
    let bases: Vec<u64> = (0..random.between(1, 3)).map(|_| base(random, field)).collect();
    let mut prefixes = vec![];
    for _ in 0..size {
        let mut value = random.pick(&bases);
        if random.percent(50) {
            value ^= 1 << random.below(width as usize);
        }
        let length = match random.below(10) {
            0 => 0,
            1 | 2 => width,
            3..=6 => random.between(1, 4) as u32,
            _ => random.between(0, width as usize) as u32,
        };
        prefixes.push((cut(value, width, length), length));
    }
    prefixes
}

/// Few distinct actions, so that some rules agree and some don't.
fn actions(random: &mut Random) -> Vec<(u8, u8)> {
    let some = [(0, 0), (1, 0), (1, 10), (1, 100), (1, 255), (1, random.next() as u8)];
    (0..random.between(1, 4)).map(|_| random.pick(&some)).collect()
}

/// A rule with ports is refused for a protocol other than 6 and 17. So it takes
/// one of the given ones, or loses its ports and keeps its protocol.
fn settle_ports(random: &mut Random, rule: &mut [u8], protocols: &[u64], keep: usize) {
    if PORTS.iter().all(|port| rule[LENGTHS_START + port] == 0) {
        return;
    }
    if random.percent(keep) {
        put_prefix(rule, PROTOCOL, (random.pick(protocols), WIDTHS[PROTOCOL]));
    } else {
        for port in PORTS {
            put_prefix(rule, port, (0, 0));
        }
    }
}

/// A table that passes the check when the count is at most 256.
pub fn table(random: &mut Random, count: usize) -> Vec<u8> {
    let most = random.pick(&[2, 5, 9, 16, 28]);
    let pools: Vec<Vec<(u64, u32)>> = (0..FIELDS)
        .map(|field| {
            let size = random.between(1, most);
            pool(random, field, size)
        })
        .collect();
    let any = random.pick(&[0, 10, 30, 60]);
    let protocols = random.pick(&[[6, 6], [17, 17], [6, 17]]);
    let keep = random.pick(&[60, 80, 100]);
    let actions = actions(random);
    let mut table = vec![];
    for _ in 0..count {
        let mut rule = [0; RULE_BYTES];
        for field in 0..FIELDS {
            if !random.percent(any) {
                put_prefix(&mut rule, field, random.pick(&pools[field]));
            }
        }
        settle_ports(random, &mut rule, &protocols, keep);
        (rule[18], rule[19]) = random.pick(&actions);
        table.extend_from_slice(&rule);
    }
    table
}

/// A full table of exact random values, at times without ports: its index fits
/// in no lent area.
pub fn giant_table(random: &mut Random) -> Vec<u8> {
    let mut table = vec![];
    for _ in 0..MOST_RULES {
        let mut rule = random.bytes(RULE_BYTES);
        rule[LENGTHS_START..18].copy_from_slice(&[32, 32, 16, 16, 8]);
        rule[18..].copy_from_slice(&[1, 7, 0, 0, 0, 0]);
        settle_ports(random, &mut rule, &[6, 17], 60);
        table.extend_from_slice(&rule);
    }
    table
}

// ---- Tables with faults ----

fn spoil_length(random: &mut Random, rule: &mut [u8]) {
    let field = random.below(FIELDS);
    let limit = WIDTHS[field] as usize;
    let above = random.between(limit + 1, 255);
    rule[LENGTHS_START + field] = random.pick(&[limit + 1, above, 255]) as u8;
}

fn spoil_bits(random: &mut Random, rule: &mut [u8]) {
    let field = random.below(FIELDS);
    let width = WIDTHS[field];
    let length = random.below(width as usize) as u32;
    let after = (width - length) as usize;
    let any = random.below(after);
    let wrong = random.pick(&[0, any, after - 1]);
    let kept = cut(desk::field_value(rule, field), width, length);
    put_prefix(rule, field, (kept | 1 << wrong, length));
}

fn spoil_action(random: &mut Random, rule: &mut [u8]) {
    if random.percent(50) {
        let kind = random.between(2, 255);
        rule[18] = random.pick(&[2, kind, 255]) as u8;
    } else {
        rule[18] = 0;
        rule[19] = random.between(1, 255) as u8;
    }
}

fn spoil_tail(random: &mut Random, rule: &mut [u8]) {
    rule[random.between(20, 23)] = random.between(1, 255) as u8;
}

/// Of value 0, as in the header of a protocol without ports, half the time.
fn port_prefix(random: &mut Random) -> (u64, u32) {
    let between = random.between(1, 16) as u32;
    let length = random.pick(&[1, between, 16]);
    let any = random.next() & 0xFFFF;
    (cut(random.pick(&[0, any]), 16, length), length)
}

/// A protocol prefix that is not exactly 6 or 17, but clean: 6 ends in 0 and can
/// stay at length 7; 17 ends in 1, so that cut off it is another value.
fn protocol_without_ports(random: &mut Random) -> (u64, u32) {
    let ranges = [(0, 5), (7, 16), (18, 255)];
    let [below, amid, above] = ranges.map(|(low, high)| random.between(low, high) as u64);
    let length = random.between(1, 7) as u32;
    match random.below(4) {
        0 => (random.pick(&[0, 1, 5, 7, 16, 18, 255, below, amid, above]), 8),
        1 => (6, 7),
        2 => (0, 0),
        _ => (cut(base(random, PROTOCOL), 8, length), length),
    }
}

/// A port for a protocol without ports: source, destination or both.
fn spoil_ports(random: &mut Random, rule: &mut [u8]) {
    let given = random.pick(&[[true, false], [false, true], [true, true]]);
    for (port, given) in PORTS.into_iter().zip(given) {
        let prefix = if given { port_prefix(random) } else { (0, 0) };
        put_prefix(rule, port, prefix);
    }
    put_prefix(rule, PROTOCOL, protocol_without_ports(random));
}

/// The ports more often than the others: 14 has the most causes.
fn spoil_rule(random: &mut Random, rule: &mut [u8]) {
    match random.below(6) {
        0 => spoil_length(random, rule),
        1 => spoil_bits(random, rule),
        2 => spoil_action(random, rule),
        3 => spoil_tail(random, rule),
        _ => spoil_ports(random, rule),
    }
}

/// A table with one to three faults: the lowest place and, within a rule,
/// the test tried first must be named. Or a table of a wrong length.
pub fn spoilt_table(random: &mut Random) -> Vec<u8> {
    let few = random.between(1, 40);
    let count = random.pick(&[1, few, few, few, MOST_RULES]);
    let many = random.between(257, 341);
    match random.below(10) {
        0 => ragged(random, count - 1),
        1 => {
            let over = random.pick(&[257, many]);
            table(random, over)
        }
        2 => ragged(random, many),
        _ => {
            let mut table = table(random, count);
            let mut place = random.below(count);
            for _ in 0..random.between(1, 3) {
                let rule = &mut table[place * RULE_BYTES..][..RULE_BYTES];
                spoil_rule(random, rule);
                if random.percent(50) {
                    place = random.below(count);
                }
            }
            table
        }
    }
}

/// Some rules and a part of one more.
fn ragged(random: &mut Random, count: usize) -> Vec<u8> {
    let mut table = table(random, count);
    let room = (MOST_TABLE_BYTES - table.len()).min(RULE_BYTES - 1);
    let extra = random.between(1, room);
    table.extend(random.bytes(extra));
    table
}

// ---- Headers ----

/// A value under the rule's prefix, the bits after it chosen.
fn value_under(random: &mut Random, rule: &[u8], field: usize) -> u64 {
    let after = (1u64 << (WIDTHS[field] - u32::from(rule[LENGTHS_START + field]))) - 1;
    let fill = random.next();
    desk::field_value(rule, field) | (random.pick(&[0, fill, fill, u64::MAX]) & after)
}

/// Each field under a rule of its own; near: all from one block.
fn mixed_header(random: &mut Random, table: &[u8], near: bool) -> Vec<u8> {
    let count = desk::rule_count(table);
    let (low, high) = match near {
        true => {
            let low = random.below(count) / desk::BLOCK * desk::BLOCK;
            (low, (low + desk::BLOCK).min(count) - 1)
        }
        false => (0, count - 1),
    };
    let mut header = vec![0; HEADER_BYTES];
    for field in 0..FIELDS {
        let place = random.between(low, high);
        let value = value_under(random, desk::rule_at(table, place), field);
        put_value(&mut header, field, value);
    }
    header
}

/// A header that some rule matches.
fn matched_header(random: &mut Random, table: &[u8]) -> Vec<u8> {
    let place = random.below(desk::rule_count(table));
    let mut header = vec![0; HEADER_BYTES];
    for field in 0..FIELDS {
        let value = value_under(random, desk::rule_at(table, place), field);
        put_value(&mut header, field, value);
    }
    header
}

/// A header of 13 bytes for a checked table.
pub fn header(random: &mut Random, table: &[u8]) -> Vec<u8> {
    if table.is_empty() {
        return random.bytes(HEADER_BYTES);
    }
    match random.below(10) {
        0 => random.bytes(HEADER_BYTES),
        1..=4 => matched_header(random, table),
        5 | 6 => mixed_header(random, table, false),
        7 | 8 => mixed_header(random, table, true),
        _ => {
            let mut header = matched_header(random, table);
            header[random.below(HEADER_BYTES)] ^= 1 << random.below(8);
            header
        }
    }
}

pub fn headers(random: &mut Random, table: &[u8], count: usize) -> Vec<Vec<u8>> {
    (0..count).map(|_| header(random, table)).collect()
}

/// Any length, mostly a wrong one.
pub fn wrong_header(random: &mut Random) -> Vec<u8> {
    let length = random.pick(&[0, 1, 12, 12, 13, 14, 14, 24, 26]);
    random.bytes(length)
}

// ---- Orders ----

fn allowed_shuffle(random: &mut Random, table: &[u8], order: &mut [u16]) {
    for _ in 0..4 * order.len() {
        let new = random.below(order.len() - 1);
        let [one, other] = [order[new], order[new + 1]].map(usize::from);
        if !desk::order_matters(desk::rule_at(table, one), desk::rule_at(table, other)) {
            order.swap(new, new + 1);
        }
    }
}

fn shuffle(random: &mut Random, order: &mut [u16]) {
    for last in (1..order.len()).rev() {
        order.swap(last, random.below(last + 1));
    }
}

/// A permutation for a checked table; about half are made to be allowed.
fn sound_order(random: &mut Random, table: &[u8]) -> Vec<u16> {
    let mut order: Vec<u16> = (0..desk::rule_count(table) as u16).collect();
    if order.len() < 2 {
        return order;
    }
    let neighbour = random.below(order.len() - 1);
    match random.below(10) {
        0 => {}
        1 | 2 => order.swap(neighbour, neighbour + 1),
        3 => shuffle(random, &mut order),
        4 => order.reverse(),
        5 => {
            let moved = order.remove(random.below(order.len()));
            order.insert(random.between(0, order.len()), moved);
        }
        6 => {
            allowed_shuffle(random, table, &mut order);
            order.swap(neighbour, neighbour + 1);
        }
        _ => allowed_shuffle(random, table, &mut order),
    }
    order
}

/// An order, one in four of them broken.
pub fn order(random: &mut Random, table: &[u8]) -> Vec<u16> {
    let mut order = sound_order(random, table);
    let count = order.len();
    if count == 0 || random.percent(75) {
        if random.percent(2) {
            let longer = random.between(1, MOST_ORDER_ENTRIES - count);
            order.extend(random.halves(longer));
        }
        return order;
    }
    let (one, other) = (random.below(count), random.below(count));
    match random.below(4) {
        0 => order.truncate(random.below(count)),
        1 => order.push(random.pick(&[0, count as u16, u16::MAX])),
        2 => order[one] = order[other],
        _ => order[one] = random.pick(&[count as u16, count as u16 + 1, 256, u16::MAX]),
    }
    order
}

// ---- Lengths of what is lent ----

/// A length around the needed one: exact, longer or shorter, up to a limit.
pub fn lent_length(random: &mut Random, needed: usize, most: usize) -> usize {
    let length = match random.below(8) {
        0..=2 => needed,
        3 | 4 => needed + random.between(1, 30),
        5 => needed.saturating_sub(1),
        6 => random.between(0, needed),
        _ => needed.saturating_sub(random.between(1, 24)),
    };
    length.min(most)
}

/// A place to show: in the table, around its end, or far too large.
pub fn place(random: &mut Random, table: &[u8]) -> u32 {
    let count = desk::rule_count(table) as u32;
    let inside = random.below(count as usize + 1) as u32;
    let any = random.next() as u32;
    // 2^29 times 24 is a multiple of 2^32.
    random.pick(&[inside, inside, inside, count, count + 1, 1 << 29, any, u32::MAX])
}

// ---- Damaged areas and tables changed after the build ----

/// The word that holds a child on the header's way down one field.
fn word_on_path(random: &mut Random, area: &[u32], header: &[u8]) -> usize {
    let field = random.below(FIELDS);
    let value = desk::field_value(header, field);
    let steps = random.below(WIDTHS[field] as usize);
    let mut word = 0;
    let mut record = field;
    for step in 0..=steps as u32 {
        let bit = value >> (WIDTHS[field] - 1 - step) & 1;
        word = record * RECORD_WORDS + bit as usize;
        record = area[word] as usize;
        if record == 0 {
            break;
        }
    }
    word
}

fn damage_child(random: &mut Random, area: &mut [u32], header: &[u8]) {
    let word = word_on_path(random, area, header);
    let records = area.len() / RECORD_WORDS;
    let inside = random.below(records) as u32;
    let low = random.between(1, 4) as u32;
    let any = random.next() as u32;
    let high = random.pick(&[records as u32, records as u32 + 1, any, u32::MAX]);
    area[word] = random.pick(&[0, low, high, inside, inside, (word / RECORD_WORDS) as u32]);
}

/// One place's bit set or cleared in every record, aggregates included.
fn damage_place(random: &mut Random, area: &mut [u32], place: usize) {
    let set = random.percent(70);
    for record in area.chunks_exact_mut(RECORD_WORDS) {
        let word = &mut record[3 + place / 32];
        *word = if set { *word | 1 << (place % 32) } else { *word & !(1 << (place % 32)) };
        if set {
            record[2] |= 1 << (place / 32);
        }
    }
}

fn damage_any_word(random: &mut Random, area: &mut [u32]) {
    let records = area.len() / RECORD_WORDS;
    let record = random.below(records) * RECORD_WORDS;
    let any = random.next() as u32;
    match random.below(3) {
        0 => area[record + 2] = random.pick(&[0, 255, u32::MAX, any & 255, any]),
        1 => area[record + random.between(3, 10)] = random.pick(&[0, u32::MAX, any]),
        _ => {
            let word = random.below(area.len());
            area[word] = random.pick(&[any, any % (records as u32 + 2)]);
        }
    }
}

/// No index at all: children within the area, all else at random.
fn random_area(random: &mut Random, length: usize) -> Vec<u32> {
    let mut area = random.words(length);
    let records = length / RECORD_WORDS;
    for record in area.chunks_exact_mut(RECORD_WORDS) {
        for child in &mut record[..2] {
            *child = random.below(records + 1) as u32;
            if *child < FIELDS as u32 && random.percent(90) {
                *child = 0;
            }
        }
    }
    area
}

/// Spoils a built index for lookups of the given header.
pub fn damage_area(random: &mut Random, area: &mut Vec<u32>, header: &[u8]) {
    match random.below(12) {
        0..=4 => damage_child(random, area, header),
        5 => {
            let place = random.below(MOST_RULES);
            damage_place(random, area, place);
        }
        6..=8 => {
            for _ in 0..random.between(1, 6) {
                damage_any_word(random, area);
            }
        }
        9 => area.truncate(random.between(ROOT_WORDS, area.len())),
        10 => area.truncate(random.between(0, ROOT_WORDS - 1)),
        _ => *area = random_area(random, area.len()),
    }
}

/// Changes a table after its index was built: lookup rereads action bytes
/// of the winner alone, and the rule count.
pub fn change_table(random: &mut Random, table: &mut Vec<u8>) {
    let count = desk::rule_count(table);
    if count == 0 || random.percent(10) {
        let grown = random.between(0, MOST_RULES - count);
        table.extend(random.bytes(grown * RULE_BYTES));
        return;
    }
    if random.percent(20) {
        table.truncate(random.below(count) * RULE_BYTES);
        return;
    }
    let few = random.percent(50);
    let actions_too = random.percent(50);
    for rule in table.chunks_mut(RULE_BYTES) {
        if few && random.percent(70) {
            continue;
        }
        let other = random.bytes(RULE_BYTES);
        rule[..18].copy_from_slice(&other[..18]);
        rule[20..].copy_from_slice(&other[20..]);
        if actions_too {
            spoil_action(random, rule);
        }
    }
}
