//! The desk, through the wrapper, against the second program in `reference/`, which was written apart: seeded tables, whole and
//! spoilt, and every call on them. Answers and lent memory must agree.
#[allow(dead_code)]
#[path = "../../reference/cases.rs"]
mod cases;
#[allow(dead_code)]
#[path = "../../reference/desk.rs"]
mod desk;
#[allow(dead_code)]
#[path = "../../reference/pipe.rs"]
mod pipe;

use cases::Random;
use ruledesk::{Action, Found, Match, Refusal};

const TABLES: u64 = 400;

/// An answer as the list of its number and then its values.
fn said<T>(result: &Result<T, Refusal>, values: impl Fn(&T) -> Vec<u32>) -> Vec<u32> {
    match result {
        Ok(done) => [vec![0], values(done)].concat(),
        Err(refusal) => [vec![refusal.number()], carried(refusal)].concat(),
    }
}

fn carried(refusal: &Refusal) -> Vec<u32> {
    match refusal {
        Refusal::NotAllowed(crossing) => {
            let pair = [crossing.lower as u32, crossing.higher as u32];
            pair.into_iter()
                .chain(crossing.header.map(u32::from))
                .collect()
        }
        _ => refusal
            .place()
            .map(|place| place as u32)
            .into_iter()
            .collect(),
    }
}

fn found_values(found: &Found) -> Vec<u32> {
    let falses = found.false_blocks as u32;
    match found.rule {
        None => vec![falses, 0],
        Some(Match {
            place,
            action: Action::Hold,
        }) => vec![falses, 1, place as u32, 0, 0],
        Some(Match {
            place,
            action: Action::Deliver(feed),
        }) => vec![falses, 1, place as u32, 1, feed.into()],
    }
}

/// Builds in an area of that length, and gives what it left.
fn build(random: &mut Random, table: &[u8], words: usize) -> Vec<u32> {
    let mut ours = random.words(words);
    let mut theirs = ours.clone();
    let answer = said(&ruledesk::build(table, &mut ours), |words| {
        vec![*words as u32]
    });
    assert_eq!(
        answer,
        desk::answer_with_count(&desk::build(table, &mut theirs))
    );
    assert_eq!(ours, theirs);
    ours
}

fn lookup(table: &[u8], area: &[u32], header: &[u8]) {
    let answer = said(&ruledesk::lookup(table, area, header), found_values);
    assert_eq!(
        answer,
        desk::answer_of_lookup(&desk::lookup(table, area, header))
    );
}

fn pairs(random: &mut Random, table: &[u8], entries: usize) {
    let mut ours = random.halves(entries);
    let mut theirs = ours.clone();
    let answer = said(&ruledesk::pairs(table, &mut ours), |count| {
        vec![*count as u32]
    });
    assert_eq!(
        answer,
        desk::answer_with_count(&desk::pairs(table, &mut theirs))
    );
    assert_eq!(ours, theirs);
}

fn judge(random: &mut Random, table: &[u8], order: &[u16]) {
    let length = cases::lent_length(random, table.len(), pipe::MOST_OUTPUT_BYTES);
    let mut ours = random.bytes(length);
    let mut theirs = ours.clone();
    let answer = said(&ruledesk::judge(table, order, &mut ours), |()| vec![]);
    assert_eq!(
        answer,
        desk::answer_of_judge(&desk::judge(table, order, &mut theirs))
    );
    assert_eq!(ours, theirs);
}

fn show(random: &mut Random, table: &[u8]) {
    let place = cases::place(random, table);
    let ours = ruledesk::show(table, place as usize).map_or(&[][..], |record| &record[..]);
    assert_eq!(ours, desk::show(table, place));
}

/// Headers over the index, over a damaged one, and over the index of another table.
fn lookups(random: &mut Random, table: &[u8], area: &[u32]) {
    for header in cases::headers(random, table, 40) {
        lookup(table, area, &header);
        let mut damaged = area.to_vec();
        cases::damage_area(random, &mut damaged, &header);
        lookup(table, &damaged, &header);
        let mut changed = table.to_vec();
        cases::change_table(random, &mut changed);
        lookup(&changed, area, &header);
    }
    lookup(table, area, &cases::wrong_header(random));
}

#[test]
fn accepted_tables() {
    for seed in 0..TABLES {
        let random = &mut Random::new(seed);
        let count = cases::rule_count(random);
        let table = cases::table(random, count);
        let needed = desk::words_needed(&table);
        assert!(needed <= ruledesk::enough_words(count));
        let words = cases::lent_length(random, needed, pipe::MOST_AREA_WORDS);
        build(random, &table, words);
        let longer = needed + random.below(9);
        let area = build(random, &table, longer);
        lookups(random, &table, &area);
        let entries = 2 * desk::listed_pairs(&table).len();
        assert!(entries <= ruledesk::enough_entries(count));
        let lent = cases::lent_length(random, entries, pipe::MOST_LIST_ENTRIES);
        pairs(random, &table, lent);
        for _ in 0..4 {
            let order = cases::order(random, &table);
            judge(random, &table, &order);
        }
        show(random, &table);
    }
}

#[test]
fn spoilt_tables() {
    for seed in 0..4 * TABLES {
        let random = &mut Random::new(!seed);
        let table = cases::spoilt_table(random);
        let area = build(random, &table, 600);
        lookup(&table, &area, &[0; 13]);
        pairs(random, &table, 40);
        judge(random, &table, &[0, 1, 2]);
        show(random, &table);
    }
}
