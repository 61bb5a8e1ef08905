//! The settled values of 01 (K1 to K12 and the "also run" list; K11 as 02's Q-1
//! has it) and the limits of Q-1, the blocks of 4 of source document 000, and
//! lookup's steps against the scan.

use crate::cases::{self, Random};
use crate::desk::{self, Action, Found, Prefix, Refusal, BLOCK, FIELDS, RULE_BYTES};

fn rule(source: (u32, u8), destination: (u32, u8), feed: u8) -> Vec<u8> {
    let mut rule = vec![0; RULE_BYTES];
    rule[..4].copy_from_slice(&source.0.to_be_bytes());
    rule[4..8].copy_from_slice(&destination.0.to_be_bytes());
    rule[13] = source.1;
    rule[14] = destination.1;
    rule[18] = 1;
    rule[19] = feed;
    rule
}

const ANY: (u8, u8) = (0, 0);

/// Holds; the prefixes are values (ports: below 256) and lengths.
fn port_rule(protocol: (u8, u8), source: (u8, u8), destination: (u8, u8)) -> Vec<u8> {
    let mut rule = vec![0; RULE_BYTES];
    (rule[12], rule[17]) = protocol;
    (rule[9], rule[15]) = source;
    (rule[11], rule[16]) = destination;
    rule
}

fn header(source: u32, destination: u32) -> Vec<u8> {
    let mut header = vec![0; desk::HEADER_BYTES];
    header[..4].copy_from_slice(&source.to_be_bytes());
    header[4..8].copy_from_slice(&destination.to_be_bytes());
    header
}

const fn address(a: u32, b: u32, c: u32, d: u32) -> u32 {
    a << 24 | b << 16 | c << 8 | d
}

const HALF: u32 = address(128, 0, 0, 0);
const QUARTER: u32 = address(64, 0, 0, 0);

/// The six rules of 001, Fig. 1, as 01 gives them.
fn six_rules() -> Vec<u8> {
    let high = address(192, 0, 0, 0);
    let top = address(224, 0, 0, 0);
    [
        rule((0, 1), (HALF, 2), 10),
        rule((0, 2), (HALF, 1), 100),
        rule((high, 2), (high, 2), 10),
        rule((top, 3), (top, 3), 100),
        rule((address(160, 0, 0, 0), 3), (HALF, 2), 100),
        rule((0, 0), (QUARTER, 2), 10),
    ]
    .concat()
}

fn number<T>(result: Result<T, Refusal>) -> u32 {
    result.err().map_or(0, |refusal| refusal.number)
}

/// K1 to K4, K12.
fn builds() {
    let table = six_rules();
    assert_eq!(desk::words_needed(&table), 198, "K1");
    assert_eq!(desk::words_needed(&[]), 55, "K2");
    assert_eq!(desk::build(&[], &mut [9; 55]), Ok(55), "K2");
    let mut area = vec![0xFFFF_FFFF; 200];
    assert_eq!(desk::build(&table, &mut area), Ok(198), "K1");
    assert_eq!(area[..11], [5, 9, 1, 32, 0, 0, 0, 0, 0, 0, 0], "K3");
    assert_eq!(area[88..99], [0, 0, 1, 35, 0, 0, 0, 0, 0, 0, 0], "K4");
    assert_eq!(area[198..], [0xFFFF_FFFF; 2], "words beyond stay");
    let mut short = vec![7; 197];
    assert_eq!(number(desk::build(&table, &mut short)), 7);
    assert_eq!(short, vec![7; 197], "a refusal leaves the area");
    let mut unknown = table.clone();
    unknown[3 * RULE_BYTES + 18] = 2;
    let answer = desk::answer_with_count(&desk::build(&unknown, &mut area));
    assert_eq!(answer, [5, 3], "K12");
}

/// K5 to K7, by the steps and by the scan.
fn lookups() {
    let table = six_rules();
    let mut area = vec![0; 198];
    desk::build(&table, &mut area).expect("K1");
    let one_to = |source, destination, answer: &[u32], name| {
        let header = header(source, destination);
        let steps = desk::lookup(&table, &area, &header);
        assert_eq!(desk::answer_of_lookup(&steps), answer, "{name}");
        assert_eq!(steps, Ok(desk::first_match(&table, &header, BLOCK)), "{name}");
    };
    one_to(1, HALF + 1, &[0, 0, 1, 0, 1, 10], "K5");
    one_to(address(224, 0, 0, 1), address(240, 0, 0, 1), &[0, 0, 1, 2, 1, 10], "K6");
    one_to(QUARTER + 1, address(192, 0, 0, 1), &[0, 1, 0], "K7");
    for length in [0, 12, 14] {
        assert_eq!(number(desk::lookup(&table, &area, &vec![0; length])), 8);
    }
}

/// K8 to K10.
fn moves() {
    let table = six_rules();
    let mut list = [9; 3];
    assert_eq!(desk::pairs(&table, &mut list), Ok(1), "K8");
    assert_eq!(list, [0, 1, 9], "K8");
    let mut output = vec![7; table.len() + 1];
    assert_eq!(desk::judge(&table, &[0, 1, 2, 3, 5, 4], &mut output), Ok(()), "K9");
    let (four, five) = (desk::rule_at(&table, 4), desk::rule_at(&table, 5));
    let moved = [&table[..4 * RULE_BYTES], five, four, &[7]].concat();
    assert_eq!(output, moved, "K9");
    let refused = desk::judge(&table, &[1, 0, 2, 3, 4, 5], &mut output);
    let expected = [13, 0, 1, 0, 0, 0, 0, 0x80, 0, 0, 0, 0, 0, 0, 0, 0];
    assert_eq!(desk::answer_of_judge(&refused), expected, "K10");
    assert_eq!(output, moved, "a refusal leaves the output");
}

/// The other limits that 01 has run.
fn limits() {
    assert_eq!(desk::check(&[0; 256 * RULE_BYTES]), Ok(()));
    assert_eq!(number(desk::check(&[0; 257 * RULE_BYTES])), 2);
    assert_eq!(number(desk::check(&[0; RULE_BYTES + 1])), 1);
    assert_eq!(desk::check(&rule((5, 32), (0, 0), 1)), Ok(()));
    assert_eq!(number(desk::check(&rule((5, 33), (0, 0), 1))), 3);
    assert_eq!(number(desk::check(&rule((5, 31), (0, 0), 1))), 4);
    assert_eq!(desk::show(&[3; 25], 0), [3; RULE_BYTES]);
    assert_eq!(desk::show(&[3; 25], 1), [0; 0]);
}

/// K11, by every call that checks rules and before 7, 10 and 11; but not by
/// lookup, whose index may be another table's.
fn port_refusals() {
    let refused = port_rule((1, 8), ANY, (80, 16));
    let built = port_rule((6, 8), ANY, (80, 16));
    let mut area = [7; 54];
    assert_eq!(desk::answer_with_count(&desk::build(&refused, &mut area)), [14, 0], "K11");
    assert_eq!(area, [7; 54], "a refusal leaves the area");
    let pair = [built.clone(), port_rule((6, 8), (80, 16), ANY)].concat();
    assert_eq!(number(desk::pairs(&pair, &mut [])), 10);
    let table = [refused.clone(), pair].concat();
    assert_eq!(desk::answer_with_count(&desk::pairs(&table, &mut [])), [14, 0]);
    assert_eq!(desk::answer_of_judge(&desk::judge(&table, &[], &mut [])), [14, 0]);
    let mut area = vec![0; desk::words_needed(&built)];
    assert_eq!(number(desk::build(&built, &mut area)), 0);
    let found = desk::lookup(&refused, &area, &[0, 0, 0, 0, 0, 0, 0, 0, 0, 0, 0, 80, 6]);
    assert_eq!(found, Ok(Found { falses: 0, hit: Some((0, Action::Hold)) }));
}

/// Protocols around 6 and 17, with any of the ports, of value 0, or none.
fn port_limits() {
    let exact = [0, 1, 5, 6, 7, 16, 17, 18, 255].map(|value| (value, 8));
    let shorter = [(6, 7), (16, 7), (0, 1), (0, 0)];
    for protocol in exact.into_iter().chain(shorter) {
        let with_ports = protocol == (6, 8) || protocol == (17, 8);
        for source in [0, 1, 16] {
            for destination in [0, 1, 16] {
                let rule = port_rule(protocol, (0, source), (0, destination));
                let accepted = with_ports || source + destination == 0;
                let expected = if accepted { 0 } else { 14 };
                assert_eq!(number(desk::check(&rule)), expected, "{rule:?}");
            }
        }
    }
}

/// 14 is tried after 3 to 6, but the lowest place comes first.
fn port_order() {
    for (byte, value, first) in [(13, 33, 3), (3, 1, 4), (18, 2, 5), (23, 1, 6)] {
        let mut rule = port_rule((1, 8), (80, 16), (80, 16));
        assert_eq!(desk::faults(&rule), [14]);
        rule[byte] = value;
        assert_eq!(desk::faults(&rule), [first, 14]);
        assert_eq!(number(desk::check(&rule)), first);
    }
    // 17 ends in 1: at length 7 that is a bit after the prefix.
    assert_eq!(desk::faults(&port_rule((17, 7), ANY, (80, 16))), [4, 14]);
    let long = rule((5, 33), (0, 0), 1);
    let ports = port_rule((1, 8), ANY, (80, 16));
    let build = |rules: [&[u8]; 2]| desk::build(&rules.concat(), &mut []);
    assert_eq!(desk::answer_with_count(&build([&ports, &long])), [14, 0]);
    assert_eq!(desk::answer_with_count(&build([&long, &ports])), [3, 0]);
    assert_eq!(desk::answer_with_count(&build([&six_rules(), &ports])), [14, 6]);
}

fn drawn(bits: &[bool]) -> String {
    bits.iter().map(|bit| if *bit { '1' } else { '0' }).collect()
}

/// The eleven rules of 000, Fig. 1, in blocks of 4 (its aggregate size 4).
fn blocks_of_four() {
    let quarters = |count: u32| QUARTER * count;
    let fields = [
        ((0, 2), (0, 2)), ((0, 2), (1, 2)), ((2, 2), (3, 2)), ((3, 2), (2, 2)),
        ((0, 1), (2, 2)), ((0, 1), (3, 2)), ((0, 1), (0, 1)), ((2, 1), (1, 2)),
        ((2, 1), (0, 1)), ((3, 2), (0, 1)), ((2, 2), (2, 2)),
    ];
    let table: Vec<u8> = fields
        .iter()
        .flat_map(|(a, b)| rule((quarters(a.0), a.1), (quarters(b.0), b.1), 1))
        .collect();
    assert_eq!(desk::check(&table), Ok(()));
    let rules = desk::prefixes(&table);
    let first = desk::vector(&rules, 0, Prefix { bits: 0b00, length: 2 });
    let second = desk::vector(&rules, 1, Prefix { bits: 0b01, length: 2 });
    assert_eq!(drawn(&first), "11001110000");
    assert_eq!(drawn(&second), "01000011110");
    assert_eq!(drawn(&desk::aggregate(&first, 4)), "110");
    assert_eq!(drawn(&desk::aggregate(&second, 4)), "111");
    let hit = |place| Some((place, Action::Deliver(1)));
    let found = desk::first_match(&table, &header(address(32, 0, 0, 0), QUARTER), 4);
    assert_eq!(found, Found { falses: 0, hit: hit(1) });
    // (00.., 11..): block 0 has rules for each field and none for both.
    let found = desk::first_match(&table, &header(0, quarters(3)), 4);
    assert_eq!(found, Found { falses: 1, hit: hit(5) });
    let found = desk::first_match(&table, &header(0, quarters(3)), BLOCK);
    assert_eq!(found, Found { falses: 0, hit: hit(5) });
}

/// The steps of lookup, on vectors made for the header, with any block size.
fn by_vectors(table: &[u8], header: &[u8], block: usize) -> (u32, Option<usize>) {
    let rules = desk::prefixes(table);
    let vectors: Vec<Vec<bool>> = (0..FIELDS)
        .map(|field| desk::vector(&rules, field, desk::header_path(header, field)))
        .collect();
    let aggregates: Vec<Vec<bool>> =
        vectors.iter().map(|vector| desk::aggregate(vector, block)).collect();
    let mut falses = 0;
    for number in 0..rules.len().div_ceil(block) {
        if aggregates.iter().all(|aggregate| aggregate[number]) {
            let places = number * block..rules.len().min((number + 1) * block);
            let mut places = places.filter(|place| vectors.iter().all(|v| v[*place]));
            if let Some(place) = places.next() {
                return (falses, Some(place));
            }
            falses += 1;
        }
    }
    (falses, None)
}

/// Random tables: the scan against the steps, in blocks of 4 and of 32.
fn scan_against_steps() {
    let mut random = Random::new(1);
    let mut falses = [0, 0];
    for _ in 0..200 {
        let count = cases::rule_count(&mut random);
        let table = cases::table(&mut random, count);
        for header in cases::headers(&mut random, &table, 20) {
            for (which, block) in [4, BLOCK].into_iter().enumerate() {
                let scan = desk::first_match(&table, &header, block);
                let steps = by_vectors(&table, &header, block);
                assert_eq!((scan.falses, scan.hit.map(|hit| hit.0)), steps);
                falses[which] += scan.falses;
            }
        }
    }
    assert!(falses[0] > 0 && falses[1] > 0, "no false blocks were tried");
}

pub fn run() {
    builds();
    lookups();
    moves();
    limits();
    port_refusals();
    port_limits();
    port_order();
    blocks_of_four();
    scan_against_steps();
    println!("self-test passed");
}
