//! The paper's settled values, K1, K2, K5 to K12, and each refusal, through the wrapper.
use ruledesk::{build, judge, lookup, pairs, show, Action, Crossing, Found, Match, Refusal};

/// a.0.0.0/l to b.0.0.0/m, with a kind and a feed.
fn rule(a: u8, l: u8, b: u8, m: u8, kind: u8, feed: u8) -> [u8; 24] {
    [
        a, 0, 0, 0, b, 0, 0, 0, 0, 0, 0, 0, 0, l, m, 0, 0, 0, kind, feed, 0, 0, 0, 0,
    ]
}

fn six_rules() -> Vec<u8> {
    [
        rule(0, 1, 128, 2, 1, 10),
        rule(0, 2, 128, 1, 1, 100),
        rule(192, 2, 192, 2, 1, 10),
        rule(224, 3, 224, 3, 1, 100),
        rule(160, 3, 128, 2, 1, 100),
        rule(0, 0, 64, 2, 1, 10),
    ]
    .concat()
}

/// The six rules with one byte of one rule changed.
fn changed(place: usize, byte: usize, value: u8) -> Vec<u8> {
    let mut table = six_rules();
    table[24 * place + byte] = value;
    table
}

fn header(a: u8, b: u8) -> [u8; 13] {
    [a, 0, 0, 1, b, 0, 0, 1, 0, 0, 0, 0, 0]
}

fn look(a: u8, b: u8) -> Found {
    let table = six_rules();
    let mut area = [7; 300];
    build(&table, &mut area).unwrap();
    lookup(&table, &area, &header(a, b)).unwrap()
}

fn delivered(place: usize, feed: u8) -> Found {
    Found {
        rule: Some(Match {
            place,
            action: Action::Deliver(feed),
        }),
        false_blocks: 0,
    }
}

#[test]
fn k1_k2_words_needed() {
    let mut area = [7; 200];
    assert_eq!(build(&six_rules(), &mut area), Ok(198));
    assert_eq!(area[198..], [7, 7]);
    assert_eq!(build(&[], &mut area), Ok(55));
    assert_eq!(build(&[], &mut [0; 55]), Ok(55));
}

#[test]
fn k3_k4_records() {
    let mut area = [7; 198];
    build(&six_rules(), &mut area).unwrap();
    assert_eq!(area[..11], [5, 9, 1, 32, 0, 0, 0, 0, 0, 0, 0]);
    assert_eq!(area[88..99], [0, 0, 1, 35, 0, 0, 0, 0, 0, 0, 0]);
}

#[test]
fn k5_k6_k7_lookups() {
    assert_eq!(look(0, 128), delivered(0, 10));
    assert_eq!(look(224, 240), delivered(2, 10));
    assert_eq!(
        look(64, 192),
        Found {
            rule: None,
            false_blocks: 1
        }
    );
}

#[test]
fn k8_pairs() {
    let mut list = [7; 4];
    assert_eq!(pairs(&six_rules(), &mut list), Ok(1));
    assert_eq!(list, [0, 1, 7, 7]);
}

#[test]
fn k9_allowed_move() {
    let table = six_rules();
    let mut output = [9; 146];
    assert_eq!(judge(&table, &[0, 1, 2, 3, 5, 4], &mut output), Ok(()));
    assert_eq!(output[..96], table[..96]);
    assert_eq!(output[96..120], table[120..144]);
    assert_eq!(output[120..144], table[96..120]);
    assert_eq!(output[144..], [9, 9]);
}

#[test]
fn k10_move_not_allowed() {
    let mut output = [9; 144];
    let header = [0, 0, 0, 0, 0x80, 0, 0, 0, 0, 0, 0, 0, 0];
    let refusal = judge(&six_rules(), &[1, 0, 2, 3, 4, 5], &mut output).unwrap_err();
    assert_eq!(
        refusal,
        Refusal::NotAllowed(Crossing {
            lower: 0,
            higher: 1,
            header
        })
    );
    assert_eq!(refusal.number(), 13);
    assert_eq!(output, [9; 144]);
}

#[test]
fn the_header_of_13_has_all_its_bytes() {
    let mut first = [
        192, 0, 2, 1, 198, 51, 100, 2, 0x12, 0x34, 0, 0, 17, 32, 32, 16, 0, 8, 0, 0, 0, 0, 0, 0,
    ];
    let mut second = [0; 24];
    second[10..13].copy_from_slice(&[0x56, 0x78, 17]);
    second[16..20].copy_from_slice(&[16, 8, 1, 3]);
    let header = [192, 0, 2, 1, 198, 51, 100, 2, 0x12, 0x34, 0x56, 0x78, 17];
    let refusal = Refusal::NotAllowed(Crossing {
        lower: 0,
        higher: 1,
        header,
    });
    assert_eq!(
        judge(&[first, second].concat(), &[1, 0], &mut [0; 48]),
        Err(refusal)
    );
    first[18..20].copy_from_slice(&[1, 3]);
    assert_eq!(
        judge(&[first, second].concat(), &[1, 0], &mut [0; 48]),
        Ok(())
    );
}

#[test]
fn k11_ports_without_a_port_protocol() {
    let mut table = [0; 24];
    table[11] = 80;
    table[12] = 1;
    table[16] = 16;
    table[17] = 8;
    let mut area = [7; ruledesk::enough_words(1)];
    let refusal = build(&table, &mut area).unwrap_err();
    assert_eq!(refusal, Refusal::StrayPort(0));
    assert_eq!((refusal.number(), refusal.place()), (14, Some(0)));
    assert_eq!(refusal.to_string(), "refused 14 at 0");
    assert_eq!(area, [7; ruledesk::enough_words(1)]);
    for protocol in [6, 17] {
        table[12] = protocol;
        assert!(build(&table, &mut area).is_ok());
    }
}

#[test]
fn k12_unknown_kind() {
    let mut area = [7; 198];
    let refusal = build(&changed(3, 18, 2), &mut area).unwrap_err();
    assert_eq!(refusal, Refusal::UnknownAction(3));
    assert_eq!((refusal.number(), refusal.place()), (5, Some(3)));
    assert_eq!(area, [7; 198]);
}

#[test]
fn a_rule_that_holds() {
    let table = rule(0, 0, 0, 0, 0, 0);
    let mut area = [0; 55];
    build(&table, &mut area).unwrap();
    let found = lookup(&table, &area, &header(1, 2));
    assert_eq!(
        found,
        Ok(Found {
            rule: Some(Match {
                place: 0,
                action: Action::Hold
            }),
            false_blocks: 0
        })
    );
}

#[test]
fn refusals_of_a_table() {
    let cases = [
        (six_rules()[..143].to_vec(), Refusal::RaggedTable),
        (vec![0; 257 * 24], Refusal::TooManyRules),
        (changed(4, 13, 33), Refusal::LongPrefix(4)),
        (changed(2, 3, 1), Refusal::StrayBit(2)),
        (changed(1, 18, 0), Refusal::UnknownAction(1)),
        (changed(5, 23, 1), Refusal::SpareBytes(5)),
        (changed(3, 15, 1), Refusal::StrayPort(3)),
    ];
    for (number, (table, refusal)) in (1..=6).chain([14]).zip(cases) {
        let mut area = [7; 400];
        let mut list = [7; 30];
        let mut output = [7; 6200];
        assert_eq!(refusal.number(), number);
        assert_eq!(build(&table, &mut area), Err(refusal));
        assert_eq!(pairs(&table, &mut list), Err(refusal));
        assert_eq!(judge(&table, &[0], &mut output), Err(refusal));
        assert_eq!((area, list, output), ([7; 400], [7; 30], [7; 6200]));
    }
}

#[test]
fn refusals_of_lent_memory() {
    let table = six_rules();
    let mut area = [7; 197];
    assert_eq!(build(&table, &mut area), Err(Refusal::ShortArea));
    assert_eq!(area, [7; 197]);
    let mut list = [7; 1];
    assert_eq!(pairs(&table, &mut list), Err(Refusal::ShortList));
    assert_eq!(list, [7]);
    let mut output = [9; 143];
    assert_eq!(
        judge(&table, &[0, 1, 2, 3, 4, 5], &mut output),
        Err(Refusal::ShortOutput)
    );
    assert_eq!(output, [9; 143]);
    assert_eq!(build(&[], &mut []), Err(Refusal::ShortArea));
    assert_eq!(pairs(&[], &mut []), Ok(0));
    assert_eq!(judge(&[], &[], &mut []), Ok(()));
}

#[test]
fn refusals_of_an_order() {
    let orders: [&[u16]; 4] = [
        &[],
        &[0, 1, 2, 3, 4],
        &[0, 1, 2, 3, 4, 4],
        &[0, 1, 2, 3, 4, 6],
    ];
    for order in orders {
        assert_eq!(
            judge(&six_rules(), order, &mut [0; 144]),
            Err(Refusal::NotAnOrder)
        );
    }
}

#[test]
fn refusals_of_a_lookup() {
    let table = six_rules();
    let mut area = [0; 198];
    build(&table, &mut area).unwrap();
    for length in [0, 12, 14] {
        assert_eq!(
            lookup(&table, &area, &vec![0; length]),
            Err(Refusal::NotAHeader)
        );
    }
    let header = header(0, 128);
    assert_eq!(
        lookup(&table[..143], &area, &header),
        Err(Refusal::RaggedTable)
    );
    assert_eq!(
        lookup(&[0; 257 * 24], &area, &header),
        Err(Refusal::TooManyRules)
    );
    assert_eq!(
        lookup(&table, &area[..54], &header),
        Err(Refusal::DamagedArea)
    );
    assert_eq!(lookup(&[], &area, &header), Err(Refusal::DamagedArea));
    assert_eq!(
        lookup(&changed(0, 18, 2), &area, &header),
        Err(Refusal::UnknownAction(0))
    );
    area[0] = 4;
    assert_eq!(lookup(&table, &area, &header), Err(Refusal::DamagedArea));
}

#[test]
fn show_gives_the_tables_own_bytes() {
    let table = six_rules();
    for place in 0..6 {
        let record = show(&table, place).unwrap();
        assert_eq!(record.as_ptr(), table[24 * place..].as_ptr());
    }
    assert_eq!(show(&table, 6), None);
    assert_eq!(show(&table[..143], 5), None);
    assert_eq!(show(&table, usize::MAX), None);
    assert_eq!(show(&[], 0), None);
}
