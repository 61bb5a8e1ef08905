//! The desk from Rust, on the six rules of the paper: builds the index, looks up, shows a rule, lists the pairs and judges moves.
//! What it prints is held to examples/desk.stdout, as what examples/c/desk.c prints is.
use ruledesk::{Action, Found, Match, RECORD_BYTES};

const RULES: usize = 6;
const TABLE_BYTES: usize = RULES * RECORD_BYTES;
const WORDS: usize = 198;

/// Each rule as a, l, b, m, feed: a.0.0.0/l to b.0.0.0/m, delivered to the feed.
const SIX_RULES: [[u8; 5]; RULES] = [
    [0, 1, 128, 2, 10],
    [0, 2, 128, 1, 100],
    [192, 2, 192, 2, 10],
    [224, 3, 224, 3, 100],
    [160, 3, 128, 2, 100],
    [0, 0, 64, 2, 10],
];

fn six_rules() -> [u8; TABLE_BYTES] {
    let mut table = [0; TABLE_BYTES];
    for (record, [a, l, b, m, feed]) in table.chunks_exact_mut(RECORD_BYTES).zip(SIX_RULES) {
        record[0] = a;
        record[4] = b;
        record[13] = l;
        record[14] = m;
        record[18] = 1;
        record[19] = feed;
    }
    table
}

fn build(name: &str, table: &[u8], area: &mut [u32]) {
    match ruledesk::build(table, area) {
        Ok(words) => println!("{name}: {words} words"),
        Err(refusal) => println!("{name}: {refusal}"),
    }
}

fn found_text(found: Found) -> String {
    let outcome = match found.rule {
        Some(Match {
            place,
            action: Action::Hold,
        }) => format!("match {place} hold"),
        Some(Match {
            place,
            action: Action::Deliver(feed),
        }) => format!("match {place} deliver {feed}"),
        None => "none".to_string(),
    };
    format!("{outcome}, false blocks {}", found.false_blocks)
}

/// From a.0.0.1 to b.0.0.1, with ports and protocol 0.
fn look_up(table: &[u8], area: &[u32], a: u8, b: u8, header_length: usize) {
    let header = [a, 0, 0, 1, b, 0, 0, 1, 0, 0, 0, 0, 0];
    let answer = match ruledesk::lookup(table, area, &header[..header_length]) {
        Ok(found) => found_text(found),
        Err(refusal) => refusal.to_string(),
    };
    println!("{a}.0.0.1 to {b}.0.0.1, {header_length} bytes: {answer}");
}

fn show(name: &str, table: &[u8], place: usize) {
    print!("{name} {place}:");
    for byte in ruledesk::show(table, place).into_iter().flatten() {
        print!(" {byte:02x}");
    }
    println!();
}

fn list_pairs(table: &[u8], entries: usize) {
    let mut list = [0; ruledesk::enough_entries(RULES)];
    print!("pairs, list of {entries}: ");
    match ruledesk::pairs(table, &mut list[..entries]) {
        Ok(count) => {
            print!("{count}");
            for pair in list[..2 * count].chunks_exact(2) {
                print!(", {} and {}", pair[0], pair[1]);
            }
            println!();
        }
        Err(refusal) => println!("{refusal}"),
    }
}

fn judge(table: &[u8], order: &[u16], output: &mut [u8]) {
    print!("order");
    for place in order {
        print!(" {place}");
    }
    match ruledesk::judge(table, order, output) {
        Ok(()) => println!(": allowed"),
        Err(refusal) => println!(": {refusal}"),
    }
}

fn main() {
    let table = six_rules();
    let mut area = [0; WORDS];
    let mut output = [0; TABLE_BYTES];
    let mut unknown = table;
    unknown[3 * RECORD_BYTES + 18] = 2;

    build("six rules, a word short", &table, &mut area[..WORDS - 1]);
    build("rule 3 of an unknown kind", &unknown, &mut area);
    look_up(&table, &area, 0, 128, 13);
    build("six rules", &table, &mut area);
    look_up(&table, &area, 0, 128, 13);
    look_up(&table, &area, 224, 240, 13);
    look_up(&table, &area, 64, 192, 13);
    look_up(&table, &area, 0, 128, 12);
    show("rule", &table, 3);
    show("rule", &table, RULES);
    list_pairs(&table, 1);
    list_pairs(&table, 2);
    judge(&table, &[1, 0, 2, 3, 4, 5], &mut output);
    judge(&table, &[0, 1, 2, 3, 4], &mut output);
    judge(&table, &[0, 1, 2, 3, 5, 4], &mut output);
    show("moved rule", &output, 4);
}
