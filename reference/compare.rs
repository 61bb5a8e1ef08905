//! One table at a time: the same calls to the program over the pipe and to
//! desk.rs, answers and lent memory compared.

use crate::cases::{self, Random};
use crate::desk::{self, Action, Found, Prefix, Refusal, BLOCK, HEADER_BYTES, PORTS, PROTOCOL};
use crate::pipe::{Asked, MOST_AREA_WORDS, MOST_HEADERS, MOST_LIST_ENTRIES, MOST_OUTPUT_BYTES};
use crate::tally::Tally;
use std::fmt::Debug;
use std::io;

/// Port, protocol, and the line of accepted tables that have such a rule.
const PORT_LINES: [(usize, u64, &str); 4] = [
    (PORTS[0], 6, "tables built with a source port for 6"),
    (PORTS[1], 6, "tables built with a destination port for 6"),
    (PORTS[0], 17, "tables built with a source port for 17"),
    (PORTS[1], 17, "tables built with a destination port for 17"),
];

pub struct Comparison {
    asked: Asked,
    seed: u64,
    tally: Tally,
}

/// Done, or the report of a difference.
type Compared<T> = Result<T, String>;

fn hex(bytes: &[u8]) -> String {
    bytes.iter().map(|byte| format!("{byte:02x}")).collect()
}

fn report(call: &str, table: &[u8], ours: &[u32], theirs: &[u32]) -> String {
    format!(
        "{call}\nreference answers {ours:?}\nprogram answers   {theirs:?}\ntable {}",
        hex(table)
    )
}

/// Nothing, or where the lent memory first differs.
fn same_memory<T: PartialEq + Debug>(call: &str, ours: &[T], theirs: &[T]) -> Compared<()> {
    match (0..ours.len()).find(|at| ours[*at] != theirs[*at]) {
        None => Ok(()),
        Some(at) => Err(format!(
            "{call}\nlent memory differs at {at}\nreference has {:?}\nprogram has   {:?}",
            ours[at], theirs[at]
        )),
    }
}

fn broken(error: io::Error) -> String {
    format!("the pipe broke: {error}")
}

impl Comparison {
    pub fn new(asked: Asked, seed: u64) -> Comparison {
        Comparison { asked, seed, tally: Tally::default() }
    }

    /// Ends the program and prints the counts; false if one is 0.
    pub fn end(self) -> io::Result<bool> {
        self.asked.end()?;
        Ok(self.tally.print())
    }

    /// All calls around one table, with so many lookups over its index.
    pub fn compare_table(&mut self, number: u64, lookups: usize) -> Compared<()> {
        let random = &mut Random::new(Random::new(self.seed ^ number << 20).next());
        let count = cases::rule_count(random);
        let table = cases::table(random, count);
        let area = self.builds(random, &table)?;
        self.lookups(random, &table, &area, lookups)?;
        for _ in 0..4 {
            self.damaged_area(random, &table, &area)?;
        }
        self.changed_table(random, &table, &area)?;
        self.lookup_wrong_sizes(random, &table, &area)?;
        self.pair_lists(random, &table)?;
        for _ in 0..4 {
            self.judge(random, &table)?;
        }
        self.show(random, &table)?;
        for _ in 0..3 {
            let spoilt = cases::spoilt_table(random);
            self.spoilt(random, &spoilt)?;
        }
        if number % 100 == 1 {
            let giant = cases::giant_table(random);
            self.build(&giant, random.words(MOST_AREA_WORDS))?;
        }
        Ok(())
    }

    // ---- Build ----

    fn build(&mut self, table: &[u8], before: Vec<u32>) -> Compared<Vec<u32>> {
        let (mut ours, mut theirs) = (before.clone(), before);
        let result = desk::build(table, &mut ours);
        let answer = desk::answer_with_count(&result);
        let asked = self.asked.build(table, &mut theirs).map_err(broken)?;
        let call = format!("build with {} words", ours.len());
        if asked != answer {
            return Err(report(&call, table, &answer, &asked));
        }
        same_memory(&report(&call, table, &answer, &asked), &ours, &theirs)?;
        match result {
            Ok(words) => {
                let beyond = ours.len() > words;
                self.tally.count_if(!beyond, "builds done with exactly the words needed");
                self.tally.count_if(beyond, "builds done with words beyond");
                self.count_ports(table);
            }
            Err(refusal) => {
                let most = refusal.number == 7 && ours.len() == MOST_AREA_WORDS;
                self.tally.count_if(most, "builds refused with an area of 65536 words");
                self.tally.refused("build", &refusal);
                if let [place] = refusal.carries[..] {
                    self.count_faults(desk::rule_at(table, place as usize));
                }
            }
        }
        Ok(ours)
    }

    /// 14 must not empty the accepted tables of rules with ports.
    fn count_ports(&mut self, table: &[u8]) {
        let rules = desk::prefixes(table);
        for (port, protocol, line) in PORT_LINES {
            let exact = Prefix { bits: protocol, length: 8 };
            let held = rules.iter().any(|rule| rule[port].length > 0 && rule[PROTOCOL] == exact);
            self.tally.count_if(held, line);
        }
    }

    /// What the named rule fails: one test alone, or 14 after the one given.
    fn count_faults(&mut self, rule: &[u8]) {
        self.tally.count(match desk::faults(rule)[..] {
            [3] => "rules refused by 3 that fail no other test",
            [4] => "rules refused by 4 that fail no other test",
            [5] => "rules refused by 5 that fail no other test",
            [6] => "rules refused by 6 that fail no other test",
            [14] => "rules refused by 14 that fail no other test",
            [3, .., 14] => "rules refused by 3 that fail 14 too",
            [4, .., 14] => "rules refused by 4 that fail 14 too",
            [5, .., 14] => "rules refused by 5 that fail 14 too",
            [6, 14] => "rules refused by 6 that fail 14 too",
            _ => return,
        });
    }

    /// A build in an area around the needed size, then one that is done.
    fn builds(&mut self, random: &mut Random, table: &[u8]) -> Compared<Vec<u32>> {
        let needed = desk::words_needed(table);
        let length = cases::lent_length(random, needed, MOST_AREA_WORDS);
        let area = self.build(table, random.words(length))?;
        if area.len() >= needed {
            return Ok(area);
        }
        let most = if random.percent(5) { MOST_AREA_WORDS } else { needed + 25 };
        let length = random.between(needed, most.max(needed));
        self.build(table, random.words(length))
    }

    // ---- Lookup ----

    /// Headers over an unchanged index: the scan decides.
    fn lookups(
        &mut self,
        random: &mut Random,
        table: &[u8],
        area: &[u32],
        count: usize,
    ) -> Compared<()> {
        let mut left = count;
        while left > 0 {
            let headers = cases::headers(random, table, left.min(MOST_HEADERS));
            left -= headers.len();
            let answers = self.asked.lookup_many(table, area, &headers).map_err(broken)?;
            for (header, asked) in headers.iter().zip(&answers) {
                let found = desk::first_match(table, header, BLOCK);
                let steps = desk::lookup(table, area, header);
                assert_eq!(steps, Ok(found.clone()), "the reference's steps and scan differ");
                self.same_lookup(table, header, &steps, asked)?;
                self.count_found(&found);
            }
        }
        Ok(())
    }

    fn same_lookup(
        &self,
        table: &[u8],
        header: &[u8],
        result: &Result<Found, Refusal>,
        asked: &[u32],
    ) -> Compared<()> {
        let answer = desk::answer_of_lookup(result);
        if asked != answer {
            let call = format!("lookup of header {}", hex(header));
            return Err(report(&call, table, &answer, asked));
        }
        Ok(())
    }

    fn count_found(&mut self, found: &Found) {
        let tally = &mut self.tally;
        match found.hit {
            None => tally.count("lookups that matched none"),
            Some((_, action)) => {
                tally.count("lookups that matched");
                tally.count_if(action == Action::Hold, "lookups that hold");
                tally.count_if(action != Action::Hold, "lookups that deliver");
                tally.count_if(found.falses > 0, "lookups that matched after a false block");
            }
        }
        tally.count_if(found.falses > 0, "lookups with a false block");
        tally.count_if(found.falses > 1, "lookups with several false blocks");
    }

    /// Headers over any area and table: 01's steps decide.
    fn lookups_by_steps(
        &mut self,
        table: &[u8],
        area: &[u32],
        headers: &[Vec<u8>],
    ) -> Compared<Vec<Result<Found, Refusal>>> {
        let answers = self.asked.lookup_many(table, area, headers).map_err(broken)?;
        let mut results = vec![];
        for (header, asked) in headers.iter().zip(&answers) {
            let result = desk::lookup(table, area, header);
            self.same_lookup(table, header, &result, asked)?;
            if let Err(refusal) = &result {
                self.tally.refused("lookup", refusal);
            }
            results.push(result);
        }
        Ok(results)
    }

    /// A spoilt index, at times under a changed table as well.
    fn damaged_area(&mut self, random: &mut Random, table: &[u8], area: &[u32]) -> Compared<()> {
        let headers = cases::headers(random, table, 6);
        let mut damaged = area.to_vec();
        cases::damage_area(random, &mut damaged, &headers[0]);
        let mut changed = table.to_vec();
        if random.percent(20) {
            cases::change_table(random, &mut changed);
        }
        let results = self.lookups_by_steps(&changed, &damaged, &headers)?;
        for (header, result) in headers.iter().zip(results) {
            match result.map_err(|refusal| refusal.number) {
                Err(9) => self.tally.count("damaged areas that gave 9"),
                Err(_) => self.tally.count("damaged areas that gave 5"),
                Ok(found) => {
                    let whole = desk::first_match(table, header, BLOCK);
                    let other = (found.falses, found.hit.map(|hit| hit.0))
                        != (whole.falses, whole.hit.map(|hit| hit.0));
                    self.tally.count("damaged areas that still answered");
                    self.tally.count_if(other, "damaged areas that answered something else");
                }
            }
        }
        Ok(())
    }

    fn changed_table(&mut self, random: &mut Random, table: &[u8], area: &[u32]) -> Compared<()> {
        let headers = cases::headers(random, table, 8);
        let mut changed = table.to_vec();
        cases::change_table(random, &mut changed);
        for result in self.lookups_by_steps(&changed, area, &headers)? {
            match result.map_err(|refusal| refusal.number) {
                Err(5) => self.tally.count("changed tables that gave 5"),
                Err(_) => self.tally.count("changed tables that gave 9"),
                Ok(_) => self.tally.count("changed tables that still answered"),
            }
        }
        Ok(())
    }

    /// A single lookup with a header of any length.
    fn lookup(&mut self, table: &[u8], area: &[u32], header: &[u8]) -> Compared<()> {
        let result = desk::lookup(table, area, header);
        let asked = self.asked.lookup(table, area, header).map_err(broken)?;
        self.same_lookup(table, header, &result, &asked)?;
        if let Err(refusal) = &result {
            self.tally.refused("lookup", refusal);
        }
        Ok(())
    }

    /// 8 before 1 and 2, and these before 9.
    fn lookup_wrong_sizes(
        &mut self,
        random: &mut Random,
        table: &[u8],
        area: &[u32],
    ) -> Compared<()> {
        let header = cases::wrong_header(random);
        self.lookup(table, area, &header)?;
        let spoilt = cases::spoilt_table(random);
        let length = random.pick(&[header.len(), HEADER_BYTES, HEADER_BYTES]);
        let kept = random.pick(&[0, area.len().min(54), area.len()]);
        let header = random.bytes(length);
        self.lookup(&spoilt, &area[..kept], &header)
    }

    // ---- Pairs, moves, show ----

    fn pairs(&mut self, table: &[u8], before: Vec<u16>) -> Compared<()> {
        let (mut ours, mut theirs) = (before.clone(), before);
        let result = desk::pairs(table, &mut ours);
        let answer = desk::answer_with_count(&result);
        let asked = self.asked.pairs(table, &mut theirs).map_err(broken)?;
        let call = format!("pairs with a list of {} entries", ours.len());
        if asked != answer {
            return Err(report(&call, table, &answer, &asked));
        }
        same_memory(&report(&call, table, &answer, &asked), &ours, &theirs)?;
        match result {
            Ok(count) => {
                let beyond = count > 0 && ours.len() > 2 * count;
                self.tally.add("pairs listed", count as u64);
                self.tally.count_if(beyond, "lists with pairs and entries beyond");
                self.tally.count_if(count == 0, "tables without a pair");
            }
            Err(refusal) => self.tally.refused("pairs", &refusal),
        }
        Ok(())
    }

    fn pair_lists(&mut self, random: &mut Random, table: &[u8]) -> Compared<()> {
        let needed = 2 * desk::listed_pairs(table).len();
        for _ in 0..2 {
            let length = cases::lent_length(random, needed, MOST_LIST_ENTRIES);
            self.pairs(table, random.halves(length))?;
        }
        Ok(())
    }

    /// Judges a random order of a checked table.
    fn judge(&mut self, random: &mut Random, table: &[u8]) -> Compared<()> {
        let order = cases::order(random, table);
        let length = if random.percent(70) {
            random.pick(&[table.len(), table.len() + 1, table.len() + 30])
        } else {
            cases::lent_length(random, table.len(), MOST_OUTPUT_BYTES)
        };
        let before = random.bytes(length);
        let output = self.judge_order(table, &order, before)?;
        let Some(output) = output else { return Ok(()) };
        let moved = &output[..table.len()];
        let identity = order.iter().enumerate().all(|(new, old)| new == usize::from(*old));
        self.tally.count_if(identity, "moves allowed that leave the order");
        self.tally.count_if(moved != table, "moves allowed that change the table");
        let beyond = output.len() > moved.len();
        self.tally.count_if(beyond, "moves allowed with output beyond the table");
        self.answered_alike(random, table, moved);
        Ok(())
    }

    /// The output of an allowed move.
    fn judge_order(
        &mut self,
        table: &[u8],
        order: &[u16],
        before: Vec<u8>,
    ) -> Compared<Option<Vec<u8>>> {
        let (mut ours, mut theirs) = (before.clone(), before);
        let result = desk::judge(table, order, &mut ours);
        let answer = desk::answer_of_judge(&result);
        let asked = self.asked.judge(table, order, &mut theirs).map_err(broken)?;
        let call = format!("judge with {} bytes of output, order {order:?}", ours.len());
        if asked != answer {
            return Err(report(&call, table, &answer, &asked));
        }
        same_memory(&report(&call, table, &answer, &asked), &ours, &theirs)?;
        if let Err(refusal) = &result {
            self.tally.count_if(refusal.number == 13, "moves refused by 13");
            self.tally.refused("judge", refusal);
            return Ok(None);
        }
        Ok(Some(ours))
    }

    /// An allowed move changes no header's action.
    fn answered_alike(&mut self, random: &mut Random, table: &[u8], moved: &[u8]) {
        let action = |table: &[u8], header: &[u8]| {
            desk::first_match(table, header, BLOCK).hit.map(|(_, action)| action)
        };
        for header in cases::headers(random, table, 4) {
            assert_eq!(action(table, &header), action(moved, &header), "an allowed move");
            self.tally.count("headers answered alike after an allowed move");
        }
    }

    fn show(&mut self, random: &mut Random, table: &[u8]) -> Compared<()> {
        for _ in 0..2 {
            let place = cases::place(random, table);
            let answer = desk::answer_of_show(desk::show(table, place));
            let asked = self.asked.show(table, place).map_err(broken)?;
            if asked != answer {
                return Err(report(&format!("show of place {place}"), table, &answer, &asked));
            }
            self.tally.count_if(answer.len() > 1, "shows of a rule");
            self.tally.count_if(answer.len() == 1, "shows of an empty part");
        }
        Ok(())
    }

    // ---- Tables with faults ----

    /// 1 to 6 and 14 come before 7, 10, 11, 12 and 13.
    fn spoilt(&mut self, random: &mut Random, table: &[u8]) -> Compared<()> {
        let count = desk::rule_count(table);
        let words = random.pick(&[0, 54, 55, 55 + 11 * count]);
        self.build(table, random.words(words))?;
        let entries = random.pick(&[0, 1, 2 * count]);
        self.pairs(table, random.halves(entries))?;
        let mut order: Vec<u16> = (0..count as u16).collect();
        if random.percent(50) {
            order.reverse();
            order.truncate(random.between(0, count));
        }
        let length = random.pick(&[table.len(), table.len() / 2, 0]);
        self.judge_order(table, &order, random.bytes(length))?;
        self.show(random, table)
    }
}
