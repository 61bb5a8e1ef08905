//! How often each thing that has to occur did occur.

use crate::desk::{self, Refusal};
use std::collections::BTreeMap;

/// What can be refused by which call, in the orders of trying (01; 14: 02).
const REFUSALS: [(&str, &[u32]); 4] = [
    ("build", &[1, 2, 3, 4, 5, 6, 14, 7]),
    ("lookup", &[8, 1, 2, 9, 5]),
    ("pairs", &[1, 2, 3, 4, 5, 6, 14, 10]),
    ("judge", &[1, 2, 3, 4, 5, 6, 14, 11, 12, 13]),
];

/// Everything else that must occur, with its line.
const LINES: [&str; 40] = [
    "builds done with exactly the words needed",
    "builds done with words beyond",
    "builds refused with an area of 65536 words",
    "tables built with a source port for 6",
    "tables built with a destination port for 6",
    "tables built with a source port for 17",
    "tables built with a destination port for 17",
    "rules refused by 3 that fail no other test",
    "rules refused by 4 that fail no other test",
    "rules refused by 5 that fail no other test",
    "rules refused by 6 that fail no other test",
    "rules refused by 14 that fail no other test",
    "rules refused by 3 that fail 14 too",
    "rules refused by 4 that fail 14 too",
    "rules refused by 5 that fail 14 too",
    "rules refused by 6 that fail 14 too",
    "lookups that matched",
    "lookups that matched none",
    "lookups that hold",
    "lookups that deliver",
    "lookups with a false block",
    "lookups with several false blocks",
    "lookups that matched after a false block",
    "pairs listed",
    "lists with pairs and entries beyond",
    "tables without a pair",
    "moves allowed that change the table",
    "moves allowed that leave the order",
    "moves allowed with output beyond the table",
    "moves refused by 13",
    "headers answered alike after an allowed move",
    "damaged areas that gave 9",
    "damaged areas that gave 5",
    "damaged areas that still answered",
    "damaged areas that answered something else",
    "changed tables that gave 5",
    "changed tables that gave 9",
    "changed tables that still answered",
    "shows of a rule",
    "shows of an empty part",
];

#[derive(Default)]
pub struct Tally {
    lines: BTreeMap<&'static str, u64>,
    refusals: BTreeMap<(&'static str, u32, &'static str), u64>,
}

impl Tally {
    pub fn count(&mut self, line: &'static str) {
        self.add(line, 1);
    }

    pub fn add(&mut self, line: &'static str, times: u64) {
        assert!(LINES.contains(&line), "{line} is no line");
        *self.lines.entry(line).or_default() += times;
    }

    pub fn count_if(&mut self, condition: bool, line: &'static str) {
        self.add(line, u64::from(condition));
    }

    pub fn refused(&mut self, call: &'static str, refusal: &Refusal) {
        *self.refusals.entry((call, refusal.number, refusal.cause)).or_default() += 1;
    }

    fn print_refusals(&self, call: &'static str, number: u32) -> bool {
        let mut complete = true;
        let mut total = 0;
        let mut parts = vec![];
        for cause in desk::causes(number) {
            let times = *self.refusals.get(&(call, number, *cause)).unwrap_or(&0);
            total += times;
            complete &= times > 0;
            parts.push(format!("{cause} {times}"));
        }
        println!("{call} refused {number}: {total} ({})", parts.join(", "));
        complete
    }

    /// Prints all lines; false if anything never occurred.
    pub fn print(&self) -> bool {
        let mut complete = true;
        for line in LINES {
            let times = *self.lines.get(line).unwrap_or(&0);
            complete &= times > 0;
            println!("{line}: {times}");
        }
        for (call, numbers) in REFUSALS {
            for number in numbers {
                complete &= self.print_refusals(call, *number);
            }
        }
        complete
    }
}
