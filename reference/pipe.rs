//! The pipe protocol stated at the top of main.rs: the asking side, and the
//! serving side that answers from desk.rs.

use crate::desk::{self, HEADER_BYTES};
use std::io::{self, BufReader, Error, ErrorKind, Read, Write};
use std::process::{Child, ChildStdin, ChildStdout, Command, Stdio};

/// The most that a request may hold.
pub const MOST_TABLE_BYTES: usize = 8192;
pub const MOST_AREA_WORDS: usize = 65536;
pub const MOST_HEADER_BYTES: usize = 64;
pub const MOST_LIST_ENTRIES: usize = 66000;
pub const MOST_ORDER_ENTRIES: usize = 600;
pub const MOST_OUTPUT_BYTES: usize = 8192;
pub const MOST_HEADERS: usize = 1000;
/// No answer has more numbers than this (show: 1 and 24).
const MOST_NUMBERS: usize = 25;

const END: u8 = 0;
const BUILD: u8 = 1;
const LOOKUP: u8 = 2;
const PAIRS: u8 = 3;
const JUDGE: u8 = 4;
const SHOW: u8 = 5;
const LOOKUP_MANY: u8 = 6;

// ---- Writing ----

fn put_u32(bytes: &mut Vec<u8>, number: usize) {
    let number = u32::try_from(number).expect("counts and numbers fit in 32 bits");
    bytes.extend_from_slice(&number.to_be_bytes());
}

fn put_words(bytes: &mut Vec<u8>, words: &[u32]) {
    for word in words {
        bytes.extend_from_slice(&word.to_be_bytes());
    }
}

fn put_halves(bytes: &mut Vec<u8>, halves: &[u16]) {
    for half in halves {
        bytes.extend_from_slice(&half.to_be_bytes());
    }
}

fn put_counted_bytes(bytes: &mut Vec<u8>, counted: &[u8]) {
    put_u32(bytes, counted.len());
    bytes.extend_from_slice(counted);
}

fn put_counted_words(bytes: &mut Vec<u8>, words: &[u32]) {
    put_u32(bytes, words.len());
    put_words(bytes, words);
}

fn put_counted_halves(bytes: &mut Vec<u8>, halves: &[u16]) {
    put_u32(bytes, halves.len());
    put_halves(bytes, halves);
}

// ---- Reading ----

fn take_bytes(input: &mut impl Read, count: usize) -> io::Result<Vec<u8>> {
    let mut bytes = vec![0; count];
    input.read_exact(&mut bytes)?;
    Ok(bytes)
}

fn take_u32(input: &mut impl Read) -> io::Result<u32> {
    let mut bytes = [0; 4];
    input.read_exact(&mut bytes)?;
    Ok(u32::from_be_bytes(bytes))
}

fn take_words(input: &mut impl Read, count: usize) -> io::Result<Vec<u32>> {
    let bytes = take_bytes(input, 4 * count)?;
    Ok(bytes.chunks(4).map(|b| u32::from_be_bytes([b[0], b[1], b[2], b[3]])).collect())
}

fn take_halves(input: &mut impl Read, count: usize) -> io::Result<Vec<u16>> {
    let bytes = take_bytes(input, 2 * count)?;
    Ok(bytes.chunks(2).map(|b| u16::from_be_bytes([b[0], b[1]])).collect())
}

/// A count that the protocol's limits allow.
fn take_count(input: &mut impl Read, most: usize) -> io::Result<usize> {
    let count = take_u32(input)? as usize;
    if count > most {
        let text = format!("a count of {count}, where at most {most} are allowed");
        return Err(Error::new(ErrorKind::InvalidData, text));
    }
    Ok(count)
}

fn take_counted_bytes(input: &mut impl Read, most: usize) -> io::Result<Vec<u8>> {
    let count = take_count(input, most)?;
    take_bytes(input, count)
}

fn take_counted_words(input: &mut impl Read, most: usize) -> io::Result<Vec<u32>> {
    let count = take_count(input, most)?;
    take_words(input, count)
}

fn take_counted_halves(input: &mut impl Read, most: usize) -> io::Result<Vec<u16>> {
    let count = take_count(input, most)?;
    take_halves(input, count)
}

// ---- The asking side ----

/// The program under comparison.
pub struct Asked {
    child: Child,
    requests: ChildStdin,
    replies: BufReader<ChildStdout>,
}

impl Asked {
    pub fn start(command: &[String]) -> io::Result<Asked> {
        let mut child = Command::new(&command[0])
            .args(&command[1..])
            .stdin(Stdio::piped())
            .stdout(Stdio::piped())
            .spawn()?;
        let requests = child.stdin.take().expect("stdin is piped");
        let replies = BufReader::new(child.stdout.take().expect("stdout is piped"));
        Ok(Asked { child, requests, replies })
    }

    /// Writes a whole request before any of its reply is read.
    fn send(&mut self, request: &[u8]) -> io::Result<()> {
        self.requests.write_all(request)?;
        self.requests.flush()
    }

    fn answer(&mut self) -> io::Result<Vec<u32>> {
        take_counted_words(&mut self.replies, MOST_NUMBERS)
    }

    /// The answer; the area becomes what came back.
    pub fn build(&mut self, table: &[u8], area: &mut Vec<u32>) -> io::Result<Vec<u32>> {
        let mut request = vec![BUILD];
        put_counted_bytes(&mut request, table);
        put_counted_words(&mut request, area);
        self.send(&request)?;
        let answer = self.answer()?;
        *area = take_words(&mut self.replies, area.len())?;
        Ok(answer)
    }

    pub fn lookup(&mut self, table: &[u8], area: &[u32], header: &[u8]) -> io::Result<Vec<u32>> {
        let mut request = vec![LOOKUP];
        put_counted_bytes(&mut request, table);
        put_counted_words(&mut request, area);
        put_counted_bytes(&mut request, header);
        self.send(&request)?;
        self.answer()
    }

    /// One answer for each header of 13 bytes.
    pub fn lookup_many(
        &mut self,
        table: &[u8],
        area: &[u32],
        headers: &[Vec<u8>],
    ) -> io::Result<Vec<Vec<u32>>> {
        let mut request = vec![LOOKUP_MANY];
        put_counted_bytes(&mut request, table);
        put_counted_words(&mut request, area);
        put_u32(&mut request, headers.len());
        request.extend_from_slice(&headers.concat());
        self.send(&request)?;
        headers.iter().map(|_| self.answer()).collect()
    }

    /// The answer; the list becomes what came back.
    pub fn pairs(&mut self, table: &[u8], list: &mut Vec<u16>) -> io::Result<Vec<u32>> {
        let mut request = vec![PAIRS];
        put_counted_bytes(&mut request, table);
        put_counted_halves(&mut request, list);
        self.send(&request)?;
        let answer = self.answer()?;
        *list = take_halves(&mut self.replies, list.len())?;
        Ok(answer)
    }

    /// The answer; the output becomes what came back.
    pub fn judge(
        &mut self,
        table: &[u8],
        order: &[u16],
        output: &mut Vec<u8>,
    ) -> io::Result<Vec<u32>> {
        let mut request = vec![JUDGE];
        put_counted_bytes(&mut request, table);
        put_counted_halves(&mut request, order);
        put_counted_bytes(&mut request, output);
        self.send(&request)?;
        let answer = self.answer()?;
        *output = take_bytes(&mut self.replies, output.len())?;
        Ok(answer)
    }

    pub fn show(&mut self, table: &[u8], place: u32) -> io::Result<Vec<u32>> {
        let mut request = vec![SHOW];
        put_counted_bytes(&mut request, table);
        put_u32(&mut request, place as usize);
        self.send(&request)?;
        self.answer()
    }

    /// Ends the program, which must say nothing more and exit with 0.
    pub fn end(mut self) -> io::Result<()> {
        self.send(&[END])?;
        drop(self.requests);
        let mut rest = vec![];
        self.replies.read_to_end(&mut rest)?;
        let status = self.child.wait()?;
        if !rest.is_empty() || !status.success() {
            let text = format!("{} bytes too many at the end, {status}", rest.len());
            return Err(Error::new(ErrorKind::InvalidData, text));
        }
        Ok(())
    }
}

// ---- The serving side ----

fn serve_build(input: &mut impl Read) -> io::Result<Vec<u8>> {
    let table = take_counted_bytes(input, MOST_TABLE_BYTES)?;
    let mut area = take_counted_words(input, MOST_AREA_WORDS)?;
    let answer = desk::answer_with_count(&desk::build(&table, &mut area));
    let mut reply = vec![];
    put_counted_words(&mut reply, &answer);
    put_words(&mut reply, &area);
    Ok(reply)
}

fn serve_lookup(input: &mut impl Read) -> io::Result<Vec<u8>> {
    let table = take_counted_bytes(input, MOST_TABLE_BYTES)?;
    let area = take_counted_words(input, MOST_AREA_WORDS)?;
    let header = take_counted_bytes(input, MOST_HEADER_BYTES)?;
    let mut reply = vec![];
    let answer = desk::answer_of_lookup(&desk::lookup(&table, &area, &header));
    put_counted_words(&mut reply, &answer);
    Ok(reply)
}

fn serve_lookup_many(input: &mut impl Read) -> io::Result<Vec<u8>> {
    let table = take_counted_bytes(input, MOST_TABLE_BYTES)?;
    let area = take_counted_words(input, MOST_AREA_WORDS)?;
    let count = take_count(input, MOST_HEADERS)?;
    let headers = take_bytes(input, count * HEADER_BYTES)?;
    let mut reply = vec![];
    for header in headers.chunks(HEADER_BYTES) {
        let answer = desk::answer_of_lookup(&desk::lookup(&table, &area, header));
        put_counted_words(&mut reply, &answer);
    }
    Ok(reply)
}

fn serve_pairs(input: &mut impl Read) -> io::Result<Vec<u8>> {
    let table = take_counted_bytes(input, MOST_TABLE_BYTES)?;
    let mut list = take_counted_halves(input, MOST_LIST_ENTRIES)?;
    let answer = desk::answer_with_count(&desk::pairs(&table, &mut list));
    let mut reply = vec![];
    put_counted_words(&mut reply, &answer);
    put_halves(&mut reply, &list);
    Ok(reply)
}

fn serve_judge(input: &mut impl Read) -> io::Result<Vec<u8>> {
    let table = take_counted_bytes(input, MOST_TABLE_BYTES)?;
    let order = take_counted_halves(input, MOST_ORDER_ENTRIES)?;
    let mut output = take_counted_bytes(input, MOST_OUTPUT_BYTES)?;
    let answer = desk::answer_of_judge(&desk::judge(&table, &order, &mut output));
    let mut reply = vec![];
    put_counted_words(&mut reply, &answer);
    reply.extend_from_slice(&output);
    Ok(reply)
}

fn serve_show(input: &mut impl Read) -> io::Result<Vec<u8>> {
    let table = take_counted_bytes(input, MOST_TABLE_BYTES)?;
    let place = take_u32(input)?;
    let mut reply = vec![];
    put_counted_words(&mut reply, &desk::answer_of_show(desk::show(&table, place)));
    Ok(reply)
}

/// Answers requests until op 0.
pub fn serve(input: &mut impl Read, output: &mut impl Write) -> io::Result<()> {
    loop {
        let reply = match take_bytes(input, 1)?[0] {
            END => return Ok(()),
            BUILD => serve_build(input)?,
            LOOKUP => serve_lookup(input)?,
            PAIRS => serve_pairs(input)?,
            JUDGE => serve_judge(input)?,
            SHOW => serve_show(input)?,
            LOOKUP_MANY => serve_lookup_many(input)?,
            other => {
                let text = format!("unknown op {other}");
                return Err(Error::new(ErrorKind::InvalidData, text));
            }
        };
        output.write_all(&reply)?;
        output.flush()?;
    }
}
