//! The desk: one book buffer, the calls made on it, and the lines that answer them.

use std::io::{self, Write};

use crate::block::{self, Mark, BLOCK_BYTES};
use crate::codes::reason_code;
use crate::conversion::convert;
use crate::counts::{Minute, Position};
use crate::day::{self, DayState};
use crate::identifier::{is_well_formed_id, wrong_character};
use crate::listing;
use crate::message::{series_of_message, SeriesReader};
use crate::quantity_text;
use crate::readings;
use crate::right;
use crate::settlement::{self, Settled};
use crate::sound;
use crate::stream::{Opening, Record};
use crate::submission::{judge, submit, Verdict};

/// What a record is answered with.
#[derive(Clone, Debug, PartialEq, Eq)]
pub enum Reply {
    Length(u32),
    Bytes { offset: u32, count: usize },
    Book,
    Sum { length: usize, sum: u32 },
    Open { number: u8, character: u8 },
    OpenBy { number: u8, character: u8 },
    Clock { number: u8, state: DayState },
    Submit { verdict: Verdict, looked: usize },
    Mark { number: u8, mark: Mark },
    Block { number: u8, block: Vec<u8> },
    Final { number: u8, value: u32 },
    Plain { number: u8, yes: bool },
    Reader(Vec<u8>),
    Walk { count: usize, sum: u32 },
    Listing(Vec<u8>),
    Sound(bool),
    Eic(u8),
    Id(bool),
    Read { number: u8, value: u32 },
    Print { number: u8, length: usize, buffer: Vec<u8> },
    Check { value: u32, right: bool },
    Seal(Vec<u8>),
    Code(u8),
    Judge(Verdict),
    Convert(u8),
    Right(u8),
    Settled { number: u8, settled: Settled },
}

/// Bytes outside the buffer were to be set: the stream is malformed.
#[derive(Debug)]
pub struct OutsideBuffer;

#[derive(Default)]
pub struct Desk {
    book: Vec<u8>,
}

impl Desk {
    pub fn new() -> Self {
        Desk::default()
    }

    pub fn book(&self) -> &[u8] {
        &self.book
    }

    /// Makes one call.
    pub fn answer(&mut self, record: &Record) -> Result<Reply, OutsideBuffer> {
        Ok(match record {
            Record::Length(length) => {
                // Growing gives zero bytes, also where longer contents had stood before.
                self.book.resize(*length as usize, 0);
                Reply::Length(*length)
            }
            Record::Bytes { offset, bytes } => {
                let start = *offset as usize;
                let place = self.book.get_mut(start..start + bytes.len()).ok_or(OutsideBuffer)?;
                place.copy_from_slice(bytes);
                Reply::Bytes { offset: *offset, count: bytes.len() }
            }
            Record::Book => Reply::Book,
            Record::Sum => Reply::Sum { length: self.book.len(), sum: block::check_after(0, &self.book) },
            Record::Open(Opening { n, lead, day, area, receiver }) => {
                let (number, character) = day::open(&mut self.book, *n, *lead, day, area, receiver);
                Reply::Open { number, character }
            }
            Record::OpenBy { rule, opening: Opening { n, lead, day, area, receiver } } => {
                let (number, character) = day::open_by(&mut self.book, *n, *lead, *rule, day, area, receiver);
                Reply::OpenBy { number, character }
            }
            Record::Clock(minute) => {
                let (number, state) = day::move_clock(&mut self.book, Minute(*minute));
                Reply::Clock { number, state }
            }
            Record::Submit(message) => {
                let (verdict, looked) = submit(&mut self.book, message);
                Reply::Submit { verdict, looked }
            }
            Record::Mark { sender, id } => {
                let (number, mark) = readings::mark_of(&self.book, sender, id);
                Reply::Mark { number, mark }
            }
            Record::Block { sender, id } => {
                let (number, block) = readings::accepted_block(&self.book, sender, id);
                Reply::Block { number, block: block.to_vec() }
            }
            Record::Final { out_party, in_party, position } => {
                let (number, value) = readings::final_value(&self.book, out_party, in_party, Position(*position));
                Reply::Final { number, value }
            }
            Record::Plain => {
                let (number, yes) = readings::plain_run(&self.book);
                Reply::Plain { number, yes }
            }
            Record::Reader { number, message } => {
                Reply::Reader(series_of_message(message, usize::from(*number)).to_vec())
            }
            Record::Walk(message) => {
                let mut reader = SeriesReader::over(message);
                let (mut count, mut sum) = (0, 0);
                loop {
                    let series = reader.next_series();
                    if series.is_empty() {
                        break Reply::Walk { count, sum };
                    }
                    count += 1;
                    sum = block::check_after(sum, series);
                }
            }
            Record::Listing => Reply::Listing(listing::listing(&self.book)),
            Record::Sound => Reply::Sound(sound::is_sound(&self.book)),
            Record::Eic(text) => Reply::Eic(wrong_character(text)),
            Record::Id(text) => Reply::Id(is_well_formed_id(text)),
            Record::Read(text) => {
                let (number, value) = quantity_text::read(text);
                Reply::Read { number, value }
            }
            Record::Print { quantity, buffer } => {
                let mut buffer = buffer.clone();
                let (number, length) = quantity_text::print(*quantity, &mut buffer);
                Reply::Print { number, length, buffer }
            }
            Record::Check(block) => Reply::Check { value: block::check_of(block), right: block::check_is_right(block) },
            Record::Seal(block) => {
                let mut sealed = **block;
                block::seal(&mut sealed);
                Reply::Seal(sealed.to_vec())
            }
            Record::Code(number) => Reply::Code(reason_code(*number)),
            Record::Judge(message) => Reply::Judge(judge(&self.book, message)),
            Record::Convert => Reply::Convert(convert(&mut self.book)),
            Record::Right(block) => Reply::Right(right::enter(&mut self.book, block)),
            Record::Settled { party, position } => {
                let (number, settled) = settlement::settled(&self.book, party, Position(*position));
                Reply::Settled { number, settled }
            }
        })
    }

    /// Writes the line of a reply; for the whole book, also one line for each block.
    pub fn write_line(&self, reply: &Reply, out: &mut impl Write) -> io::Result<()> {
        match reply {
            Reply::Length(length) => writeln!(out, "length {length}"),
            Reply::Bytes { offset, count } => writeln!(out, "bytes {offset} {count}"),
            Reply::Book => {
                writeln!(out, "book {}", self.book.len())?;
                for part in self.book.chunks(BLOCK_BYTES) {
                    writeln!(out, "{}", hex(part))?;
                }
                Ok(())
            }
            Reply::Sum { length, sum } => writeln!(out, "sum {length} {sum}"),
            Reply::Open { number, character } => writeln!(out, "open {number} {character}"),
            Reply::OpenBy { number, character } => writeln!(out, "open_by {number} {character}"),
            Reply::Clock { number, state } => {
                writeln!(out, "clock {number} {} {} {}", state.n, state.lead, state.clock.0)
            }
            Reply::Submit { verdict, looked } => writeln!(out, "submit {} {looked}", numbers_of(verdict)),
            Reply::Mark { number, mark } => {
                writeln!(out, "mark {number} {} {} {}", mark.differ, mark.first.0, mark.partner.0)
            }
            Reply::Block { block, .. } => with_hex(out, format_args!("block {}", block.len()), block),
            Reply::Final { number, value } => writeln!(out, "final {number} {value}"),
            Reply::Plain { number, yes } => writeln!(out, "plain {number} {}", u8::from(*yes)),
            Reply::Reader(series) => with_hex(out, format_args!("reader {}", series.len()), series),
            Reply::Walk { count, sum } => writeln!(out, "walk {count} {sum}"),
            Reply::Listing(text) => with_hex(out, format_args!("listing"), text),
            Reply::Sound(yes) => writeln!(out, "sound {}", u8::from(*yes)),
            Reply::Eic(character) => writeln!(out, "eic {character}"),
            Reply::Id(yes) => writeln!(out, "id {}", u8::from(*yes)),
            Reply::Read { number, value } => writeln!(out, "read {number} {value}"),
            Reply::Print { number, length, buffer } => with_hex(out, format_args!("print {number} {length}"), buffer),
            Reply::Check { value, right } => writeln!(out, "check {value} {}", u8::from(*right)),
            Reply::Seal(block) => with_hex(out, format_args!("seal"), block),
            Reply::Code(code) => writeln!(out, "code {code}"),
            Reply::Judge(verdict) => writeln!(out, "judge {}", numbers_of(verdict)),
            Reply::Convert(number) => writeln!(out, "convert {number}"),
            Reply::Right(number) => writeln!(out, "right {number}"),
            Reply::Settled { number, settled } => writeln!(out, "settled {number} {} {}", settled.bought, settled.sold),
        }
    }
}

/// The five numbers of a verdict.
fn numbers_of(verdict: &Verdict) -> String {
    let (number, code) = (verdict.number(), verdict.code());
    format!("{number} {code} {} {} {}", verdict.series, verdict.position.0, verdict.character)
}

/// A line whose last word is hex; the word is left out when there are no bytes.
fn with_hex(out: &mut impl Write, front: std::fmt::Arguments, bytes: &[u8]) -> io::Result<()> {
    if bytes.is_empty() {
        writeln!(out, "{front}")
    } else {
        writeln!(out, "{front} {}", hex(bytes))
    }
}

fn hex(bytes: &[u8]) -> String {
    const DIGITS: &[u8; 16] = b"0123456789abcdef";
    let mut text = String::with_capacity(2 * bytes.len());
    for byte in bytes {
        text.push(DIGITS[usize::from(byte >> 4)] as char);
        text.push(DIGITS[usize::from(byte & 15)] as char);
    }
    text
}

#[cfg(test)]
mod tests {
    use super::*;

    fn line(desk: &mut Desk, record: Record) -> String {
        let reply = desk.answer(&record).unwrap();
        let mut out = Vec::new();
        desk.write_line(&reply, &mut out).unwrap();
        String::from_utf8(out).unwrap()
    }

    #[test]
    fn lines_are_those_of_the_description() {
        let mut desk = Desk::new();
        assert_eq!(line(&mut desk, Record::Sum), "sum 0 0\n");
        assert_eq!(line(&mut desk, Record::Book), "book 0\n");
        assert_eq!(line(&mut desk, Record::Length(3)), "length 3\n");
        assert_eq!(line(&mut desk, Record::Bytes { offset: 1, bytes: vec![0xab] }), "bytes 1 1\n");
        assert_eq!(line(&mut desk, Record::Book), "book 3\n00ab00\n");
        assert_eq!(line(&mut desk, Record::Sum), "sum 3 5301\n");
        assert!(desk.answer(&Record::Bytes { offset: 3, bytes: vec![1] }).is_err());
        assert_eq!(line(&mut desk, Record::Length(1)), "length 1\n");
        assert_eq!(line(&mut desk, Record::Length(2)), "length 2\n");
        assert_eq!(line(&mut desk, Record::Book), "book 2\n0000\n");
        assert_eq!(line(&mut desk, Record::Clock(5)), "clock 1 0 0 0\n");
        assert_eq!(line(&mut desk, Record::Submit(vec![])), "submit 1 0 0 0 0 0\n");
        assert_eq!(line(&mut desk, Record::Judge(vec![])), "judge 1 0 0 0 0\n");
        assert_eq!(line(&mut desk, Record::Convert), "convert 1\n");
        assert_eq!(line(&mut desk, Record::Right(vec![])), "right 1\n");
        assert_eq!(line(&mut desk, Record::Settled { party: vec![], position: 0 }), "settled 1 0 0\n");
        assert_eq!(line(&mut desk, Record::Mark { sender: vec![], id: vec![] }), "mark 1 0 0 0\n");
        assert_eq!(line(&mut desk, Record::Listing), "listing 6e6f7420736f756e640a\n");
        assert_eq!(line(&mut desk, Record::Length(1_024)), "length 1024\n");
        let opening = |area: &[u8], receiver: &[u8]| Opening {
            n: 96,
            lead: 45,
            day: b"20190131".to_vec(),
            area: area.to_vec(),
            receiver: receiver.to_vec(),
        };
        let (area, receiver) = (b"10YAT-APG------L", b"14XAT-APCS-----Q");
        let open_by = |rule, receiver| Record::OpenBy { rule, opening: opening(area, receiver) };
        assert_eq!(line(&mut desk, open_by(2, receiver)), "open_by 21 0\n");
        assert_eq!(line(&mut desk, open_by(2, b"14XAT_APCS-----Q")), "open_by 21 6\n");
        assert_eq!(line(&mut desk, open_by(0, receiver)), "open_by 0 0\n");
        assert_eq!(line(&mut desk, Record::Open(opening(b"10YAT-APG------M", b"14XAT_APCS-----Q"))), "open 21 16\n");
        assert_eq!(line(&mut desk, Record::Open(opening(area, b"14XAT_APCS-----Q"))), "open 21 6\n");
        assert_eq!(line(&mut desk, Record::Open(opening(area, receiver))), "open 0 0\n");
        assert_eq!(line(&mut desk, Record::Clock(5)), "clock 0 96 45 5\n");
        assert_eq!(line(&mut desk, Record::Submit(vec![])), "submit 2 0 0 0 0 0\n");
        assert_eq!(line(&mut desk, Record::Judge(vec![])), "judge 2 0 0 0 0\n");
        assert_eq!(line(&mut desk, Record::Eic(b"10YAT-APG------L".to_vec())), "eic 0\n");
        assert_eq!(line(&mut desk, Record::Eic(b"10YAT-APG".to_vec())), "eic 10\n");
        assert_eq!(line(&mut desk, Record::Plain), "plain 0 1\n");
        assert_eq!(line(&mut desk, Record::Convert), "convert 0\n");
        assert_eq!(line(&mut desk, Record::Right(vec![])), "right 40\n");
        assert_eq!(line(&mut desk, Record::Settled { party: vec![], position: 0 }), "settled 24 0 0\n");
        assert_eq!(line(&mut desk, Record::Settled { party: vec![], position: 96 }), "settled 25 0 0\n");
        assert_eq!(line(&mut desk, Record::Mark { sender: vec![], id: vec![] }), "mark 23 0 0 0\n");
        assert_eq!(line(&mut desk, Record::Block { sender: vec![], id: vec![] }), "block 0\n");
        assert_eq!(line(&mut desk, Record::Reader { number: 1, message: vec![] }), "reader 0\n");
        assert_eq!(line(&mut desk, Record::Walk(vec![])), "walk 0 0\n");
        assert_eq!(line(&mut desk, Record::Print { quantity: 194, buffer: vec![255; 6] }), "print 0 5 302e313934ff\n");
        assert_eq!(line(&mut desk, Record::Print { quantity: 194, buffer: vec![] }), "print 32 0\n");
        assert_eq!(line(&mut desk, Record::Code(3)), "code 53\n");
    }
}
