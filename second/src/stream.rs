//! The records of a replay stream. docs/REPLAY.md describes them for other programs.

use std::io::{self, Read, Write};

use crate::block::{Block, BLOCK_BYTES};
use crate::sound::MOST_BLOCKS;

/// The buffer a replaying program keeps.
pub const MOST_BOOK_BYTES: usize = MOST_BLOCKS * BLOCK_BYTES;
/// Longer than any lawful message, so that the upper edge of rule 2 can be tried.
pub const MOST_MESSAGE_BYTES: usize = 256 * BLOCK_BYTES;
/// Longer than any lawful right, so that a wrong length can be tried.
pub const MOST_RIGHT_BYTES: usize = 2 * BLOCK_BYTES;
/// The longest name, text or print buffer.
pub const MOST_TEXT_BYTES: usize = 64;

/// What a book is opened with, but for the rule of its finals.
#[derive(Clone, Debug, PartialEq, Eq)]
pub struct Opening {
    pub n: u8,
    pub lead: u16,
    pub day: Vec<u8>,
    pub area: Vec<u8>,
    pub receiver: Vec<u8>,
}

/// One call, or one of the four records that set or show the buffer.
#[derive(Clone, Debug, PartialEq, Eq)]
pub enum Record {
    Length(u32),
    Bytes { offset: u32, bytes: Vec<u8> },
    Book,
    Sum,
    Open(Opening),
    Clock(u16),
    Submit(Vec<u8>),
    Mark { sender: Vec<u8>, id: Vec<u8> },
    Block { sender: Vec<u8>, id: Vec<u8> },
    Final { out_party: Vec<u8>, in_party: Vec<u8>, position: u16 },
    Plain,
    Reader { number: u16, message: Vec<u8> },
    Walk(Vec<u8>),
    Listing,
    Sound,
    Eic(Vec<u8>),
    Id(Vec<u8>),
    Read(Vec<u8>),
    Print { quantity: u32, buffer: Vec<u8> },
    Check(Box<Block>),
    Seal(Box<Block>),
    Code(u8),
    Judge(Vec<u8>),
    OpenBy { rule: u8, opening: Opening },
    Convert,
    Right(Vec<u8>),
    Settled { party: Vec<u8>, position: u16 },
}

/// Why reading stopped.
#[derive(Debug)]
pub enum Stop {
    Malformed,
    Input(io::Error),
}

const TAG_LENGTH: u8 = 1;
const TAG_BYTES: u8 = 2;
const TAG_BOOK: u8 = 3;
const TAG_SUM: u8 = 4;
const TAG_OPEN: u8 = 5;
const TAG_CLOCK: u8 = 6;
const TAG_SUBMIT: u8 = 7;
const TAG_MARK: u8 = 8;
const TAG_BLOCK: u8 = 9;
const TAG_FINAL: u8 = 10;
const TAG_PLAIN: u8 = 11;
const TAG_READER: u8 = 12;
const TAG_WALK: u8 = 13;
const TAG_LISTING: u8 = 14;
const TAG_SOUND: u8 = 15;
const TAG_EIC: u8 = 16;
const TAG_ID: u8 = 17;
const TAG_READ: u8 = 18;
const TAG_PRINT: u8 = 19;
const TAG_CHECK: u8 = 20;
const TAG_SEAL: u8 = 21;
const TAG_CODE: u8 = 22;
const TAG_JUDGE: u8 = 23;
const TAG_OPEN_BY: u8 = 24;
const TAG_CONVERT: u8 = 25;
const TAG_RIGHT: u8 = 26;
const TAG_SETTLED: u8 = 27;

/// The fewest and the most bytes a body of this kind may have; nothing for an unknown tag.
pub fn body_limits(tag: u8) -> Option<(usize, usize)> {
    Some(match tag {
        TAG_LENGTH => (4, 4),
        TAG_BYTES => (4, 4 + MOST_BOOK_BYTES),
        TAG_BOOK | TAG_SUM | TAG_PLAIN | TAG_LISTING | TAG_SOUND | TAG_CONVERT => (0, 0),
        TAG_OPEN => (6, 6 + 3 * MOST_TEXT_BYTES),
        TAG_OPEN_BY => (7, 7 + 3 * MOST_TEXT_BYTES),
        TAG_CLOCK => (2, 2),
        TAG_SUBMIT | TAG_WALK | TAG_JUDGE => (0, MOST_MESSAGE_BYTES),
        TAG_MARK | TAG_BLOCK => (2, 2 + 2 * MOST_TEXT_BYTES),
        TAG_FINAL => (4, 4 + 2 * MOST_TEXT_BYTES),
        TAG_READER => (2, 2 + MOST_MESSAGE_BYTES),
        TAG_EIC | TAG_ID | TAG_READ => (0, MOST_TEXT_BYTES),
        TAG_PRINT => (4, 4 + MOST_TEXT_BYTES),
        TAG_CHECK | TAG_SEAL => (BLOCK_BYTES, BLOCK_BYTES),
        TAG_CODE => (1, 1),
        TAG_RIGHT => (0, MOST_RIGHT_BYTES),
        TAG_SETTLED => (3, 3 + MOST_TEXT_BYTES),
        _ => return None,
    })
}

/// The calls: tag and word.
pub const CALLS: [(u8, &str); 23] = [
    (TAG_OPEN, "open"),
    (TAG_CLOCK, "clock"),
    (TAG_SUBMIT, "submit"),
    (TAG_MARK, "mark"),
    (TAG_BLOCK, "block"),
    (TAG_FINAL, "final"),
    (TAG_PLAIN, "plain"),
    (TAG_READER, "reader"),
    (TAG_WALK, "walk"),
    (TAG_LISTING, "listing"),
    (TAG_SOUND, "sound"),
    (TAG_EIC, "eic"),
    (TAG_ID, "id"),
    (TAG_READ, "read"),
    (TAG_PRINT, "print"),
    (TAG_CHECK, "check"),
    (TAG_SEAL, "seal"),
    (TAG_CODE, "code"),
    (TAG_JUDGE, "judge"),
    (TAG_OPEN_BY, "open_by"),
    (TAG_CONVERT, "convert"),
    (TAG_RIGHT, "right"),
    (TAG_SETTLED, "settled"),
];

/// The records that turn one book into another: a new length where it differs, then the blocks that
/// differ. A grown buffer has zeros behind its old contents.
pub fn records_between(from: &[u8], to: &[u8]) -> Vec<Record> {
    let mut records = Vec::new();
    if from.len() != to.len() {
        records.push(Record::Length(to.len() as u32));
    }
    let end_of_block = |start: usize| (start + BLOCK_BYTES).min(to.len());
    let same =
        |start: usize| (start..end_of_block(start)).all(|place| to[place] == from.get(place).copied().unwrap_or(0));
    let mut at = 0;
    while at < to.len() {
        if same(at) {
            at = end_of_block(at);
            continue;
        }
        // Neighbouring blocks that differ go into one record.
        let mut stop = end_of_block(at);
        while stop < to.len() && !same(stop) {
            stop = end_of_block(stop);
        }
        records.push(Record::Bytes { offset: at as u32, bytes: to[at..stop].to_vec() });
        at = stop;
    }
    records
}

impl Record {
    /// The word of a call of the paper; nothing for a record that just sets or shows the buffer.
    pub fn call_word(&self) -> Option<&'static str> {
        CALLS.iter().find(|&&(tag, _)| tag == self.tag()).map(|&(_, word)| word)
    }

    /// Whether this is a call of the paper, and not just a setting or showing of the buffer.
    pub fn is_call(&self) -> bool {
        self.call_word().is_some()
    }

    /// Whether this is a call that refuses a book that is not sound. A conversion asks for the old layout.
    pub fn asks_for_soundness(&self) -> bool {
        matches!(
            self,
            Record::Clock(_)
                | Record::Submit(_)
                | Record::Mark { .. }
                | Record::Block { .. }
                | Record::Final { .. }
                | Record::Plain
                | Record::Listing
                | Record::Sound
                | Record::Judge(_)
                | Record::Right(_)
                | Record::Settled { .. }
        )
    }

    /// Whether the record may change the buffer.
    pub fn may_change(&self) -> bool {
        matches!(
            self,
            Record::Length(_)
                | Record::Bytes { .. }
                | Record::Open(_)
                | Record::OpenBy { .. }
                | Record::Clock(_)
                | Record::Submit(_)
                | Record::Convert
                | Record::Right(_)
        )
    }

    fn tag(&self) -> u8 {
        match self {
            Record::Length(_) => TAG_LENGTH,
            Record::Bytes { .. } => TAG_BYTES,
            Record::Book => TAG_BOOK,
            Record::Sum => TAG_SUM,
            Record::Open(_) => TAG_OPEN,
            Record::Clock(_) => TAG_CLOCK,
            Record::Submit(_) => TAG_SUBMIT,
            Record::Mark { .. } => TAG_MARK,
            Record::Block { .. } => TAG_BLOCK,
            Record::Final { .. } => TAG_FINAL,
            Record::Plain => TAG_PLAIN,
            Record::Reader { .. } => TAG_READER,
            Record::Walk(_) => TAG_WALK,
            Record::Listing => TAG_LISTING,
            Record::Sound => TAG_SOUND,
            Record::Eic(_) => TAG_EIC,
            Record::Id(_) => TAG_ID,
            Record::Read(_) => TAG_READ,
            Record::Print { .. } => TAG_PRINT,
            Record::Check(_) => TAG_CHECK,
            Record::Seal(_) => TAG_SEAL,
            Record::Code(_) => TAG_CODE,
            Record::Judge(_) => TAG_JUDGE,
            Record::OpenBy { .. } => TAG_OPEN_BY,
            Record::Convert => TAG_CONVERT,
            Record::Right(_) => TAG_RIGHT,
            Record::Settled { .. } => TAG_SETTLED,
        }
    }

    fn body(&self) -> Vec<u8> {
        let mut body = Vec::new();
        match self {
            Record::Length(bytes) => body.extend(bytes.to_le_bytes()),
            Record::Bytes { offset, bytes } => {
                body.extend(offset.to_le_bytes());
                body.extend(bytes);
            }
            Record::Book | Record::Sum | Record::Plain | Record::Listing | Record::Sound | Record::Convert => {}
            Record::Open(opening) => put_opening(&mut body, opening, None),
            Record::OpenBy { rule, opening } => put_opening(&mut body, opening, Some(*rule)),
            Record::Clock(minute) => body.extend(minute.to_le_bytes()),
            Record::Mark { sender, id } | Record::Block { sender, id } => {
                put_name(&mut body, sender);
                put_name(&mut body, id);
            }
            Record::Final { out_party, in_party, position } => {
                put_name(&mut body, out_party);
                put_name(&mut body, in_party);
                body.extend(position.to_le_bytes());
            }
            Record::Settled { party, position } => {
                put_name(&mut body, party);
                body.extend(position.to_le_bytes());
            }
            Record::Reader { number, message } => {
                body.extend(number.to_le_bytes());
                body.extend(message);
            }
            Record::Submit(bytes) | Record::Walk(bytes) | Record::Judge(bytes) | Record::Right(bytes) => {
                body.extend(bytes);
            }
            Record::Eic(text) | Record::Id(text) | Record::Read(text) => body.extend(text),
            Record::Print { quantity, buffer } => {
                body.extend(quantity.to_le_bytes());
                body.extend(buffer);
            }
            Record::Check(block) | Record::Seal(block) => body.extend(block.iter()),
            Record::Code(number) => body.push(*number),
        }
        body
    }

    /// Writes the record as it stands in a stream.
    pub fn write_to(&self, output: &mut impl Write) -> io::Result<()> {
        let body = self.body();
        let (fewest, most) = body_limits(self.tag()).expect("a record has a known tag");
        assert!((fewest..=most).contains(&body.len()), "a record of {} bytes would be malformed", body.len());
        output.write_all(&[self.tag()])?;
        output.write_all(&(body.len() as u32).to_le_bytes())?;
        output.write_all(&body)
    }

    /// Reads the next record; nothing at the clean end of the stream. No byte behind a record is
    /// read, and a body is read only once its length has been found allowed.
    pub fn read_from(input: &mut impl Read) -> Result<Option<Record>, Stop> {
        let mut tag = [0];
        if !fill(input, &mut tag)? {
            return Ok(None);
        }
        let (fewest, most) = body_limits(tag[0]).ok_or(Stop::Malformed)?;
        let mut length = [0; 4];
        if !fill(input, &mut length)? {
            return Err(Stop::Malformed);
        }
        let length = u32::from_le_bytes(length) as usize;
        if length < fewest || length > most {
            return Err(Stop::Malformed);
        }
        let mut body = vec![0; length];
        if !fill(input, &mut body)? {
            return Err(Stop::Malformed);
        }
        decode(tag[0], &body).map(Some).ok_or(Stop::Malformed)
    }
}

/// Fills the whole buffer. False if the input ended before its first byte; an end in the midst of
/// it is malformed.
fn fill(input: &mut impl Read, buffer: &mut [u8]) -> Result<bool, Stop> {
    let mut filled = 0;
    while filled < buffer.len() {
        match input.read(&mut buffer[filled..]) {
            Ok(0) if filled == 0 => return Ok(false),
            Ok(0) => return Err(Stop::Malformed),
            Ok(more) => filled += more,
            Err(error) if error.kind() == io::ErrorKind::Interrupted => {}
            Err(error) => return Err(Stop::Input(error)),
        }
    }
    Ok(true)
}

/// The rule, where one is named, stands between the lead and the day.
fn put_opening(body: &mut Vec<u8>, opening: &Opening, rule: Option<u8>) {
    body.push(opening.n);
    body.extend(opening.lead.to_le_bytes());
    body.extend(rule);
    put_name(body, &opening.day);
    put_name(body, &opening.area);
    put_name(body, &opening.receiver);
}

fn put_name(body: &mut Vec<u8>, name: &[u8]) {
    assert!(name.len() <= MOST_TEXT_BYTES, "a name of {} bytes would be malformed", name.len());
    body.push(name.len() as u8);
    body.extend(name);
}

/// Takes the fields off the front of a body.
struct Fields<'body>(&'body [u8]);

impl<'body> Fields<'body> {
    fn take(&mut self, bytes: usize) -> Option<&'body [u8]> {
        if bytes > self.0.len() {
            return None;
        }
        let (front, rest) = self.0.split_at(bytes);
        self.0 = rest;
        Some(front)
    }

    fn u8(&mut self) -> Option<u8> {
        self.take(1).map(|bytes| bytes[0])
    }

    fn u16(&mut self) -> Option<u16> {
        self.take(2).map(|bytes| u16::from_le_bytes([bytes[0], bytes[1]]))
    }

    fn u32(&mut self) -> Option<u32> {
        self.take(4).map(|bytes| u32::from_le_bytes([bytes[0], bytes[1], bytes[2], bytes[3]]))
    }

    fn name(&mut self) -> Option<Vec<u8>> {
        let length = usize::from(self.u8()?);
        if length > MOST_TEXT_BYTES {
            return None;
        }
        self.take(length).map(<[u8]>::to_vec)
    }

    fn rest(&mut self) -> Vec<u8> {
        std::mem::take(&mut self.0).to_vec()
    }

    /// An opening, and its rule where one is named.
    fn opening(&mut self, names_rule: bool) -> Option<(Opening, u8)> {
        let (n, lead) = (self.u8()?, self.u16()?);
        let rule = if names_rule { self.u8()? } else { 0 };
        let (day, area, receiver) = (self.name()?, self.name()?, self.name()?);
        Some((Opening { n, lead, day, area, receiver }, rule))
    }

    fn block(&mut self) -> Option<Box<Block>> {
        let bytes: Block = self.take(BLOCK_BYTES)?.try_into().ok()?;
        Some(Box::new(bytes))
    }
}

/// Reads the fields of a body; nothing if they do not fill it exactly.
fn decode(tag: u8, body: &[u8]) -> Option<Record> {
    let mut fields = Fields(body);
    let record = match tag {
        TAG_LENGTH => Record::Length(fields.u32().filter(|&bytes| bytes as usize <= MOST_BOOK_BYTES)?),
        TAG_BYTES => Record::Bytes { offset: fields.u32()?, bytes: fields.rest() },
        TAG_BOOK => Record::Book,
        TAG_SUM => Record::Sum,
        TAG_OPEN => Record::Open(fields.opening(false)?.0),
        TAG_OPEN_BY => {
            let (opening, rule) = fields.opening(true)?;
            Record::OpenBy { rule, opening }
        }
        TAG_CLOCK => Record::Clock(fields.u16()?),
        TAG_SUBMIT => Record::Submit(fields.rest()),
        TAG_MARK => Record::Mark { sender: fields.name()?, id: fields.name()? },
        TAG_BLOCK => Record::Block { sender: fields.name()?, id: fields.name()? },
        TAG_FINAL => Record::Final { out_party: fields.name()?, in_party: fields.name()?, position: fields.u16()? },
        TAG_PLAIN => Record::Plain,
        TAG_READER => Record::Reader { number: fields.u16()?, message: fields.rest() },
        TAG_WALK => Record::Walk(fields.rest()),
        TAG_LISTING => Record::Listing,
        TAG_SOUND => Record::Sound,
        TAG_EIC => Record::Eic(fields.rest()),
        TAG_ID => Record::Id(fields.rest()),
        TAG_READ => Record::Read(fields.rest()),
        TAG_PRINT => Record::Print { quantity: fields.u32()?, buffer: fields.rest() },
        TAG_CHECK => Record::Check(fields.block()?),
        TAG_SEAL => Record::Seal(fields.block()?),
        TAG_CODE => Record::Code(fields.u8()?),
        TAG_JUDGE => Record::Judge(fields.rest()),
        TAG_CONVERT => Record::Convert,
        TAG_RIGHT => Record::Right(fields.rest()),
        TAG_SETTLED => Record::Settled { party: fields.name()?, position: fields.u16()? },
        _ => return None,
    };
    fields.0.is_empty().then_some(record)
}

#[cfg(test)]
mod tests {
    use super::*;

    fn read(bytes: &[u8]) -> Result<Option<Record>, Stop> {
        Record::read_from(&mut &bytes[..])
    }

    #[test]
    fn records_come_back_as_written() {
        let opening = Opening { n: 96, lead: 45, day: b"20190131".to_vec(), area: vec![65; 15], receiver: Vec::new() };
        let records = [
            Record::Length(1_024),
            Record::Bytes { offset: 7, bytes: vec![1, 2, 3] },
            Record::Book,
            Record::Open(opening.clone()),
            Record::OpenBy { rule: 7, opening },
            Record::Final { out_party: vec![66; 16], in_party: vec![67; 16], position: 300 },
            Record::Reader { number: 2, message: vec![9; 1_024] },
            Record::Print { quantity: 5, buffer: vec![] },
            Record::Seal(Box::new([5; BLOCK_BYTES])),
            Record::Judge(vec![8; 700]),
            Record::Convert,
            Record::Right(Vec::new()),
            Record::Right(vec![4; 1_024]),
            Record::Settled { party: Vec::new(), position: 0 },
            Record::Settled { party: vec![68; 64], position: 65_535 },
        ];
        let mut stream = Vec::new();
        for record in &records {
            record.write_to(&mut stream).unwrap();
        }
        let mut input = &stream[..];
        for record in &records {
            assert_eq!(Record::read_from(&mut input).unwrap().as_ref(), Some(record));
        }
        assert!(Record::read_from(&mut input).unwrap().is_none());
    }

    #[test]
    fn the_rule_of_an_opening_stands_behind_its_lead() {
        let read = read(&[24, 10, 0, 0, 0, 96, 1, 2, 9, 1, 48, 1, 65, 1, 66]).unwrap();
        let opening = Opening { n: 96, lead: 513, day: vec![48], area: vec![65], receiver: vec![66] };
        assert_eq!(read, Some(Record::OpenBy { rule: 9, opening }));
    }

    #[test]
    fn the_position_of_a_settled_position_stands_behind_its_party() {
        let read = read(&[27, 5, 0, 0, 0, 2, 65, 66, 1, 2]).unwrap();
        assert_eq!(read, Some(Record::Settled { party: vec![65, 66], position: 513 }));
    }

    #[test]
    fn malformed_streams_are_noticed() {
        assert!(matches!(read(&[]), Ok(None)));
        assert!(matches!(read(&[0, 0, 0, 0, 0]), Err(Stop::Malformed)));
        assert!(matches!(read(&[24, 6, 0, 0, 0, 0, 0, 0, 0, 0, 0]), Err(Stop::Malformed)));
        assert!(matches!(read(&[24, 7, 0, 0, 0, 0, 0, 0, 0, 0, 0, 1]), Err(Stop::Malformed)));
        assert!(matches!(read(&[24, 200, 0, 0, 0]), Err(Stop::Malformed)));
        assert!(matches!(read(&[26, 1, 4, 0, 0]), Err(Stop::Malformed)));
        assert!(matches!(read(&[26, 1, 0, 0, 0]), Err(Stop::Malformed)));
        assert!(matches!(read(&[27, 2, 0, 0, 0, 0, 0]), Err(Stop::Malformed)));
        assert!(matches!(read(&[27, 68, 0, 0, 0]), Err(Stop::Malformed)));
        assert!(matches!(read(&[27, 3, 0, 0, 0, 1, 65, 0]), Err(Stop::Malformed)));
        assert!(matches!(read(&[27, 4, 0, 0, 0, 0, 0, 0, 0]), Err(Stop::Malformed)));
        assert!(matches!(read(&[28, 0, 0, 0, 0]), Err(Stop::Malformed)));
        assert!(matches!(read(&[25, 1, 0, 0, 0, 0]), Err(Stop::Malformed)));
        assert!(matches!(read(&[3]), Err(Stop::Malformed)));
        assert!(matches!(read(&[3, 0, 0, 0]), Err(Stop::Malformed)));
        assert!(matches!(read(&[3, 1, 0, 0, 0, 0]), Err(Stop::Malformed)));
        assert!(matches!(read(&[6, 2, 0, 0, 0, 1]), Err(Stop::Malformed)));
        assert!(matches!(read(&[6, 255, 255, 255, 255, 1]), Err(Stop::Malformed)));
        assert!(matches!(read(&[8, 3, 0, 0, 0, 9, 0, 0]), Err(Stop::Malformed)));
        assert!(matches!(read(&[8, 3, 0, 0, 0, 0, 0, 0]), Err(Stop::Malformed)));
        assert!(matches!(read(&[1, 4, 0, 0, 0, 1, 210, 7, 0]), Err(Stop::Malformed)));
        assert!(matches!(read(&[1, 4, 0, 0, 0, 0, 210, 7, 0]), Ok(Some(Record::Length(512_512)))));
    }
}
