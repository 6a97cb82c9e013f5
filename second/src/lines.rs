//! Calls and answers as lines of bytes: section 8 of docs/MEANING.md.

use crate::meaning::{Answer, Bytes, Call, Entry, Expected, Refusal, Rule};

/// Any four bytes that the caller chose.
pub type Tag = [u8; 4];

/// What a line that came says. Without a call it is no call.
#[derive(Clone, Debug, PartialEq, Eq)]
pub struct Line {
    pub tag: Tag,
    pub kind: Option<u8>,
    pub call: Option<Call>,
}

// ---------------------------------------------------------------- reading

/// Takes bytes from the front. None means that bytes are missing.
struct Reader<'a> {
    rest: &'a [u8],
}

impl<'a> Reader<'a> {
    fn bytes(&mut self, count: usize) -> Option<&'a [u8]> {
        if self.rest.len() < count {
            return None;
        }
        let (taken, rest) = self.rest.split_at(count);
        self.rest = rest;
        Some(taken)
    }

    /// A whole number in that many bytes, the high byte first.
    fn number(&mut self, count: usize) -> Option<u64> {
        Some(self.bytes(count)?.iter().fold(0, |number, byte| number << 8 | u64::from(*byte)))
    }

    fn byte(&mut self) -> Option<u8> {
        Some(self.bytes(1)?[0])
    }

    /// Length (1), bytes.
    fn name(&mut self) -> Option<Bytes> {
        let length = self.number(1)?;
        Some(self.bytes(length as usize)?.into())
    }

    /// Length (4), bytes.
    fn body(&mut self) -> Option<Bytes> {
        let length = self.number(4)?;
        Some(self.bytes(length as usize)?.into())
    }

    fn keeps(&mut self) -> Option<bool> {
        match self.byte()? {
            0 => Some(false),
            1 => Some(true),
            _ => None,
        }
    }

    fn expected(&mut self) -> Option<Expected> {
        match self.byte()? {
            0 => Some(Expected::Any),
            1 => Some(Expected::Absent),
            2 => Some(Expected::Number(self.number(8)?)),
            _ => None,
        }
    }

    fn rules(&mut self) -> Option<Vec<Rule>> {
        let how_many = self.byte()?;
        (0..how_many).map(|_| self.rule()).collect()
    }

    fn rule(&mut self) -> Option<Rule> {
        Some(Rule { beginning: self.name()?, lasts: self.number(8)?, older_last: self.number(8)? })
    }

    /// What follows the kind. The parts of each call stand in the order of the table.
    fn call(&mut self, kind: u8) -> Option<Call> {
        Some(match kind {
            1 => Call::MakeRoom { name: self.name()?, keeps: self.keeps()? },
            2 => Call::DropRoom { name: self.name()? },
            3 => Call::Put { room: self.name()?, key: self.name()?, expected: self.expected()?, bytes: self.body()? },
            4 => Call::Get {
                room: self.name()?,
                key: self.name()?,
                number: self.number(8)?,
                from: self.number(8)?,
                most: self.number(4)?,
            },
            5 => Call::Remove { room: self.name()?, key: self.name()?, number: self.number(8)? },
            6 => Call::Look { room: self.name()?, beginning: self.name()?, after: self.name()?, most: self.number(2)? },
            7 => Call::Versions { room: self.name()?, key: self.name()? },
            8 => Call::Begin { room: self.name()?, key: self.name()? },
            9 => {
                Call::Part { room: self.name()?, upload: self.number(8)?, place: self.number(2)?, bytes: self.body()? }
            }
            10 => Call::Complete { room: self.name()?, upload: self.number(8)?, expected: self.expected()? },
            11 => Call::Abort { room: self.name()?, upload: self.number(8)? },
            12 => Call::Hold { room: self.name()?, key: self.name()?, number: self.number(8)?, until: self.number(8)? },
            13 => Call::Rules { room: self.name()?, rules: self.rules()? },
            14 => Call::Time { time: self.number(8)? },
            _ => return None,
        })
    }

    fn answer(&mut self, kind: u8) -> Option<Answer> {
        Some(match kind {
            0 => Answer::TurnedAway(refusal_of(self.byte()?)?),
            1 => Answer::Yes,
            2 => Answer::Number(self.number(8)?),
            3 => Answer::Got { number: self.number(8)?, length: self.number(8)?, bytes: self.body()? },
            4 => {
                let how_many = self.number(2)?;
                Answer::List((0..how_many).map(|_| self.entry()).collect::<Option<_>>()?)
            }
            5 => Answer::Full,
            _ => return None,
        })
    }

    fn entry(&mut self) -> Option<Entry> {
        Some(Entry { key: self.name()?, number: self.number(8)?, length: self.number(8)? })
    }
}

fn refusal_of(number: u8) -> Option<Refusal> {
    use Refusal::*;
    let all = [
        OutOfRange,
        NotThere,
        ThereAlready,
        NotAsExpected,
        NotEmpty,
        Held,
        NoPartsOrGap,
        TooMany,
        NoTimeTold,
        NotBuilt,
    ];
    all.into_iter().find(|refusal| *refusal as u8 == number)
}

/// "Tag and kind of a line that came", and the call if it is one.
pub fn read_line(bytes: &[u8], longest: u64) -> Line {
    let tag = match bytes.get(4..8) {
        Some(tag) => [tag[0], tag[1], tag[2], tag[3]],
        None => [0; 4],
    };
    let kind = bytes.get(8).copied();
    let too_long = bytes.len() as u64 > longest;
    let call = if too_long { None } else { read_call(bytes) };
    Line { tag, kind, call }
}

/// "What is no call" gives none.
fn read_call(bytes: &[u8]) -> Option<Call> {
    let mut reader = Reader { rest: bytes };
    let kind = read_head(&mut reader)?;
    let call = reader.call(kind)?;
    reader.rest.is_empty().then_some(call)
}

/// The kind, if the length is right.
fn read_head(reader: &mut Reader) -> Option<u8> {
    let length = reader.number(4)?;
    if length != reader.rest.len() as u64 {
        return None;
    }
    reader.bytes(4)?;
    reader.byte()
}

/// An answer and its tag, for tests and messages.
pub fn read_answer(bytes: &[u8]) -> Option<(Tag, Answer)> {
    let mut reader = Reader { rest: bytes };
    let kind = read_head(&mut reader)?;
    let answer = reader.answer(kind)?;
    let tag = bytes.get(4..8)?;
    reader.rest.is_empty().then_some(([tag[0], tag[1], tag[2], tag[3]], answer))
}

// ---------------------------------------------------------------- writing

#[derive(Default)]
struct Writer {
    bytes: Vec<u8>,
}

impl Writer {
    /// A whole number in that many bytes, the high byte first.
    fn number(&mut self, count: usize, number: u64) {
        self.bytes.extend_from_slice(&number.to_be_bytes()[8 - count..]);
    }

    /// A name of more than 255 bytes has no line; it is cut, so that what was meant as one is still some line.
    fn name(&mut self, name: &[u8]) {
        let name = &name[..name.len().min(255)];
        self.number(1, name.len() as u64);
        self.bytes.extend_from_slice(name);
    }

    fn body(&mut self, bytes: &[u8]) {
        self.number(4, bytes.len() as u64);
        self.bytes.extend_from_slice(bytes);
    }

    fn expected(&mut self, expected: &Expected) {
        match expected {
            Expected::Any => self.number(1, 0),
            Expected::Absent => self.number(1, 1),
            Expected::Number(number) => {
                self.number(1, 2);
                self.number(8, *number);
            }
        }
    }

    fn call(&mut self, call: &Call) {
        match call {
            Call::MakeRoom { name, keeps } => {
                self.name(name);
                self.number(1, u64::from(*keeps));
            }
            Call::DropRoom { name } => self.name(name),
            Call::Put { room, key, expected, bytes } => {
                self.name(room);
                self.name(key);
                self.expected(expected);
                self.body(bytes);
            }
            Call::Get { room, key, number, from, most } => {
                self.name(room);
                self.name(key);
                self.number(8, *number);
                self.number(8, *from);
                self.number(4, *most);
            }
            Call::Remove { room, key, number } => {
                self.name(room);
                self.name(key);
                self.number(8, *number);
            }
            Call::Look { room, beginning, after, most } => {
                self.name(room);
                self.name(beginning);
                self.name(after);
                self.number(2, *most);
            }
            Call::Versions { room, key } | Call::Begin { room, key } => {
                self.name(room);
                self.name(key);
            }
            Call::Part { room, upload, place, bytes } => {
                self.name(room);
                self.number(8, *upload);
                self.number(2, *place);
                self.body(bytes);
            }
            Call::Complete { room, upload, expected } => {
                self.name(room);
                self.number(8, *upload);
                self.expected(expected);
            }
            Call::Abort { room, upload } => {
                self.name(room);
                self.number(8, *upload);
            }
            Call::Hold { room, key, number, until } => {
                self.name(room);
                self.name(key);
                self.number(8, *number);
                self.number(8, *until);
            }
            Call::Rules { room, rules } => {
                self.name(room);
                self.number(1, rules.len() as u64);
                for rule in rules {
                    self.name(&rule.beginning);
                    self.number(8, rule.lasts);
                    self.number(8, rule.older_last);
                }
            }
            Call::Time { time } => self.number(8, *time),
        }
    }

    fn answer(&mut self, answer: &Answer) {
        match answer {
            Answer::TurnedAway(refusal) => {
                self.number(1, 0);
                self.number(1, *refusal as u64);
            }
            Answer::Yes => self.number(1, 1),
            Answer::Number(number) => {
                self.number(1, 2);
                self.number(8, *number);
            }
            Answer::Got { number, length, bytes } => {
                self.number(1, 3);
                self.number(8, *number);
                self.number(8, *length);
                self.body(bytes);
            }
            Answer::List(entries) => {
                self.number(1, 4);
                self.number(2, entries.len() as u64);
                for entry in entries {
                    self.name(&entry.key);
                    self.number(8, entry.number);
                    self.number(8, entry.length);
                }
            }
            Answer::Full => self.number(1, 5),
        }
    }

    /// The line whose tag and rest were written: its length comes before them.
    fn line(self) -> Vec<u8> {
        let length = self.bytes.len() as u32;
        [&length.to_be_bytes(), self.bytes.as_slice()].concat()
    }
}

pub fn write_call(tag: Tag, call: &Call) -> Vec<u8> {
    let mut writer = Writer::default();
    writer.bytes.extend_from_slice(&tag);
    writer.number(1, u64::from(call.kind()));
    writer.call(call);
    writer.line()
}

pub fn write_answer(tag: Tag, answer: &Answer) -> Vec<u8> {
    let mut writer = Writer::default();
    writer.bytes.extend_from_slice(&tag);
    writer.answer(answer);
    writer.line()
}

// ---------------------------------------------------------------- hexadecimal

/// In lower case.
pub fn to_hex(bytes: &[u8]) -> String {
    const DIGITS: &[u8; 16] = b"0123456789abcdef";
    let mut text = String::with_capacity(2 * bytes.len());
    for byte in bytes {
        text.push(char::from(DIGITS[usize::from(byte >> 4)]));
        text.push(char::from(DIGITS[usize::from(byte & 15)]));
    }
    text
}

/// In either case; none if digits are odd in number or no digits.
pub fn from_hex(text: &str) -> Option<Vec<u8>> {
    let digit = |byte: u8| char::from(byte).to_digit(16).map(|digit| digit as u8);
    if text.len() % 2 != 0 {
        return None;
    }
    text.as_bytes().chunks(2).map(|pair| Some(digit(pair[0])? << 4 | digit(pair[1])?)).collect()
}
