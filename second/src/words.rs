//! Calls and answers in words, for tests, messages and scripts written by hand.
//!
//! ```text
//! time 5                              make r keeps | make r forgets      drop r
//! put r a any hello                   get r a NUMBER FROM MOST           remove r a NUMBER
//! look r BEGINNING AFTER MOST         versions r a                       begin r a
//! part r UPLOAD PLACE hello           complete r UPLOAD absent           abort r UPLOAD
//! hold r a NUMBER UNTIL               rules r a:LASTS:OLDER b:LASTS:OLDER
//! ```
//! Bytes are written as they are, as `-` for none, as `x*300` for 300 times x, or as `0x` and digits.
//! Expected is `any`, `absent` or a number.

use crate::meaning::{Answer, Bytes, Call, Entry, Expected, Rule};

// ---------------------------------------------------------------- words to calls

pub fn read_bytes(word: &str) -> Option<Bytes> {
    if word == "-" {
        return Some(Bytes::from(Vec::new()));
    }
    if let Some(digits) = word.strip_prefix("0x") {
        return Some(crate::lines::from_hex(digits)?.into());
    }
    if let Some((what, times)) = word.split_once('*') {
        return Some(what.as_bytes().repeat(times.parse().ok()?).into());
    }
    Some(word.as_bytes().into())
}

fn read_expected(word: &str) -> Option<Expected> {
    match word {
        "any" => Some(Expected::Any),
        "absent" => Some(Expected::Absent),
        _ => Some(Expected::Number(read_number(word)?)),
    }
}

/// A number, or a power of two with something added or taken: `2^62`, `2^62-1`.
fn read_number(word: &str) -> Option<u64> {
    let Some(rest) = word.strip_prefix("2^") else { return word.parse().ok() };
    match rest.split_once('-') {
        Some((power, less)) => 1u128.checked_shl(power.parse().ok()?)?.checked_sub(less.parse().ok()?)?.try_into().ok(),
        None => 1u64.checked_shl(rest.parse().ok()?),
    }
}

fn read_rule(word: &str) -> Option<Rule> {
    let parts: Vec<&str> = word.split(':').collect();
    let [beginning, lasts, older_last] = parts.as_slice() else { return None };
    Some(Rule { beginning: read_bytes(beginning)?, lasts: read_number(lasts)?, older_last: read_number(older_last)? })
}

pub fn read_call(text: &str) -> Option<Call> {
    let words: Vec<&str> = text.split_whitespace().collect();
    Some(match words.as_slice() {
        ["time", time] => Call::Time { time: read_number(time)? },
        ["make", name, "keeps"] => Call::MakeRoom { name: read_bytes(name)?, keeps: true },
        ["make", name, "forgets"] => Call::MakeRoom { name: read_bytes(name)?, keeps: false },
        ["drop", name] => Call::DropRoom { name: read_bytes(name)? },
        ["put", room, key, expected, bytes] => Call::Put {
            room: read_bytes(room)?,
            key: read_bytes(key)?,
            expected: read_expected(expected)?,
            bytes: read_bytes(bytes)?,
        },
        ["get", room, key, number, from, most] => Call::Get {
            room: read_bytes(room)?,
            key: read_bytes(key)?,
            number: read_number(number)?,
            from: read_number(from)?,
            most: read_number(most)?,
        },
        ["remove", room, key, number] => {
            Call::Remove { room: read_bytes(room)?, key: read_bytes(key)?, number: read_number(number)? }
        }
        ["look", room, beginning, after, most] => Call::Look {
            room: read_bytes(room)?,
            beginning: read_bytes(beginning)?,
            after: read_bytes(after)?,
            most: read_number(most)?,
        },
        ["versions", room, key] => Call::Versions { room: read_bytes(room)?, key: read_bytes(key)? },
        ["begin", room, key] => Call::Begin { room: read_bytes(room)?, key: read_bytes(key)? },
        ["part", room, upload, place, bytes] => Call::Part {
            room: read_bytes(room)?,
            upload: read_number(upload)?,
            place: read_number(place)?,
            bytes: read_bytes(bytes)?,
        },
        ["complete", room, upload, expected] => {
            Call::Complete { room: read_bytes(room)?, upload: read_number(upload)?, expected: read_expected(expected)? }
        }
        ["abort", room, upload] => Call::Abort { room: read_bytes(room)?, upload: read_number(upload)? },
        ["hold", room, key, number, until] => Call::Hold {
            room: read_bytes(room)?,
            key: read_bytes(key)?,
            number: read_number(number)?,
            until: read_number(until)?,
        },
        ["rules", room, rules @ ..] => Call::Rules {
            room: read_bytes(room)?,
            rules: rules.iter().map(|rule| read_rule(rule)).collect::<Option<_>>()?,
        },
        _ => return None,
    })
}

// ---------------------------------------------------------------- calls and answers to words

/// Bytes that `read_bytes` reads back, except where they are many and of different kinds: these are shown in part.
pub fn show_bytes(bytes: &[u8]) -> String {
    let Some(first) = bytes.first() else { return "-".to_string() };
    let plain = |byte: &u8| byte.is_ascii_alphanumeric() || b".!/_".contains(byte);
    let looks_like_digits = bytes.starts_with(b"0x");
    if bytes.len() > 12 && plain(first) && bytes.iter().all(|byte| byte == first) {
        return format!("{}*{}", char::from(*first), bytes.len());
    }
    if bytes.len() <= 64 && bytes.iter().all(plain) && !looks_like_digits {
        return String::from_utf8_lossy(bytes).into_owned();
    }
    if bytes.len() <= 64 {
        return format!("0x{}", crate::lines::to_hex(bytes));
    }
    format!("0x{}..({}_bytes)", crate::lines::to_hex(&bytes[..16]), bytes.len())
}

fn show_expected(expected: &Expected) -> String {
    match expected {
        Expected::Any => "any".to_string(),
        Expected::Absent => "absent".to_string(),
        Expected::Number(number) => number.to_string(),
    }
}

fn show_rule(rule: &Rule) -> String {
    format!(" {}:{}:{}", show_bytes(&rule.beginning), rule.lasts, rule.older_last)
}

pub fn show_call(call: &Call) -> String {
    let b = |bytes: &Bytes| show_bytes(bytes);
    match call {
        Call::MakeRoom { name, keeps } => format!("make {} {}", b(name), if *keeps { "keeps" } else { "forgets" }),
        Call::DropRoom { name } => format!("drop {}", b(name)),
        Call::Put { room, key, expected, bytes } => {
            format!("put {} {} {} {}", b(room), b(key), show_expected(expected), b(bytes))
        }
        Call::Get { room, key, number, from, most } => format!("get {} {} {number} {from} {most}", b(room), b(key)),
        Call::Remove { room, key, number } => format!("remove {} {} {number}", b(room), b(key)),
        Call::Look { room, beginning, after, most } => {
            format!("look {} {} {} {most}", b(room), b(beginning), b(after))
        }
        Call::Versions { room, key } => format!("versions {} {}", b(room), b(key)),
        Call::Begin { room, key } => format!("begin {} {}", b(room), b(key)),
        Call::Part { room, upload, place, bytes } => format!("part {} {upload} {place} {}", b(room), b(bytes)),
        Call::Complete { room, upload, expected } => {
            format!("complete {} {upload} {}", b(room), show_expected(expected))
        }
        Call::Abort { room, upload } => format!("abort {} {upload}", b(room)),
        Call::Hold { room, key, number, until } => format!("hold {} {} {number} {until}", b(room), b(key)),
        Call::Rules { room, rules } => {
            format!("rules {}{}", b(room), rules.iter().map(show_rule).collect::<String>())
        }
        Call::Time { time } => format!("time {time}"),
    }
}

fn show_entry(entry: &Entry) -> String {
    format!(" {}/{}/{}", show_bytes(&entry.key), entry.number, entry.length)
}

/// `refused 4`, `yes`, `number 3`, `got 2 4 new!` (number, whole length, bytes), `list a/2/4` (key, number, length), `full`.
pub fn show_answer(answer: &Answer) -> String {
    match answer {
        Answer::TurnedAway(refusal) => format!("refused {}", *refusal as u8),
        Answer::Yes => "yes".to_string(),
        Answer::Number(number) => format!("number {number}"),
        Answer::Got { number, length, bytes } => format!("got {number} {length} {}", show_bytes(bytes)),
        Answer::List(entries) => format!("list{}", entries.iter().map(show_entry).collect::<String>()),
        Answer::Full => "full".to_string(),
    }
}

/// A line that came, in words.
pub fn show_line(bytes: &[u8]) -> String {
    match crate::lines::read_line(bytes, u64::MAX) {
        crate::lines::Line { call: Some(call), .. } => show_call(&call),
        crate::lines::Line { kind: Some(kind), .. } => format!("no call, kind {kind}"),
        _ => "no call, without a kind".to_string(),
    }
}
