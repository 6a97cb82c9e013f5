//! Stories: calls in words at the left, answers at the right. Every call goes through its line of bytes and back.
//!
//! Other rows: `sectors N`, `longest N`, `built WORD` set the ground; `next N` sets the next number (to reach its end);
//! `weigh | N` says what the house weighs; `bytes HEX | ANSWER` sends a line as it is;
//! `repeat N CALL | ANSWER` says the same N times, where `#` stands for 1, 2, 3 and so on, and an answer `number` for any number.

use second::built::{Built, Ground};
use second::lines;
use second::meaning::House;
use second::weight;
use second::words;

pub struct Story {
    pub ground: Ground,
    pub house: House,
}

impl Story {
    pub fn new() -> Story {
        let ground = Ground { built: Built::All, sectors: 8_192, longest: 6_000_000 };
        Story { ground, house: House::blank() }
    }

    /// The answer to a line of bytes, in words.
    fn line(&mut self, line: &[u8]) -> String {
        let (after, answer) = self.ground.answer_line(&self.house, line);
        let (tag, answer) = lines::read_answer(&answer).expect("an answer that can be read");
        let wanted_tag = line.get(4..8).unwrap_or(&[0; 4]);
        assert_eq!(tag, wanted_tag, "the tag of the answer");
        let said = words::show_answer(&answer);
        if said.starts_with("refused") || said == "full" {
            assert_eq!(after, self.house, "what is turned away changes nothing");
        }
        self.house = after;
        said
    }

    fn call(&mut self, text: &str) -> String {
        let call = words::read_call(text).unwrap_or_else(|| panic!("no call in words: {text}"));
        let line = lines::write_call([0, 0, 0, 7], &call);
        let read = lines::read_line(&line, u64::MAX);
        assert_eq!(read.call.as_ref(), Some(&call), "a call is read as it was written");
        self.line(&line)
    }

    fn setting(&mut self, words: &[&str]) -> bool {
        match words {
            ["sectors", n] => self.ground.sectors = n.parse().expect("sectors"),
            ["longest", n] => self.ground.longest = n.parse().expect("longest"),
            ["built", word] => self.ground.built = Built::from_word(word).expect("built"),
            ["next", n] => self.house.next = n.parse().expect("next"),
            _ => return false,
        }
        true
    }

    fn repeat(&mut self, times: u64, call: &str, wanted: &str) {
        for index in 1..=times {
            let said = self.call(&call.replace('#', &index.to_string()));
            let first_word = said.split(' ').next().unwrap_or("");
            assert_eq!(first_word, wanted.split(' ').next().unwrap_or(""), "{call}, the {index}th time: {said}");
        }
    }

    pub fn row(&mut self, row: &str) {
        if self.setting(&row.split_whitespace().collect::<Vec<_>>()) {
            return;
        }
        let (what, wanted) = row.split_once('|').unwrap_or_else(|| panic!("no answer in: {row}"));
        let (what, wanted) = (what.trim(), wanted.trim());
        let said = if what == "weigh" {
            weight::of_house(&self.house).to_string()
        } else if let Some(digits) = what.strip_prefix("bytes") {
            let digits: String = digits.split_whitespace().collect();
            self.line(&lines::from_hex(&digits).expect("hexadecimal"))
        } else if let Some(rest) = what.strip_prefix("repeat ") {
            let (times, call) = rest.split_once(' ').expect("repeat N CALL");
            return self.repeat(times.parse().expect("repeat N"), call, wanted);
        } else {
            self.call(what)
        };
        assert_eq!(said, wanted, "{what}");
    }

    pub fn rows(&mut self, text: &str) {
        for row in text.lines().map(str::trim).filter(|row| !row.is_empty() && !row.starts_with("//")) {
            self.row(row);
        }
    }
}

pub fn story(text: &str) {
    Story::new().rows(text);
}

/// Each story is a test of its own.
#[macro_export]
macro_rules! stories {
    ($($name:ident: $text:expr;)*) => {
        $(#[test] fn $name() { common::story($text) })*
    };
}
