//! Scripts by seed, biased to what hurts.
//!
//! The maker of a script plays along on a house of its own, as if no cut ever fell. So it knows which numbers,
//! holds and spans are about to matter. After a cut its guess may be off by a call; the judge isn't fooled by that.

use crate::built::{Built, Ground};
use crate::dice::Dice;
use crate::drives::Drives;
use crate::lines;
use crate::meaning::{Bytes, Call, Expected, House, Rule, BYTES_MOST, RANGE};
use crate::script::{self, Command, DRIVES};
use crate::weight;

/// Drives larger than this are never mended to the end: it might take as many stretches as there are sectors.
const MENDED_MOST: u64 = 20_000;

/// What a script is about, besides what all are about.
#[derive(Clone, Copy, Debug, PartialEq, Eq)]
enum Shape {
    Plain,
    /// Cuts and losses at almost every step.
    Rough,
    /// As many rooms as leave little room for anything.
    NearlyFull,
    /// A key with about 1,024 versions.
    ManyVersions,
    /// About 1,024 uploads.
    ManyUploads,
    /// About 256 rooms.
    ManyRooms,
    /// Lengths around 5,242,880.
    Long,
}

/// What comes next in a script.
#[derive(Clone, Copy, Debug)]
enum Step {
    Call,
    Time,
    Mend,
    MendWhole,
    Cut,
    Drive,
    Damaged,
    Text,
    Words,
}

struct Maker {
    dice: Dice,
    ground: Ground,
    guess: House,
    drives: Drives,
    shape: Shape,
    rooms: Vec<Bytes>,
    keys: Vec<Bytes>,
    lines: Vec<String>,
}

/// A script for a house of which that much is built.
pub fn script(built: Built, seed: u64) -> String {
    let mut maker = Maker::new(built, seed);
    maker.settings();
    maker.prelude();
    maker.steps();
    maker.read_back();
    maker.lines.concat()
}

/// A short script without cuts and losses, for the exhaustive mode to put them everywhere.
pub fn small_script(built: Built, seed: u64) -> String {
    let mut maker = Maker::new(built, seed);
    maker.shape = Shape::Plain;
    maker.rooms.truncate(1);
    maker.keys.truncate(2);
    maker.emit(&Command::Time(5));
    if maker.has_rooms() {
        let keeps = maker.dice.one_in(2);
        maker.emit_call(&Call::MakeRoom { name: maker.rooms[0].clone(), keeps });
    }
    for _ in 0..maker.dice.between(1, 4) {
        match maker.dice.weighted(&[if maker.has_rooms() { 6 } else { 0 }, 2, 1]) {
            0 => maker.call_step(),
            1 => maker.time_step(),
            _ => maker.emit(&Command::MendWhole),
        }
    }
    maker.lines.concat()
}

/// A short script with one cut, for `house`: what is cut short is read back at once, before anything covers it.
pub fn small_script_with_cut(built: Built, seed: u64) -> String {
    let text = small_script(built, seed);
    let commands: Vec<&str> = text.lines().collect();
    let (before, rest) = commands.split_at(Dice::new(seed).below(commands.len() as u64) as usize);
    let (cut_short, after) = rest.split_at(1);
    let read_back = read_back(built, &text);
    let read_back: Vec<&str> = read_back.iter().map(String::as_str).collect();
    [before, &["cut 1 0"], cut_short, &read_back, after, &read_back, &[""]].concat().join("\n")
}

/// Names that are prefixes of each other, of one byte and of the longest, with the lowest and the highest bytes.
fn names(dice: &mut Dice) -> Vec<Bytes> {
    let long = |last: u8, length: usize| -> Bytes {
        let mut name = vec![b'k'; length];
        name[length - 1] = last;
        name.into()
    };
    let short: Vec<Bytes> =
        [&b"a"[..], b"ab", b"abc", b"b", b"a\0", b"a\xff", b"\0", b"\xff", b"aa"].map(Bytes::from).into();
    let longest = [long(b'k', 255), long(b'l', 255), long(b'k', 254)];
    let mut chosen: Vec<Bytes> = (0..dice.between(1, 4)).map(|_| dice.pick(&short).clone()).collect();
    if dice.one_in(3) {
        chosen.push(dice.pick(&longest).clone());
        chosen.push(dice.pick(&longest).clone());
    }
    chosen
}

impl Maker {
    fn new(built: Built, seed: u64) -> Maker {
        let mut dice = Dice::new(seed ^ 0x5ec0_0d00_0000_0000);
        let shape = shape(built, &mut dice);
        let rooms = names(&mut dice).into_iter().take(2).collect();
        let keys = names(&mut dice);
        Maker {
            dice,
            ground: Ground { built, sectors: script::SECTORS_LEAST, longest: script::LONGEST },
            guess: House::blank(),
            drives: Drives::default(),
            shape,
            rooms,
            keys,
            lines: Vec::new(),
        }
    }

    /// Whether rooms can be made, so that more than the time is worth playing with.
    fn has_rooms(&self) -> bool {
        matches!(self.ground.built, Built::Core | Built::All)
    }

    // ------------------------------------------------------------ writing a line

    fn emit(&mut self, command: &Command) {
        self.emit_text(&command.text());
    }

    /// Writes a line and plays along.
    fn emit_text(&mut self, text: &str) {
        for placed in script::read(text) {
            self.play_along(&placed.command);
        }
        self.lines.push(format!("{text}\n"));
    }

    fn play_along(&mut self, command: &Command) {
        match command {
            Command::Drives(n) => self.ground.sectors = *n,
            Command::Longest(n) => self.ground.longest = *n,
            Command::MendWhole => self.drives.whole(),
            Command::Lose(i) if self.drives.may_lose(*i) => self.drives.lose(*i),
            Command::Replace(i) if self.drives.may_replace(*i) => self.drives.replace(*i),
            _ => {}
        }
        if let Some(line) = command.line() {
            self.guess = self.ground.answer_line(&self.guess, &line).0;
        }
    }

    fn emit_call(&mut self, call: &Call) {
        let line = lines::write_call(self.tag(), call);
        self.emit_line(&line);
    }

    fn emit_line(&mut self, line: &[u8]) {
        let mut digits = lines::to_hex(line);
        if self.dice.one_in(20) {
            digits = digits.to_ascii_uppercase();
        }
        let end = if self.dice.one_in(40) { " \t" } else { "" };
        self.emit_text(&format!("in {digits}{end}"));
    }

    fn tag(&mut self) -> [u8; 4] {
        match self.dice.below(6) {
            0 => [0; 4],
            1 => [255; 4],
            2 => (self.dice.roll() as u32).to_be_bytes(),
            _ => [0, 0, 0, 7],
        }
    }

    // ------------------------------------------------------------ the beginning of a script

    fn settings(&mut self) {
        let sectors = match self.shape {
            Shape::ManyRooms | Shape::ManyUploads | Shape::ManyVersions => Some(16_384),
            Shape::Long => Some(*self.dice.pick(&[16_384, 20_480, 32_768])),
            Shape::NearlyFull => None,
            _ if self.dice.one_in(60) => Some(*self.dice.pick(&[1 << 20, 1 << 40])),
            _ if self.dice.one_in(4) => Some(*self.dice.pick(&[8_192, 8_193, 8_199, 8_200, 9_000, 16_384])),
            _ => None,
        };
        if let Some(sectors) = sectors {
            self.emit(&Command::Drives(sectors));
        }
        let longest = match self.shape {
            Shape::Long => Some(*self.dice.pick(&[5_243_413, 5_243_414, 6_000_000])),
            _ if self.dice.one_in(12) => Some(*self.dice.pick(&[16, 17, 40, 600, 20_000, 5_243_414])),
            _ => None,
        };
        if let Some(longest) = longest {
            self.emit(&Command::Longest(longest));
        }
    }

    /// Sometimes something happens before the first opening; then what the shape needs.
    fn prelude(&mut self) {
        if self.dice.one_in(4) {
            self.drive_step();
        }
        if self.dice.one_in(8) {
            self.cut_step();
        }
        if self.dice.one_in(6) {
            self.call_step();
        }
        if self.has_rooms() || self.dice.one_in(2) {
            let time = self.dice.between(1, 100);
            self.emit(&Command::Time(time));
        }
        if self.has_rooms() {
            self.make_rooms();
        }
        match self.shape {
            Shape::NearlyFull => self.fill(),
            Shape::ManyVersions => self.many_versions(),
            Shape::ManyUploads => self.many_uploads(),
            Shape::ManyRooms => self.many_rooms(),
            _ => {}
        }
    }

    fn make_rooms(&mut self) {
        for name in self.rooms.clone() {
            // Only in a room that keeps do many versions come together.
            let keeps = self.shape == Shape::ManyVersions || self.dice.one_in(2);
            self.emit_call(&Call::MakeRoom { name, keeps });
        }
    }

    /// Rooms until little is left: where exactly it ends is left to chance.
    fn fill(&mut self) {
        let most = (2_048 * self.ground.sectors - 8_388_608) / 2;
        let left = self.dice.below(120_000);
        let mut filler: u16 = 0;
        while weight::of_house(&self.guess) + 32_768 + left < most && filler < 400 {
            let name = Bytes::from([b"fill".as_slice(), &filler.to_be_bytes()].concat());
            self.emit_call(&Call::MakeRoom { name, keeps: true });
            filler += 1;
        }
        if self.dice.one_in(2) {
            let left = self.dice.below(5_000);
            self.fill_with_versions(most.saturating_sub(left));
        }
    }

    /// Versions of a byte, then of none, until not even one of none is left room for.
    fn fill_with_versions(&mut self, most: u64) {
        for (bytes, weight) in [(&b"x"[..], 18_432), (b"", 2_048)] {
            for filler in 0..20u8 {
                if weight::of_house(&self.guess) + weight > most {
                    break;
                }
                let key = Bytes::from([b"fill".as_slice(), bytes, &[filler]].concat());
                let room = self.rooms[0].clone();
                self.emit_call(&Call::Put { room, key, expected: Expected::Any, bytes: bytes.into() });
            }
        }
    }

    fn many_versions(&mut self) {
        let (room, key) = (self.rooms[0].clone(), self.keys[0].clone());
        for _ in 0..self.dice.between(1_020, 1_025) {
            let put =
                Call::Put { room: room.clone(), key: key.clone(), expected: Expected::Any, bytes: Bytes::from([]) };
            self.emit_call(&put);
        }
    }

    fn many_uploads(&mut self) {
        let (room, key) = (self.rooms[0].clone(), self.keys[0].clone());
        for _ in 0..self.dice.between(1_020, 1_025) {
            self.emit_call(&Call::Begin { room: room.clone(), key: key.clone() });
        }
    }

    fn many_rooms(&mut self) {
        for filler in 0..self.dice.between(252, 256) {
            let name = Bytes::from([b"fill".as_slice(), &filler.to_be_bytes()].concat());
            self.emit_call(&Call::MakeRoom { name, keeps: false });
        }
    }

    // ------------------------------------------------------------ steps

    fn steps(&mut self) {
        let count = match self.shape {
            Shape::Long => self.dice.between(3, 8),
            _ => self.dice.between(10, 90),
        };
        for _ in 0..count {
            match self.step() {
                Step::Call => self.call_step(),
                Step::Time => self.time_step(),
                Step::Mend => self.emit(&Command::Mend),
                Step::MendWhole => self.mend_whole(),
                Step::Cut => self.cut_step(),
                Step::Drive => self.drive_step(),
                Step::Damaged => self.damaged_step(),
                Step::Text => self.text_step(),
                Step::Words => self.words_step(),
            }
        }
    }

    fn step(&mut self) -> Step {
        use Step::*;
        let steps = [Call, Time, Mend, MendWhole, Cut, Drive, Damaged, Text, Words];
        let weights: [u64; 9] = match (self.has_rooms(), self.shape) {
            // While only the time is built, most is times, mends, cuts, losses and replacements.
            (false, Shape::Rough) => [3, 25, 12, 5, 30, 20, 3, 1, 1],
            (false, _) => [7, 40, 10, 5, 15, 12, 6, 3, 2],
            (true, Shape::Rough) => [45, 10, 5, 3, 20, 12, 2, 1, 2],
            (true, _) => [75, 12, 1, 1, 3, 3, 3, 1, 1],
        };
        steps[self.dice.weighted(&weights)]
    }

    fn mend_whole(&mut self) {
        if self.ground.sectors <= MENDED_MOST {
            self.emit(&Command::MendWhole);
        } else {
            self.emit(&Command::Mend);
        }
    }

    fn words_step(&mut self) {
        let command = self.dice.pick(&[Command::Status, Command::Asked, Command::Help]).clone();
        self.emit(&command);
    }

    fn text_step(&mut self) {
        let texts = [
            "hello",
            "in",
            "in 0",
            "in 0g",
            "in zz",
            "IN 00",
            "Time 5",
            "time",
            "time x",
            "time -1",
            "time 5x",
            "time 18446744073709551615",
            "time 18446744073709551616",
            "time 99999999999999999999999",
            "",
            "   ",
            "mended",
        ];
        let text = *self.dice.pick(&texts);
        self.emit_text(text);
    }

    // ------------------------------------------------------------ the time

    fn time_step(&mut self) {
        let time = self.some_time();
        if self.dice.one_in(3) {
            self.emit_call(&Call::Time { time });
        } else {
            self.emit(&Command::Time(time));
        }
    }

    /// Equal, backward, a little forward, or right around the end of a hold or of a span.
    fn some_time(&mut self) -> u64 {
        let now = self.guess.time;
        match self.dice.below(20) {
            0..=1 => now,
            2..=3 => now.saturating_sub(self.dice.between(1, 10)),
            4..=9 => self.due_time(),
            10 => *self.dice.pick(&[0, 1, RANGE, RANGE + 1, 1 << 63, u64::MAX]),
            11 if self.dice.one_in(30) => RANGE - 1,
            _ => (now + self.dice.between(1, 12)).min(RANGE),
        }
    }

    /// A moment at which something ends, or the one before or after it.
    fn due_time(&mut self) -> u64 {
        let mut ends = Vec::new();
        for room in self.guess.rooms.values() {
            let spans: Vec<u64> = room.rules.iter().flat_map(|rule| [rule.lasts, rule.older_last]).collect();
            for version in room.things.values().flat_map(|thing| thing.versions.iter().take(4)) {
                ends.push(version.hold);
                ends.extend(spans.iter().map(|span| version.time + span));
            }
        }
        // What lies far ahead would end all play with time.
        ends.retain(|end| *end < self.guess.time + 10_000);
        if ends.is_empty() {
            return self.guess.time + 1;
        }
        let end = *self.dice.pick(&ends);
        (end + self.dice.below(3)).saturating_sub(1)
    }

    // ------------------------------------------------------------ cuts

    fn cut_step(&mut self) {
        let after = match self.dice.below(10) {
            0 => 0,
            1..=5 => self.dice.between(1, 20),
            6..=8 => self.dice.between(1, 60),
            _ => self.dice.between(1, 400),
        };
        self.emit_cut(after);
        // A cut in the opening that follows a cut, and then in the next.
        if after == 0 && self.dice.one_in(2) {
            let after = self.dice.between(1, 20);
            self.emit_cut(after);
        }
    }

    fn emit_cut(&mut self, after: u64) {
        let text = match self.dice.below(5) {
            0 => format!("cut {after} 0"),
            1 => format!("cut {after} 1"),
            2 => format!("cut {after} bits {}", some_bits(&mut self.dice)),
            _ => format!("cut {after} {}", self.dice.between(2, 1_000_000)),
        };
        self.emit_text(&text);
    }

    // ------------------------------------------------------------ losses and replacements

    /// One of the bad moments.
    fn drive_step(&mut self) {
        match self.dice.below(12) {
            0..=2 => self.lose(),
            3..=4 => self.replace(),
            5 => self.lose_under_rebuilding(),
            6 => {
                // Right after whole.
                self.mend_whole();
                self.lose();
            }
            7 => {
                // Between two stretches.
                self.emit(&Command::Mend);
                self.lose();
                self.emit(&Command::Mend);
                self.replace();
                self.emit(&Command::Mend);
            }
            8 => {
                // While off.
                self.emit_cut(0);
                self.lose();
                if self.dice.one_in(2) {
                    self.replace();
                }
            }
            9 => self.cut_in_mending(),
            _ => self.recover(),
        }
    }

    fn lose(&mut self) {
        let legal: Vec<usize> = (0..DRIVES).filter(|i| !self.drives.is_gone(*i) && self.drives.may_lose(*i)).collect();
        let there: Vec<usize> = (0..DRIVES).filter(|i| !self.drives.is_gone(*i)).collect();
        let choices = if legal.is_empty() || self.dice.one_in(10) { &there } else { &legal };
        if !choices.is_empty() {
            let index = *self.dice.pick(choices);
            self.emit(&Command::Lose(index));
        }
    }

    fn replace(&mut self) {
        let gone: Vec<usize> = (0..DRIVES).filter(|i| self.drives.is_gone(*i)).collect();
        let all: Vec<usize> = (0..DRIVES).collect();
        let choices = if gone.is_empty() || self.dice.one_in(10) { &all } else { &gone };
        let index = *self.dice.pick(choices);
        self.emit(&Command::Replace(index));
    }

    fn lose_under_rebuilding(&mut self) {
        let index = self.dice.below(DRIVES as u64) as usize;
        if self.drives.is_gone(index) || !self.drives.may_lose(index) {
            return self.recover();
        }
        for command in [Command::Lose(index), Command::Replace(index), Command::Mend, Command::Lose(index)] {
            self.emit(&command);
        }
        if self.dice.one_in(2) {
            self.emit(&Command::Replace(index));
        }
    }

    fn cut_in_mending(&mut self) {
        self.lose();
        self.replace();
        let after = self.dice.between(1, 60);
        self.emit_cut(after);
        self.mend_whole();
        self.lose();
    }

    fn recover(&mut self) {
        for index in 0..DRIVES {
            if self.drives.is_gone(index) {
                self.emit(&Command::Replace(index));
            }
        }
        self.mend_whole();
    }

    // ------------------------------------------------------------ damaged lines

    fn damaged_step(&mut self) {
        let call = self.some_call();
        let mut line = lines::write_call(self.tag(), &call);
        let last = line.len() as u64 - 1;
        match self.dice.below(8) {
            // At any byte, or at one of the first, where the length, the tag, the kind and the first name are.
            0..=1 => {
                let at = self.dice.below(last + 1) as usize;
                line[at] = self.dice.roll() as u8;
            }
            2..=3 => {
                let at = self.dice.below(14.min(last + 1)) as usize;
                line[at] = line[at].wrapping_add(*self.dice.pick(&[1, 255, 128]));
            }
            4 => line[8] = *self.dice.pick(&[0, 15, 16, 255]),
            5 => line.truncate(self.dice.below(last + 1) as usize),
            6 => line.push(self.dice.roll() as u8),
            _ => {
                // Shorter or longer, with the length that fits.
                if self.dice.one_in(2) && line.len() > 9 {
                    line.pop();
                } else {
                    line.push(0);
                }
                let length = (line.len() - 4) as u32;
                line[..4].copy_from_slice(&length.to_be_bytes());
            }
        }
        self.emit_line(&line);
    }

    // ------------------------------------------------------------ calls

    fn call_step(&mut self) {
        let call = if self.dice.one_in(2) { self.aimed_call() } else { None };
        let call = call.unwrap_or_else(|| self.some_call());
        self.emit_call(&call);
    }

    /// A call right at the bound that the script is about.
    fn aimed_call(&mut self) -> Option<Call> {
        let (room, key) = (self.rooms[0].clone(), self.keys[0].clone());
        let filler = Bytes::from([b"fill".as_slice(), &self.dice.between(250, 260).to_be_bytes()].concat());
        let latest_or_older = *self.dice.pick(&[0, 0, 0, 0, 1, 2, 3]);
        let bytes = self.bytes();
        let call = match (self.shape, self.dice.below(4)) {
            (Shape::ManyVersions, 0..=1) => Call::Put { room, key, expected: Expected::Any, bytes },
            (Shape::ManyVersions, _) => Call::Remove { room, key, number: latest_or_older },
            (Shape::ManyUploads, 0..=2) => Call::Begin { room, key },
            (Shape::ManyUploads, _) => Call::Abort { room, upload: self.upload().1 },
            (Shape::ManyRooms, 0..=2) | (Shape::NearlyFull, 0) => Call::MakeRoom { name: filler, keeps: true },
            (Shape::ManyRooms, _) => Call::DropRoom { name: filler },
            (Shape::NearlyFull, 1..=2) => Call::Remove { room, key: Bytes::from(*b"fillx\0"), number: 0 },
            _ => return None,
        };
        Some(call)
    }

    fn some_call(&mut self) -> Call {
        //                         1  2   3   4  5   6  7  8  9 10 11 12 13 14
        let weights: [u64; 14] = match self.ground.built {
            Built::Nothing | Built::Time => [1, 1, 1, 1, 1, 1, 1, 1, 1, 1, 1, 1, 1, 2],
            Built::Core => [4, 3, 30, 15, 15, 10, 1, 1, 1, 1, 1, 1, 1, 3],
            Built::All => [3, 2, 24, 12, 14, 6, 10, 5, 9, 6, 2, 9, 6, 4],
        };
        match self.dice.weighted(&weights) + 1 {
            1 => Call::MakeRoom { name: self.room(), keeps: self.dice.one_in(2) },
            2 => Call::DropRoom { name: self.room() },
            3 => self.some_put(),
            4 => self.some_get(),
            5 => self.some_remove(),
            6 => self.some_look(),
            7 => Call::Versions { room: self.room(), key: self.key() },
            8 => Call::Begin { room: self.room(), key: self.key() },
            9 => self.some_part(),
            10 => self.some_complete(),
            11 => {
                let (room, upload) = self.upload();
                Call::Abort { room, upload }
            }
            12 => self.some_hold(),
            13 => self.some_rules(),
            _ => Call::Time { time: self.some_time() },
        }
    }

    fn room(&mut self) -> Bytes {
        if self.dice.one_in(25) {
            return self.odd_name();
        }
        self.dice.pick(&self.rooms).clone()
    }

    fn key(&mut self) -> Bytes {
        if self.dice.one_in(25) {
            return self.odd_name();
        }
        self.dice.pick(&self.keys).clone()
    }

    /// Empty, the longest, or one that isn't among the others.
    fn odd_name(&mut self) -> Bytes {
        let long = vec![b'k'; self.dice.between(253, 255) as usize];
        self.dice.pick(&[Bytes::from([]), long.into(), Bytes::from(*b"other")]).clone()
    }

    /// A length that may hurt; the longest ones only where a script is about them.
    fn bytes(&mut self) -> Bytes {
        let length = match (self.shape, self.dice.below(12)) {
            (Shape::Long, 0..=5) => BYTES_MOST + 1 - self.dice.below(3),
            (_, 0) => *self.dice.pick(&[16_383, 16_384, 16_385, 32_768, 32_769]),
            (_, 1) => *self.dice.pick(&[510, 511, 512, 513, 1_024]),
            (_, 2..=3) => 0,
            (_, 4) => 1,
            _ => self.dice.between(1, 12),
        };
        // Not all the same, so that what comes from the wrong place shows.
        let first = self.dice.roll() as u8;
        (0..length).map(|i| first.wrapping_add((i ^ (i >> 8)) as u8)).collect()
    }

    /// The numbers of a key's versions, the latest first.
    fn numbers(&self, room: &[u8], key: &[u8]) -> Vec<u64> {
        let versions = self.guess.rooms.get(room).map_or(&[][..], |room| room.versions(key));
        versions.iter().map(|version| version.number).collect()
    }

    /// Mostly one that is there, the latest most often; sometimes one beside it, 0, or one that can't be.
    fn number(&mut self, room: &[u8], key: &[u8]) -> u64 {
        let numbers = self.numbers(room, key);
        let near = match numbers.first() {
            Some(latest) if self.dice.one_in(2) => *latest,
            Some(_) => *self.dice.pick(&numbers),
            None => self.dice.between(0, self.guess.next),
        };
        match self.dice.below(20) {
            0 => near + 1,
            1 => near.saturating_sub(1),
            2 => *self.dice.pick(&[0, self.guess.next, RANGE, u64::MAX]),
            _ => near,
        }
    }

    fn number_or_latest(&mut self, room: &[u8], key: &[u8]) -> u64 {
        let latest_in = if self.ground.built == Built::All { 2 } else { 1 };
        if self.dice.one_in(latest_in) && !self.dice.one_in(12) {
            return 0;
        }
        self.number(room, key)
    }

    /// Right as often as wrong.
    fn expected(&mut self, room: &[u8], key: &[u8]) -> Expected {
        match self.dice.below(6) {
            0 => Expected::Absent,
            1..=2 => Expected::Number(self.number(room, key)),
            _ => Expected::Any,
        }
    }

    fn some_put(&mut self) -> Call {
        let (room, key) = (self.room(), self.key());
        let expected = self.expected(&room, &key);
        Call::Put { room, key, expected, bytes: self.bytes() }
    }

    fn some_get(&mut self) -> Call {
        let (room, key) = (self.room(), self.key());
        let number = self.number_or_latest(&room, &key);
        let from = *self.dice.pick(&[0, 0, 0, 0, 1, 511, 512, 16_383, 16_384, 1 << 62, u64::MAX]);
        let most = *self.dice.pick(&[
            100,
            100,
            20_000,
            20_000,
            0,
            1,
            512,
            16_384,
            BYTES_MOST,
            BYTES_MOST + 1,
            u32::MAX as u64,
        ]);
        Call::Get { room, key, number, from, most }
    }

    fn some_remove(&mut self) -> Call {
        let (room, key) = (self.room(), self.key());
        let number = self.number_or_latest(&room, &key);
        Call::Remove { room, key, number }
    }

    fn some_look(&mut self) -> Call {
        let room = self.room();
        let beginning = if self.dice.one_in(2) { Bytes::from([]) } else { self.key() };
        let after = if self.dice.one_in(2) { Bytes::from([]) } else { self.key() };
        let most = *self.dice.pick(&[1_000, 1_000, 1_000, 10, 3, 2, 1, 0, 999, 1_001, 65_535]);
        Call::Look { room, beginning, after, most }
    }

    /// A room and an upload, mostly one that is there.
    fn upload(&mut self) -> (Bytes, u64) {
        let room = self.room();
        let numbers: Vec<u64> =
            self.guess.rooms.get(&room).map_or(vec![], |room| room.uploads.keys().copied().collect());
        let number = match numbers.last() {
            Some(_) if self.dice.one_in(15) => self.dice.between(0, self.guess.next),
            Some(last) if self.dice.one_in(2) => *last,
            Some(_) => *self.dice.pick(&numbers),
            None => self.dice.between(0, self.guess.next),
        };
        (room, number)
    }

    fn some_part(&mut self) -> Call {
        let (room, upload) = self.upload();
        let have =
            self.guess.rooms.get(&room).and_then(|room| room.uploads.get(&upload)).map_or(0, |u| u.parts.len() as u64);
        let place = match self.dice.below(10) {
            0 => *self.dice.pick(&[0, 10_000, 10_001, 65_535]),
            1..=3 => self.dice.between(1, 4),
            _ => have + 1,
        };
        Call::Part { room, upload, place, bytes: self.bytes() }
    }

    fn some_complete(&mut self) -> Call {
        let (room, upload) = self.upload();
        let key =
            self.guess.rooms.get(&room).and_then(|room| room.uploads.get(&upload)).map(|upload| upload.key.clone());
        let key = key.unwrap_or_else(|| Bytes::from([]));
        Call::Complete { expected: self.expected(&room, &key), room, upload }
    }

    fn some_hold(&mut self) -> Call {
        let (room, key) = (self.room(), self.key());
        let number = self.number(&room, &key);
        let now = self.guess.time;
        let until = match self.dice.below(20) {
            0 => *self.dice.pick(&[RANGE - 1, RANGE, u64::MAX]),
            1..=3 => now.saturating_sub(self.dice.below(3)),
            _ => now + self.dice.between(1, 20),
        };
        Call::Hold { room, key, number, until }
    }

    /// Few rules, which overlap.
    fn some_rules(&mut self) -> Call {
        let room = self.room();
        let count = match self.dice.below(30) {
            0 => 64,
            1 => 65,
            2 => 255,
            _ => self.dice.below(4),
        };
        Call::Rules { room, rules: (0..count).map(|_| self.some_rule()).collect() }
    }

    fn some_rule(&mut self) -> Rule {
        let beginning: Bytes = match self.dice.below(4) {
            0 => Bytes::from([]),
            1 => self.key(),
            _ => {
                let key = self.dice.pick(&self.keys).clone();
                key[..self.dice.below(key.len() as u64 + 1) as usize].into()
            }
        };
        Rule { beginning, lasts: self.span(), older_last: self.span() }
    }

    fn span(&mut self) -> u64 {
        match self.dice.below(60) {
            0 => RANGE,
            1 => RANGE - 1,
            2..=20 => 0,
            _ => self.dice.between(1, 12),
        }
    }

    // ------------------------------------------------------------ the end

    /// Everything that may be there is read.
    fn read_back(&mut self) {
        let text = self.lines.concat();
        if text.len() > 4_000_000 {
            return;
        }
        for line in read_back(self.ground.built, &text) {
            self.lines.push(format!("{line}\n"));
        }
    }
}

/// Digits 0 and 1 only, so that it is the same choice of sectors whether B is read as decimal or as binary digits.
fn some_bits(dice: &mut Dice) -> String {
    (0..dice.between(1, 6)).map(|_| if dice.one_in(2) { '1' } else { '0' }).collect()
}

fn shape(built: Built, dice: &mut Dice) -> Shape {
    let rooms = matches!(built, Built::Core | Built::All);
    match dice.below(120) {
        0..=11 if rooms => Shape::NearlyFull,
        12 if rooms => Shape::ManyVersions,
        13 if built == Built::All => Shape::ManyUploads,
        14 if rooms => Shape::ManyRooms,
        15 if rooms => Shape::Long,
        0..=59 => Shape::Rough,
        _ => Shape::Plain,
    }
}

// ---------------------------------------------------------------- reading everything back

/// The most gets by number in a reading back.
const GETS_MOST: usize = 60;

/// Lines that read everything which a script can have left, whether or not some of its calls were done.
pub fn read_back(built: Built, script_text: &str) -> Vec<String> {
    // First whether a time was told, which a line that is no call shows; then a time, so that the rest can be read.
    let mut commands = vec![Command::In(Vec::new()), Command::Time(1)];
    let named = Named::of(script_text);
    for room in &named.rooms {
        let none = Bytes::from([]);
        commands.push(Command::call(&Call::Look {
            room: room.clone(),
            beginning: none.clone(),
            after: none,
            most: 1_000,
        }));
        for key in &named.keys {
            commands.extend(read_key(built, room, key));
        }
    }
    if built == Built::All {
        commands.extend(named.get_by_number().iter().map(Command::call));
        commands.extend(named.complete_uploads().iter().map(Command::call));
    }
    commands.iter().map(Command::text).collect()
}

fn read_key(built: Built, room: &Bytes, key: &Bytes) -> Vec<Command> {
    let get = Call::Get { room: room.clone(), key: key.clone(), number: 0, from: 0, most: 40_000 };
    let versions = Call::Versions { room: room.clone(), key: key.clone() };
    match built {
        Built::Nothing | Built::Time => vec![],
        Built::Core => vec![Command::call(&get)],
        Built::All => vec![Command::call(&versions), Command::call(&get)],
    }
}

/// The rooms and keys that a script names, and how many numbers it can have been given.
#[derive(Default)]
struct Named {
    rooms: Vec<Bytes>,
    keys: Vec<Bytes>,
    begins: u64,
    numbers: u64,
}

impl Named {
    fn of(script_text: &str) -> Named {
        let mut named = Named::default();
        for placed in script::read(script_text) {
            let line = placed.command.line().map(|bytes| lines::read_line(&bytes, u64::MAX));
            if let Some(call) = line.and_then(|line| line.call) {
                named.call(&call);
            }
        }
        // More rooms or keys than these only come from filling up.
        named.rooms.truncate(6);
        named.keys.truncate(8);
        named
    }

    fn call(&mut self, call: &Call) {
        match call {
            Call::MakeRoom { name, .. } => add(&mut self.rooms, name),
            Call::Put { key, .. } => {
                add(&mut self.keys, key);
                self.numbers += 1;
            }
            Call::Begin { key, .. } => {
                add(&mut self.keys, key);
                self.numbers += 1;
                self.begins += 1;
            }
            Call::Remove { number: 0, .. } | Call::Complete { .. } => self.numbers += 1,
            _ => {}
        }
    }

    fn get_by_number(&self) -> Vec<Call> {
        let mut gets = Vec::new();
        for room in &self.rooms {
            for key in &self.keys {
                for number in 1..=self.numbers.min(GETS_MOST as u64) {
                    gets.push(Call::Get { room: room.clone(), key: key.clone(), number, from: 0, most: 40_000 });
                }
            }
        }
        gets.truncate(GETS_MOST);
        gets
    }

    /// Parts can be read only by completing; what comes of it is then read.
    fn complete_uploads(&self) -> Vec<Call> {
        let mut calls = Vec::new();
        for upload in 1..=self.numbers.min(if self.begins == 0 { 0 } else { 20 }) {
            for room in &self.rooms {
                calls.push(Call::Complete { room: room.clone(), upload, expected: Expected::Any });
            }
        }
        for room in &self.rooms {
            for key in &self.keys {
                calls.push(Call::Get { room: room.clone(), key: key.clone(), number: 0, from: 0, most: 40_000 });
            }
        }
        calls
    }
}

fn add(names: &mut Vec<Bytes>, name: &Bytes) {
    if !name.is_empty() && !names.contains(name) {
        names.push(name.clone());
    }
}
