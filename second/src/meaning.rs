//! What there is, and the fourteen calls: sections 1 to 4 and 7 of docs/MEANING.md.
//!
//! A call takes the house as it is and gives the house as it would be, or a refusal.
//! The house before is never touched, so a refusal changes nothing by the way this is written.

use std::collections::BTreeMap;
use std::rc::Rc;

use crate::rules;
use crate::weight;

/// Numbers, times, spans and untils are in range below this.
pub const RANGE: u64 = 1 << 62;
/// The most bytes of a name of a room, a key, or the beginning of a rule.
pub const NAME_MOST: usize = 255;
/// The most bytes of a put or a part, and the highest most of a get.
pub const BYTES_MOST: u64 = 5_242_880;
pub const ROOMS_MOST: usize = 256;
pub const VERSIONS_MOST: usize = 1_024;
pub const UPLOADS_MOST: usize = 1_024;
pub const RULES_MOST: usize = 64;
pub const PLACE_MOST: u64 = 10_000;
pub const LOOK_MOST: u64 = 1_000;

/// Bytes that are shared, never copied, between the house before and the house after.
pub type Bytes = Rc<[u8]>;

// ---------------------------------------------------------------- section 1: what there is

#[derive(Clone, Debug, PartialEq, Eq)]
pub struct House {
    /// 0 until a time was told.
    pub time: u64,
    pub next: u64,
    pub rooms: BTreeMap<Bytes, Rc<Room>>,
}

#[derive(Clone, Debug, PartialEq, Eq)]
pub struct Room {
    pub keeps: bool,
    pub rules: Vec<Rule>,
    /// By key. The order of byte slices is that of section 2.
    pub things: BTreeMap<Bytes, Rc<Thing>>,
    /// By number. The order matters to nothing.
    pub uploads: BTreeMap<u64, Rc<Upload>>,
}

/// The versions of a key, the latest first. Never none: a thing without a version doesn't exist.
#[derive(Clone, Debug, PartialEq, Eq)]
pub struct Thing {
    pub versions: Vec<Version>,
}

#[derive(Clone, Debug, PartialEq, Eq)]
pub struct Version {
    /// 0 for a mark that a rule put there.
    pub number: u64,
    pub body: Body,
    pub time: u64,
    /// Until when it may not go; 0 for no hold.
    pub hold: u64,
}

#[derive(Clone, Debug, PartialEq, Eq)]
pub enum Body {
    Bytes(Bytes),
    Mark,
}

#[derive(Clone, Debug, PartialEq, Eq)]
pub struct Upload {
    pub key: Bytes,
    /// By place.
    pub parts: BTreeMap<u64, Bytes>,
}

#[derive(Clone, Debug, PartialEq, Eq)]
pub struct Rule {
    pub beginning: Bytes,
    /// For the latest version; 0 for ever.
    pub lasts: u64,
    /// For older versions; 0 for ever.
    pub older_last: u64,
}

// ---------------------------------------------------------------- calls and answers

#[derive(Clone, Debug, PartialEq, Eq)]
pub enum Expected {
    Any,
    Absent,
    Number(u64),
}

#[derive(Clone, Debug, PartialEq, Eq)]
pub enum Call {
    MakeRoom { name: Bytes, keeps: bool },
    DropRoom { name: Bytes },
    Put { room: Bytes, key: Bytes, expected: Expected, bytes: Bytes },
    Get { room: Bytes, key: Bytes, number: u64, from: u64, most: u64 },
    Remove { room: Bytes, key: Bytes, number: u64 },
    Look { room: Bytes, beginning: Bytes, after: Bytes, most: u64 },
    Versions { room: Bytes, key: Bytes },
    Begin { room: Bytes, key: Bytes },
    Part { room: Bytes, upload: u64, place: u64, bytes: Bytes },
    Complete { room: Bytes, upload: u64, expected: Expected },
    Abort { room: Bytes, upload: u64 },
    Hold { room: Bytes, key: Bytes, number: u64, until: u64 },
    Rules { room: Bytes, rules: Vec<Rule> },
    Time { time: u64 },
}

impl Call {
    /// The kind of the call: its number in section 4.
    pub fn kind(&self) -> u8 {
        match self {
            Call::MakeRoom { .. } => 1,
            Call::DropRoom { .. } => 2,
            Call::Put { .. } => 3,
            Call::Get { .. } => 4,
            Call::Remove { .. } => 5,
            Call::Look { .. } => 6,
            Call::Versions { .. } => 7,
            Call::Begin { .. } => 8,
            Call::Part { .. } => 9,
            Call::Complete { .. } => 10,
            Call::Abort { .. } => 11,
            Call::Hold { .. } => 12,
            Call::Rules { .. } => 13,
            Call::Time { .. } => 14,
        }
    }
}

/// The refusals of section 3. There is no 9 or 11.
#[derive(Clone, Copy, Debug, PartialEq, Eq)]
pub enum Refusal {
    OutOfRange = 1,
    NotThere = 2,
    ThereAlready = 3,
    NotAsExpected = 4,
    NotEmpty = 5,
    Held = 6,
    NoPartsOrGap = 7,
    TooMany = 8,
    NoTimeTold = 10,
    NotBuilt = 12,
}

#[derive(Clone, Debug, PartialEq, Eq)]
pub struct Entry {
    pub key: Bytes,
    pub number: u64,
    pub length: u64,
}

#[derive(Clone, Debug, PartialEq, Eq)]
pub enum Answer {
    TurnedAway(Refusal),
    Yes,
    Number(u64),
    Got { number: u64, length: u64, bytes: Bytes },
    List(Vec<Entry>),
    Full,
}

/// The house after the call and its answer, or the refusal.
type Outcome = Result<(House, Answer), Refusal>;

/// Turns away by the refusal if the test fails. The tests of a call stand one below the other, in their order.
fn turn_away_if(fails: bool, refusal: Refusal) -> Result<(), Refusal> {
    if fails {
        Err(refusal)
    } else {
        Ok(())
    }
}

// ---------------------------------------------------------------- section 2: words used throughout

impl Version {
    pub fn has_bytes(&self) -> bool {
        self.body != Body::Mark
    }

    /// A mark has no bytes.
    pub fn length(&self) -> u64 {
        match &self.body {
            Body::Bytes(bytes) => bytes.len() as u64,
            Body::Mark => 0,
        }
    }

    /// At the time of its hold it isn't held any more.
    pub fn is_held(&self, now: u64) -> bool {
        now < self.hold
    }
}

impl Room {
    fn new(keeps: bool) -> Room {
        Room { keeps, rules: Vec::new(), things: BTreeMap::new(), uploads: BTreeMap::new() }
    }

    /// The versions of a key, the latest first; none if there is no such thing.
    pub fn versions(&self, key: &[u8]) -> &[Version] {
        match self.things.get(key) {
            Some(thing) => &thing.versions,
            None => &[],
        }
    }

    /// The latest version, if it has bytes.
    pub fn current(&self, key: &[u8]) -> Option<&Version> {
        self.versions(key).first().filter(|latest| latest.has_bytes())
    }

    /// The version of that number under that key. Number 0 is no version's own: a rule's mark can't be named.
    fn numbered(&self, key: &[u8], number: u64) -> Option<&Version> {
        if number == 0 {
            return None;
        }
        self.versions(key).iter().find(|version| version.number == number)
    }

    fn meets(&self, key: &[u8], expected: &Expected) -> bool {
        match expected {
            Expected::Any => true,
            Expected::Absent => self.current(key).is_none(),
            Expected::Number(n) => self.current(key).is_some_and(|current| current.number == *n),
        }
    }

    /// Puts the versions of a key in the place of those it had. When the last goes, the thing goes.
    fn set_versions(&mut self, key: &Bytes, versions: Vec<Version>) {
        if versions.is_empty() {
            self.things.remove(key);
        } else {
            self.things.insert(key.clone(), Rc::new(Thing { versions }));
        }
    }

    /// "To lay a version on top of a key".
    fn lay_on_top(&mut self, key: &Bytes, version: Version, now: u64) {
        let stay = self.versions(key).iter().filter(|v| self.keeps || v.is_held(now)).cloned();
        let versions = std::iter::once(version).chain(stay).collect();
        self.set_versions(key, versions);
    }
}

fn is_name(name: &[u8]) -> bool {
    (1..=NAME_MOST).contains(&name.len())
}

impl House {
    /// The house at the very beginning.
    pub fn blank() -> House {
        House { time: 0, next: 1, rooms: BTreeMap::new() }
    }

    fn room(&self, name: &[u8]) -> Result<&Room, Refusal> {
        self.rooms.get(name).map(|room| room.as_ref()).ok_or(Refusal::NotThere)
    }

    /// "To give a number".
    fn give_number(&mut self) -> u64 {
        let number = self.next;
        self.next += 1;
        number
    }

    /// The house with that room instead of the one it had.
    fn with_room(mut self, name: &Bytes, room: Room) -> House {
        self.rooms.insert(name.clone(), Rc::new(room));
        self
    }
}

// ---------------------------------------------------------------- section 3: answers and refusals

impl House {
    /// The house after the call, and the answer. Full comes after all refusals.
    pub fn call(&self, sectors: u64, call: &Call) -> (House, Answer) {
        match self.attempt(call) {
            Err(refusal) => (self.clone(), Answer::TurnedAway(refusal)),
            Ok((after, _)) if weight::is_full(sectors, self, &after) => (self.clone(), Answer::Full),
            Ok((after, answer)) => (after, answer),
        }
    }

    fn attempt(&self, call: &Call) -> Outcome {
        self.before(call.kind())?;
        match call {
            Call::MakeRoom { name, keeps } => self.make_room(name, *keeps),
            Call::DropRoom { name } => self.drop_room(name),
            Call::Put { room, key, expected, bytes } => self.put(room, key, expected, bytes),
            Call::Get { room, key, number, from, most } => self.get(room, key, *number, *from, *most),
            Call::Remove { room, key, number: 0 } => self.remove_latest(room, key),
            Call::Remove { room, key, number } => self.remove_number(room, key, *number),
            Call::Look { room, beginning, after, most } => self.look(room, beginning, after, *most),
            Call::Versions { room, key } => self.list_versions(room, key),
            Call::Begin { room, key } => self.begin(room, key),
            Call::Part { room, upload, place, bytes } => self.part(room, *upload, *place, bytes),
            Call::Complete { room, upload, expected } => self.complete(room, *upload, expected),
            Call::Abort { room, upload } => self.abort(room, *upload),
            Call::Hold { room, key, number, until } => self.hold(room, key, *number, *until),
            Call::Rules { room, rules } => self.set_rules(room, rules),
            Call::Time { time } => self.tell_time(*time),
        }
    }

    /// The two tests before each call but telling the time. Lines that are no call get them too (section 8).
    pub fn before(&self, kind: u8) -> Result<(), Refusal> {
        if kind == 14 {
            return Ok(());
        }
        turn_away_if(self.time == 0, Refusal::NoTimeTold)?;
        turn_away_if(self.next >= RANGE, Refusal::TooMany)
    }
}

// ---------------------------------------------------------------- section 4: the fourteen calls

impl House {
    /// 1 Make a room.
    fn make_room(&self, name: &Bytes, keeps: bool) -> Outcome {
        turn_away_if(!is_name(name), Refusal::OutOfRange)?;
        turn_away_if(self.rooms.contains_key(name), Refusal::ThereAlready)?;
        turn_away_if(self.rooms.len() >= ROOMS_MOST, Refusal::TooMany)?;
        Ok((self.clone().with_room(name, Room::new(keeps)), Answer::Yes))
    }

    /// 2 Drop a room. Rules don't count.
    fn drop_room(&self, name: &Bytes) -> Outcome {
        let room = self.room(name)?;
        turn_away_if(!room.things.is_empty() || !room.uploads.is_empty(), Refusal::NotEmpty)?;
        let mut after = self.clone();
        after.rooms.remove(name);
        Ok((after, Answer::Yes))
    }

    /// 3 Put.
    fn put(&self, name: &Bytes, key: &Bytes, expected: &Expected, bytes: &Bytes) -> Outcome {
        turn_away_if(!is_name(key) || bytes.len() as u64 > BYTES_MOST, Refusal::OutOfRange)?;
        let room = self.room(name)?;
        turn_away_if(!room.meets(key, expected), Refusal::NotAsExpected)?;
        turn_away_if(room.versions(key).len() >= VERSIONS_MOST, Refusal::TooMany)?;
        Ok(self.lay(name, room.clone(), key, Body::Bytes(bytes.clone())))
    }

    /// What put, remove with number 0 and complete have in common: a number is given,
    /// and a version with it, of the time of the house and without a hold, is laid on top.
    fn lay(&self, name: &Bytes, mut room: Room, key: &Bytes, body: Body) -> (House, Answer) {
        let mut after = self.clone();
        let number = after.give_number();
        room.lay_on_top(key, Version { number, body, time: self.time, hold: 0 }, self.time);
        (after.with_room(name, room), Answer::Number(number))
    }

    /// 4 Get.
    fn get(&self, name: &Bytes, key: &Bytes, number: u64, from: u64, most: u64) -> Outcome {
        turn_away_if(most > BYTES_MOST, Refusal::OutOfRange)?;
        let room = self.room(name)?;
        let version = match number {
            0 => room.current(key),
            _ => room.numbered(key, number),
        };
        let version = version.ok_or(Refusal::NotThere)?;
        // A mark isn't there for get.
        let Body::Bytes(bytes) = &version.body else { return Err(Refusal::NotThere) };
        let length = bytes.len() as u64;
        let start = from.min(length);
        let end = start + most.min(length - start);
        let asked: Bytes = bytes[start as usize..end as usize].into();
        Ok((self.clone(), Answer::Got { number: version.number, length, bytes: asked }))
    }

    /// 5 Remove, number 0. Never refused because of a hold: what is held stays.
    fn remove_latest(&self, name: &Bytes, key: &Bytes) -> Outcome {
        let room = self.room(name)?;
        turn_away_if(room.current(key).is_none(), Refusal::NotThere)?;
        let versions = room.versions(key);
        turn_away_if(versions.len() >= VERSIONS_MOST, Refusal::TooMany)?;
        if room.keeps || versions.iter().any(|version| version.is_held(self.time)) {
            return Ok(self.lay(name, room.clone(), key, Body::Mark));
        }
        let mut room = room.clone();
        room.set_versions(key, Vec::new());
        Ok((self.clone().with_room(name, room), Answer::Yes))
    }

    /// 5 Remove, any other number.
    fn remove_number(&self, name: &Bytes, key: &Bytes, number: u64) -> Outcome {
        let room = self.room(name)?;
        let version = room.numbered(key, number).ok_or(Refusal::NotThere)?;
        turn_away_if(version.is_held(self.time), Refusal::Held)?;
        let others = room.versions(key).iter().filter(|other| other.number != number).cloned().collect();
        let mut room = room.clone();
        room.set_versions(key, others);
        Ok((self.clone().with_room(name, room), Answer::Yes))
    }

    /// 6 Look.
    fn look(&self, name: &Bytes, beginning: &Bytes, after: &Bytes, most: u64) -> Outcome {
        turn_away_if(most > LOOK_MOST, Refusal::OutOfRange)?;
        let room = self.room(name)?;
        let fits = |key: &&Bytes| key.starts_with(beginning) && key.as_ref() > after.as_ref();
        let entries = room.things.keys().filter(fits).filter_map(|key| {
            let current = room.current(key)?;
            Some(Entry { key: key.clone(), number: current.number, length: current.length() })
        });
        // Only entries that are shown count toward most.
        Ok((self.clone(), Answer::List(entries.take(most as usize).collect())))
    }

    /// 7 Versions.
    fn list_versions(&self, name: &Bytes, key: &Bytes) -> Outcome {
        let versions = self.room(name)?.versions(key);
        let entry = |v: &Version| Entry { key: key.clone(), number: v.number, length: v.length() };
        Ok((self.clone(), Answer::List(versions.iter().map(entry).collect())))
    }

    /// 8 Begin.
    fn begin(&self, name: &Bytes, key: &Bytes) -> Outcome {
        turn_away_if(!is_name(key), Refusal::OutOfRange)?;
        let room = self.room(name)?;
        turn_away_if(room.uploads.len() >= UPLOADS_MOST, Refusal::TooMany)?;
        let mut after = self.clone();
        let number = after.give_number();
        let mut room = room.clone();
        room.uploads.insert(number, Rc::new(Upload { key: key.clone(), parts: BTreeMap::new() }));
        Ok((after.with_room(name, room), Answer::Number(number)))
    }

    /// 9 Part.
    fn part(&self, name: &Bytes, upload: u64, place: u64, bytes: &Bytes) -> Outcome {
        let in_range = (1..=PLACE_MOST).contains(&place) && bytes.len() as u64 <= BYTES_MOST;
        turn_away_if(!in_range, Refusal::OutOfRange)?;
        let room = self.room(name)?;
        let mut changed = room.uploads.get(&upload).ok_or(Refusal::NotThere)?.as_ref().clone();
        changed.parts.insert(place, bytes.clone());
        let mut room = room.clone();
        room.uploads.insert(upload, Rc::new(changed));
        Ok((self.clone().with_room(name, room), Answer::Yes))
    }

    /// 10 Complete.
    fn complete(&self, name: &Bytes, number: u64, expected: &Expected) -> Outcome {
        let room = self.room(name)?;
        let upload = room.uploads.get(&number).ok_or(Refusal::NotThere)?;
        turn_away_if(!upload.has_all_parts(), Refusal::NoPartsOrGap)?;
        turn_away_if(!room.meets(&upload.key, expected), Refusal::NotAsExpected)?;
        turn_away_if(room.versions(&upload.key).len() >= VERSIONS_MOST, Refusal::TooMany)?;
        let mut room_after = room.clone();
        room_after.uploads.remove(&number);
        Ok(self.lay(name, room_after, &upload.key, Body::Bytes(upload.joined())))
    }

    /// 11 Abort.
    fn abort(&self, name: &Bytes, number: u64) -> Outcome {
        let mut room = self.room(name)?.clone();
        turn_away_if(room.uploads.remove(&number).is_none(), Refusal::NotThere)?;
        Ok((self.clone().with_room(name, room), Answer::Yes))
    }

    /// 12 Hold. Number 0 doesn't mean the latest here.
    fn hold(&self, name: &Bytes, key: &Bytes, number: u64, until: u64) -> Outcome {
        turn_away_if(until >= RANGE, Refusal::OutOfRange)?;
        let room = self.room(name)?;
        let version = room.numbered(key, number).ok_or(Refusal::NotThere)?;
        turn_away_if(!version.has_bytes(), Refusal::NotThere)?;
        let mut versions = room.versions(key).to_vec();
        for held in versions.iter_mut().filter(|v| v.number == number) {
            held.hold = held.hold.max(until);
        }
        let mut room = room.clone();
        room.set_versions(key, versions);
        Ok((self.clone().with_room(name, room), Answer::Yes))
    }

    /// 13 Rules. They act only when a time is told.
    fn set_rules(&self, name: &Bytes, rules: &[Rule]) -> Outcome {
        let in_range = rules.len() <= RULES_MOST && rules.iter().all(Rule::is_in_range);
        turn_away_if(!in_range, Refusal::OutOfRange)?;
        let mut room = self.room(name)?.clone();
        room.rules = rules.to_vec();
        Ok((self.clone().with_room(name, room), Answer::Yes))
    }

    /// 14 Time.
    fn tell_time(&self, time: u64) -> Outcome {
        turn_away_if(time == 0 || time >= RANGE, Refusal::OutOfRange)?;
        let mut after = self.clone();
        after.time = self.time.max(time);
        let now = after.time;
        for room in after.rooms.values_mut() {
            if !room.rules.is_empty() {
                rules::act(Rc::make_mut(room), now);
            }
        }
        Ok((after, Answer::Yes))
    }
}

impl Upload {
    /// Places are exactly 1, 2, 3 and so on, and there is at least one.
    fn has_all_parts(&self) -> bool {
        !self.parts.is_empty() && self.parts.keys().copied().eq(1..=self.parts.len() as u64)
    }

    /// The bytes of all parts, in the order of their places.
    fn joined(&self) -> Bytes {
        self.parts.values().flat_map(|bytes| bytes.iter().copied()).collect()
    }
}

impl Rule {
    fn is_in_range(&self) -> bool {
        self.beginning.len() <= NAME_MOST && self.lasts < RANGE && self.older_last < RANGE
    }
}
