//! Weight and full: section 6 of docs/MEANING.md.

use crate::meaning::{House, Room, Thing, Upload, Version};

const ROOM: u64 = 32_768;
const THING: u64 = 1_024;
const VERSION: u64 = 1_024;
const UPLOAD: u64 = 1_024;
const PART: u64 = 1_024;
const BLOCK: u64 = 16_384;

/// The weight of what there is.
pub fn of_house(house: &House) -> u64 {
    house.rooms.values().map(|room| of_room(room)).sum()
}

fn of_room(room: &Room) -> u64 {
    let things: u64 = room.things.values().map(|thing| of_thing(thing)).sum();
    let uploads: u64 = room.uploads.values().map(|upload| of_upload(upload)).sum();
    ROOM + things + uploads
}

fn of_thing(thing: &Thing) -> u64 {
    let versions = &thing.versions;
    THING + (0..versions.len()).map(|i| of_version(&versions[i], versions.get(i + 1))).sum::<u64>()
}

/// A version with number 0 that has a version with another number right under it weighs nothing.
fn of_version(version: &Version, under: Option<&Version>) -> u64 {
    if version.number == 0 && under.is_some_and(|under| under.number != 0) {
        return 0;
    }
    VERSION + of_bytes(version.length())
}

fn of_upload(upload: &Upload) -> u64 {
    UPLOAD + upload.parts.values().map(|bytes| PART + of_bytes(bytes.len() as u64)).sum::<u64>()
}

/// 16,384 for each begun 16,384 bytes.
fn of_bytes(length: u64) -> u64 {
    length.div_ceil(BLOCK) * BLOCK
}

/// Whether the call that leads from before to after is answered by full: our house answers so exactly when it may.
pub fn is_full(sectors: u64, before: &House, after: &House) -> bool {
    let weight_after = of_house(after);
    weight_after > of_house(before) && 2_048 * sectors < 8_388_608 + 2 * weight_after
}
