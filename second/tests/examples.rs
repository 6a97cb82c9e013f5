//! The worked examples of docs/MEANING.md: section 12, and A to F of section 5.

#[macro_use]
mod common;

stories! {
    versions: "
        time 1                          | yes
        make r keeps                    | yes
        put r a any old                 | number 1
        put r a absent late             | refused 4
        put r a 1 new!                  | number 2
        get r a 0 0 100                 | got 2 4 new!
        get r a 1 0 100                 | got 1 3 old
    ";

    removing_and_getting_back: "
        time 1                          | yes
        make r keeps                    | yes
        put r a any old                 | number 1
        put r a absent late             | refused 4
        put r a 1 new!                  | number 2
        remove r a 0                    | number 3
        get r a 0 0 100                 | refused 2
        look r - - 10                   | list
        remove r a 3                    | yes
        get r a 0 0 100                 | got 2 4 new!
    ";

    holds: "
        time 1                          | yes
        make r keeps                    | yes
        put r a any old                 | number 1
        put r a absent late             | refused 4
        put r a 1 new!                  | number 2
        get r a 0 0 100                 | got 2 4 new!
        get r a 1 0 100                 | got 1 3 old
        hold r a 1 100                  | yes
        remove r a 1                    | refused 6
        time 100                        | yes
        remove r a 1                    | yes
        get r a 1 0 100                 | refused 2
    ";

    rules_on_older_versions: "
        time 1                          | yes
        make r keeps                    | yes
        put r a any old                 | number 1
        put r a 1 new!                  | number 2
        remove r a 0                    | number 3
        remove r a 3                    | yes
        rules r a:0:10                  | yes
        time 21                         | yes
        get r a 1 0 100                 | refused 2
        get r a 0 0 100                 | got 2 4 new!
    ";

    rules_on_older_versions_that_are_held: "
        time 1                          | yes
        make r keeps                    | yes
        put r a any old                 | number 1
        put r a 1 new!                  | number 2
        remove r a 0                    | number 3
        remove r a 3                    | yes
        hold r a 1 100                  | yes
        rules r a:0:10                  | yes
        time 21                         | yes
        get r a 1 0 100                 | got 1 3 old
        get r a 0 0 100                 | got 2 4 new!
    ";

    a_room_that_doesnt_keep: "
        time 1                          | yes
        make r forgets                  | yes
        put r b any one                 | number 1
        hold r b 1 100                  | yes
        put r b any two                 | number 2
        get r b 1 0 100                 | got 1 3 one
        get r b 0 0 100                 | got 2 3 two
        remove r b 0                    | number 3
        versions r b                    | list b/3/0 b/1/3
    ";

    a_room_that_doesnt_keep_without_the_hold: "
        time 1                          | yes
        make r forgets                  | yes
        put r b any one                 | number 1
        put r b any two                 | number 2
        get r b 1 0 100                 | refused 2
        get r b 0 0 100                 | got 2 3 two
        remove r b 0                    | yes
        versions r b                    | list
    ";

    uploads_with_a_gap: "
        time 1                          | yes
        make r keeps                    | yes
        begin r c                       | number 1
        part r 1 1 x                    | yes
        part r 1 3 z                    | yes
        complete r 1 any                | refused 7
        part r 1 2 y                    | yes
        complete r 1 any                | number 2
        get r c 0 0 100                 | got 2 3 xyz
    ";

    rules_a_lasts_and_older_last_in_a_room_that_keeps: "
        time 100                        | yes
        make r keeps                    | yes
        rules r -:10:20                 | yes
        put r a any x                   | number 1
        time 110                        | yes
        versions r a                    | list a/1/1
        time 111                        | yes
        versions r a                    | list a/0/0 a/1/1
        get r a 0 0 9                   | refused 2
        get r a 1 0 9                   | got 1 1 x
        time 131                        | yes
        versions r a                    | list a/0/0 a/1/1
        time 132                        | yes
        versions r a                    | list
        drop r                          | yes
    ";

    rules_b_older_last_counts_from_the_version_above: "
        time 100                        | yes
        make r keeps                    | yes
        put r a any x                   | number 1
        time 150                        | yes
        put r a any x                   | number 2
        time 155                        | yes
        put r a any x                   | number 3
        rules r -:0:10                  | yes
        time 160                        | yes
        versions r a                    | list a/3/1 a/2/1 a/1/1
        time 161                        | yes
        versions r a                    | list a/3/1 a/2/1
        time 165                        | yes
        versions r a                    | list a/3/1 a/2/1
        time 166                        | yes
        versions r a                    | list a/3/1
        time 1000000                    | yes
        versions r a                    | list a/3/1
    ";

    rules_b_told_at_once: "
        time 100                        | yes
        make r keeps                    | yes
        put r a any x                   | number 1
        time 150                        | yes
        put r a any x                   | number 2
        time 155                        | yes
        put r a any x                   | number 3
        rules r -:0:10                  | yes
        time 166                        | yes
        versions r a                    | list a/3/1
    ";

    rules_c_a_room_that_doesnt_keep: "
        time 100                        | yes
        make r forgets                  | yes
        put r a any x                   | number 1
        hold r a 1 500                  | yes
        put r a any x                   | number 2
        rules r -:10:20                 | yes
        versions r a                    | list a/2/1 a/1/1
        time 111                        | yes
        versions r a                    | list a/0/0 a/1/1
        time 499                        | yes
        versions r a                    | list a/0/0 a/1/1
        time 500                        | yes
        versions r a                    | list
    ";

    rules_d_the_latest_is_held: "
        time 100                        | yes
        make r keeps                    | yes
        put r a any x                   | number 1
        hold r a 1 120                  | yes
        rules r -:10:0                  | yes
        time 119                        | yes
        versions r a                    | list a/1/1
        time 120                        | yes
        versions r a                    | list a/0/0 a/1/1
    ";

    rules_e_the_first_that_fits: "
        time 100                        | yes
        make r keeps                    | yes
        put r abc any x                 | number 1
        put r ac any x                  | number 2
        rules r ab:0:0 a:10:0           | yes
        time 111                        | yes
        versions r ac                   | list ac/0/0 ac/2/1
        versions r abc                  | list abc/1/1
        look r - - 10                   | list abc/1/1
    ";

    rules_f_an_earlier_time: "
        time 100                        | yes
        make r keeps                    | yes
        put r a any x                   | number 1
        time 120                        | yes
        rules r -:10:0                  | yes
        time 5                          | yes
        versions r a                    | list a/0/0 a/1/1
        // The mark came at 120: at 130 an older last of 10 isn't due yet.
        rules r -:0:10                  | yes
        time 130                        | yes
        versions r a                    | list a/0/0 a/1/1
        time 131                        | yes
        versions r a                    | list
    ";

    weight_with_a_rules_mark: "
        time 1                          | yes
        make r keeps                    | yes
        put r a any abc                 | number 1
        weigh                           | 51200
        rules r -:1:0                   | yes
        time 3                          | yes
        versions r a                    | list a/0/0 a/1/3
        weigh                           | 51200
        remove r a 1                    | yes
        versions r a                    | list a/0/0
        weigh                           | 34816
    ";

    lines_of_section_8: "
        time 1                          | yes
        bytes 0000000d 00000007 0e 0000000000000064 | yes
        bytes 00000008 00000007 01 0172 01 | yes
        bytes 00000010 00000007 03 0172 0161 00 00000002 6869 | number 1
        bytes 0000001d 00000007 04 0172 0161 0000000000000000 0000000000000000 00000064 | got 1 2 hi
        bytes 0000000b 00000007 06 0172 00 00 000a | list a/1/2
        bytes 00000009 00000007 01 | refused 1
    ";
}

/// The answers of section 8, byte for byte.
#[test]
fn answers_of_section_8() {
    use second::lines::{to_hex, write_answer};
    use second::meaning::{Answer, Bytes, Entry, Refusal};
    let line = |answer: Answer| to_hex(&write_answer([0, 0, 0, 7], &answer));
    assert_eq!(line(Answer::Yes), "000000050000000701");
    assert_eq!(line(Answer::Number(1)), "0000000d00000007020000000000000001");
    let got = Answer::Got { number: 1, length: 2, bytes: Bytes::from(*b"hi") };
    assert_eq!(line(got), "0000001b000000070300000000000000010000000000000002000000026869");
    let entry = Entry { key: Bytes::from(*b"a"), number: 1, length: 2 };
    assert_eq!(line(Answer::List(vec![entry])), "0000001900000007040001016100000000000000010000000000000002");
    assert_eq!(line(Answer::TurnedAway(Refusal::NotThere)), "00000006000000070002");
}

/// The longest call in range and the longest answer, as section 8 counts them.
#[test]
fn the_longest_lines() {
    use second::lines::{write_answer, write_call};
    use second::meaning::{Answer, Bytes, Call, Expected};
    let name: Bytes = vec![b'k'; 255].into();
    let bytes: Bytes = vec![0; 5_242_880].into();
    let put = Call::Put { room: name.clone(), key: name, expected: Expected::Number(1), bytes: bytes.clone() };
    assert_eq!(write_call([0; 4], &put).len(), 5_243_414);
    let got = Answer::Got { number: 1, length: 5_242_880, bytes };
    assert_eq!(write_answer([0; 4], &got).len(), 5_242_909);
}
