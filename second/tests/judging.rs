//! The judge, held against transcripts written by hand, and against the test double doing right and doing wrong.

use second::built::Built;
use second::generate;
use second::judge::{self, Verdict};
use second::lines;
use second::meaning::{Answer, Call, Entry, Refusal};
use second::play::{self, Bug};
use second::script::{self, Command};
use second::words;

// ---------------------------------------------------------------- transcripts by hand

fn refusal(number: &str) -> Refusal {
    use Refusal::*;
    let all = [
        OutOfRange,
        NotThere,
        ThereAlready,
        NotAsExpected,
        NotEmpty,
        Held,
        NoPartsOrGap,
        TooMany,
        NoTimeTold,
        NotBuilt,
    ];
    *all.iter().find(|refusal| (**refusal as u8).to_string() == number).expect("a refusal")
}

fn entry(word: &str) -> Entry {
    let parts: Vec<&str> = word.split('/').collect();
    let number = |text: &str| text.parse().expect("a number");
    Entry { key: words::read_bytes(parts[0]).expect("a key"), number: number(parts[1]), length: number(parts[2]) }
}

/// An answer in words as the line that `rehearse` prints; other text as it is.
fn printed(text: &str, tag: [u8; 4]) -> String {
    let words: Vec<&str> = text.split_whitespace().collect();
    let answer = match words.as_slice() {
        ["yes"] => Answer::Yes,
        ["turned", "away", number] => Answer::TurnedAway(refusal(number)),
        ["number", number] => Answer::Number(number.parse().expect("a number")),
        ["list", entries @ ..] => Answer::List(entries.iter().map(|word| entry(word)).collect()),
        _ => return text.to_string(),
    };
    format!("out {}", lines::to_hex(&lines::write_answer(tag, &answer)))
}

/// Commands, or calls in words, at the left; what was printed, if anything, at the right.
fn verdict(rows: &str) -> Verdict {
    let (mut script_text, mut output) = (String::new(), String::new());
    for row in rows.lines().map(str::trim).filter(|row| !row.is_empty()) {
        let (command, said) = row.split_once('|').unwrap_or((row, ""));
        let (command, said) = (command.trim(), said.trim());
        let call = words::read_call(command).filter(|call| !matches!(call, Call::Time { .. }));
        let tag = if call.is_some() { [0, 0, 0, 7] } else { [0; 4] };
        script_text += &(call.map_or(command.to_string(), |call| Command::call(&call).text()) + "\n");
        if !said.is_empty() {
            output += &(printed(said, tag) + "\n");
        }
    }
    judge::judge_texts(Built::All, &script_text, &output)
}

fn same(rows: &str) {
    if let Some(wrong) = verdict(rows).wrong {
        panic!("{wrong}");
    }
}

/// The line of the script that isn't allowed, 0 for one too many at the end.
fn wrong_at(line: usize, rows: &str) {
    let wrong = verdict(rows).wrong.expect("something that isn't allowed");
    assert_eq!(wrong.command.map_or(0, |(line, _)| line), line);
}

const START: &str = "
    time 1              | yes
    make r keeps        | yes
    put r a any x       | number 1
";

/// After the start, a put that is cut short.
fn after_a_cut(rows: &str) -> String {
    format!("{START}\n cut 9 3 |\n put r a any y | cut\n{rows}")
}

#[test]
fn a_right_transcript_is_the_same() {
    same(START);
}

#[test]
fn a_line_before_the_script_is_passed_over() {
    let verdict = judge::judge_texts(Built::All, "time 1\n", "script a\nout 000000050000000001\n");
    assert!(verdict.wrong.is_none());
}

#[test]
fn a_wrong_number_is_found() {
    wrong_at(3, "time 1 | yes\n make r keeps | yes\n put r a any x | number 2");
}

#[test]
fn a_wrong_tag_is_found() {
    wrong_at(1, "time 1 | out 000000050000000701");
}

#[test]
fn upper_case_is_found() {
    wrong_at(1, "hello | out 0000000600000000000A");
    same("hello | out 0000000600000000000a");
}

#[test]
fn a_line_that_is_missing_is_found() {
    wrong_at(2, "time 1 | yes\n time 2");
}

#[test]
fn a_line_too_many_is_found() {
    let verdict = judge::judge_texts(Built::All, "time 1\n", "out 000000050000000001\nwhole\n");
    assert!(verdict.wrong.is_some_and(|wrong| wrong.command.is_none() && wrong.at == 2));
}

#[test]
fn nothing_printed_for_nothing_is_the_same() {
    assert!(judge::judge_texts(Built::All, "\n  \n", "").wrong.is_none());
}

#[test]
fn blank_lines_and_white_space_at_the_end_dont_count() {
    let verdict = judge::judge_texts(Built::All, "\n\t\ntime 1  \t\r\n\n", "out 000000050000000001\n");
    assert!(verdict.wrong.is_none());
}

#[test]
fn text_that_is_no_command_is_no_call() {
    let refused = |number| format!("out 0000000600000000 00{number}").replace("00 00", "0000");
    for text in ["hello", "in", "in 0", "in 0g", "time", "lose", "lose 6", "cut", "cut x 1", "drives 5", "mend it"] {
        let before = judge::judge_texts(Built::All, &format!("{text}\n"), &format!("{}\n", refused("0a")));
        assert!(before.wrong.is_none(), "{text}: {:?}", before.wrong);
        let after = format!("time 1\n{text}\n");
        let after = judge::judge_texts(Built::All, &after, &format!("out 000000050000000001\n{}\n", refused("01")));
        assert!(after.wrong.is_none(), "{text}: {:?}", after.wrong);
    }
}

#[test]
fn a_time_that_is_no_number_is_out_of_range() {
    for time in ["x", "-1", "+1", "1 2", "18446744073709551616", "4611686018427387904", "0"] {
        let verdict = judge::judge_texts(Built::All, &format!("time {time}\n"), "out 00000006000000000001\n");
        assert!(verdict.wrong.is_none(), "{time}");
    }
}

#[test]
fn words_are_judged_by_their_shape() {
    same("status | anything at all\n asked | asked 0 0 0\n help | help is here");
    wrong_at(1, "asked | asked 0 0");
    wrong_at(1, "asked | asked 0 0 x");
    wrong_at(1, "help | here is help");
    wrong_at(1, "status");
}

// ---------------------------------------------------------------- cuts

#[test]
fn after_a_cut_the_call_was_done() {
    same(&after_a_cut("versions r a | list a/2/1 a/1/1\n put r a any z | number 3"));
}

#[test]
fn after_a_cut_the_call_was_not_done() {
    same(&after_a_cut("versions r a | list a/1/1\n put r a any z | number 2"));
}

#[test]
fn after_a_cut_nothing_else_is_allowed() {
    wrong_at(6, &after_a_cut("versions r a | list a/3/1 a/1/1"));
    wrong_at(6, &after_a_cut("versions r a | list a/1/2"));
    wrong_at(6, &after_a_cut("versions r a | list"));
}

#[test]
fn once_told_the_choice_stands() {
    wrong_at(7, &after_a_cut("versions r a | list a/1/1\n versions r a | list a/2/1 a/1/1"));
    wrong_at(7, &after_a_cut("versions r a | list a/2/1 a/1/1\n versions r a | list a/1/1"));
    wrong_at(7, &after_a_cut("versions r a | list a/2/1 a/1/1\n put r a any z | number 2"));
}

#[test]
fn once_told_the_choice_stands_after_further_cuts() {
    let told = after_a_cut("versions r a | list a/1/1\n cut 0 1 | cut\n");
    same(&(told.clone() + "versions r a | list a/1/1"));
    wrong_at(8, &(told + "versions r a | list a/2/1 a/1/1"));
}

#[test]
fn an_answer_that_doesnt_tell_keeps_both() {
    let open = after_a_cut("look r b - 9 | list\n time 1 | yes\n cut 5 1\n mend | cut\n");
    same(&(open.clone() + "versions r a | list a/1/1"));
    same(&(open + "versions r a | list a/2/1 a/1/1"));
}

#[test]
fn two_calls_cut_short_are_each_done_or_not() {
    let twice = after_a_cut("cut 9 1\n put r b any z | cut\n");
    same(&(twice.clone() + "look r - - 9 | list a/1/1"));
    same(&(twice.clone() + "look r - - 9 | list a/1/1 b/2/1"));
    same(&(twice.clone() + "look r - - 9 | list a/2/1"));
    same(&(twice.clone() + "look r - - 9 | list a/2/1 b/3/1"));
    wrong_at(8, &(twice + "look r - - 9 | list a/1/1 b/3/1"));
}

#[test]
fn a_call_that_is_refused_and_cut_short_changes_nothing() {
    let cut = format!("{START}\n cut 9 1\n put r a 7 y | cut\n");
    same(&(cut.clone() + "versions r a | list a/1/1"));
    wrong_at(6, &(cut + "versions r a | list a/2/1 a/1/1"));
}

#[test]
fn a_cut_that_nobody_asked_for_is_found() {
    wrong_at(1, "time 1 | cut");
    wrong_at(3, "cut 5 1\n time 1 | cut\n time 1 | cut");
    wrong_at(1, "mend | cut");
    wrong_at(1, "mend whole | cut");
}

#[test]
fn a_cut_of_0_falls_at_once() {
    same("cut 0 1 | cut\n time 1 | yes");
    same("cut 0 bits 5 | cut");
    wrong_at(1, "cut 0 1\n time 1 | yes");
    wrong_at(2, "cut 0 1 | cut\n time 1 | cut");
}

#[test]
fn a_cut_that_hasnt_fallen_is_replaced_by_a_later_one() {
    same("cut 100 1\n time 1 | yes\n cut 0 1 | cut\n time 1 | yes");
    wrong_at(3, "cut 100 1\n cut 0 1 | cut\n time 1 | cut");
}

#[test]
fn a_cut_in_mending_changes_nothing() {
    same(&format!("{START}\n cut 9 1\n mend | cut\n versions r a | list a/1/1"));
    same(&format!("{START}\n cut 9 1\n mend whole | cut\n mend whole | whole 1"));
}

#[test]
fn a_cut_before_the_first_telling() {
    same("cut 3 0\n time 5 | cut\n make r keeps | turned away 10\n time 1 | yes");
    same("cut 3 0\n time 5 | cut\n make r keeps | yes");
    wrong_at(4, "cut 3 0\n time 5 | cut\n make r keeps | yes\n make s keeps | turned away 10");
}

// ---------------------------------------------------------------- losses and mending

#[test]
fn a_third_weak_drive_is_refused() {
    same("lose 0\n lose 1\n lose 2 | refused");
    same("lose 0\n replace 0\n lose 0\n lose 1\n lose 5 | refused: beyond what the house may count on");
    wrong_at(3, "lose 0\n lose 1\n lose 2");
    wrong_at(0, "lose 0\n lose 1 | refused");
}

#[test]
fn a_replaced_drive_is_weak_until_whole() {
    same("lose 0\n lose 1\n replace 0\n replace 1\n lose 2 | refused\n mend whole | whole 3\n lose 2\n lose 3\n lose 4 | refused");
    same("lose 0\n lose 1\n replace 0\n mend | whole\n lose 2\n lose 3 | refused");
    same("lose 0\n lose 1\n replace 0\n mend | working\n lose 2 | refused");
    same("lose 0\n lose 1\n replace 0\n cut 3 1\n mend whole | cut\n lose 2 | refused");
}

#[test]
fn only_a_gone_drive_is_replaced() {
    same("replace 0 | refused\n lose 0\n replace 0\n replace 0 | refused");
    wrong_at(1, "replace 0");
    wrong_at(0, "lose 0\n replace 0 | refused");
}

#[test]
fn mending_ends_in_time() {
    same("mend whole | whole 8192");
    wrong_at(1, "mend whole | whole 8193");
    wrong_at(1, "mend whole | whole 0");
    wrong_at(1, "mend whole | whole");
    wrong_at(1, "mend | whole 1");
    same("drives 9000\n mend whole | whole 9000");
    let working = "mend | working\n".repeat(8_191);
    same(&format!("{working} mend | whole"));
    same(&format!("{working} mend whole | whole 1\n mend whole | whole 1"));
    wrong_at(8_192, &format!("{working} mend | working"));
    wrong_at(8_192, &format!("{working} mend whole | whole 2"));
}

#[test]
fn mending_is_counted_from_the_last_loss_replacement_or_cut() {
    let working = "mend | working\n".repeat(8_191);
    for event in ["lose 1", "lose 1\n replace 1", "cut 0 1 | cut"] {
        same(&format!("{working} {event}\n mend | working"));
    }
    wrong_at(8_193, &format!("{working} time 5 | yes\n mend | working"));
}

// ---------------------------------------------------------------- the test double, both ways

const BUILT: [Built; 4] = [Built::Nothing, Built::Time, Built::Core, Built::All];

fn played(built: Built, bug: Option<Bug>, text: &str) -> Verdict {
    let placed = script::read(text);
    let printed = play::play(built, bug, &script::commands(text));
    let lines: Vec<&str> = printed.iter().map(String::as_str).collect();
    judge::judge(built, &placed, &lines)
}

#[test]
fn what_is_played_right_is_the_same() {
    for built in BUILT {
        for seed in 0..300 {
            let text = generate::script(built, seed);
            if let Some(wrong) = played(built, None, &text).wrong {
                panic!("{} {seed}: {wrong}", built.word());
            }
        }
    }
}

/// Each way of doing wrong is found among these many scripts.
fn is_found(bug: Bug, built: Built, seeds: u64) {
    let found =
        (0..seeds).filter(|seed| played(built, Some(bug), &generate::script(built, *seed)).wrong.is_some()).count();
    assert!(found > 0, "{bug:?}");
}

#[test]
fn what_is_forgotten_is_found() {
    is_found(Bug::Forgets, Built::All, 100);
    is_found(Bug::Forgets, Built::Core, 100);
}

#[test]
fn what_is_done_late_is_found() {
    is_found(Bug::Late, Built::All, 200);
    is_found(Bug::Late, Built::Core, 200);
}

#[test]
fn what_is_torn_is_found() {
    is_found(Bug::Torn, Built::All, 200);
    is_found(Bug::Torn, Built::Core, 200);
}

#[test]
fn what_doesnt_stand_two_losses_is_found() {
    is_found(Bug::Fragile, Built::All, 200);
    is_found(Bug::Fragile, Built::Core, 200);
}

#[test]
fn a_clock_that_is_late_is_found() {
    is_found(Bug::Slow, Built::All, 200);
}

#[test]
fn other_wrongs_are_found() {
    for bug in [Bug::Flips, Bug::Eager, Bug::Reckless, Bug::Quiet, Bug::Chatty, Bug::Endless, Bug::Unbuilt] {
        for built in [Built::Time, Built::Core, Built::All] {
            is_found(bug, built, 60);
        }
    }
}

/// What is built is told apart.
#[test]
fn what_is_built_is_told_apart() {
    for right in BUILT {
        for other in BUILT.into_iter().filter(|other| *other != right) {
            let told = (0..40).any(|seed| {
                let text = generate::script(Built::All, seed);
                let printed = play::play(other, None, &script::commands(&text));
                let lines: Vec<&str> = printed.iter().map(String::as_str).collect();
                judge::judge(right, &script::read(&text), &lines).wrong.is_some()
            });
            assert!(told, "{} and {}", right.word(), other.word());
        }
    }
}
