//! Each refusal of each call in its order, each weight, each bound, each surprise of section 11 of docs/MEANING.md.

#[macro_use]
mod common;

stories! {
    // ------------------------------------------------------------ before each call (section 3)

    no_time_told_refuses_every_call_but_time: "
        make r keeps                    | refused 10
        drop r                          | refused 10
        put r a any x                   | refused 10
        get r a 0 0 1                   | refused 10
        remove r a 0                    | refused 10
        remove r a 1                    | refused 10
        look r - - 1                    | refused 10
        versions r a                    | refused 10
        begin r a                       | refused 10
        part r 1 1 x                    | refused 10
        complete r 1 any                | refused 10
        abort r 1                       | refused 10
        hold r a 1 1                    | refused 10
        rules r                         | refused 10
        time 0                          | refused 1
        make r keeps                    | refused 10
        time 1                          | yes
        make r keeps                    | yes
    ";
    no_time_told_comes_before_out_of_range: "
        make - keeps                    | refused 10
        put r - any x                   | refused 10
        look r - - 1001                 | refused 10
        bytes                           | refused 10
        bytes 00                        | refused 10
        bytes 00000005 00000009 00      | refused 10
        bytes 00000005 00000009 ff      | refused 10
    ";
    numbers_used_up_refuses_every_call_but_time: "
        time 1                          | yes
        make r keeps                    | yes
        next 4611686018427387904
        make s keeps                    | refused 8
        drop r                          | refused 8
        put r a any x                   | refused 8
        get r a 0 0 1                   | refused 8
        remove r a 0                    | refused 8
        remove r a 1                    | refused 8
        look r - - 1                    | refused 8
        versions r a                    | refused 8
        begin r a                       | refused 8
        part r 1 1 x                    | refused 8
        complete r 1 any                | refused 8
        abort r 1                       | refused 8
        hold r a 1 1                    | refused 8
        rules r                         | refused 8
        time 0                          | refused 1
        time 2                          | yes
    ";
    numbers_used_up_comes_before_out_of_range: "
        time 1                          | yes
        next 4611686018427387904
        make - keeps                    | refused 8
        bytes                           | refused 8
        bytes 00000005 00000009 0f      | refused 8
        bytes 00000005 00000009 0e      | refused 1
    ";
    the_last_number_is_given: "
        time 1                          | yes
        make r keeps                    | yes
        next 4611686018427387903
        put r a any x                   | number 4611686018427387903
        get r a 0 0 1                   | refused 8
        time 2                          | yes
    ";
    no_time_told_comes_before_numbers_used_up: "
        next 4611686018427387904
        drop r                          | refused 10
    ";

    // ------------------------------------------------------------ 1 make a room

    make_refuses_an_empty_name: "
        time 1                          | yes
        make - keeps                    | refused 1
        make - forgets                  | refused 1
    ";
    make_takes_the_longest_name_and_any_bytes: "
        time 1                          | yes
        make n*255 keeps                | yes
        make 0x00 keeps                 | yes
        make 0xff00ff keeps             | yes
        make n*254 keeps                | yes
    ";
    make_refuses_a_name_that_is_there: "
        time 1                          | yes
        make r keeps                    | yes
        make r keeps                    | refused 3
        make r forgets                  | refused 3
        make ra keeps                   | yes
    ";
    make_refuses_the_257th_room: "
        sectors 65536
        time 1                          | yes
        repeat 256 make r# keeps        | yes
        make s keeps                    | refused 8
        make r1 keeps                   | refused 3
        make - keeps                    | refused 1
        drop r1                         | yes
        make s keeps                    | yes
        make t keeps                    | refused 8
    ";
    too_many_rooms_comes_before_full: "
        sectors 12288
        time 1                          | yes
        repeat 256 make r# keeps        | yes
        weigh                           | 8388608
        make s keeps                    | refused 8
        begin r1 a                      | full
    ";

    // ------------------------------------------------------------ 2 drop a room

    drop_refuses_no_room: "
        time 1                          | yes
        drop r                          | refused 2
        drop -                          | refused 2
        make r keeps                    | yes
        drop r                          | yes
        drop r                          | refused 2
    ";
    drop_refuses_a_room_with_a_thing: "
        time 1                          | yes
        make r keeps                    | yes
        put r a any -                   | number 1
        drop r                          | refused 5
        remove r a 1                    | yes
        drop r                          | yes
    ";
    drop_refuses_a_room_with_a_mark_only: "
        time 1                          | yes
        make r keeps                    | yes
        put r a any x                   | number 1
        remove r a 0                    | number 2
        remove r a 1                    | yes
        look r - - 10                   | list
        drop r                          | refused 5
        remove r a 2                    | yes
        drop r                          | yes
    ";
    drop_refuses_a_room_with_an_upload: "
        time 1                          | yes
        make r keeps                    | yes
        begin r a                       | number 1
        drop r                          | refused 5
        abort r 1                       | yes
        drop r                          | yes
    ";
    drop_takes_the_rules_with_it: "
        time 1                          | yes
        make r keeps                    | yes
        rules r -:1:1                   | yes
        drop r                          | yes
        make r keeps                    | yes
        put r a any x                   | number 1
        time 100                        | yes
        versions r a                    | list a/1/1
    ";

    // ------------------------------------------------------------ 3 put

    put_refuses_an_impossible_key_before_the_room: "
        time 1                          | yes
        put r - any x                   | refused 1
        put r k*255 any x               | refused 2
        make r keeps                    | yes
        put r - any x                   | refused 1
        put r k*255 any x               | number 1
    ";
    put_refuses_too_many_bytes_before_the_room: "
        sectors 65536
        time 1                          | yes
        put r a any x*5242881           | refused 1
        make r keeps                    | yes
        put r a any x*5242881           | refused 1
        put r a any x*5242880           | number 1
        get r a 0 0 5242880             | got 1 5242880 x*5242880
    ";
    put_refuses_no_room_before_what_is_expected: "
        time 1                          | yes
        put r a 7 x                     | refused 2
        put - a any x                   | refused 2
        put n*255 a any x               | refused 2
    ";
    put_refuses_what_isnt_expected: "
        time 1                          | yes
        make r keeps                    | yes
        put r a 1 x                     | refused 4
        put r a 0 x                     | refused 4
        put r a absent x                | number 1
        put r a absent x                | refused 4
        put r a 2 x                     | refused 4
        put r a 0 x                     | refused 4
        put r a 2^62 x                  | refused 4
        put r a 1 y                     | number 2
        put r a 1 y                     | refused 4
    ";
    put_expecting_absent_is_met_under_a_mark: "
        time 1                          | yes
        make r keeps                    | yes
        put r a any x                   | number 1
        remove r a 0                    | number 2
        put r a 2 y                     | refused 4
        put r a 1 y                     | refused 4
        put r a absent y                | number 3
        versions r a                    | list a/3/1 a/2/0 a/1/1
    ";
    put_expecting_absent_is_met_under_a_rules_mark: "
        time 1                          | yes
        make r keeps                    | yes
        rules r -:1:0                   | yes
        put r a any x                   | number 1
        time 3                          | yes
        put r a 0 y                     | refused 4
        put r a 1 y                     | refused 4
        put r a absent y                | number 2
        versions r a                    | list a/2/1 a/0/0 a/1/1
    ";
    put_refuses_the_1025th_version: "
        time 1                          | yes
        make r keeps                    | yes
        repeat 1024 put r a any -       | number
        put r a any -                   | refused 8
        put r a 1024 -                  | refused 8
        put r a 1023 -                  | refused 4
        put r b any -                   | number 1025
        remove r a 0                    | refused 8
        remove r a 500                  | yes
        put r a any -                   | number 1026
        put r a any -                   | refused 8
    ";
    put_is_refused_on_1024_versions_and_a_rules_mark_until_two_are_gone: "
        time 1                          | yes
        make r keeps                    | yes
        repeat 1024 put r a any -       | number
        rules r -:1:0                   | yes
        time 3                          | yes
        put r a any -                   | refused 8
        remove r a 0                    | refused 2
        remove r a 1                    | yes
        put r a any -                   | refused 8
        remove r a 2                    | yes
        put r a any -                   | number 1025
    ";
    put_in_a_room_that_doesnt_keep_counts_versions_that_would_go: "
        time 1                          | yes
        make r forgets                  | yes
        put r a any -                   | number 1
        hold r a 1 10                   | yes
        put r a any -                   | number 2
        hold r a 2 9                    | yes
        put r a any -                   | number 3
        versions r a                    | list a/3/0 a/2/0 a/1/0
        time 9                          | yes
        put r a any -                   | number 4
        versions r a                    | list a/4/0 a/1/0
        time 10                         | yes
        put r a any -                   | number 5
        versions r a                    | list a/5/0
    ";
    put_takes_leftover_marks_away_in_a_room_that_doesnt_keep: "
        time 1                          | yes
        make r forgets                  | yes
        put r a any x                   | number 1
        hold r a 1 10                   | yes
        remove r a 0                    | number 2
        time 10                         | yes
        remove r a 1                    | yes
        versions r a                    | list a/2/0
        put r a any y                   | number 3
        versions r a                    | list a/3/1
    ";
    put_of_no_bytes_is_a_version: "
        time 1                          | yes
        make r keeps                    | yes
        put r a any -                   | number 1
        get r a 0 0 10                  | got 1 0 -
        look r - - 10                   | list a/1/0
    ";

    // ------------------------------------------------------------ 4 get

    get_refuses_a_most_above_5242880_before_the_room: "
        time 1                          | yes
        get r a 0 0 5242881             | refused 1
        get r a 0 0 5242880             | refused 2
        make r keeps                    | yes
        get r a 0 0 4294967295          | refused 1
        get r a 0 0 5242880             | refused 2
    ";
    get_refuses_what_isnt_there: "
        time 1                          | yes
        make r keeps                    | yes
        get - a 0 0 1                   | refused 2
        get r - 0 0 1                   | refused 2
        get r a 0 0 1                   | refused 2
        put r a any x                   | number 1
        put r b any y                   | number 2
        get r a 2 0 1                   | refused 2
        get r b 1 0 1                   | refused 2
        get r a 2^63 0 1                | refused 2
    ";
    get_doesnt_find_a_mark: "
        time 1                          | yes
        make r keeps                    | yes
        put r a any x                   | number 1
        remove r a 0                    | number 2
        get r a 0 0 1                   | refused 2
        get r a 2 0 1                   | refused 2
        get r a 1 0 1                   | got 1 1 x
    ";
    get_from_and_most: "
        time 1                          | yes
        make r keeps                    | yes
        put r a any hello               | number 1
        get r a 0 0 0                   | got 1 5 -
        get r a 0 1 3                   | got 1 5 ell
        get r a 0 4 9                   | got 1 5 o
        get r a 0 5 9                   | got 1 5 -
        get r a 0 6 9                   | got 1 5 -
        get r a 0 2^64-1 9              | got 1 5 -
        get r a 1 3 1                   | got 1 5 l
    ";

    // ------------------------------------------------------------ 5 remove

    remove_latest_refuses_what_isnt_there: "
        time 1                          | yes
        remove r a 0                    | refused 2
        make r keeps                    | yes
        remove r a 0                    | refused 2
        remove r - 0                    | refused 2
        put r a any x                   | number 1
        remove r a 0                    | number 2
        remove r a 0                    | refused 2
    ";
    remove_latest_refuses_the_1025th_version: "
        time 1                          | yes
        make r keeps                    | yes
        repeat 1023 put r a any -       | number
        remove r a 0                    | number 1024
        remove r a 1024                 | yes
        put r a any -                   | number 1025
        remove r a 0                    | refused 8
    ";
    remove_latest_in_a_room_that_doesnt_keep_leaves_nothing: "
        time 1                          | yes
        make r forgets                  | yes
        put r a any x                   | number 1
        remove r a 0                    | yes
        versions r a                    | list
        put r a any y                   | number 2
        drop r                          | refused 5
    ";
    remove_latest_with_a_hold_on_the_latest_leaves_a_mark: "
        time 1                          | yes
        make r forgets                  | yes
        put r a any x                   | number 1
        hold r a 1 5                    | yes
        remove r a 0                    | number 2
        versions r a                    | list a/2/0 a/1/1
        get r a 1 0 1                   | got 1 1 x
    ";
    remove_latest_when_the_hold_has_ended_leaves_nothing: "
        time 1                          | yes
        make r forgets                  | yes
        put r a any x                   | number 1
        hold r a 1 5                    | yes
        time 5                          | yes
        remove r a 0                    | yes
        versions r a                    | list
    ";
    remove_latest_keeps_only_what_is_held: "
        time 1                          | yes
        make r forgets                  | yes
        put r a any x                   | number 1
        hold r a 1 5                    | yes
        put r a any y                   | number 2
        hold r a 2 9                    | yes
        put r a any z                   | number 3
        time 5                          | yes
        remove r a 0                    | number 4
        versions r a                    | list a/4/0 a/2/1
    ";
    remove_by_number_refuses_what_isnt_there: "
        time 1                          | yes
        remove r a 1                    | refused 2
        make r keeps                    | yes
        remove r a 1                    | refused 2
        put r a any x                   | number 1
        put r b any x                   | number 2
        remove r a 2                    | refused 2
        remove r a 3                    | refused 2
        remove r b 1                    | refused 2
    ";
    remove_by_number_refuses_what_is_held: "
        time 1                          | yes
        make r keeps                    | yes
        put r a any x                   | number 1
        hold r a 1 3                    | yes
        remove r a 1                    | refused 6
        time 2                          | yes
        remove r a 1                    | refused 6
        time 3                          | yes
        remove r a 1                    | yes
        remove r a 1                    | refused 2
    ";
    remove_by_number_in_a_room_that_doesnt_keep_uncovers: "
        time 1                          | yes
        make r forgets                  | yes
        put r a any x                   | number 1
        hold r a 1 9                    | yes
        put r a any y                   | number 2
        remove r a 2                    | yes
        get r a 0 0 1                   | got 1 1 x
    ";
    remove_by_number_takes_from_the_middle: "
        time 1                          | yes
        make r keeps                    | yes
        put r a any x                   | number 1
        put r a any y                   | number 2
        put r a any z                   | number 3
        remove r a 2                    | yes
        versions r a                    | list a/3/1 a/1/1
    ";
    remove_takes_no_number_unless_a_mark_is_left: "
        time 1                          | yes
        make r forgets                  | yes
        put r a any x                   | number 1
        remove r a 0                    | yes
        put r a any x                   | number 2
        remove r a 2                    | yes
        put r a any x                   | number 3
    ";

    // ------------------------------------------------------------ 6 look

    look_refuses_a_most_above_1000_before_the_room: "
        time 1                          | yes
        look r - - 1001                 | refused 1
        look r - - 65535                | refused 1
        look r - - 1000                 | refused 2
        look - - - 0                    | refused 2
    ";
    look_is_in_the_order_of_the_keys: "
        time 1                          | yes
        make r keeps                    | yes
        put r b any x                   | number 1
        put r ab any xx                 | number 2
        put r a any xxx                 | number 3
        put r 0xff any -                | number 4
        put r abc any x                 | number 5
        put r 0x6100 any x              | number 6
        look r - - 1000                 | list a/3/3 0x6100/6/1 ab/2/2 abc/5/1 b/1/1 0xff/4/0
        look r a - 1000                 | list a/3/3 0x6100/6/1 ab/2/2 abc/5/1
        look r ab - 1000                | list ab/2/2 abc/5/1
        look r - a 1000                 | list 0x6100/6/1 ab/2/2 abc/5/1 b/1/1 0xff/4/0
        look r - ab 2                   | list abc/5/1 b/1/1
        look r a ab 9                   | list abc/5/1
        look r - aa 1                   | list ab/2/2
        look r - 0xff 9                 | list
        look r k*255 - 9                | list
        look r - k*255 9                | list 0xff/4/0
        look r - - 0                    | list
        look r - - 1                    | list a/3/3
    ";
    look_counts_only_what_it_shows: "
        time 1                          | yes
        make r keeps                    | yes
        put r a any x                   | number 1
        put r b any x                   | number 2
        put r c any x                   | number 3
        remove r a 0                    | number 4
        look r - - 2                    | list b/2/1 c/3/1
        look r - - 1                    | list b/2/1
    ";
    look_shows_a_thousand: "
        sectors 65536
        time 1                          | yes
        make r keeps                    | yes
        repeat 1001 put r k# any -      | number
        repeat 1 look r - - 1000        | list
        look r k999 k998 1000           | list k999/999/0
        look r - k998 1000              | list k999/999/0
    ";

    // ------------------------------------------------------------ 7 versions

    versions_refuses_only_an_unknown_room: "
        time 1                          | yes
        versions r a                    | refused 2
        versions - a                    | refused 2
        make r keeps                    | yes
        versions r a                    | list
        versions r -                    | list
        versions r k*255                | list
    ";

    // ------------------------------------------------------------ 8 begin

    begin_refuses_an_impossible_key_before_the_room: "
        time 1                          | yes
        begin r -                       | refused 1
        begin r k*255                   | refused 2
        make r keeps                    | yes
        begin r -                       | refused 1
        begin r k*255                   | number 1
    ";
    begin_refuses_the_1025th_upload: "
        time 1                          | yes
        make r keeps                    | yes
        make s keeps                    | yes
        repeat 1024 begin r a           | number
        begin r a                       | refused 8
        begin r b                       | refused 8
        begin s a                       | number 1025
        abort r 7                       | yes
        begin r a                       | number 1026
    ";

    // ------------------------------------------------------------ 9 part

    part_refuses_a_place_out_of_range_before_the_room: "
        time 1                          | yes
        part r 1 0 x                    | refused 1
        part r 1 10001 x                | refused 1
        part r 1 65535 x                | refused 1
        part r 1 10000 x                | refused 2
        part r 1 1 x                    | refused 2
    ";
    part_refuses_too_many_bytes_before_the_room: "
        sectors 65536
        time 1                          | yes
        part r 1 1 x*5242881            | refused 1
        make r keeps                    | yes
        begin r a                       | number 1
        part r 1 1 x*5242881            | refused 1
        part r 1 1 x*5242880            | yes
    ";
    part_refuses_no_upload: "
        time 1                          | yes
        make r keeps                    | yes
        make s keeps                    | yes
        part r 1 1 x                    | refused 2
        part r 0 1 x                    | refused 2
        begin r a                       | number 1
        part s 1 1 x                    | refused 2
        part r 1 1 x                    | yes
    ";
    part_replaces_the_one_at_its_place: "
        time 1                          | yes
        make r keeps                    | yes
        begin r a                       | number 1
        part r 1 2 b                    | yes
        part r 1 1 a                    | yes
        part r 1 2 c                    | yes
        complete r 1 any                | number 2
        get r a 0 0 9                   | got 2 2 ac
    ";

    // ------------------------------------------------------------ 10 complete

    complete_refuses_no_room_and_no_upload: "
        time 1                          | yes
        complete r 1 any                | refused 2
        make r keeps                    | yes
        complete r 1 any                | refused 2
        complete r 0 any                | refused 2
    ";
    complete_refuses_no_parts_and_a_gap: "
        time 1                          | yes
        make r keeps                    | yes
        begin r a                       | number 1
        complete r 1 any                | refused 7
        part r 1 2 y                    | yes
        complete r 1 any                | refused 7
        part r 1 1 -                    | yes
        complete r 1 any                | number 2
        get r a 0 0 9                   | got 2 1 y
        complete r 1 any                | refused 2
    ";
    complete_tests_the_parts_before_what_is_expected: "
        time 1                          | yes
        make r keeps                    | yes
        begin r a                       | number 1
        complete r 1 9                  | refused 7
        part r 1 1 x                    | yes
        complete r 1 9                  | refused 4
        put r a any y                   | number 2
        complete r 1 absent             | refused 4
        complete r 1 1                  | refused 4
        complete r 1 2                  | number 3
        versions r a                    | list a/3/1 a/2/1
    ";
    complete_tests_what_is_expected_before_the_versions: "
        time 1                          | yes
        make r keeps                    | yes
        begin r a                       | number 1
        repeat 1024 put r a any -       | number
        complete r 1 any                | refused 7
        part r 1 1 x                    | yes
        complete r 1 absent             | refused 4
        complete r 1 any                | refused 8
        complete r 1 1025               | refused 8
        remove r a 9                    | yes
        complete r 1 any                | number 1026
    ";
    complete_in_a_room_that_doesnt_keep: "
        time 1                          | yes
        make r forgets                  | yes
        put r a any x                   | number 1
        hold r a 1 9                    | yes
        put r a any y                   | number 2
        begin r a                       | number 3
        part r 3 1 z                    | yes
        complete r 3 2                  | number 4
        versions r a                    | list a/4/1 a/1/1
        drop r                          | refused 5
    ";
    complete_of_several_uploads_for_a_key: "
        time 1                          | yes
        make r keeps                    | yes
        begin r a                       | number 1
        begin r a                       | number 2
        part r 2 1 two                  | yes
        part r 1 1 one                  | yes
        complete r 2 absent             | number 3
        complete r 1 absent             | refused 4
        complete r 1 3                  | number 4
        get r a 3 0 9                   | got 3 3 two
        get r a 0 0 9                   | got 4 3 one
    ";
    complete_of_ten_thousand_parts: "
        sectors 1048576
        time 1                          | yes
        make r keeps                    | yes
        begin r a                       | number 1
        repeat 10000 part r 1 # y       | yes
        part r 1 10001 y                | refused 1
        complete r 1 any                | number 2
        get r a 0 9990 100              | got 2 10000 yyyyyyyyyy
    ";

    // ------------------------------------------------------------ 11 abort

    abort_refuses_what_isnt_there: "
        time 1                          | yes
        abort r 1                       | refused 2
        make r keeps                    | yes
        abort r 1                       | refused 2
        begin r a                       | number 1
        part r 1 1 x                    | yes
        abort r 1                       | yes
        abort r 1                       | refused 2
        part r 1 1 x                    | refused 2
        versions r a                    | list
        begin r a                       | number 2
    ";

    // ------------------------------------------------------------ 12 hold

    hold_refuses_an_until_out_of_range_before_the_room: "
        time 1                          | yes
        hold r a 1 2^62                 | refused 1
        hold r a 1 2^64-1               | refused 1
        hold r a 1 2^62-1               | refused 2
        make r keeps                    | yes
        put r a any x                   | number 1
        hold r a 1 2^62                 | refused 1
        hold r a 1 2^62-1               | yes
        remove r a 1                    | refused 6
        time 2^62-1                     | yes
        remove r a 1                    | yes
    ";
    hold_refuses_what_isnt_there: "
        time 1                          | yes
        make r keeps                    | yes
        hold r a 1 9                    | refused 2
        put r a any x                   | number 1
        hold r a 0 9                    | refused 2
        hold r a 2 9                    | refused 2
        hold r b 1 9                    | refused 2
        hold r - 1 9                    | refused 2
    ";
    hold_refuses_a_mark: "
        time 1                          | yes
        make r keeps                    | yes
        put r a any x                   | number 1
        remove r a 0                    | number 2
        hold r a 2 9                    | refused 2
        hold r a 0 9                    | refused 2
        hold r a 1 9                    | yes
    ";
    hold_is_never_shortened: "
        time 1                          | yes
        make r keeps                    | yes
        put r a any x                   | number 1
        hold r a 1 9                    | yes
        hold r a 1 5                    | yes
        hold r a 1 0                    | yes
        time 8                          | yes
        remove r a 1                    | refused 6
        time 9                          | yes
        remove r a 1                    | yes
    ";
    hold_in_the_past_holds_nothing: "
        time 7                          | yes
        make r keeps                    | yes
        put r a any x                   | number 1
        hold r a 1 7                    | yes
        remove r a 1                    | yes
    ";

    // ------------------------------------------------------------ 13 rules

    rules_refuses_more_than_64_before_the_room: "
        time 1                          | yes
        rules r -:0:0 -:0:0 -:0:0 -:0:0 -:0:0 -:0:0 -:0:0 -:0:0 -:0:0 -:0:0 -:0:0 -:0:0 -:0:0 -:0:0 -:0:0 -:0:0 -:0:0 -:0:0 -:0:0 -:0:0 -:0:0 -:0:0 -:0:0 -:0:0 -:0:0 -:0:0 -:0:0 -:0:0 -:0:0 -:0:0 -:0:0 -:0:0 -:0:0 -:0:0 -:0:0 -:0:0 -:0:0 -:0:0 -:0:0 -:0:0 -:0:0 -:0:0 -:0:0 -:0:0 -:0:0 -:0:0 -:0:0 -:0:0 -:0:0 -:0:0 -:0:0 -:0:0 -:0:0 -:0:0 -:0:0 -:0:0 -:0:0 -:0:0 -:0:0 -:0:0 -:0:0 -:0:0 -:0:0 -:0:0 -:0:0 | refused 1
        rules r -:0:0 -:0:0 -:0:0 -:0:0 -:0:0 -:0:0 -:0:0 -:0:0 -:0:0 -:0:0 -:0:0 -:0:0 -:0:0 -:0:0 -:0:0 -:0:0 -:0:0 -:0:0 -:0:0 -:0:0 -:0:0 -:0:0 -:0:0 -:0:0 -:0:0 -:0:0 -:0:0 -:0:0 -:0:0 -:0:0 -:0:0 -:0:0 -:0:0 -:0:0 -:0:0 -:0:0 -:0:0 -:0:0 -:0:0 -:0:0 -:0:0 -:0:0 -:0:0 -:0:0 -:0:0 -:0:0 -:0:0 -:0:0 -:0:0 -:0:0 -:0:0 -:0:0 -:0:0 -:0:0 -:0:0 -:0:0 -:0:0 -:0:0 -:0:0 -:0:0 -:0:0 -:0:0 -:0:0 -:0:0 | refused 2
    ";
    rules_refuses_spans_out_of_range: "
        time 1                          | yes
        rules r a:2^62:0                | refused 1
        rules r a:0:2^62                | refused 1
        rules r a:0:0 b:0:2^62          | refused 1
        rules r a:0:0                   | refused 2
        make r keeps                    | yes
        rules r a:2^62:0                | refused 1
        rules r a:2^62-1:2^62-1         | yes
        rules r k*255:0:0               | yes
        rules r                         | yes
    ";
    rules_act_only_at_a_telling: "
        time 1                          | yes
        make r keeps                    | yes
        put r a any x                   | number 1
        time 100                        | yes
        rules r -:1:0                   | yes
        versions r a                    | list a/1/1
        time 100                        | yes
        versions r a                    | list a/0/0 a/1/1
    ";
    rules_replace_those_there_were: "
        time 1                          | yes
        make r keeps                    | yes
        put r a any x                   | number 1
        rules r -:1:0                   | yes
        rules r                         | yes
        time 100                        | yes
        versions r a                    | list a/1/1
    ";

    // ------------------------------------------------------------ 14 time

    time_refuses_0_and_2_to_the_62: "
        time 0                          | refused 1
        time 2^62                       | refused 1
        time 2^64-1                     | refused 1
        make r keeps                    | refused 10
        time 2^62-1                     | yes
        make r keeps                    | yes
        time 1                          | yes
        time 2^62                       | refused 1
    ";
    time_goes_only_up: "
        time 50                         | yes
        make r keeps                    | yes
        put r a any x                   | number 1
        hold r a 1 50                   | yes
        hold r a 1 51                   | yes
        time 3                          | yes
        remove r a 1                    | refused 6
        time 51                         | yes
        remove r a 1                    | yes
    ";

    // ------------------------------------------------------------ section 5

    lasts_in_a_room_that_doesnt_keep_takes_the_latest_away: "
        time 1                          | yes
        make r forgets                  | yes
        rules r -:5:0                   | yes
        put r a any x                   | number 1
        time 6                          | yes
        versions r a                    | list a/1/1
        time 7                          | yes
        versions r a                    | list
    ";
    lasts_doesnt_take_a_mark: "
        time 1                          | yes
        make r keeps                    | yes
        rules r -:5:0                   | yes
        put r a any x                   | number 1
        remove r a 0                    | number 2
        time 100                        | yes
        versions r a                    | list a/2/0 a/1/1
    ";
    lasts_is_due_for_the_version_when_its_mark_is_removed: "
        time 1                          | yes
        make r keeps                    | yes
        put r a any x                   | number 1
        remove r a 0                    | number 2
        time 100                        | yes
        remove r a 2                    | yes
        rules r -:5:0                   | yes
        get r a 0 0 1                   | got 1 1 x
        time 1                          | yes
        versions r a                    | list a/0/0 a/1/1
    ";
    tidy_takes_a_mark_that_is_alone: "
        time 1                          | yes
        make r keeps                    | yes
        put r a any x                   | number 1
        remove r a 0                    | number 2
        remove r a 1                    | yes
        time 2                          | yes
        versions r a                    | list a/2/0
        rules r b:0:0                   | yes
        time 2                          | yes
        versions r a                    | list a/2/0
        rules r -:0:0                   | yes
        time 2                          | yes
        versions r a                    | list
    ";
    two_marks_arent_tidied: "
        time 1                          | yes
        make r keeps                    | yes
        rules r -:1:0                   | yes
        put r a any x                   | number 1
        time 3                          | yes
        put r a any y                   | number 2
        time 5                          | yes
        versions r a                    | list a/0/0 a/2/1 a/0/0 a/1/1
        remove r a 2                    | yes
        remove r a 1                    | yes
        versions r a                    | list a/0/0 a/0/0
        time 9                          | yes
        versions r a                    | list a/0/0 a/0/0
        drop r                          | refused 5
        rules r -:1:1                   | yes
        time 9                          | yes
        versions r a                    | list
    ";
    a_mark_under_a_newer_version_goes_by_older_last: "
        time 1                          | yes
        make r keeps                    | yes
        put r a any x                   | number 1
        remove r a 0                    | number 2
        put r a any y                   | number 3
        hold r a 1 100                  | yes
        rules r -:0:5                   | yes
        time 7                          | yes
        versions r a                    | list a/3/1 a/1/1
    ";
    older_last_counts_from_what_stood_above_before: "
        time 1                          | yes
        make r keeps                    | yes
        put r a any x                   | number 1
        time 10                         | yes
        put r a any y                   | number 2
        time 20                         | yes
        put r a any z                   | number 3
        rules r -:0:10                  | yes
        // At 30: 2 is counted from 20 and not due; 1 is counted from 10 and due.
        time 30                         | yes
        versions r a                    | list a/3/1 a/2/1
    ";
    the_latest_and_the_older_go_at_once_in_a_room_that_doesnt_keep: "
        time 1                          | yes
        make r forgets                  | yes
        put r a any x                   | number 1
        hold r a 1 2                    | yes
        put r a any y                   | number 2
        rules r -:1:1                   | yes
        time 9                          | yes
        versions r a                    | list
        drop r                          | yes
    ";
    a_mark_covers_what_isnt_held_any_more_if_older_last_is_0: "
        time 1                          | yes
        make r forgets                  | yes
        put r a any x                   | number 1
        hold r a 1 2                    | yes
        put r a any y                   | number 2
        rules r -:1:0                   | yes
        time 9                          | yes
        versions r a                    | list a/0/0 a/1/1
    ";
    rules_with_both_spans_0_keep_later_rules_away: "
        time 1                          | yes
        make r keeps                    | yes
        put r a any x                   | number 1
        put r b any x                   | number 2
        rules r a:0:0 -:1:1             | yes
        time 9                          | yes
        look r - - 9                    | list a/1/1
    ";
    rules_dont_touch_uploads_and_give_no_number: "
        time 1                          | yes
        make r keeps                    | yes
        rules r -:1:1                   | yes
        begin r a                       | number 1
        part r 1 1 x                    | yes
        put r a any y                   | number 2
        time 9                          | yes
        complete r 1 absent             | number 3
        get r a 0 0 1                   | got 3 1 x
    ";
    rules_of_one_room_leave_another_alone: "
        time 1                          | yes
        make r keeps                    | yes
        make s keeps                    | yes
        put r a any x                   | number 1
        put s a any x                   | number 2
        rules r -:1:0                   | yes
        time 9                          | yes
        versions r a                    | list a/0/0 a/1/1
        versions s a                    | list a/2/1
    ";

    // ------------------------------------------------------------ section 6: weights

    weight_of_rooms: "
        weigh                           | 0
        time 1                          | yes
        weigh                           | 0
        make r keeps                    | yes
        weigh                           | 32768
        rules r a:1:1 b:1:1             | yes
        weigh                           | 32768
        make s forgets                  | yes
        weigh                           | 65536
    ";
    weight_of_versions_by_begun_blocks: "
        sectors 65536
        time 1                          | yes
        make r forgets                  | yes
        put r a any -                   | number 1
        weigh                           | 34816
        put r a any x                   | number 2
        weigh                           | 51200
        put r a any x*16383             | number 3
        weigh                           | 51200
        put r a any x*16384             | number 4
        weigh                           | 51200
        put r a any x*16385             | number 5
        weigh                           | 67584
        put r a any x*32768             | number 6
        weigh                           | 67584
        put r a any x*32769             | number 7
        weigh                           | 83968
        put r a any x*5242880           | number 8
        weigh                           | 5277696
    ";
    weight_of_a_mark_with_a_number: "
        time 1                          | yes
        make r keeps                    | yes
        put r a any x                   | number 1
        weigh                           | 51200
        remove r a 0                    | number 2
        weigh                           | 52224
        remove r a 1                    | yes
        weigh                           | 34816
    ";
    weight_of_rules_marks_on_each_other: "
        time 1                          | yes
        make r keeps                    | yes
        rules r -:1:0                   | yes
        put r a any -                   | number 1
        time 3                          | yes
        put r a any -                   | number 2
        time 5                          | yes
        versions r a                    | list a/0/0 a/2/0 a/0/0 a/1/0
        // The room, the thing, two versions; the marks weigh nothing.
        weigh                           | 35840
        remove r a 2                    | yes
        // The upper mark lies on the lower now, and weighs what the version weighed.
        versions r a                    | list a/0/0 a/0/0 a/1/0
        weigh                           | 35840
        remove r a 1                    | yes
        weigh                           | 35840
    ";
    weight_of_a_rules_mark_on_a_mark_with_a_number: "
        time 1                          | yes
        make r keeps                    | yes
        put r a any -                   | number 1
        remove r a 0                    | number 2
        put r a any -                   | number 3
        rules r -:1:0                   | yes
        time 9                          | yes
        versions r a                    | list a/0/0 a/3/0 a/2/0 a/1/0
        weigh                           | 36864
        remove r a 3                    | yes
        versions r a                    | list a/0/0 a/2/0 a/1/0
        weigh                           | 35840
        remove r a 1                    | yes
        weigh                           | 34816
        remove r a 2                    | yes
        versions r a                    | list a/0/0
        weigh                           | 34816
    ";
    a_room_that_doesnt_keep_loses_its_rules_mark_by_a_put: "
        time 1                          | yes
        make r forgets                  | yes
        put r a any -                   | number 1
        hold r a 1 50                   | yes
        remove r a 0                    | number 2
        put r a any -                   | number 3
        versions r a                    | list a/3/0 a/1/0
        rules r -:1:0                   | yes
        time 9                          | yes
        versions r a                    | list a/0/0 a/1/0
        weigh                           | 34816
        put r a any -                   | number 4
        versions r a                    | list a/4/0 a/1/0
    ";
    weight_of_uploads_and_parts: "
        time 1                          | yes
        make r keeps                    | yes
        begin r a                       | number 1
        weigh                           | 33792
        part r 1 1 -                    | yes
        weigh                           | 34816
        part r 1 1 x                    | yes
        weigh                           | 51200
        part r 1 1 x*16384              | yes
        weigh                           | 51200
        part r 1 1 x*16385              | yes
        weigh                           | 67584
        part r 1 9 x                    | yes
        weigh                           | 84992
        abort r 1                       | yes
        weigh                           | 32768
    ";
    completing_makes_nothing_heavier: "
        time 1                          | yes
        make r keeps                    | yes
        begin r a                       | number 1
        part r 1 1 -                    | yes
        weigh                           | 34816
        complete r 1 any                | number 2
        weigh                           | 34816
        begin r a                       | number 3
        part r 3 1 x                    | yes
        part r 3 2 x                    | yes
        weigh                           | 70656
        complete r 3 any                | number 4
        weigh                           | 52224
    ";

    // ------------------------------------------------------------ section 6: full (8,192 sectors: up to 4,194,304)

    full_at_make_a_room: "
        time 1                          | yes
        repeat 128 make r# keeps        | yes
        weigh                           | 4194304
        make s keeps                    | full
        make r1 keeps                   | refused 3
        make - keeps                    | refused 1
        drop r1                         | yes
        make s keeps                    | yes
        make t keeps                    | full
    ";
    full_depends_on_the_sectors: "
        sectors 8193
        time 1                          | yes
        repeat 128 make r# keeps        | yes
        begin r1 a                      | number 1
        begin r1 a                      | full
    ";
    full_depends_on_the_sectors_more: "
        sectors 8224
        time 1                          | yes
        repeat 129 make r# keeps        | yes
        begin r1 a                      | full
    ";
    full_at_put: "
        time 1                          | yes
        repeat 127 make r# keeps        | yes
        weigh                           | 4161536
        put r1 a any x*16385            | full
        put r1 a any x*16384            | number 1
        weigh                           | 4179968
        put r1 b any x                  | full
        put r1 a 7 x                    | refused 4
        put r1 a any x                  | full
        put r1 a any -                  | number 2
        weigh                           | 4180992
        repeat 13 put r1 a any -        | number
        weigh                           | 4194304
        put r1 a any -                  | full
        put r1 b any -                  | full
        put r1 - any -                  | refused 1
        put nowhere a any -             | refused 2
        get r1 a 1 0 1                  | got 1 16384 x
        remove r1 a 2                   | yes
        put r1 a any -                  | number 16
    ";
    full_at_put_counts_what_goes: "
        time 1                          | yes
        repeat 126 make r# keeps        | yes
        make s forgets                  | yes
        put s a any x                   | number 1
        repeat 7 put s k# any -         | number
        weigh                           | 4194304
        // As heavy as what goes, or lighter.
        put s a any y                   | number 9
        put s a any -                   | number 10
        put s a any z                   | number 11
        put s a any z*16385             | full
        hold s a 11 5                   | yes
        put s a any -                   | full
        put s k1 any x                  | full
        put s k1 any -                  | number 12
    ";
    full_at_begin: "
        time 1                          | yes
        repeat 128 make r# keeps        | yes
        begin r1 a                      | full
        begin r1 -                      | refused 1
        begin nowhere a                 | refused 2
    ";
    full_at_part: "
        time 1                          | yes
        repeat 127 make r# keeps        | yes
        begin r1 a                      | number 1
        part r1 1 1 x                   | yes
        part r1 1 2 x                   | full
        part r1 1 2 -                   | yes
        repeat 1 part r1 1 3 -          | yes
        part r1 1 2 x                   | full
        part r1 1 1 x*16385             | full
        part r1 1 1 y*16384             | yes
        part r1 1 1 -                   | yes
        part r1 1 2 z                   | yes
        part r1 1 0 z*16385             | refused 1
        part r1 2 1 z*16385             | refused 2
        complete r1 1 any               | number 2
        get r1 a 0 0 9                  | got 2 1 z
    ";
    full_at_remove_with_number_0: "
        time 1                          | yes
        repeat 127 make r# keeps        | yes
        put r1 a any x                  | number 1
        repeat 7 put r1 k# any -        | number
        weigh                           | 4194304
        remove r1 a 0                   | full
        get r1 a 0 0 1                  | got 1 1 x
        remove r1 k7 8                  | yes
        remove r1 a 0                   | number 9
        remove r1 b 0                   | refused 2
    ";
    remove_that_replaces_is_never_full: "
        time 1                          | yes
        repeat 126 make r# keeps        | yes
        make s forgets                  | yes
        put s a any -                   | number 1
        hold s a 1 9                    | yes
        put s a any x                   | number 2
        repeat 6 put s k# any -         | number
        put s a any y                   | number 9
        repeat 1 begin s z              | number
        weigh                           | 4194304
        // The latest goes, the mark comes: lighter.
        remove s a 0                    | number 11
        weigh                           | 4177920
        versions s a                    | list a/11/0 a/1/0
    ";
    remove_in_a_room_that_doesnt_keep_may_be_full_if_nothing_goes: "
        time 1                          | yes
        repeat 126 make r# keeps        | yes
        make s forgets                  | yes
        put s a any x                   | number 1
        hold s a 1 9                    | yes
        repeat 7 put s k# any -         | number
        weigh                           | 4194304
        remove s a 0                    | full
        time 9                          | yes
        remove s a 0                    | yes
    ";
    complete_when_full: "
        time 1                          | yes
        repeat 127 make r# keeps        | yes
        begin r1 a                      | number 1
        part r1 1 1 x                   | yes
        repeat 7 put r1 k# any -        | number
        weigh                           | 4194304
        complete r1 1 any               | number 9
        weigh                           | 4194304
    ";
    time_when_full: "
        time 1                          | yes
        repeat 127 make r# keeps        | yes
        rules r1 -:1:0                  | yes
        put r1 a any x                  | number 1
        repeat 7 put r1 k# any -        | number
        weigh                           | 4194304
        time 9                          | yes
        weigh                           | 4194304
        versions r1 a                   | list a/0/0 a/1/1
        // A put on top of a rule's mark makes it no heavier, but itself.
        put r1 a any -                  | full
        remove r1 k1 2                  | yes
        versions r1 k1                  | list k1/0/0
        weigh                           | 4194304
    ";
    calls_that_dont_grow_are_answered_when_full: "
        time 1                          | yes
        repeat 127 make r# keeps        | yes
        put r1 a any x                  | number 1
        repeat 7 put r1 k# any -        | number
        look r1 - k6 9                  | list k7/8/0
        hold r1 a 1 9                   | yes
        rules r1 a:5:5                  | yes
        remove r1 a 1                   | refused 6
        drop r2                         | yes
        abort r1 1                      | refused 2
    ";

    // ------------------------------------------------------------ built

    nothing_is_built: "
        built nothing
        time 1                          | refused 12
        make r keeps                    | refused 12
        bytes 00000005 00000009 0e      | refused 12
        bytes 00000005 00000009 0f      | refused 10
        bytes                           | refused 10
        bytes 00 | refused 10
    ";
    only_the_time_is_built: "
        built time
        make r keeps                    | refused 12
        put r a any x                   | refused 12
        bytes 00000005 00000009 0e      | refused 1
        bytes 00000005 00000009 01      | refused 12
        bytes 00000000 00000009 0d      | refused 12
        bytes 00000005 00000009 0f      | refused 10
        bytes 00000005 00000009 00      | refused 10
        time 0                          | refused 1
        time 5                          | yes
        time 5                          | yes
        make r keeps                    | refused 12
        get r a 0 0 1                   | refused 12
        rules r                         | refused 12
        bytes 00000005 00000009 0f      | refused 1
        bytes                           | refused 1
    ";
    the_core_is_built: "
        built core
        versions r a                    | refused 12
        get r a 1 0 1                   | refused 12
        remove r a 1                    | refused 12
        get r a 0 0 1                   | refused 10
        bytes 00000005 00000009 04      | refused 10
        bytes 00000005 00000009 07      | refused 12
        time 1                          | yes
        make r keeps                    | yes
        put r a any x                   | number 1
        put r a 1 y                     | number 2
        get r a 0 0 1                   | got 2 1 y
        get r a 1 0 1                   | refused 12
        get r a 1 0 5242881             | refused 12
        get r a 0 0 5242881             | refused 1
        bytes 00000005 00000009 04      | refused 1
        remove r a 1                    | refused 12
        remove nowhere a 1              | refused 12
        remove r a 0                    | number 3
        look r - - 9                    | list
        drop r                          | refused 5
        versions r a                    | refused 12
        begin r a                       | refused 12
        part r 1 1 x                    | refused 12
        complete r 1 any                | refused 12
        abort r 1                       | refused 12
        hold r a 1 1                    | refused 12
        rules r                         | refused 12
        part r 1 0 x                    | refused 12
    ";
    not_built_comes_before_numbers_used_up: "
        built core
        time 1                          | yes
        next 4611686018427387904
        versions r a                    | refused 12
        get r a 1 0 1                   | refused 12
        get r a 0 0 1                   | refused 8
    ";

    // ------------------------------------------------------------ section 8: lines

    lines_too_short: "
        time 1                          | yes
        bytes                           | refused 1
        bytes 00                        | refused 1
        bytes 000000                    | refused 1
        bytes 00000000                  | refused 1
        bytes 00000003 000007           | refused 1
        bytes 00000004 00000007         | refused 1
        bytes 0000000d 00000007         | refused 1
    ";
    lines_with_a_wrong_length: "
        time 1                          | yes
        bytes 0000000c 00000007 0e 0000000000000064 | refused 1
        bytes 0000000e 00000007 0e 0000000000000064 | refused 1
        bytes ffffffff 00000007 0e 0000000000000064 | refused 1
        bytes 0000000d 00000007 0e 0000000000000064 | yes
    ";
    lines_of_a_kind_that_isnt: "
        time 1                          | yes
        bytes 00000005 00000007 00      | refused 1
        bytes 00000005 00000007 0f      | refused 1
        bytes 00000005 00000007 ff      | refused 1
    ";
    lines_with_bytes_missing_or_left_over: "
        time 1                          | yes
        bytes 0000000c 00000007 0e 00000000000064 | refused 1
        bytes 0000000e 00000007 0e 0000000000000064 00 | refused 1
        bytes 00000007 00000007 01 0172 | refused 1
        bytes 00000009 00000007 01 0172 01 00 | refused 1
        bytes 00000008 00000007 01 0272 01 | refused 1
        bytes 00000008 00000007 01 0172 01 | yes
        bytes 00000010 00000007 03 0172 0161 00 00000003 6869 | refused 1
        bytes 00000010 00000007 03 0172 0161 00 00000001 6869 | refused 1
        bytes 00000010 00000007 03 0172 0161 00 ffffffff 6869 | refused 1
        bytes 00000010 00000007 03 0172 0161 00 00000002 6869 | number 1
        bytes 00000008 00000007 0d 0172 01 | refused 1
    ";
    lines_with_a_wrong_keeps: "
        time 1                          | yes
        bytes 00000008 00000007 01 0172 02 | refused 1
        bytes 00000008 00000007 01 0172 ff | refused 1
        bytes 00000008 00000007 01 0172 00 | yes
    ";
    lines_with_a_wrong_expected: "
        time 1                          | yes
        make r keeps                    | yes
        bytes 0000000e 00000007 03 0172 0161 03 00000000 | refused 1
        bytes 0000000e 00000007 03 0172 0161 ff 00000000 | refused 1
        bytes 0000000e 00000007 03 0172 0161 02 00000000 | refused 1
        bytes 0000000e 00000007 03 0172 0161 01 00000000 | number 1
        bytes 00000016 00000007 03 0172 0161 02 0000000000000001 00000000 | number 2
    ";
    lines_longer_than_the_memory_that_is_lent: "
        longest 20
        time 1                          | yes
        make r keeps                    | yes
        bytes 00000010 00000007 03 0172 0161 00 00000002 6869 | number 1
        bytes 00000011 00000007 03 0172 0161 00 00000003 686969 | refused 1
        longest 16
        time 5                          | refused 1
    ";
    lines_of_no_call_get_their_tag: "
        time 1                          | yes
        bytes ffffffff deadbeef         | refused 1
        bytes 00000000 deadbeef 0e      | refused 1
        bytes ffffffff deadbe           | refused 1
    ";
    values_out_of_range_make_a_call: "
        time 1                          | yes
        bytes 00000007 00000007 01 00 01 | refused 1
        bytes 0000000d 00000007 0e 8000000000000000 | refused 1
        make r keeps                    | yes
        bytes 00000013 00000007 09 0172 0000000000000001 4e20 00000000 | refused 1
        bytes 0000000b 00000007 06 0172 00 00 ffff | refused 1
    ";
    names_of_length_0_are_well_formed: "
        time 1                          | yes
        bytes 00000006 00000007 02 00   | refused 2
        bytes 00000007 00000007 07 00 00 | refused 2
    ";
}
