#!/usr/bin/env bash
# For must-fail edits of crate `meaning`: with the edit made, the negation of the law is proved, from a run in a few calls.
# So it is the law that the edit breaks, and not the form of a proof. Not part of ./test; about ten seconds for each.
# Usage: tests/refuted.sh [EDIT..]
set -u
cd "$(dirname "$0")/.." || exit 1
. tests/common.sh
need rt "the Rattle kit: put the folder with its 'rt' on the PATH"

work=$(mktemp -d) || exit 1
trap 'rm -rf "$work"' EXIT
wanted=" $* "

# refuted EDIT LAW, and on standard input the proof of `LAW → ⊥` as `refuted`
refuted() {
    local edit=$1 law=$2 dir="$work/$1/$2/crates/meaning" log="$work/$1/$2/log" proof
    proof=$(cat)
    [ "$wanted" = "  " ] || [[ $wanted == *" $edit "* ]] || return
    mkdir -p "$dir/proofs/refuted" && cp -r crates/meaning/specs crates/meaning/must-fail "$dir" && mkdir "$dir/src" && printf 'meaning:\n' > "$work/$edit/$law/crates.txt"
    local text="$dir/must-fail/$edit.edit" file old new whole
    file=$(sed -n 's/^file: //p' "$text") old=$(sed -n 's/^old: //p' "$text") new=$(sed -n 's/^new: //p' "$text")
    whole=$(cat "$dir/$file")
    printf '%s\n' "${whole/"$old"/"$new"}" > "$dir/$file"
    printf 'use Rattle.meaning.specs.Laws.{%s}\n\nabbrev pub Refuted : Type 0\nRefuted = %s → ⊥\n' "$law" "$law" > "$dir/specs/Refuted.antt"
    [ "$law" = ExamplesPlay ] && sed -i 's/specs.Laws/specs.Examples/' "$dir/specs/Refuted.antt"
    printf 'pub mod Refuted\n' >> "$dir/specs/Lib.antt"
    printf '#![tactic(auto)]\n\nghost use Rattle.meaning.specs.Refuted.{Refuted};\n\npub fn refuted()\n    ensures { Refuted }\n{}\n' > "$dir/src/lib.rt"
    printf 'pub mod Refutes\n' > "$dir/proofs/Lib.antt"
    printf 'use Rattle.meaning.proofs.Refutes.{refuted}\nuse Rattle.meaning.proofs.refuted.Goals as goal\n\npub returns : goal.returns\nreturns c = refuted\n' > "$dir/proofs/refuted/Answers.antt"
    { cat "$work/prelude"; printf '\n%s\n' "$proof"; } > "$dir/proofs/Refutes.antt"
    (cd "$dir" && rt check) > "$log" 2>&1
    same "$edit: $law is false" "0, fn meaning::refuted: proved" "$?, $(grep '^fn ' "$log")"
    grep 'error:' "$log" | cut -c1-300
}

cat > "$work/prelude" <<'P'
use Rattle.std.proofs.Common.{◌≡◌, ℕ, zero, suc, ◌+◌, ◌<◌, ◌≤◌, Bool, true, false, not, T, ◌⊎◌, List, [], ◌∷◌, length, sym, refl, ap, ◌∙◌, inl, inr, arith}
use mathlib.Core.List.{Memᴰ}
use mathlib.Core.List.Memᴰ
use Rattle.std.proofs.lemmas.Bool.{true≢false}
use Rattle.meaning.specs.Lists.{Name, some, every, keep, find, change, first_of, drop_of, none, less, begins}
use Rattle.meaning.specs.Rooms.{Body, Bytes, Removed, Version, Object, Rule, Room, State, blank, Any, Absent, Call, MakeRoom, DropRoom, Put, Get, Remove, Look, Hold, SetRules, Tick, Shown, Reply, No, Full}
use Rattle.meaning.specs.Does.{does, is_held, at', versions_of, set_object, is_removed, bytes_of, current, num_of, meets, in_room_or, gets, removes_one, shown_of, all_shown, set_part, gapless, joined, parts_put, completes, unless_no, aborts, holds, old_kept, tidy, covered, aged, kept, aged_objects, acts, is_tick}
use Rattle.meaning.specs.Weights.{weight, less_by, blocks, versions_weight, objects_weight, uploads_weight, rooms_weight}
use Rattle.meaning.specs.Answers.{Answers, says_so, Refuses, no}
use Rattle.meaning.specs.Laws.{Run, still, onward, versions_in, StillIn, MayGo, by_newer, by_rule, OnTopOf, here, below, DueBy, as_latest, as_older, Grows, InRoom, shown}
use Rattle.meaning.specs.Examples.{plays, same_reply, same_shown}
use Rattle.meaning.specs.Refuted.{Refuted}

-- the state after these calls, the last one first
abbrev after : List Call → State
after [] = blank
after (c ∷ cs) = (does c (after cs)).state

run : (cs : List Call) → Run blank (after cs)
run [] = still
run (c ∷ cs) = onward c (run cs)

abbrev r : Name
r = 114 ∷ []

abbrev a : Name
a = 97 ∷ []

abbrev b : Name
b = 98 ∷ []

abbrev made : Bool → List Call
made keeps = MakeRoom r keeps ∷ Tick 1 ∷ []

abbrev ruled : (lasts old_lasts : ℕ) → Call
ruled l o = SetRules r (record { prefix = []; lasts = l; old_lasts = o } ∷ [])

-- put at 1, with one byte
abbrev one : (num byte held : ℕ) → Version
one n x h = record { num = n; body = Bytes (x ∷ []); at = 1; held = h }

abbrev put : Name → ℕ → Call
put k x = Put r k (x ∷ []) Any
P
U='unfolding some every keep find change first_of drop_of none less begins versions_of set_object is_removed bytes_of current num_of meets in_room_or gets removes_one shown_of holds old_kept tidy covered aged kept aged_objects acts is_tick'

refuted full_for_dropping FullOnly <<P
abbrev cs : List Call
cs = put a 7 ∷ made true

none_such : Grows (DropRoom r) → ⊥
none_such h = elim h [ ]

pub refuted : Refuted
$U
refuted law = none_such (law (λ _. true) 0 (after cs) (after cs) (DropRoom r) Full (run cs) (says_so (DropRoom r) (after cs) tt) refl)
P

refuted full_for_getting FullOnly <<P
abbrev cs : List Call
cs = put a 7 ∷ made true

none_such : Grows (Get r a 0 0 10) → ⊥
none_such h = elim h [ ]

pub refuted : Refuted
$U
refuted law = none_such (law (λ _. true) 0 (after cs) (after cs) (Get r a 0 0 10) Full (run cs) (says_so (Get r a 0 0 10) (after cs) tt) refl)
P

refuted get_one_off ExamplesPlay <<P
pub refuted : Refuted
$U all_shown set_part gapless joined parts_put completes unless_no aborts plays same_reply same_shown
refuted law = law
P

refuted held_is_removed HeldStays <<P
abbrev cs : List Call
cs = Hold r a 1 100 ∷ put a 7 ∷ made true

pub refuted : Refuted
$U
refuted law = Memᴰ.not-nil ((law (after cs) (after (Remove r a 1 ∷ cs)) (run cs) (onward (Remove r a 1) still) r a (one 1 7 100) (Memᴰ.head refl) tt).there)
P

refuted hold_by_at_most HoldEnds <<P
abbrev cs : List Call
cs = Tick 100 ∷ Hold r a 1 100 ∷ put a 7 ∷ made true

pub refuted : Refuted
$U
refuted law = omega (arith, law (after cs) (run cs) r a (one 1 7 100) (Memᴰ.head refl) (omega arith) refl)
P

refuted hold_ends_early HeldUntil <<P
abbrev cs : List Call
cs = Hold r a 1 100 ∷ put a 7 ∷ made true

pub refuted : Refuted
$U
refuted law = Memᴰ.not-nil ((law (after cs) (after (Remove r a 1 ∷ Tick 99 ∷ cs)) (run cs) (onward (Remove r a 1) (onward (Tick 99) still)) r a (one 1 7 100) (Memᴰ.head refl) (omega arith)).there)
P

refuted hold_shrinks NumbersTell <<P
abbrev cs : List Call
cs = Hold r a 1 100 ∷ put a 7 ∷ made true

pub refuted : Refuted
$U
refuted law = omega (arith, (law (after cs) (after (Hold r a 1 50 ∷ cs)) (run cs) (onward (Hold r a 1 50) still) r r a a (one 1 7 100) (one 1 7 50) (Memᴰ.head refl) (Memᴰ.head refl) (omega arith) refl).held)
P

refuted kept_ones_go Stays <<P
abbrev cs : List Call
cs = put a 7 ∷ made true

-- what is there is number 2
gone : StillIn (one 1 7 0) (record { num = 2; body = Bytes (8 ∷ []); at = 1; held = 0 } ∷ []) → ⊥
gone i = let e = ap (λ (v : Version). v.num) (Memᴰ.eq_of_singleton i.there) in omega (arith, e, i.num)

pub refuted : Refuted
$U
refuted law = go (law (after cs) (put a 8) (run cs) r a (one 1 7 0) (7 ∷ []) (Memᴰ.head refl) refl)
  where
    go : StillIn (one 1 7 0) (record { num = 2; body = Bytes (8 ∷ []); at = 1; held = 0 } ∷ []) ⊎ (MayGo (after cs) r a (one 1 7 0) (put a 8) × T (not (is_held 1 (one 1 7 0)))) → ⊥
    go (inl i) = gone i
    go (inr (by_newer bs x e, _)) = true≢false e
P

for edit in list_cut_short list_leaves_out_first; do
    refuted $edit ListExact <<P
abbrev cs : List Call
cs = put a 7 ∷ made true

abbrev thing : Object
thing = record { key = a; versions = one 1 7 0 ∷ [] }

abbrev room : Room
room = record { name = r; keeps = true; rules = []; objects = thing ∷ []; uploads = [] }

pub refuted : Refuted
$U
refuted law = Memᴰ.not-nil ((law (after cs) (run cs) r [] [] 10 room [] refl refl).none_left_out _ (shown thing (one 1 7 0) [] (Memᴰ.head refl) refl (7 ∷ []) refl tt tt) (omega arith))
P
done

refuted mark_weighs WeightGrows <<P
abbrev cs : List Call
cs = ruled 5 0 ∷ put a 7 ∷ made true

none_such : Grows (Tick 10) → ⊥
none_such h = elim h [ ]

pub refuted : Refuted
$U less_by blocks versions_weight objects_weight uploads_weight rooms_weight
refuted law = none_such (law (after cs) (Tick 10) (run cs) (omega arith))
P

refuted number_not_counted NumbersRise <<P
pub refuted : Refuted
$U
refuted law = let e : ◌≡◌ {A = ℕ} 1 2 = (law (after (made true)) (put a 7) (run (made true))).counts 1 refl in omega (arith, e)
P

refuted older_counts_from_its_own SameTimeAgain <<P
abbrev cs : List Call
cs = ruled 5 5 ∷ put a 7 ∷ made true

abbrev things : List Room → ℕ
things [] = 0
things (r ∷ rs) = length r.objects

pub refuted : Refuted
$U
refuted law = let e : ◌≡◌ {A = ℕ} 0 1 = ap (λ (s : State). things s.rooms) (law (after cs) 10 (run cs)) in omega (arith, e)
P

refuted older_counts_from_its_own Stays <<P
abbrev rule : Rule
rule = record { prefix = []; lasts = 0; old_lasts = 10 }

abbrev late : Version
late = record { num = 2; body = Bytes (8 ∷ []); at = 20; held = 0 }

abbrev room : Room
room = record { name = r; keeps = true; rules = rule ∷ []; objects = record { key = a; versions = late ∷ one 1 7 0 ∷ [] } ∷ []; uploads = [] }

abbrev cs : List Call
cs = put a 8 ∷ Tick 20 ∷ put a 7 ∷ ruled 0 10 ∷ made true

-- what lies on top of number 1 came at 20
top_at : (w : Version) (vs : List Version) → vs ≡ late ∷ one 1 7 0 ∷ [] → OnTopOf w (one 1 7 0) vs → w.at ≡ 20
top_at w vs e here = let x : w ≡ late = cc in rw x refl
top_at w vs e (below {u = u} {vs = ws} o) = let x : ws ≡ one 1 7 0 ∷ [] = cc in absurd (nothing ws x o)
  where
    empty : (us : List Version) → us ≡ [] → OnTopOf w (one 1 7 0) us → ⊥
    empty us e here = let z : ◌≡◌ {A = ℕ} 0 1 = cc in omega arith
    empty us e (below o) = let z : ◌≡◌ {A = ℕ} 0 1 = cc in omega arith

    nothing : (us : List Version) → us ≡ one 1 7 0 ∷ [] → OnTopOf w (one 1 7 0) us → ⊥
    nothing us e here = let z : ◌≡◌ {A = ℕ} 0 1 = cc in omega arith
    nothing us e (below {vs = ws} o) = let x : ws ≡ [] = cc in empty ws x o

pub refuted : Refuted
$U
refuted law = go (law (after cs) (Tick 21) (run cs) r a (one 1 7 0) (7 ∷ []) (Memᴰ.tail (Memᴰ.head refl)) refl)
  where
    not_due : (q : Room) (x : Rule) → q ≡ room → x ≡ rule → DueBy 21 q.keeps x (one 1 7 0) (at' a q) → ⊥
    not_due q x p y (as_latest ws e k d) = true≢false (rw p at k)
    not_due q x p y (as_older w o d) = let e : w.at ≡ 20 = top_at w (at' a q) (rw p refl) o in rw (y, e) at d

    go : StillIn (one 1 7 0) (late ∷ []) ⊎ (MayGo (after cs) r a (one 1 7 0) (Tick 21) × T (not (is_held 21 (one 1 7 0)))) → ⊥
    go (inl i) = let e = ap (λ (v : Version). v.num) (Memᴰ.eq_of_singleton i.there) in omega (arith, e, i.num)
    go (inr (by_rule t q x e f d, _)) =
        let e' : room ∷ [] ≡ q ∷ [] = e in
        let p : q ≡ room = cc in
        let f' : rule ∷ [] ≡ x ∷ [] = rw p at f in
        let y : x ≡ rule = cc in
        not_due q x p y d
P

# one more than the 256 of one byte
refuted one_room_too_many StaysInBounds <<P
abbrev many : ℕ → List Call
many zero = Tick 1 ∷ []
many (suc n) = MakeRoom (n ∷ []) true ∷ many n

abbrev cs : List Call
cs = MakeRoom (0 ∷ 0 ∷ []) true ∷ many 256

pub refuted : Refuted
$U
refuted law = omega (arith, (law (after cs) (run cs)).few_rooms)
P

refuted refusal_counts RefusalsChangeNothing <<P
abbrev cs : List Call
cs = put a 7 ∷ made true

abbrev again : Call
again = Put r a (8 ∷ []) Absent

pub refuted : Refuted
$U
refuted law = let e : ◌≡◌ {A = ℕ} 3 2 = ap (λ (s : State). s.next) (law (λ _. true) 0 again (after cs) _ (No 4) (says_so again (after cs) tt) (no 4)) in omega (arith, e)
P

refuted rule_looks_at_next RulesAlone <<P
abbrev cs : List Call
cs = ruled 5 0 ∷ put b 8 ∷ put a 7 ∷ made false

pub refuted : Refuted
$U
refuted law = let e : ◌≡◌ {A = ℕ} 0 1 = ap length (law (after cs) 10 (run cs) r a) in omega (arith, e)
P

refuted rule_takes_held_older HeldStays <<P
abbrev cs : List Call
cs = Hold r a 1 100 ∷ put a 8 ∷ put a 7 ∷ ruled 0 10 ∷ made true

pub refuted : Refuted
$U
refuted law = go (law (after cs) (after (Tick 21 ∷ cs)) (run cs) (onward (Tick 21) still) r a (one 1 7 100) (Memᴰ.tail (Memᴰ.head refl)) (omega arith))
  where
    go : StillIn (one 1 7 100) (one 2 8 0 ∷ []) → ⊥
    go i = let e = ap (λ (v : Version). v.num) (Memᴰ.eq_of_singleton i.there) in omega (arith, e, i.num)
P

if [ "$wanted" = "  " ]; then
    for edit in crates/meaning/must-fail/*.edit; do
        edit=$(basename "$edit" .edit)
        same "an entry for $edit" yes "$([ -d "$work/$edit" ] && echo yes)"
    done
fi
printf '%s passed, %s failed\n' "$passed" "$failed"
[ "$failed" -eq 0 ] && [ "$passed" -gt 0 ]
