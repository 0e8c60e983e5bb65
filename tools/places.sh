#!/usr/bin/env bash
# Lists, in the sources of a commit (this tree's, where none is named), the lines at which an older form may
# stand: tools/places.sh [COMMIT] [POINT]. With no point it counts the lines of each point.
set -euo pipefail

cd "$(dirname "$0")/.."
commit=${1:-HEAD}
point=${2:-}
here() { git grep -nE "$1" "$commit" -- 'crates/*/src/*.rt' | sed "s/^$commit://" || true; }
twice() { git grep -ohE '\bfn [a-z_]+' "$commit" -- 'crates/*/src/*.rt' | sort | uniq -c | awk '$1 > 1'; }
clauses() { git grep -ohE '^ +(requires|ensures)[^{]*\{.*\}' "$commit" -- 'crates/*/src/*.rt' | sed -E 's/^ +(requires|ensures)\*? *[a-z_]* *//' | sort | uniq -c | awk '$1 > 1'; }

# 1: own enums, answers that are a bool, flags, arms that give a number
one() { here '\benum |-> bool|: bool\b|=> [0-9]+,$'; }
# 2: functions of one name
two() { twice; }
# 3: loops, counts by hand
three() { here '\b(while|loop)\b.*\{|\bfor .* in |\+= 1;'; }
# 4: conversions, numbers of kinds, texts of kinds, comparisons field by field
four() { here ' as (u8|u16|u32|u64|usize)\b|fn (number|of|notice|reason|name_of|cause|at|rate_of|same_rate|is_chosen|is_only|length_of)\b'; }
# 5: a clause that stands more than once, and a premise about a server
five() { clauses; here '\bsound\b.*→'; }
# 6: arrays, counts and places beside them
six() { here '\[[A-Za-z_<>0-9]+; [A-Z0-9]+\]|pub(\(crate\))? (count|len|length|place): (u8|usize)'; }
# 7: function pointers, dyn, a match on a step
seven() { here '\bdyn |Box<|: fn\(|match (self\.)?(place|kind|header\.kind|question|call)\b'; }

case $point in
    1) one ;; 2) two ;; 3) three ;; 4) four ;; 5) five ;; 6) six ;; 7) seven ;;
    *) for p in one two three four five six seven; do echo "$p: $($p | wc -l)"; done ;;
esac
