#!/usr/bin/env bash
# Lists the places of the design pass in src/, a line each, after the letter that docs/DESIGN-PASS.md gives them.
# Usage: tools/places.sh [--count], at the top of a checkout.
set -u
cd "$(dirname "$0")/.." || exit 2

# 1: own enums that have a case for nothing, refusals as an Option, outcomes as a Boolean, numbers for kinds or for nothing
point_1() {
    grep -nE '^ +(None|Nothing),$' crates/*/src/*.rt | sed 's/^/1a /'
    grep -nE -e '-> Option<[A-Za-z:]*Fault' crates/*/src/*.rt | sed 's/^/1b /'
    grep -nE 'if !show\(|fn after\(all: bool\)' crates/*/src/*.rt | sed 's/^/1c /'
    grep -nE 'fn (value_number|number)\((value|self|kind)|== [a-z_.]*number\(\)|side: usize|\[0u16; |first: usize, bytes' crates/*/src/*.rt | sed 's/^/1d /'
}

# 3: loops over numbers, and loops that move a number
point_3() {
    grep -nE '^ +while |^ +for [a-z_]+ in .*\.\.' crates/*/src/*.rt | sed 's/^/3a /'
}

# 4: equality, order, copying, printing and conversion by hand
point_4() {
    grep -nE '^impl.* (PartialEq|Eq|PartialOrd|Ord|Clone|Copy|fmt::Debug|Debug) for' crates/*/src/*.rt | sed 's/^/4a /'
    grep -nE 'if a \{ b \} else \{ !b \}' crates/*/src/*.rt | sed 's/^/4b /'
    grep -nE 'fn ([a-z]+_)?typed\(|fn (from_number|from_name|plain_ident|constant_kind|value_of|kind_of|details)\(|fn number\(kind|fn (ident|span)\(self\)|fn position\(self\) -> Option<Position>' crates/*/src/*.rt | sed 's/^/4c /'
    grep -nE '^impl.* (fmt::Display|From<.*>|TryFrom<.*>) for' crates/*/src/*.rt | sed 's/^/4d /'
}

# 5: clauses that stand in three or more contracts
point_5() {
    grep -hoE '(requires|ensures)( [a-z_]+)? \{.*\}' crates/*/src/*.rt | sed -E 's/^(requires|ensures)( [a-z_]+)? /\1 /' | sort | uniq -c | sort -rn | awk '$1 >= 3' | sed 's/^/5a /'
}

# 6: buffers, arrays and lists held by a type, and arrays made in a body
point_6() {
    grep -nE '^ +(pub(\(crate\))? )?[a-z_]+: (&.a (mut )?\[|Vec<|\[[a-z0-9]+; )' crates/*/src/*.rt | grep -v '_tests/' | sed 's/^/6a /'
    grep -nE '^ +(pub(\(crate\))? )?(len|count|used|linked|top|first|start): (usize|u16)' crates/*/src/*.rt | sed 's/^/6b /'
    grep -nE '= \[[^]]*; [A-Z_0-9]+\];' crates/*/src/*.rt | grep -v '_tests/' | sed 's/^/6c /'
}

# 7: traits of our own by which a step is chosen, and the types that carry one
point_7() {
    grep -nE '^ *(pub(\(crate\))? )?trait ' crates/*/src/*.rt | sed 's/^/7a /'
    grep -nE '^impl.* (Test|Named)(<.*>)? for' crates/*/src/*.rt | sed 's/^/7b /'
}

# 8: answers and lemmas
point_8() {
    find crates/*/proofs -name Answers.antt | sort | sed 's/^/8a /'
    grep -nE '^(pub )?[a-z_A-Z0-9-]+ : goal\.' $(find crates/*/proofs -name Answers.antt) | sed 's/^/8b /'
    grep -nE '^( *)(pub )?[a-zA-Z][a-z_A-Z0-9≡+-]* : ' crates/*/proofs/*.antt | sed 's/^/8c /'
}

all() { point_1; point_3; point_4; point_5; point_6; point_7; point_8; }

if [ "${1:-}" = --count ]; then
    all | cut -d' ' -f1 | sort | uniq -c
else
    all
fi
