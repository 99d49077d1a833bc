#!/usr/bin/env bash
# Counts, in crates/*/src and proofs, the places that docs/DESIGN-PASS.md tells of, point by point.
# With -l it lists them. Each count is one grep, so that it can be read and run again.
set -euo pipefail
cd "$(dirname "$0")/.."
list=${1:-}
count() { # name, grep arguments..
    local name=$1
    shift
    if [ "$list" = "-l" ]; then
        echo "== $name"
        grep -rnE --include='*.rt' "$@" crates/*/src || true
    else
        printf '%-4s %5d\n' "$name" "$(grep -rnE --include='*.rt' "$@" crates/*/src | wc -l)"
    fi
}
# 1: a field that says whether others count; a case that carries a refusal's number; a case that says "nothing" or "not"; a match on a number for a kind; a number compared with a kind
count 1a '^ +pub (refusal|found|empty|good|due|zero|text): (u32|bool),'
count 1b '^ +(Refused|Fault)\(u32'
count 1c '^ +(Nothing|Done|End|Stuck)\b.*,$'
count 1d '^ +[0-9]+ => '
count 1e 'if (policy|number|q|k|late|refusal) (==|!=) [0-9]+ \{'
# 2: functions that stand under one name in two crates that are no programs, or one more time in a program
if [ "$list" = "-l" ]; then
    echo '== 2'
    grep -rhoE --include='*.rt' '^(pub(\(crate\))? )?fn \w+' crates/*/src | sed -E 's/.*fn //' | sort | uniq -c | awk '$1 > 1 && $2 != "main"'
else
    printf '%-4s %5d\n' 2 "$(grep -rhoE --include='*.rt' '^(pub(\(crate\))? )?fn \w+' crates/*/src | sed -E 's/.*fn //' | sort | uniq -c | awk '$1 > 1 && $2 != "main" { n += $1 } END { print n + 0 }')"
fi
# 3: loops that are no `for`
count 3 '^ *(\x27\w+: )?(while .*|loop) \{'
# 4: equality, copying, filling and conversion by hand
count 4 'fn (same|same_tasks|same_home|copy|clear|is_clear|kind|wide|length_of|none|no_state|no_home|least|tasks_of)\b'
# 5: clauses that say again that the table is right, that a home is right, that a queue has at most six, that a matrix is workable
count 5a 'RightTable model\.now'
count 5b 'requires .*RightHome \('
count 5c 'requires .*count . 6'
count 5d 'requires .*Workable '
# 6: an array by value and a number that says how much of it counts, in one header; fields that are parallel arrays
count 6a 'fn .*: (Tasks|Jobs|Variables|Positions|Numbers|\[\w+; \d+\]), (count|n|given): (u32|usize)'
count 6b '^ +pub (tasks|sums|ages|below|low|high|beaten): '
# 7: a match on the kind of step
count 7 'match kind \{'
# 8: lines of proofs, and answers
printf '%-4s %5d lines of answers and invariants\n' 8a "$(find crates/*/proofs \( -name Answers.antt -o -name Invariants.antt \) -exec cat {} + | wc -l)"
printf '%-4s %5d answers\n' 8b "$(find crates/*/proofs -name Answers.antt -exec grep -hE '^pub .* : goal\.' {} + | wc -l)"
printf '%-4s %5d measures\n' 8c "$(find crates/*/proofs -name Invariants.antt -exec grep -hE '^abbrev pub decreases' {} + | wc -l)"
