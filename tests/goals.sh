# Sourced by the gate. renamed_goals reads lines of rt ci on edits that leave a goal unanswered,
#     rt: must-fail CRATE/EDIT.edit: refused, as it must be: note: src/FILE:LINE:..: .. (`GOAL`)..
# and prints those of which the code without the edit has no such goal, in the function around that line (an edit moves no line), or below it where the
# line is an attribute's. The checker writes which goals the functions of a crate have, each with all its clauses. A line that cannot be taken apart is
# printed too.
goals=target/goals

# function_at LINE FILE
function_at() {
    awk -v at="$1" '
        NR == at && /^ *#\[/ { above = 1 }
        /^ *([a-z()]+ )*(extern "C" )?fn [a-z0-9_]+/ {
            if (NR > at && !above) exit
            name = $0
            sub(/^.*fn /, "", name)
            sub(/[^a-z0-9_].*/, "", name)
            if (NR > at) exit
        }
        END { print name }' "$2"
}

has_goal() {
    [ -f "$goals/$1/names.json" ] || (cd "crates/$1" && rt check --generated "$OLDPWD/$goals/$1" --old-names) >/dev/null </dev/null
    awk -v RS='"Rattle-' -v crate="$1-proofs." -v of="$2" -v goal="\"$3\"]" '
        { split($0, key, "\"") }
        index(key[1], crate) == 1 && key[1] ~ "[.]" of "[.]Lts$" && index($0, goal) { found = 1 }
        END { exit !found }' "$goals/$1/names.json"
}

renamed_goals() {
    rm -rf "$goals"
    while IFS= read -r told; do
        crate=${told#rt: must-fail }
        place=${told#*: note: }
        line=${place#*:}
        goal=${told##*(\`}
        function=$(function_at "${line%%:*}" "crates/${crate%%/*}/${place%%:*}")
        goal=${goal%%\`)*}
        has_goal "${crate%%/*}" "$function" "${goal%-clause-*}" || echo "$told"
    done
}
