#!/usr/bin/env bash
# Wrong bodies beside those of the gate: trials/wrong_bodies/CRATE/*.edit, in the form of must-fail edits. Each has to be refused
# by the check of CRATE; or, where its first line is '# refused by tests: NAME' or '# refused by run: NAME', by the tests of the
# crate NAME or by its stored run. They are tried in a clone of the last commit: what isn't committed isn't tried.
# Run it before a change is handed in: trials/wrong_bodies.sh [CRATE..], or of all crates that have edits here. What the checkout
# has built of the crates below these is taken over; rt proves a crate anew where a text of it, or of one below it, differs.
set -euo pipefail
top=$(git -C "$(dirname "$0")" rev-parse --show-toplevel)
room=$(mktemp -d)
trap 'rm -rf "$room"' EXIT
git clone -q "$top" "$room/jass"
cd "$room/jass"
if [ $# = 0 ]; then
    for folder in trials/wrong_bodies/*/; do
        set -- "$@" "$(basename "$folder")"
    done
fi

# Takes over what the checkout has built of the crates that a crate stands on.
declare -A taken=()
take_below() {
    local below built
    for below in $(sed -n "s/^$1:\(.*\)/\1/p" crates.txt); do
        built=$top/crates/$below/out/rlib
        [ -z "${taken[$below]-}" ] && [ -d "crates/$below" ] || continue
        taken[$below]=yes
        [ ! -d "$built" ] || (mkdir -p "crates/$below/out" && cp -a "$built" "crates/$below/out")
        take_below "$below"
    done
}

for crate in "$@"; do
    take_below "$crate"
done
refused=0 missed=0

# Counts an edit, by what came of it. One that is refused for a name alone is shown: it says little of the contract.
count() {
    case $2 in
    *'(only because'*) refused=$((refused + 1)) && echo "$1: $2" ;;
    refused*) refused=$((refused + 1)) ;;
    *) missed=$((missed + 1)) && echo "$1: $2" ;;
    esac
}

# Puts the new texts of an edit in place of the old ones; false where one isn't there.
apply() {
    local crate=${1%%/*} line file='' old='' new text
    while IFS= read -r line; do
        case $line in
        'file: '*) file=crates/$crate/${line#file: } ;;
        'old: '*) old=${line#old: } ;;
        'new:'*)
            new=${line#new:} new=${new# } text=$(<"$file")
            [[ $text == *"$old"* ]] || return 1
            printf '%s\n' "${text/"$old"/"$new"}" >"$file"
            ;;
        esac
    done <"trials/wrong_bodies/$1"
}

# Whether the tests of a crate pass.
tests() (
    cd "crates/$1"
    rt try --test >"$room/said" 2>&1
)

# Whether a program ends and prints as it should, on what stands beside its src.
run() (
    cd "crates/$1"
    words=() files=() input=/dev/null output=/dev/null wanted=0 status=0
    [ ! -f args ] || mapfile -t words <args
    [ ! -f stdin ] || input=stdin
    [ ! -f stdout ] || output=stdout
    [ ! -f status ] || wanted=$(<status)
    for file in data/*; do
        [ ! -f "$file" ] || files+=(--data "${file#data/}=$file")
    done
    rt try "${files[@]}" -- "${words[@]}" <"$input" >"$room/output" 2>"$room/said" || status=$?
    [ "$status" = "$wanted" ] && cmp -s "$output" "$room/output"
)

proved=() ran=()
for crate in "$@"; do
    rm -rf "crates/$crate/must-fail"
    mkdir "crates/$crate/must-fail"
    for edit in trials/wrong_bodies/"$crate"/*.edit; do
        if grep -q '^# refused by ' "$edit"; then
            ran+=("$crate/$(basename "$edit")")
            take_below "$(sed -n '1s/.*: //p' "$edit")"
        else
            proved+=("$crate/$(basename "$edit")")
            cp "$edit" "crates/$crate/must-fail"
        fi
    done
done

rt must-fail "$@" >"$room/said" 2>&1 || true
grep -v 'must-fail .*: ' "$room/said" || true
for edit in "${proved[@]}"; do
    said=$(grep -F "must-fail $edit: " "$room/said" || echo ": not tried")
    count "$edit" "${said#*: must-fail "$edit": }"
done

for edit in "${ran[@]}"; do
    read -r _ _ _ how by < <(head -n 1 "trials/wrong_bodies/$edit")
    if ! apply "$edit"; then
        count "$edit" 'BAD EDIT: its old text is not there'
    elif "${how%:}" "$by"; then
        count "$edit" 'NOT REFUSED'
    elif grep -q '^run=ended' "$room/said"; then
        count "$edit" refused
    else
        count "$edit" 'BAD EDIT: nothing was run'
    fi
    git checkout -q -- "crates/${edit%%/*}/src"
done

echo "$refused refused, $missed not refused"
[ $missed = 0 ]
