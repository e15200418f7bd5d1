#!/bin/sh
# recipes.sh: runs the recipes of docs/RECIPES.md and tells which of them writes something else than the page shows. It needs
# jq, sqlite3 and mlr, and `cfdbench` and `cfdview` on the path. A recipe runs in a copy of the example that its section names,
# orders where none is named; a section with marked blocks in a copy of its own, with these files in it. A block directly behind
# a recipe is what it writes.
set -eu
cd "$(dirname "$0")"
room=$(mktemp -d)
trap 'rm -rf "$room"' EXIT

# The page as numbered steps: `N.sh` is a recipe and `N.out` what it writes, or `N.held` is a file with the name `N.name`.
# `N.in` is the folder of the step, `N.from` the example of which that is a copy. The page is read twice, first for the
# sections with marked blocks.
awk -v to="$room/" '
    function step(name) {
        folder = "example " base
        if (mark) folder = "marked " mark
        number++
        print folder > (to number ".in")
        print base > (to number ".from")
        return to number name
    }
    NR == FNR && /^## / { section++ }
    NR == FNR { if (/^<!-- [a-z]+\/[a-z.]+ -->$/) { split($2, part, "/"); marks[section] = part[1] }; next }
    FNR == 1 { section = 0 }
    /^## / { base = "orders"; mark = marks[++section] }
    !inside && match($0, /examples\/[a-z]+/) { base = substr($0, RSTART + 9, RLENGTH - 9) }
    /^<!-- [a-z]+\/[a-z.]+ -->$/ { split($2, part, "/"); held = part[2]; next }
    /^```/ && inside { inside = 0; held = ""; after = recipe; close(file); next }
    /^```/ {
        inside = 1
        recipe = $0 == "```sh" && !held
        if (after) file = to number ".out"
        else if (recipe) file = step(".sh")
        else if (held) { file = step(".held"); print held > (to number ".name") }
        else file = to "passed"
        printf "" > file
        after = 0
        next
    }
    inside { print > file; next }
    /./ { after = 0 }' ../docs/RECIPES.md ../docs/RECIPES.md

failed=0
number=0
while [ -e "$room/$((number + 1)).in" ]; do
    number=$((number + 1))
    step="$room/$number"
    base="$room/example $(cat "$step.from")"
    folder="$room/$(cat "$step.in")"
    [ -d "$base" ] || cp -r "$(cat "$step.from")" "$base"
    [ -d "$folder" ] || cp -r "$base" "$folder"
    if [ -e "$step.held" ]; then
        cp "$step.held" "$folder/$(cat "$step.name")"
        continue
    fi
    (cd "$folder" && sh "$step.sh" >"$step.got" 2>&1) || true
    [ -e "$step.out" ] || : >"$step.out"
    if ! diff "$step.out" "$step.got" >"$step.diff"; then
        failed=$((failed + 1))
        cat "$step.sh" "$step.diff"
    fi
done
echo "recipes: $failed of $number steps go otherwise"
[ "$failed" = 0 ]
