#!/bin/sh
# cases.sh [--check]: makes crates/corpus/data/examples.cases from the examples of this folder and from the blocks of the
# pages that a comment `<!-- FOLDER/FILE -->` stands before. With --check nothing is written: it tells what would change.
set -eu
LC_ALL=C
export LC_ALL
cd "$(dirname "$0")"
stored=../crates/corpus/data/examples.cases
made=$(mktemp -d)
trap 'rm -rf "$made"' EXIT

# Puts the marked blocks of a page into files below $made. A block `NAME.dialogue` has a script's commands behind `> `, each
# with its reply below it; it becomes the files `NAME.script` and `transcript`.
unpack() {
    awk -v to="$made" '
        /^```/ && inside { inside = 0; name = ""; next }
        /^```/ { inside = 1; next }
        !inside && /^<!-- [a-z]+\/[a-z.]+ -->$/ {
            name = $2
            folder = to "/" substr(name, 1, index(name, "/") - 1)
            script = to "/" name
            sub(/dialogue$/, "script", script)
            system("mkdir -p " folder)
            next
        }
        !inside || !name { next }
        name !~ /\.dialogue$/ { print > (to "/" name); next }
        sub(/^> /, "") { print > script; next }
        { print > (folder "/transcript") }' "$1"
}

# The bytes of a file as the lines of a case.
content() {
    if [ ! -s "$1" ]; then
        return
    elif [ -z "$(tail -c 1 "$1")" ]; then
        sed 's/^/|/' "$1"
    else
        sed '$!s/^/|/; $s/^/\\/' "$1"
        echo
    fi
}

# The name, the wanted status, the file that has what is wanted, the folder of the files, and the words of the call, which is
# one of cfdbench where no other program is set.
case_of() {
    name=$1 status=$2 wanted=$3 folder=$4
    shift 4
    printf '\ncase %s\n' "$name"
    [ -z "${program-}" ] || echo "program $program"
    for word; do
        echo "word $word"
    done
    for file in "$folder"/*; do
        held=${file##*/}
        case $held in
            README.md | transcript | written | report.json | '*') continue ;;
        esac
        echo "file $held"
        content "$file"
    done
    echo "status $status"
    content "$wanted"
}

cases() {
    case_of 'the example first' 1 first/transcript first run shop.schema
    case_of 'the example desk' 0 desk/transcript desk desk shop.schema day.events
    case_of 'the example fixes' 0 fixes/transcript fixes run fixes.schema
    case_of 'the example find' 0 find/found.rules find find shop.schema customer 1 3
    case_of 'the example find: next month' 1 find/transcript find run next.schema
    case_of 'the example orders' 1 orders/transcript orders run orders.schema

    case_of 'the example questions: consistent' 1 questions/never.cert questions \
        consistent prices.schema customer 100
    case_of 'the example questions: three cases are not enough' 7 "$made/questions/spent" questions \
        consistent prices.schema customer 3
    case_of 'the example questions: a witness' 0 "$made/questions/witness" questions \
        consistent mended.schema customer 100
    case_of 'the example questions: implied' 0 questions/implied.cert questions \
        implies mended.schema 'customer: [id] -> [prices] row _ || _' 100
    case_of 'the example questions: a counter' 1 "$made/questions/counter" questions \
        implies mended.schema "customer: [prices] -> [id] row 'gross' || _" 100
    case_of 'the example questions: a certificate that holds' 0 "$made/holds" questions check prices.schema never.cert
    case_of 'the example questions: the certificate by the mended rules' 1 "$made/fails" questions \
        check mended.schema never.cert
    case_of 'the example questions: implied, tested' 0 "$made/holds" questions \
        check mended.schema implied.cert

    case_of 'the readme: the first page' 1 "$made/top/written" "$made/top" run shop.schema
    program=cfdview
    case_of 'the readme: what people are shown' 1 "$made/seen/shown" "$made/top" list shop.schema
    program=
    case_of 'the readme: the example first' 1 "$made/first/written" first run shop.schema
    case_of 'the page on formats: a session' 0 "$made/session/transcript" "$made/session" run shop.schema
    case_of 'the page on formats: a day of three editors' 0 "$made/desk/transcript" "$made/desk" \
        desk shop.schema day.events
    case_of 'the page on formats: fixes' 0 "$made/fixes/transcript" "$made/fixes" run fixes.schema
    case_of 'the page on formats: a generated project' 1 "$made/generated/written" "$made/none" generate 7
    case_of 'the page on formats: what is found' 0 "$made/find/written" find find shop.schema customer 1 3
    case_of 'the page on formats: never' 1 "$made/questions/never" "$made/asked" \
        consistent prices.schema customer 100
    case_of 'the recipes: the orders as they came' 1 orders/report.json "$made/orders" report asis.schema
    case_of 'the recipes: a value must be there' 1 "$made/needed/written" "$made/needed" run shop.schema
    case_of 'the recipes: one of a list, told row by row' 1 "$made/listed/written" "$made/listed" run shop.schema
    case_of 'the recipes: some Norwegian row can be right' 1 "$made/swiss/written" "$made/swiss" \
        implies shop.schema "customer: [country] -> [country] row 'NO' || 'DE'" 1000
    cat "$made/page.cases"
}

for page in ../README.md ../docs/FORMATS.md ../docs/READING.md ../docs/RECIPES.md; do
    unpack "$page"
done
echo holds >"$made/holds"
echo 'fails 7' >"$made/fails"

# The page shows no more of the schemas than what is about them.
cp fixes/fixes.schema "$made/fixes"
mkdir "$made/asked"
cp "$made/questions/prices.rules" "$made/asked"
{ cat "$made/questions/prices.schema" && echo "rules 'prices.rules'"; } >"$made/asked/prices.schema"

# The events of a dialogue, over the files of the example.
mv "$made/desk/day.script" "$made/desk/day.events"
cp desk/shop.* desk/customers.csv "$made/desk"

# As the recipes make it.
mkdir "$made/orders"
cp orders/*.csv orders/orders.rules "$made/orders"
grep -v '^script ' orders/orders.schema >"$made/orders/asis.schema"

echo list >"$made/needed/shop.script"
cp "$made/needed/customers.csv" "$made/needed/shop.schema" "$made/needed/shop.script" "$made/listed"

# The case that the page on reading shows.
{ echo && cat "$made/case/shown"; } >"$made/page.cases"

cases | sed 1d >"$made/examples.cases"
if [ "${1-}" = --check ]; then
    diff "$stored" "$made/examples.cases" || { echo "run examples/cases.sh: $stored isn't what it writes" && exit 1; }
else
    cp "$made/examples.cases" "$stored"
fi
