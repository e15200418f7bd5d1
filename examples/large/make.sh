#!/bin/sh
# make.sh ROWS [WRONG [FOLDER]]: writes a project of ROWS rows (people, their orders and the zip codes) into FOLDER.
# WRONG is how many of a thousand people, and of a thousand orders, break a rule. The same numbers give the same files.
set -eu
rows=${1:?usage: make.sh ROWS [WRONG [FOLDER]]}
wrong=${2:-10}
folder=${3:-made}

is_number() {
    case $1 in
    '' | *[!0-9]*) return 1 ;;
    esac
}
if ! is_number "$rows" || ! is_number "$wrong" || [ "$rows" -lt 20 ] || [ "$rows" -gt 500000 ] ||
    [ "$wrong" -gt 1000 ]; then
    echo "make.sh: ROWS is from 20 to 500000, WRONG from 0 to 1000" >&2
    exit 2
fi
mkdir -p "$folder"
cd "$folder"

cat >large.schema <<'END'
# A shop's people, what they ordered, and the zip codes of two countries.
table person 'people.csv'
attr id
attr name
attr country in 'DE', 'FR'
attr zip
attr city
attr active in 'yes', 'no'
table order 'orders.csv'
attr number
attr person
attr item
attr price
attr state in 'open', 'paid', 'sent'
master zip 'zips.csv'
attr country in 'DE', 'FR'
attr code
attr city
rules 'large.rules'
script 'large.script'
END

cat >large.rules <<'END'
# An id is one person, in one place.
cfd one_person person: [id] -> [name, zip]
row _ || _, _

# A zip code has one city.
cfd zip_city person: [country, zip] -> [city]
row _, _ || _

# An order has one person, and an item has one price.
cfd one_buyer order: [number] -> [person]
row _ || _
cfd one_price order: [item] -> [price]
row _ || _

# Each zip code is one that there is, with that city.
cind known_zip person[country, zip, city; ] in zip[country, code, city; ]
row ||

# Whoever ordered is there, and is active where the order is open or paid.
cind known_person order[person; ] in person[id; ]
row ||
cind active_person order[person; state] in person[id; active]
row 'open' || 'yes'
row 'paid' || 'yes'

# The zip code gives the city.
edit city person using zip: country=country, zip=code gives city=city
END

# One row in fifty is a zip code, two in five are people, and the rest are orders. Numbers are drawn by a generator
# whose products stay below 2^53, so that each awk draws the same ones.
awk -v rows="$rows" -v wrong="$wrong" '
    function draw(below) {
        word = (word * 16807) % 2147483647
        return word % below
    }
    function is_wrong() { return draw(1000) < wrong }
    function country_of(zip) { return zip % 3 == 0 ? "FR" : "DE" }
    function code_of(zip) { return sprintf("%05d", 10000 + zip) }
    function city_of(zip) { return city[zip % cities] " " (1 + int(zip / cities)) }
    BEGIN {
        word = 1 + rows + wrong * 500001
        draw(1)
        firsts = split("Anna Bruno Clara David Emma Felix Greta Hugo Ida Jean Karla Louis Marie Nora Otto Paula", first, " ")
        lasts = split("Weber Petit Koch Moreau Schulz Leroy Braun Girard Vogel Roux Keller Blanc Sommer Faure", last, " ")
        cities = split("Linden Auberive Neustadt Valmont Steinbach Belfort Hochdorf Montclair Waldau Rochefort", city, " ")
        city[0] = city[cities]
        split("open paid sent", state, " ")

        zips = int(rows / 50) + 1
        people = int(rows * 2 / 5)
        orders = rows - zips - people

        print "country,code,city" > "zips.csv"
        for (zip = 0; zip < zips; zip++) print country_of(zip) "," code_of(zip) "," city_of(zip) > "zips.csv"

        fixes = 0
        print "id,name,country,zip,city,active" > "people.csv"
        for (id = 1; id <= people; id++) {
            name = first[1 + draw(firsts)] " " last[1 + draw(lasts)]
            zip = draw(zips)
            place = city_of(zip)
            if (is_wrong()) {
                place = city_of(zip + 1)
                if (fixes < 10) fix[fixes++] = id
            }
            print "p" id "," name "," country_of(zip) "," code_of(zip) "," place "," (id % 10 ? "yes" : "no") > "people.csv"
        }

        # Every tenth person is not active, and has no order that is open or paid.
        items = int(orders / 20) + 1
        print "number,person,item,price,state" > "orders.csv"
        for (number = 1; number <= orders; number++) {
            item = draw(items)
            buyer = 1 + draw(people)
            what = state[1 + draw(3)]
            if (buyer % 10 == 0) what = "sent"
            price = sprintf("%d.%02d", 1 + item % 90, item * 7 % 100)
            if (is_wrong()) {
                kind = draw(2)
                if (kind == 0) buyer = people + 1 + draw(people)
                else price = price "0"
            }
            print "o" number ",p" buyer ",i" item "," price "," what > "orders.csv"
        }

        print "count" > "large.script"
        for (i = 0; i < fixes; i++) print "fix person " fix[i] " [id, name, country, zip, active]" > "large.script"
        print "count" > "large.script"
        if (fixes) {
            print "undo" > "large.script"
            print "explain person " fix[fixes - 1] > "large.script"
            print "redo" > "large.script"
        }
        print "count" > "large.script"
        print "delete person 1" > "large.script"
        print "count" > "large.script"
        print "undo" > "large.script"
        print "count" > "large.script"
    }'
echo "$folder: $(wc -l <people.csv) lines of people.csv, $(wc -l <orders.csv) of orders.csv, $(wc -l <zips.csv) of zips.csv"
