#!/usr/bin/env python3
"""gen.py FOLDER ROWS EVENTS [HOT]: makes a project of one table, and events of 100 editors over it.

Of a hundred events 84 set a value, 8 take the editor's last change back, 4 look at a row, and 4 set a value by a version that
the row no longer has. With HOT one event in two is about row 1, else all rows are alike. The folder then has

    p, rules, t.csv     the project; its schema names the script
    events              what the editors do: desk p events
    script              the changes that are accepted of these, as commands that need no versions: run p

The accepted changes of both are the same, one after the other, a taking back being a `set` in the script.
"""
import random
import sys
from pathlib import Path

VALUES = 1000


def main():
    folder, rows, count = Path(sys.argv[1]), int(sys.argv[2]), int(sys.argv[3])
    hot = len(sys.argv) > 4
    draw = random.Random(7)
    folder.mkdir(parents=True, exist_ok=True)
    (folder / "p").write_text(
        "table t 't.csv'\nattr k\nattr a\nattr b\nattr c\nrules 'rules'\nscript 'script'\n"
    )
    (folder / "rules").write_text("cfd f1 t: [k, a] -> [b]\nrow _, _ || _\ncfd f2 t: [c] -> [k]\nrow '0' || '0'\n")
    cells = {}
    with open(folder / "t.csv", "w") as table:
        table.write("k,a,b,c\n")
        for row in range(1, rows + 1):
            b, c = draw.randrange(VALUES), 1 + draw.randrange(VALUES)
            cells[row, "b"], cells[row, "c"] = b, c
            table.write(f"{row},{row % 97},{b},{c}\n")
    version = {}
    firm = {}  # row -> the changes that stand, in order
    live = [[] for _ in range(100)]  # editor -> (number, row, attribute, value before) of those that stand
    number = 0
    with open(folder / "events", "w") as events, open(folder / "script", "w") as script:
        for _ in range(count):
            editor = draw.randrange(100)
            row = 1 if hot and draw.random() < 0.5 else 1 + draw.randrange(rows)
            what = draw.random()
            attr = draw.choice("bc")
            value = 1 + draw.randrange(VALUES)
            seen = version.get(row, 0)
            if what < 0.08:
                events.write(f"by e{editor} back\n")
                if not live[editor]:
                    continue
                taken, row, attr, value = live[editor][-1]
                if firm[row][-1] != taken:
                    continue
                live[editor].pop()
                firm[row].pop()
                number += 1
            elif what < 0.12:
                events.write(f"by e{editor} look t {row}\n")
                continue
            elif what < 0.16:
                events.write(f"by e{editor} set t {row} {seen + 1} {attr} '{value}'\n")
                continue
            else:
                events.write(f"by e{editor} set t {row} {seen} {attr} '{value}'\n")
                number += 1
                live[editor].append((number, row, attr, cells[row, attr]))
                firm.setdefault(row, []).append(number)
            version[row] = number
            cells[row, attr] = value
            script.write(f"set t {row} {attr} '{value}'\n")


main()
