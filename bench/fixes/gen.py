#!/usr/bin/env python3
"""gen.py FOLDER ROWS RULES FIXES [KEYS] : a project in which a fix has many matches. The master table has ROWS rows that share
KEYS keys (1 if left out), and all rows of a key give the same values, so that each fix is unique. RULES editing rules look by
one key column, or by two in turn where there are more than 60. The script makes FIXES fixes of row 1, each taken back.

    bench/fixes/gen.py /tmp/f 400000 120 10 && time cfdbench run /tmp/f/p
"""
import os
import sys

folder, rows, rules, fixes = sys.argv[1], *map(int, sys.argv[2:5])
keys = int(sys.argv[5]) if len(sys.argv) > 5 else 1
width = min(rules, 60)
os.makedirs(folder, exist_ok=True)


def write(name, lines):
    with open(os.path.join(folder, name), "w") as out:
        out.write("\n".join(lines) + "\n")


def csv(head, count, values):
    return [",".join(head)] + [",".join([str(i % keys)] * 2 + values(i)) for i in range(count)]


write("p", ["table cust 'cust.csv'", "attr k", "attr m"] + [f"attr a{j}" for j in range(width)]
      + ["master book 'book.csv'", "attr k", "attr m"] + [f"attr b{j}" for j in range(width)]
      + ["rules 'r'", "script 's'"])
write("r", [f"edit e{i} cust using book: {'km'[i // 60 % 2]}={'km'[i // 60 % 2]} gives a{i % 60}=b{i % 60}" for i in range(rules)])
write("s", ["fix cust 1 [k, m]", "undo"] * fixes)
write("cust.csv", csv(["k", "m"] + [f"a{j}" for j in range(width)], 3, lambda i: ["old"] * width))
write("book.csv", csv(["k", "m"] + [f"b{j}" for j in range(width)], rows, lambda i: [str(i % keys)] * width))
