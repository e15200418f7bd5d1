"""Makes a table to find dependencies in: python3 gen.py FOLDER ROWS COLUMNS [SEED]. It writes FOLDER/t.csv and the
schema file FOLDER/p.

With a number of COLUMNS, the first 20 are a key; columns of 2, 10, 100, 1,000 and 100,000 values, two of each; five that
follow from two others; three that follow from three; and one that a value of a column fixes. Further columns are as the
columns of so many values again. With fewer than 20 columns the last ones are left out.

With `customers` for COLUMNS there are ten: customers with a number and a name of their own, a country and a city that
follow from the area code, a street and a city that follow from the zip, and a price that follows from the kind; in about
one row in a hundred a text is wrong, so that most of these hold for constants alone."""
import os, random, sys

folder, rows, columns = sys.argv[1], int(sys.argv[2]), sys.argv[3]
rng = random.Random(int(sys.argv[4]) if len(sys.argv) > 4 else 1)

SIZES = [2, 10, 100, 1000, 100000]
PAIRS = [(1, 2), (2, 3), (3, 8), (1, 4), (6, 9)]
TRIPLES = [(1, 2, 3), (2, 7, 8), (1, 6, 9)]


def mixed(values, size):
    """A number below size that the values determine, spread as if it were drawn."""
    n = 7
    for value in values:
        n = (n * 1000003 + value * 8191 + 12345) % 2147483647
    return n % size


def drawn_names(count):
    names = ['key'] + [f'v{size}{which}' for which in 'ab' for size in SIZES]
    names += [f'two{n}' for n in range(len(PAIRS))] + [f'three{n}' for n in range(len(TRIPLES))] + ['part']
    while len(names) < count:
        names.append(f'w{SIZES[len(names) % len(SIZES)]}x{len(names)}')
    return names[:count]


def drawn_row(i, names):
    drawn = [i] + [rng.randrange(size) for _ in range(2) for size in SIZES]
    drawn += [mixed([drawn[c] for c in pair], 50) for pair in PAIRS]
    drawn += [mixed([drawn[c] for c in triple], 20) for triple in TRIPLES]
    drawn.append(7 if drawn[3] == 5 else rng.randrange(30))
    while len(drawn) < len(names):
        drawn.append(rng.randrange(SIZES[len(drawn) % len(SIZES)]))
    return [f'{name[0]}{value}' for name, value in zip(names, drawn)]


CUSTOMERS = ['id', 'country', 'area', 'phone', 'name', 'street', 'city', 'zip', 'kind', 'price']


def customer(i, names):
    area, kind = rng.randrange(100, 1000), rng.randrange(500)
    zip_code = f'Z{area}x{rng.randrange(max(1, rows // 2000))}'
    row = [f'i{i}', 'UK' if area % 2 else 'US', str(area), str(rng.randrange(10 ** 7)), f'name{i}', f'street{zip_code}',
           f'city{area}', zip_code, f'k{kind}', str(kind * 7)]
    if rng.random() < 0.01:
        row[rng.randrange(4, len(names))] = rng.choice(['other', 'wrong', 'unknown'])
    return row


names, row_of = (CUSTOMERS, customer) if columns == 'customers' else (drawn_names(int(columns)), drawn_row)
os.makedirs(folder, exist_ok=True)
with open(os.path.join(folder, 'p'), 'w') as out:
    out.write("table t 't.csv'\n" + ''.join(f'attr {name}\n' for name in names))
with open(os.path.join(folder, 't.csv'), 'w') as out:
    out.write(','.join(names) + '\n')
    for i in range(rows):
        out.write(','.join(row_of(i, names)) + '\n')
