#!/bin/sh
# run.sh PROGRAM [FOLDER]: how long PROGRAM, a built cfdbench, takes to refuse files of 64 MiB that are made of one thing over and
# over, and at what peak of memory. FOLDER, by default /tmp/readers, keeps the files. Needs python3 and GNU time.
set -eu
program=$(readlink -f "$1")
room=${2:-/tmp/readers}
mkdir -p "$room"
cd "$room"
[ -e made ] || python3 - <<'END'
FULL = 64 * 1024 * 1024
def write(name, text):
    with open(name, 'wb') as file:
        file.write(text)
def filled(head, piece, tail=b''):
    return head + piece * ((FULL - len(head) - len(tail)) // len(piece)) + tail
small = b"table t 't'\nattr a\nattr b\n"
# schemas
write('attr.schema', filled(b"table t 't'\n", b'attr a\n'))
write('attr_many.schema', b"table t 't'\n" + b''.join(b'attr a%d\n' % i for i in range(4600000))[:FULL - 100])
write('zeros.schema', filled(b'', b'0'))
write('nul.schema', filled(b'', b'\0'))
write('quote.schema', filled(b"table t '", b'a'))
# rules
rules = {
    'cfd_rows': filled(b'cfd f t: [a] -> [b]\n', b'row _ || _\n'),
    'cind_rows': filled(b'cind f t[a; ] in t[a; ]\n', b'row ||\n'),
    'brackets': filled(b'cfd f t: ', b'['),
    'head_names': filled(b'cfd f t: [', b'a,'),
    'set_members': filled(b'cfd f t: [a] -> [b]\nrow in {', b"'a', "),
    'cells': filled(b'cfd f t: [a] -> [b]\nrow ', b'_,'),
    'cfds': filled(b'', b'cfd f t: [a] -> [b]\nrow _ || _\n'),
}
for name, text in rules.items():
    write(name + '.rules', text)
    write(name + '.schema', small + b"rules '" + name.encode() + b".rules'\n")
# scripts
scripts = {
    'list': b'list\n', 'count': b'count\n', 'undo': b'undo\n', 'redo': b'redo\n', 'set': b"set t 1 a 'x'\n",
    'insert': b"insert t 'x', 'y'\n", 'insert_long': None, 'delete': b'delete t 1\n', 'explain': b'explain t 1\n', 'export': b'export t\n',
    'fix': b'fix t 1 [a]\n', 'fix_long': None,
}
write('t', b'a,b\nx,y\n')
for name, piece in scripts.items():
    text = filled(b'', piece) if piece else filled(b"insert t 'x'" if name == 'insert_long' else b'fix t 1 [a', b",'x'" if name == 'insert_long' else b',a')
    write(name + '.script', text)
    write(name + '.schema', small + b"script '" + name.encode() + b".script'\n")
# a certificate
write('cert.rules', b'cfd f t: [a] -> [b]\nrow _ || _\n')
write('cert.schema', small + b"rules 'cert.rules'\n")
write('split.cert', filled(b'consistent t\nnever\n', b"split a='x'\n"))
# tables
tables = {'commas': filled(b'a,b\n', b','), 'quotes': filled(b'a,b\n', b'"'), 'ends': filled(b'a,b\n', b'\n'), 'cell': filled(b'a,b\n', b'x'), 'rows': filled(b'a,b\n', b'x,y\n')}
for name, text in tables.items():
    write(name + '.csv', text)
    write(name + '.schema', b"table t '" + name.encode() + b".csv'\nattr a\nattr b\n")
write('made', b'')
END
timed() {
    name=$1
    shift
    /usr/bin/time -f "%e s, %U user, %M KB" -o time "$program" "$@" >out || true
    printf '%s: %s: %s\n' "$name" "$(tail -n 1 time)" "$(head -c 60 out | head -n 1)"
}
for schema in *.schema; do
    case $schema in
        cert.schema) timed split check cert.schema split.cert ;;
        *) timed "${schema%.schema}" run "$schema" ;;
    esac
done
