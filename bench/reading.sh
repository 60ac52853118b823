#!/bin/bash
# reading.sh [MIB] [ROUNDS]: the processor time in which a long list is read, against `xmllint --stream` and Python's expat over the same
# bytes. Makes a list of about MIB mebibytes with 262,144 entries, whose last tag is cut off: so `print` reads it to its end, finds it
# unreadable there and says nothing else. Build the program first: (cd crates/station_cli && rt run).
set -eu
here=$(cd "$(dirname "$0")" && pwd)
program=${PROGRAM:-$here/../crates/station_cli/out/station_cli}
mib=${1:-200} rounds=${2:-5}
. "$here/timing.sh"
mkdir "$work/card"
python3 - "$mib" > "$work/card/x.mhl" <<'PROGRAM'
import sys

count = 262144
room = int(sys.argv[1]) * 1048576 // count - 330
text = ('<?xml version="1.0" encoding="UTF-8"?>\n<!-- long -->\n<hashlist version="1.1">\n')
sys.stdout.write(text)
for i in range(count):
    path = 'CARD &amp; SOUND/%07d ' % i + 'x' * min(room // 2, 900)
    note = 'y' * max(room - room // 2 - 40, 0)
    sys.stdout.write(f'<hash>\n  <file>{path}</file>\n  <size>{i}</size>\n  <lastmodificationdate>2014-10-24T00:00:00Z</lastmodificationdate>\n'
                     f'  <md5>d41d8cd98f00b204e9800998ecf8427e</md5>\n  <note lang="en">{note}</note>\n  <hashdate>2014-10-24T12:00:00Z</hashdate>\n</hash>\n')
sys.stdout.write('</hashlist')
PROGRAM
bytes=$(stat -c %s "$work/card/x.mhl")
echo "bytes $bytes"

by_station() { "$program" print x.mhl "$work/card"; }
by_xmllint() { xmllint --huge --stream "$work/card/x.mhl"; }
by_expat() { python3 -c "import sys, xml.parsers.expat as e; e.ParserCreate().ParseFile(open(sys.argv[1], 'rb'))" "$work/card/x.mhl"; }

by_station || [ $? = 7 ]
for _ in $(seq "$rounds"); do
    cpu by_station >> "$work/station"
    cpu by_xmllint >> "$work/xmllint"
    cpu by_expat >> "$work/expat"
done
for other in xmllint expat; do
    awk -v a="$(least "$work/station")" -v o="$(least "$work/$other")" -v what="$other" 'BEGIN { printf "print %.2f %s %.2f ratio %.2f\n", a, what, o, a / o }'
done
