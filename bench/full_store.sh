#!/usr/bin/env bash
# Fills a store with 1,000,000 places without words, in loads of 100,000, and looks at what it says when it is full.
# The program must be built (./irtree-build builds it; IRTREE names another one).
# usage: bench/full_store.sh [FOLDER]      (works in a folder of its own below FOLDER, by default beside the repository, and leaves nothing)
set -euo pipefail
top=$(cd "$(dirname "$0")/.." && pwd)
program=$(realpath "${IRTREE:-$top/crates/irtree_cli/out/irtree_cli}")
work=$(mktemp -d -p "${1:-$top}")
trap 'rm -rf "$work"' EXIT
cd "$work"

# The features of 100,000 points, the keys of which begin with a number.
points() {
    python3 -c '
import random, sys
draw = random.Random(int(sys.argv[1]))
line = "{\"type\":\"Feature\",\"id\":\"%s-%d\",\"properties\":null,\"geometry\":{\"type\":\"Point\",\"coordinates\":[%.7f,%.7f]}}"
print("{\"type\":\"FeatureCollection\",\"features\":[")
print(",\n".join(line % (sys.argv[1], i, draw.uniform(-180, 180), draw.uniform(-90, 90)) for i in range(100000)))
print("]}")' "$1"
}

for piece in 0 1 2 3 4 5 6 7 8 9; do
    points $piece > points.geojson
    /usr/bin/time -f "load $piece: %e s, %U s of the processor, %M KB" "$program" store load --cache 65536 < points.geojson | tail -n 1
done
ls -l store store.journal
/usr/bin/time -f 'the script: %e s, %M KB' "$program" store run > said <<'LINES'
count
add "one more" 0 0
add "0-0" 0 0
nearest 0 0 1
remove "0-0"
add "one more" 0 0 Quay
add "another" 0 0
nearest 0 0 1 where quay
count
LINES
cat said
[ "$(grep -c '^full$' said)" = 2 ] && [ "$(head -n 1 said)" = 'count 1000000' ] && [ "$(tail -n 1 said)" = 'count 1000000' ]
