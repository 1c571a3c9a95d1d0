#!/usr/bin/env bash
# Times read_tree against Python's json.loads on one GeoJSON file of some 60 MB, and on three texts of 64 MiB that
# are hard on a reader: `[` alone, one string, and one object with the member `"a":1` over and over. Both read the same bytes in one run.
# usage: bench/json_speed.sh    (proves and builds the crate first; works in a folder of its own and leaves nothing)
set -euo pipefail
top=$(cd "$(dirname "$0")/.." && pwd)
work=$(mktemp -d)
trap 'rm -rf "$work"' EXIT
mkdir -p "$work/crates/json_speed/src"
cp -r "$top/crates/number_grammar" "$top/crates/json_spelled" "$work/crates/"
printf 'number_grammar:\njson_spelled: number_grammar\njson_speed: json_spelled\n' > "$work/crates.txt"
cat > "$work/crates/json_speed/src/main.rt" <<'RT'
#![tactic(auto)]

use json_spelled::read_tree;
use std::io;
use std::io::Read;
use std::time::Instant;

fn main(rt: HostRuntime) -> io::Result<()> {
    let mut bytes = Vec::new(rt.alloc());
    rt.reader().read_to_end(&mut bytes)?;
    let begun = Instant::now(&rt)?;
    let read = read_tree(rt.alloc(), &bytes);
    let took = begun.elapsed(&rt)?.as_millis();
    match read {
        Ok(_) => println!(rt; "read in {took} ms"),
        Err(fault) => println!(rt; "{fault:?} in {took} ms"),
    }
}
RT
cat > "$work/texts.py" <<'PY'
import json, random, sys
random.seed(7)
words = "harbour museum café bakery library station bridge garden école market church tower".split()
def feature(i):
    return {"type": "Feature", "id": "node/%d" % i,
            "geometry": {"type": "Point", "coordinates": [round(random.uniform(-180, 180), 7), round(random.uniform(-90, 90), 7)]},
            "properties": {"name": " ".join(random.choice(words) for _ in range(3)), "amenity": random.choice(words), "note": "line\nbreak \"%d\"" % i}}
with open(sys.argv[1] + "/geo.json", "w") as out:
    json.dump({"type": "FeatureCollection", "features": [feature(i) for i in range(265000)]}, out, ensure_ascii=False)
size = 64 << 20
open(sys.argv[1] + "/brackets.json", "w").write("[" * size)
open(sys.argv[1] + "/string.json", "w").write('"' + "a" * size + '"')
open(sys.argv[1] + "/members.json", "w").write('{' + '"a":1,' * (size // 6) + '"a":1}')
PY
cat > "$work/loads.py" <<'PY'
import json, sys, time
data = open(sys.argv[1], "rb").read()
begun = time.perf_counter()
json.loads(data)
print("json.loads: %d ms" % ((time.perf_counter() - begun) * 1000))
PY
python3 "$work/texts.py" "$work"
cd "$work/crates/json_speed"
rt run < /dev/null > /dev/null
for text in geo brackets string members; do
    echo "$text.json, $(stat -c %s "$work/$text.json") bytes"
    for _ in 1 2 3; do
        ./out/json_speed < "$work/$text.json"
        if [ "$text" = geo ]; then python3 "$work/loads.py" "$work/$text.json"; fi
    done
done
