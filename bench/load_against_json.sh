#!/usr/bin/env bash
# `irtree - load` of a GeoJSON file of some 60 MB of points, against Python's json.load and a dict from ids to places in the
# same run: seconds, kilobytes at most, and memory as a multiple of the file. The program must be built (./irtree-build builds it).
set -euo pipefail
top=$(cd "$(dirname "$0")/.." && pwd)
work=$(mktemp -d)
trap 'rm -rf "$work"' EXIT
cat > "$work/text.py" <<'PY'
import json, random, sys
random.seed(7)
words = "harbour museum café bakery library station bridge garden école market church tower".split()
def feature(i):
    return {"type": "Feature", "id": "node/%d" % i,
            "geometry": {"type": "Point", "coordinates": [round(random.uniform(-180, 180), 7), round(random.uniform(-90, 90), 7)]},
            "properties": {"name": " ".join(random.choice(words) for _ in range(3)), "amenity": random.choice(words),
                           "note": "line\nbreak \"%d\" %s" % (i, "and so on " * 11)}}
with open(sys.argv[1], "w") as out:
    json.dump({"type": "FeatureCollection", "features": [feature(i) for i in range(180000)]}, out, ensure_ascii=False)
PY
cat > "$work/dict.py" <<'PY'
import json, sys
text = json.load(sys.stdin.buffer)
places = {f["id"]: (f["geometry"]["coordinates"], "\n".join(v for v in f["properties"].values() if isinstance(v, str))) for f in text["features"]}
print(f"stored {len(places)}")
PY
python3 "$work/text.py" "$work/points.geojson"
python3 - "$top/irtree" "$work" <<'PY'
import os, subprocess, sys, time
program, work = sys.argv[1:]
size = os.path.getsize(work + "/points.geojson")
def measured(words):
    begun = time.monotonic()
    with open(work + "/points.geojson", "rb") as text:
        child = subprocess.Popen(words, stdin=text, stdout=subprocess.PIPE)
    said = child.stdout.read()
    _, status, usage = os.wait4(child.pid, 0)
    assert status == 0, (status, said[-200:])
    return time.monotonic() - begun, usage.ru_maxrss, said.splitlines()[-1].decode()
print(f"file:   {size} bytes")
rows = {"irtree": measured([program, "-", "load"]), "Python": measured([sys.executable, work + "/dict.py"])}
for name, (seconds, kilobytes, last) in rows.items():
    print(f"{name}: {seconds:.2f} s, {kilobytes} kB, {kilobytes * 1024 / size:.1f} times the file, last line: {last}")
print(f"ratio:  {rows['Python'][0] / rows['irtree'][0]:.2f} times as fast")
PY
