#!/usr/bin/env bash
# Kills a load of 100,000 places (kill -9) after each of some delays, and asks the store how many places it has: as many as the last
# line `stored N` that was said, or one batch of 1,000 more. The program must be built (./irtree-build builds it).
# usage: bench/kill_in_a_load.sh [SECONDS ..]
set -euo pipefail
top=$(cd "$(dirname "$0")/.." && pwd)
work=$(mktemp -d)
trap 'rm -rf "$work"' EXIT
python3 - > "$work/places.geojson" <<'PY'
import json, random, sys
random.seed(7)
names = "harbour museum café bakery library station bridge garden école market church tower".split()
json.dump({"type": "FeatureCollection", "features": [
    {"type": "Feature", "id": f"p{i}", "geometry": {"type": "Point", "coordinates": [round(random.uniform(-180, 180), 7), round(random.uniform(-90, 90), 7)]},
     "properties": {"name": " ".join(random.choices(names, k=4))}} for i in range(100_000)]}, sys.stdout, ensure_ascii=False)
PY
for delay in "${@:-0.5 1 1.5 2 3}"; do
    for seconds in $delay; do
        rm -f "$work"/s*
        "$top/irtree" "$work/s" load < "$work/places.geojson" > "$work/said" &
        child=$!
        sleep "$seconds"
        kill -9 "$child" 2> /dev/null || true
        wait "$child" 2> /dev/null || true
        acknowledged=$(sed -n 's/^stored //p' "$work/said" | tail -n 1)
        count=$(echo count | "$top/irtree" "$work/s" run)
        held=${count#count }
        echo "after $seconds s: ${acknowledged:-0} acknowledged, $held held"
        [ "$held" -eq "${acknowledged:-0}" ] || [ "$held" -eq $((${acknowledged:-0} + 1000)) ]
    done
done
