#!/usr/bin/env bash
# Lines of mixed queries over places, against the plain Python scan of the same lines (bench/scan.py): once by the scan of place_map
# over a map in memory, with query_lang around it, in a program that this script makes, proves and builds in a folder of its own;
# and once by `irtree - run`, through the tree. The replies have to agree byte for byte; seconds and ratios.
# The program irtree must be built (./irtree-build builds it).
# usage: bench/queries_against_scan.sh [PLACES [QUERIES [SEED [QUERIES_OF_THE_PROGRAM]]]]
set -euo pipefail
top=$(cd "$(dirname "$0")/.." && pwd)
work=$(mktemp -d)
trap 'rm -rf "$work"' EXIT
mkdir -p "$work/crates/scan_speed/src"
crates="spatial_base number_grammar term_impacts place_values fixed_coords json_spelled place_map line_tokens query_replies query_lang"
for crate in $crates; do
    cp -r "$top/crates/$crate" "$work/crates/"
    grep "^$crate:" "$top/crates.txt"
done > "$work/crates.txt"
echo "scan_speed: $crates" >> "$work/crates.txt"
cat > "$work/crates/scan_speed/src/main.rt" <<'RT'
#![tactic(auto)]
ghost use Rattle.std.specs.Prelude.{IfOk};
ghost use Rattle.query_lang.specs.Plain.{IsSound};
ghost use Rattle.query_replies.specs.Reply.{HasReason};

use place_map::{Applied, State, Update, UpdateFault};
use query_lang::{Line, LineFault, Reply, UpdateDone, read_line, reply_text};
use spatial_base::{Key, Memory};
use std::alloc::Global;
use std::io::{self, BufRead, BufReader, BufWriter, Write};

fn update(state: &mut State, update: Update) -> Result<Reply, Memory>
    ensures reason { IfOk result HasReason }
{
    match state.apply(update) {
        Ok(Applied::New | Applied::Gone) => Ok(Reply::Applied(UpdateDone::Ok)),
        Ok(Applied::Replaced) => Ok(Reply::Applied(UpdateDone::Replaced)),
        Ok(Applied::Absent) => Ok(Reply::Applied(UpdateDone::Absent)),
        Err(UpdateFault::Full) => Ok(Reply::Full),
        Err(UpdateFault::Worn) => Ok(Reply::Worn),
        Err(UpdateFault::Memory) => Err(Memory),
    }
}

fn show(alloc: Global, state: &State, key: Key) -> Result<Reply, Memory>
    ensures reason { IfOk result HasReason }
{
    match state.show(&key) {
        Some((point, words, label)) => match words.copy(alloc) {
            Ok(words) => Ok(Reply::Place {
                key,
                point,
                words,
                label,
            }),
            Err(_) => Err(Memory),
        },
        None => Ok(Reply::Absent),
    }
}

fn answer(alloc: Global, state: &mut State, line: Line) -> Result<Reply, Memory>
    requires { IsSound line }
    ensures reason { IfOk result HasReason }
{
    match line {
        Line::Nothing => Ok(Reply::Nothing),
        Line::Do(change) => update(state, change),
        Line::Ask { query, explain } => match state.answer(&query) {
            Ok(answer) => Ok(Reply::Found {
                answer,
                query,
                explain,
            }),
            Err(Memory) => Err(Memory),
        },
        Line::Show(key) => show(alloc, &*state, key),
        Line::Count => Ok(Reply::Count(state.count())),
    }
}

fn reply(alloc: Global, state: &mut State, line: &[u8]) -> Result<Reply, Memory>
    ensures reason { IfOk result HasReason }
{
    match read_line(alloc, line) {
        Ok(line) => answer(alloc, state, line),
        Err(LineFault::Memory) => Err(Memory),
        Err(fault) => Ok(Reply::Bad(fault)),
    }
}

fn main(rt: HostRuntime) -> io::Result<()> {
    let mut input = BufReader::new(rt.alloc(), rt.stdin())?;
    let mut output = BufWriter::new(rt.alloc(), rt.stdout())?;
    let mut state = State::new(rt.alloc());
    let mut line = Vec::new(rt.alloc());
    let mut text = Vec::new(rt.alloc());
    for _ in 0..u64::MAX {
        line.clear();
        if input.read_until(b'\n', &mut line)? == 0 {
            break;
        }
        if line.last() == Some(&b'\n') {
            line.pop();
        }
        text.clear();
        match reply(rt.alloc(), &mut state, &line) {
            Err(_) => return Err(io::ErrorKind::OutOfMemory.into()),
            Ok(found) => match reply_text(rt.alloc(), &found, &mut text) {
                Ok(()) => output.write_all(&text)?,
                Err(_) => return Err(io::ErrorKind::OutOfMemory.into()),
            },
        }
    }
    output.flush()
}
RT
(cd "$work/crates/scan_speed" && rt run < /dev/null > "$work/built" 2>&1) || { cat "$work/built"; exit 1; }
seconds() { # how long a command takes that reads a script and writes to a file
    local script=$1 out=$2 begun
    shift 2
    begun=$(date +%s%N)
    "$@" < "$script" > "$out"
    echo $(($(date +%s%N) - begun))
}
compare() { # a name, how many queries, and the command beside the scan in Python
    local name=$1 queries=$2 ours plain
    shift 2
    python3 "$top/bench/mixed_queries.py" "$places" "$queries" "$seed" > "$work/script"
    ours=$(seconds "$work/script" "$work/ours" "$@")
    plain=$(seconds "$work/script" "$work/plain" python3 "$top/bench/scan.py")
    cmp "$work/ours" "$work/plain"
    python3 -c "import sys; ours, plain = (int(n) / 1e9 for n in sys.argv[2:]); print(f'{sys.argv[1]}: {ours:.2f} s, Python {plain:.2f} s: {plain / ours:.2f} times as fast')" "$name, $queries queries" "$ours" "$plain"
}
places=${1:-1000}
seed=${3:-7}
compare "scan of place_map" "${2:-100000}" "$work/crates/scan_speed/out/scan_speed"
compare "irtree - run" "${4:-1000}" "$top/irtree" - run
