#!/usr/bin/env bash
# Tries what files can do to a store: names, links, locks, rights, a full disk, a limit on the size of a file, closed streams, a
# file cut short under the program, and by strace signals in the middle of a call and file systems that lack a call. Each case has the
# status and the lines on standard error that must come, the end's fixed line first and alone, and what the store must hold then.
# It needs root, strace, and the program built (./irtree-build builds it).
# usage: tools/file_troubles.sh
set -euo pipefail
top=$(cd "$(dirname "$0")/.." && pwd)
program=${IRTREE:-$top/crates/irtree_cli/out/irtree_cli}
work=$(realpath "$(mktemp -d)")
chmod 755 "$work"
holder=
clean() {
    [ -n "$holder" ] && kill "$holder" 2> /dev/null
    mountpoint -q "$work/disk" && umount "$work/disk"
    rm -rf "$work"
}
trap clean EXIT
cp "$program" "$work/irtree"
program=$work/irtree
failed=0

# Runs a script, the first word, over a store, the second; the others are put before the program. The streams go to files.
ask() {
    local script=$1 store=$2
    shift 2
    status=0
    printf '%s\n' "$script" | "$@" "$program" "$store" run > "$work/said" 2> "$work/err" || status=$?
}

# The fixed line of each status that comes here.
fixed_line() {
    case $1 in
        0) ;;
        2) echo "usage: irtree STORE run|load|verify|make|upgrade [options]" ;;
        3) echo "irtree: disk" ;;
        4) echo "irtree: source" ;;
        5) echo "irtree: sink" ;;
        *) echo "no status that is expected here: $1" ;;
    esac
}

# Whether standard error of the last run is as it must be for a status: the fixed line alone first, then the advice, one or two lines
# of which one is the text given. Nothing at all comes for status 0.
advised() {
    [ "$status" = "$1" ] && [ "$(head -n 1 "$work/err")" = "$(fixed_line "$1")" ] || return 1
    if [ "$1" = 0 ]; then
        [ ! -s "$work/err" ]
    else
        [ "$(wc -l < "$work/err")" -le 3 ] && grep -qxF -e "$2" <(tail -n +2 "$work/err")
    fi
}

# What the last run must have given: status, a line of the advice on standard error, all of standard output.
gave() {
    if advised "$2" "$3" && [ "$(cat "$work/said")" = "$4" ]; then
        echo "ok: $1"
    else
        echo "NOT so: $1: status $status, standard error: $(cat "$work/err"), standard output: $(cat "$work/said")"
        failed=1
    fi
}

# A store must have as many places.
holds() {
    ask count "$2"
    gave "$1" 0 "" "count $3"
}

# Holds a store open: a run that waits for its script.
hold() {
    mkfifo "$work/script"
    "$program" "$1" run < "$work/script" > "$work/held" 2> "$work/held_err" &
    holder=$!
    exec 9> "$work/script"
    echo "add held 0 0" >&9
    while ! grep -q ok "$work/held"; do sleep 0.02; done
}

# Ends the run that holds a store; its status and streams become the last run's.
let_go() {
    exec 9>&-
    status=0
    wait "$holder" || status=$?
    holder=
    mv "$work/held" "$work/said"
    mv "$work/held_err" "$work/err"
    rm "$work/script"
}

add='add a 0 0 cafe'
nobody=(setpriv --reuid=65534 --regid=65534 --clear-groups)
in_use='another process has the store open; wait for it to end'
look='look at its disk, and run again: the next run reads what the disk kept'

# Names.
ask "$add" "$work/a b Ωж 地図.store"
gave "a path with spaces and letters of other scripts" 0 "" ok
(cd "$work" && ask "$add" near.store && gave "a path relative to the caller" 0 "" ok)
holds "the same store by its whole path" "$work/near.store" 1
ask "$add" $'\xff.store'
gave "a path that is no UTF-8" 2 "a word that was given isn't UTF-8" ""
ask "$add" "$work/no
ne/a"
gave "a folder that isn't there, its name with an LF" 3 "$work/no?ne/a: No such file or directory (os error 2); make its folder, or name another store" ""
ask "$add" "$work/near.store/a"
gave "a path below a file" 3 "$work/near.store/a: Not a directory (os error 20); name a file in a folder" ""
ask "$add" "$work"
gave "a folder" 3 "$work: Is a directory (os error 21); name a file in a folder" ""
ask "$add" /dev/zero
gave "a device" 3 "/dev/zero: it is a device, a pipe or a folder; name a file" ""
mkfifo "$work/pipe"
ask "$add" "$work/pipe"
gave "a pipe" 3 "$work/pipe: it is a device, a pipe or a folder; name a file" ""
long=$work/$(printf 'x%.0s' {1..250})
ask "$add" "$long"
gave "a name too long for its journal's" 3 "$long.journal: File name too long (os error 36); name a store with a shorter path" ""
ln -s loop "$work/loop"
ask "$add" "$work/loop"
gave "a link to itself" 3 "$work/loop: Too many levels of symbolic links (os error 40); name the file that the link is for" ""
mkdir "$work/"$'no\xff'
status=0
(cd "$work/"$'no\xff' && "$program" o.store run <<< "$add") > "$work/said" 2> "$work/err" || status=$?
gave "a folder whose name is no UTF-8" 3 "o.store: the path without links can't be told: invalid filename; name a store whose whole path is UTF-8" ""

# Links.
mkdir "$work/far"
ln -s far/b.store "$work/b.link"
ask "$add" "$work/b.link"
gave "a link that dangles" 0 "" ok
holds "its target, with its journal" "$work/far/b.store" 1
[ -f "$work/far/b.store.journal" ] && [ ! -e "$work/b.link.journal" ]
killed_with_gate_open() {
    ask "$1" "$work/far/b.store" strace -o "$work/trace" -P "$work/far/b.store" --inject=pwrite64:signal=KILL:when=2 2> "$work/shell"
    gate=$(head -c 1 "$work/far/b.store.journal" | od -An -tu1)
    [ "$gate" -ne 0 ] || { echo "NOT so: a kill left the gate closed"; failed=1; }
}
killed_with_gate_open "add c 1 1"
ask count "$work/b.link"
gave "a store that a kill left with an open gate, by its link" 0 "" "count 2"
killed_with_gate_open "add d 1 1"
ask count "$work/far/b.store"
gave "another, by its path" 0 "" "count 3"
ln "$work/far/b.store" "$work/b.hard"
ask count "$work/b.hard"
gave "a file with two hard links" 3 "$work/b.hard: it has more than one hard link; leave it one name, or copy it" ""
rm "$work/b.hard"
mv "$work/far/b.store.journal" "$work/far/elsewhere"
ln -s elsewhere "$work/far/b.store.journal"
ask count "$work/b.link"
gave "a journal that is a link" 3 "$work/far/b.store.journal: it is a symbolic link; put the journal itself beside its store" ""

# Locks.
hold "$work/c.store"
ask count "$work/c.store"
gave "a store that another process has" 3 "$work/c.store: $in_use" ""
ask count "$work/c.store.journal"
gave "its journal as a store" 3 "$work/c.store.journal: $in_use" ""
let_go
gave "the process that had it" 0 "" ok
hold "$work/d.journal"
ask count "$work/d"
gave "a store whose journal another process has as a store" 3 "$work/d.journal: $in_use" ""
let_go
ask "$add" "$work/e.store" strace -o "$work/trace" --inject=flock:error=EOPNOTSUPP
gave "a file system without locks" 0 "" ok
ask "$add" "$work/e.store" strace -o "$work/trace" --inject=flock:error=ENOLCK
gave "a lock that fails" 3 "$work/e.store: it can't be locked: No locks available (os error 37); look at the file system's locks, or name a store elsewhere" ""

# The folder. Its sync is the first one.
folder="$work/f.store: its folder can't be made safe"
elsewhere='name a store on a file system that can sync a folder'
ask "$add" "$work/f.store" strace -o "$work/trace" --inject=fsync:error=EINVAL:when=1
gave "a new store in a folder that can't be synced" 3 "$folder: Invalid argument (os error 22); $elsewhere" ""
ask "$add" "$work/f.store" strace -o "$work/trace" --inject=fsync:error=EIO:when=1
gave "a new store in a folder whose sync fails" 3 "$folder: Input/output error (os error 5); $look" ""
ask "$add" "$work/f.store"
ask count "$work/f.store" strace -o "$work/trace" --inject=fsync:error=EINVAL:when=1
gave "a store that was there, in a folder that can't be synced" 0 "" "count 1"
ask count "$work/f.store" strace -o "$work/trace" --inject=fsync:error=EIO:when=1
gave "a store that was there, in a folder whose sync fails" 3 "$folder: Input/output error (os error 5); $look" ""
mkdir "$work/shut"
chown 65534 "$work/shut"
chmod 300 "$work/shut"
ask "$add" "$work/shut/g.store" "${nobody[@]}"
gave "a new store in a folder that can't be read" 3 "$work/shut/g.store: its folder can't be made safe: Permission denied (os error 13); make the folder readable, or name another store" ""
chmod 700 "$work/shut"
ask "$add" "$work/shut/g.store" "${nobody[@]}"
chmod 300 "$work/shut"
ask count "$work/shut/g.store" "${nobody[@]}"
gave "a store that was there, in a folder that can't be read" 0 "" "count 1"

# Rights.
rights='Permission denied (os error 13); make the file and its folder writable and each folder above it searchable, or name another store'
ask "$add" "$work/h.store" "${nobody[@]}"
gave "a folder that can't be written" 3 "$work/h.store: $rights" ""
ask count "$work/near.store" "${nobody[@]}"
gave "a file that can only be read" 3 "$work/near.store: $rights" ""
cp "$(command -v sleep)" "$work/program"
"$work/program" 60 &
holder=$!
sleep 0.1
ask count "$work/program"
gave "a program that runs" 3 "$work/program: Text file busy (os error 26); it is a program that runs: name another store" ""
kill "$holder"
wait "$holder" 2> /dev/null || true
holder=

# Disks. A run that ended so said each reply whole, and the store holds what was acknowledged, or one place more.
many=$(for k in $(seq 1 400); do echo "add k$k 0 0 w$k"; done)
ended_full() {
    local said
    said=$(grep -c '^ok' "$work/said" || true)
    if advised 3 "$2" && [ "$said" -gt 0 ]; then
        echo "ok: $1, after $said replies"
    else
        echo "NOT so: $1: status $status, $said replies, standard error: $(cat "$work/err")"
        failed=1
    fi
    replies=$said
}
held() {
    ask count "$2"
    local count
    count=$(sed -n 's/^count //p' "$work/said")
    if [ "$count" = "$replies" ] || [ "$count" = $((replies + 1)) ]; then
        echo "ok: $1: $count places"
    else
        echo "NOT so: $1: $(cat "$work/err" "$work/said")"
        failed=1
    fi
}
mkdir "$work/disk"
mount -t tmpfs -o size=96k tmpfs "$work/disk"
ask "$many" "$work/disk/i.store"
which=$(sed -n "s|^$work/disk/i.store\(.journal\)\?: .*|\1|p" "$work/err")
ended_full "a disk that gets full" "$work/disk/i.store$which: No space left on device (os error 28); make room on its disk, and run again"
mount -o remount,size=1m "$work/disk"
held "the same store with room made" "$work/disk/i.store"
mount -o remount,ro "$work/disk"
ask count "$work/disk/i.store"
gave "a file system that can only be read" 3 "$work/disk/i.store: Read-only file system (os error 30); name a store on a file system that can be written" ""
limited() {
    trap '' XFSZ
    ulimit -f 64
    exec "$@"
}
export -f limited
ask "$many" "$work/j.store" bash -c 'limited "$@"' limited
which=$(sed -n "s|^$work/j.store\(.journal\)\?: .*|\1|p" "$work/err")
ended_full "a limit on the size of a file" "$work/j.store$which: File too large (os error 27); raise the limit on the size of a file, and run again"
held "the same store without the limit" "$work/j.store"

# Files that are cut short or removed under the program.
cut='it was cut short while it was open; take the store and its journal from a copy'
for which in "" .journal; do
    # A run before this one ended by a checkpoint, so that both files have bytes.
    ask "add z 2 2" "$work/k$which.store"
    hold "$work/k$which.store"
    truncate -s 0 "$work/k$which.store$which"
    echo "add b 1 1" >&9
    let_go
    # The pages that the second place changes are in memory, so that STORE is met by the checkpoint behind its reply.
    said=ok
    [ -n "$which" ] || said=$'ok\nok'
    gave "a file STORE$which that is cut short" 3 "$work/k$which.store$which: $cut" "$said"
done
hold "$work/l.store"
rm "$work/l.store" "$work/l.store.journal"
echo "add b 1 1" >&9
let_go
gave "files that are removed" 3 "$work/l.store.journal: it was removed, or another file took its name; put the store and its journal back, and run again" ok

# Signals in the middle of a call.
ask "$add" "$work/m.store" strace -o "$work/trace" -P "$work/m.store" -P "$work/m.store.journal" --inject=pread64,pwrite64,fsync,fdatasync,flock:error=EINTR:when=1+2
gave "each second call interrupted" 0 "" ok
holds "and its store" "$work/m.store" 1
ask "$add" "$work/m.store" strace -o "$work/trace" --inject=write:error=EINTR:when=1
gave "a reply that a signal interrupts" 0 "" "ok replaced"

# Standard streams that are closed: the store's files don't take their place.
unwritten="it can't be written (a closed pipe or a full disk, perhaps); what was acknowledged is stored"
status=0
"$program" "$work/n.store" run <<< "$add" >&- 2> "$work/err" || status=$?
: > "$work/said"
gave "standard output that is closed" 5 "standard output: $unwritten" ""
holds "and its store" "$work/n.store" 1
status=0
"$program" "$work/n.store" run <&- > "$work/said" 2> "$work/err" || status=$?
gave "standard input that is closed" 4 "standard input: it can't be read; what was acknowledged is stored" ""
holds "and its store" "$work/n.store" 1
status=0
"$program" "$work/n.store" run <<< "$add" > /dev/full 2> "$work/err" || status=$?
: > "$work/said"
gave "standard output that is full" 5 "standard output: $unwritten" ""

exit "$failed"
