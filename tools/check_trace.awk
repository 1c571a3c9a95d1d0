# Reads what `strace -y` saw of one run over a store, and says of the first call that came out of order what was wrong; the
# exit status is then 1. Set by -v: store, the path of the file of pages without links; folder, its folder.
#
# - Both files are opened and locked, and the folder is synced, before the first byte is read or written.
# - Both files are synced before the first byte is written to either, and before anything is said.
# - Before a reply `ok` or `stored`, since the one before it: a record is written to the journal, the journal is synced, one byte
#   that isn't 0 is written, which opens a gate, and the journal is synced.
# - Pages are written only while the gate, byte 0 of the journal, is open and safe, and are synced before it is closed.
# - When something is said, and at the end, nothing of the journal waits for a sync.
# A call that was injected (strace --inject=..:retval=0) wasn't made.

function fault(text) {
    if (bad == "") bad = "line " NR ": " text ": " $0
}

# The path that strace -y shows of the descriptor of a call.
function path_of(line,   rest) {
    rest = line
    sub(/^[^<]*</, "", rest)
    sub(/>.*/, "", rest)
    return rest
}

function is_settled() {
    return locked[store] && locked[journal] && synced_folder
}

function look_before(path) {
    if ((path == store || path == journal) && !is_settled()) fault("before the locks and the sync of the folder")
}

BEGIN {
    journal = store ".journal"
    gate = 0
}

/ = -1 E/ || /INJECTED/ { next }

{ call = $0; sub(/^[0-9]+ +/, "", call); sub(/\(.*/, "", call); path = path_of($0) }

call == "flock" && /LOCK_EX/ { locked[path] = 1 }

call == "pread64" {
    look_before(path)
    if (path == journal && / 0\) = [0-9]+$/) gate = !(/>, "\\0/ || / 0\) = 0$/)
}

call == "fsync" || call == "fdatasync" {
    if (path == folder && locked[store] && locked[journal]) synced_folder = 1
    synced[path] = 1
    dirty[path] = 0
    if (path == journal) {
        if (opening) gate = 1
        opening = 0
        if (record == 1) record = 2
        if (record == 3) record = 4
    }
}

call == "pwrite64" && (path == store || path == journal) {
    look_before(path)
    if (!synced[store] || !synced[journal]) fault("a write before both files were synced")
    dirty[path] = 1
    if (path == store) {
        if (!gate || opening) fault("pages are written and the gate is not open and safe")
    } else if (/, 1, 0\) = 1$/ && />, "\\0", /) {
        if (dirty[store]) fault("the gate is closed and the pages are not synced")
        gate = 0
    } else if (/, 1, [0-9]+\) = 1$/ && !/>, "\\0", /) {
        if (record != 2) fault("the gate is opened and the record is not synced")
        record = 3
        opening = 1
    } else {
        record = 1
    }
}

call == "write" && /^[0-9]+ +write\(1</ {
    if (!is_settled() || !synced[store] || !synced[journal]) fault("said before the files were opened and synced")
    if (dirty[journal]) fault("said, and the journal is not synced")
    if (/, "(ok|stored )/) {
        if (record != 4) fault("acknowledged without a record and a gate that are synced")
        record = 0
        acknowledged++
    }
}

END {
    if (bad == "" && dirty[journal]) bad = "at the end the journal is not synced"
    if (bad == "" && dirty[store] && !gate) bad = "at the end the pages are not synced"
    if (bad != "") { print bad; exit 1 }
    print "acknowledged " acknowledged + 0
}
