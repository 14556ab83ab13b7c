#!/usr/bin/env bash
# Times a step of the largest program of the notation: one thread that submits and reaps nops, one after another, until
# the model has almost 4,096 lines, under a schedule of as many items as one argument of a command holds (131,071 bytes).
set -eu
top=$(cd "$(dirname "${BASH_SOURCE[0]}")/.." && pwd)
folder=$(mktemp -d)
trap 'rm -rf "$folder"' EXIT

awk 'BEGIN {
    print "ringcheck 1"; print "ring 1024"
    for (u = 0; u < 256; u++) print "token " u " nop"
    print "thread a holds {"; print "lock {"
    for (n = 0; n < 294; n++) {
        u = n % 256
        print "get_sqe\nprep_nop\nset_data64 " u "\nr = submit\npeek_cqe r {\ncase " u " {\ncqe_seen\n}\nother {\n}\nnone {\n}\n}"
    }
    print "}"; print "}"
}' >"$folder/largest.rc"

# The thread goes on, and each request completes as soon as it is submitted, until the thread ends: the item behind its
# end isn't enabled, and all the others are read and not taken.
awk 'BEGIN {
    printf "a"; bytes = 1
    for (n = 0; n < 294; n++) {
        item = ",a,a,a,a,k:" (n % 256) "=0,a,a"; printf "%s", item; bytes += length(item)
    }
    while (bytes + 2 < 131000) { printf ",a"; bytes += 2 }
}' >"$folder/schedule"

echo "$(wc -l <"$folder/largest.rc") lines, $(tr ',' '\n' <"$folder/schedule" | wc -l) items"
time "$top/ringcheck" step --schedule "$(cat "$folder/schedule")" <"$folder/largest.rc" >"$folder/trace" || true
echo "$(wc -l <"$folder/trace") lines of trace, the last: $(tail -n 1 "$folder/trace")"
