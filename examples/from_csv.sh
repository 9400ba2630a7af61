#!/bin/sh
# Loads a plain CSV file: makes a script for `trial` from it, and checks afterwards that every row
# was kept.
#
#   examples/from_csv.sh FILE            writes the script to standard output
#   examples/from_csv.sh FILE REPLIES    checks the replies that the script got
#
# The file has a header line, no empty lines, and the columns of the table below, in the same order.
# Its times are whole seconds since 1970. A field may stand in quotes, with no line end inside. For a
# file of your own change the description and the queries, and the names FEED and TABLE with them.
set -eu
export LC_ALL=C
FEED=sensors
TABLE=temps

if [ $# -lt 1 ] || [ ! -r "$1" ]; then
    echo "usage: from_csv.sh FILE [REPLIES], and FILE has to be there" >&2
    exit 2
fi
file=$1
rows=$(tail -n +2 "$file" | grep -c '') || true

if [ $# -gt 1 ]; then
    # With a size that is too small the rest of the rows is read as session lines, with one that is
    # too big the next lines are read as rows. Either way the count is wrong or a line is refused.
    if grep -q "^loaded $FEED 1 entry 1 kept $rows aside 0\$" "$2" && ! grep -q '^refused ' "$2"; then
        echo "all $rows rows of $file were kept"
        exit 0
    fi
    echo "not all $rows rows of $file were kept, or a line was refused: see the replies in $2" >&2
    exit 1
fi

body=$(mktemp)
trap 'rm -f "$body"' EXIT

# The body: the file without its header, each row with the table's name in front.
tail -n +2 "$file" | sed "s/^/$TABLE,/" > "$body"

# `wc -c` counts bytes. A count of characters would be too small, since `é` is two bytes: the end of
# the last rows would be taken for session lines.
bytes=$(($(wc -c < "$body")))

cat <<SCRIPT
feed $FEED
raw $TABLE feed $FEED width 3600 time at cols at:int room:text tenths:int
view warm width 86400 filter $TABLE 0 0 where tenths >= 240 keep at room tenths
go
deliver $FEED 1 0 $bytes
SCRIPT
cat "$body"
cat <<SCRIPT
query $TABLE 1767265200 1767268800
drain
query warm 1767225600 1767398400
SCRIPT
