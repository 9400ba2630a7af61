#!/bin/sh
# Runs `trial` on every example and compares the replies and the exit code with those that are
# wanted. It prints the first example with its replies.
#
# The proved program is taken if it lies ready and no source is newer. Else the program is built
# once, without proof, and run on all of the examples: that takes about half a minute.

examples="first story hosts temperatures"

# `hosts` has a line that is refused.
wanted_code() {
    case $1 in
        hosts) echo 1 ;;
        *) echo 0 ;;
    esac
}

cd "$(dirname "$0")" || exit 2
here=$(pwd)
folder=$(mktemp -d) || exit 2
trap 'rm -rf "$folder"' EXIT
mkdir "$folder/scripts" || exit 2
cp first.depot story.depot hosts.depot "$folder/scripts/" || exit 2
./from_csv.sh temperatures.csv > "$folder/scripts/temperatures.depot" || exit 2

# Each example's replies go to `NAME.replies`, its exit code to `NAME.code`.
run_program() {
    for name in $examples; do
        "$1" . trial < "$folder/scripts/$name.depot" > "$folder/$name.replies" 2>> "$folder/log"
        echo $? > "$folder/$name.code"
    done
}

# `rt try` writes a line `== NAME` before the replies to each script, and one that begins with
# `case=NAME` and tells the exit code to standard error.
try_program() {
    cd "$here/../crates/depot_cli" || exit 2
    rt try --cases "$folder/scripts" -- . trial > "$folder/all" 2> "$folder/log"
    cd "$here" || exit 2
    if ! grep -q '^cases=' "$folder/log"; then
        echo "the program was not built:"
        cat "$folder/log"
        exit 1
    fi
    for name in $examples; do
        awk -v name="== $name.depot" '/^== / { on = ($0 == name); next } on' "$folder/all" \
            > "$folder/$name.replies"
        sed -n "s/^case=$name.depot .*status=\([0-9]*\) .*/\1/p" "$folder/log" > "$folder/$name.code"
    done
}

program=$(./program.sh)
if [ -n "$program" ]; then
    echo "The proved program: $program"
    run_program "$program"
else
    ./needs_rt.sh || exit 1
    echo "No proved program lies ready: it is built now without proof, in about half a minute."
    try_program
fi

echo
echo "The script, examples/first.depot:"
sed 's/^/    /' first.depot
echo "Its replies:"
sed 's/^/    /' "$folder/first.replies"
echo

failed=0
for name in $examples; do
    code=$(cat "$folder/$name.code")
    if [ "$code" = "$(wanted_code "$name")" ] && cmp -s "$name.answer" "$folder/$name.replies"; then
        echo "$name: exit code $code and the replies of examples/$name.answer, as wanted"
    else
        echo "$name: exit code $code, wanted $(wanted_code "$name"); the replies differ so:"
        diff "$name.answer" "$folder/$name.replies"
        failed=1
    fi
done
./from_csv.sh temperatures.csv "$folder/temperatures.replies" || failed=1

# The README shows the first example and its replies.
awk '/^examples\/trial.sh <</ { on = 1; next } /^END$/ { on = 0 } on' ../README.md > "$folder/shown"
awk '/^The replies:/ { on = 1; next } /^- / { on = 0 } on && !/^(```.*)?$/' ../README.md \
    > "$folder/shown.answer"
if ! cmp -s first.depot "$folder/shown" || ! cmp -s first.answer "$folder/shown.answer"; then
    echo "README.md shows another script than examples/first.depot, or other replies"
    failed=1
fi

if [ "$failed" -ne 0 ]; then
    cat "$folder/log"
fi
exit "$failed"
