#!/bin/sh
# Runs the client in Python, and fails where it doesn't print the names of the files of its service. The program is the one that
# `rt ci` has built, or RBI of the environment. Where that or python3 isn't there, nothing is run, and a line says so.
top=$(dirname "$(dirname "$(readlink -f "$0")")")
RBI=${RBI:-$top/crates/rbi/out/rbi}
export RBI

skip() {
    echo "json_client: skipped, since $1"
    exit 0
}

[ -x "$RBI" ] || skip "there is no program $RBI"
python3 -c 'import sys; sys.exit(sys.version_info < (3, 7))' 2>/dev/null || skip "there is no python3, or an old one"

printed=$(python3 "$top/examples/json_client.py")
status=$?
wanted=$(sed -n 's/.*name = "\(.*\)"; size.*/\1/p' "$top/examples/files.rbs")
if [ "$status" -ne 0 ] || [ "$printed" != "$wanted" ]; then
    printf 'json_client: ended with %s and printed:\n%s\nin place of:\n%s\n' "$status" "$printed" "$wanted" >&2
    exit 1
fi
