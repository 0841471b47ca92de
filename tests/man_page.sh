#!/bin/sh
# Makes the man page again from docs/commands.md, and fails where it isn't the one in man/. Where groff is there, the page has to be
# formatted without a warning. Where python3 isn't there, nothing is done, and a line says so.
top=$(dirname "$(dirname "$(readlink -f "$0")")")
page=$top/man/rbi.1

if ! python3 -c 'import sys; sys.exit(sys.version_info < (3, 7))' 2>/dev/null; then
    echo "man_page: skipped, since there is no python3, or an old one"
    exit 0
fi
made=$(python3 "$top/tools/make_man.py" && echo .) || exit 1
if ! printf %s "${made%.}" | cmp - "$page"; then
    echo "man_page: docs/commands.md has changed: tools/make_man.py > man/rbi.1 makes the page again" >&2
    exit 1
fi

if ! command -v groff > /dev/null; then
    echo "man_page: not formatted, since there is no groff"
    exit 0
fi
warnings=$(groff -man -Tutf8 -ww "$page" 2>&1 > /dev/null)
if [ -n "$warnings" ]; then
    printf 'man_page: groff warns:\n%s\n' "$warnings" >&2
    exit 1
fi
