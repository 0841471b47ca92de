#!/bin/sh
# Looks whether the tools, the man page, the completions and the colours of the editors keep to the pages of docs/. A program that
# isn't there is passed over, and a line says so.
top=$(dirname "$(dirname "$(readlink -f "$0")")")

"$top/tests/man_page.sh" || exit
if ! python3 -c 'import sys; sys.exit(sys.version_info < (3, 7))' 2>/dev/null; then
    echo "tools: completions and editors are skipped, since there is no python3, or an old one"
    exit 0
fi
python3 "$top/tests/rbi_tools.py" || exit
python3 "$top/tests/completions.py" || exit
python3 "$top/tests/editors.py" || exit
