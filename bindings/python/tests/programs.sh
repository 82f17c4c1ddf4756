#!/usr/bin/env bash
# Runs `python -m dethrux` over the cases of .ci/program.txt. PYTHON names another Python, and
# PYTHONPATH the folder of the package. The last line is 'N passed, M failed'.
#
# Cases that do not apply: a fault of a call of the program's C library, which Python makes before
# it runs this program; less memory than Python takes; a folder as standard input, with which
# Python does not start; and an offset of more than 32 bits, which an int has like any other.
set -euo pipefail
top=$(cd "$(dirname "${BASH_SOURCE[0]}")/../../.." && pwd)
room=$(mktemp -d)
trap 'rm -rf "$room"' EXIT
for name in cat enc check; do
    cat > "$room/utf16_$name" << END
#!/bin/sh
exec ${PYTHON:-python3} -S -m dethrux $name "\$@"
END
    chmod +x "$room/utf16_$name"
done
export LEFT_OUT='with_little_memory|with_fault|with_each|ulimit -v|< folder|head -c 4294967296'
SAYS='dethrux %s' USAGE='python -m dethrux %s [%s] [FILE]' "$top/.ci/program.sh" "$room"/utf16_*
