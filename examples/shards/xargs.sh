#!/usr/bin/env bash
# Decodes a file of UTF-16 in parts, four at a time, with one process for each part. A part gets its
# name when all of it is on the disk, and a part that has its name is not decoded again.
#     xargs.sh INPUT OUTPUT le|be PARTS
set -euo pipefail
export input=$1 output=$2 order=$3

decode_part() {
    [ ! -e "$output/$1" ] || return 0
    dd if="$input" iflag=skip_bytes,count_bytes,fullblock bs=1M skip="$2" count="$3" status=none |
        utf16_cat "$order" > "$output/.$1" && sync "$output/.$1" && mv "$output/.$1" "$output/$1"
}
export -f decode_part

mkdir -p "$output"
python3 "$(dirname "$0")/cuts.py" "$input" "utf-16-$order" "$4" |
    xargs -P 4 -L 1 bash -c 'set -o pipefail; decode_part "$@"' part
