#!/usr/bin/env bash
# Times iconv(1) with the module of bindings/iconv and with glibc's own converters, from 100 MB of
# UTF-16LE to UTF-8 and back: `iconv.sh [TEXTS]`. TEXTS has a file NAME.txt in UTF-8 for each text;
# without it four texts are made. Each is repeated up to 100 MB. Both are run in turn, without
# keeping the output, and the least processor time of 5 runs counts. Prints a table: a ratio above 1
# means that the module is faster.
set -euo pipefail
cd "$(dirname "$0")"
size=${SIZE:-100000000}
room=$(mktemp -d)
trap 'rm -rf "$room"' EXIT
make -s -C ../bindings/iconv > "$room/said" || { cat "$room/said" >&2; exit 1; }
module=$(make -s -C ../bindings/iconv folder)
export LC_ALL=C.UTF-8
TIMEFORMAT='%U %S'

texts=${1:-$room}
if [ $# = 0 ]; then
    echo 'The quick brown fox jumps over the lazy dog, and then it sleeps.' > "$room/ASCII.txt"
    echo 'Съешь же ещё этих мягких французских булок, да выпей чаю.' > "$room/Cyrillic.txt"
    echo '天地玄黄，宇宙洪荒。日月盈昃，辰宿列张。寒来暑往，秋收冬藏。' > "$room/Chinese.txt"
    echo 'Grüße 😀, привет 世界: naïve “quotes” — 12 €.' > "$room/mixed.txt"
fi

# Prints the processor time of a conversion in seconds.
seconds() {
    { time iconv -f "$1" -t "$2" "$3" > /dev/null; } 2>&1 | awk '{ print $1 + $2 }'
}

echo '| Text | Direction | glibc, s | module, s | ratio |'
echo '|---|---|---:|---:|---:|'
for text in "$texts"/*.txt; do
    name=$(basename "$text" .txt)
    iconv -f UTF-8 -t UTF-16LE "$text" > "$room/many"
    while [ "$(stat -c %s "$room/many")" -lt 1000000 ]; do
        cat "$room/many" "$room/many" > "$room/more"
        mv "$room/more" "$room/many"
    done
    times=$((1 + size / $(stat -c %s "$room/many")))
    for ((n = 0; n < times; n++)); do cat "$room/many"; done > "$room/UTF-16LE"
    iconv -f UTF-16LE -t UTF-8 "$room/UTF-16LE" > "$room/UTF-8"
    for pair in 'UTF-16LE UTF-8' 'UTF-8 UTF-16LE'; do
        read -r from to <<< "$pair"
        GCONV_PATH=$module iconv -f "$from" -t "$to" "$room/$from" | cmp - "$room/$to" >&2
        for ((round = 0; round < 5; round++)); do
            echo "$(seconds "$from" "$to" "$room/$from")" \
                "$(GCONV_PATH=$module seconds "$from" "$to" "$room/$from")"
        done | awk -v row="$name | $from to $to" '
            NR == 1 || $1 < glibc { glibc = $1 }
            NR == 1 || $2 < ours { ours = $2 }
            END { printf "| %s | %.3f | %.3f | %.1f |\n", row, glibc, ours, glibc / ours }'
    done
done
