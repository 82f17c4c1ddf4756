#!/usr/bin/env bash
# Tests cuts.py on every short text, and xargs.sh on files of a few MiB, which it decodes like
# utf16_cat decodes the whole, also after a part failed or was lost. The last line is 'N passed, M
# failed'.
set -uo pipefail
here=$(cd "$(dirname "${BASH_SOURCE[0]}")" && pwd)
. "$here/../../.ci/checks.sh"
export PYTHONDONTWRITEBYTECODE=1 PYTHONPATH=$room/package:$here

build() {
    make -s -C "$top/dist" && "$top/bindings/python/build.sh" "$room/package" && cd "$room" &&
        PATH=$(make -s -C "$top/dist" folder):$PATH
}

# Cuts every short sequence of a letter and surrogates, with and without a last byte, into every
# number of parts. CPython's decoder is the other implementation.
short_texts() {
    python3 - << 'END'
import io, itertools
from cuts import cuts
cases = 0
for order, codec in ("little", "utf-16-le"), ("big", "utf-16-be"):
    units = [it.encode(codec, "surrogatepass") for it in ("a", "\ud83d", "\ude00")]
    for length, last in itertools.product(range(5), (b"", b"\xd8")):
        for sequence in itertools.product(units, repeat=length):
            raw = b"".join(sequence) + last
            for parts in range(1, length + 3):
                found = list(cuts(io.BytesIO(raw), order, parts))
                pieces = [raw[start:end] for start, end in zip(found, found[1:])]
                texts = [piece.decode(codec, "replace") for piece in pieces]
                assert len(texts) == parts and found[0] == 0 and found[-1] == len(raw), (raw, found)
                assert "".join(texts) == raw.decode(codec, "replace"), (raw, order, parts, found)
                cases += 1
assert cases > 1000
END
}

# Writes 12 MiB of text in many scripts, 3 MiB of random bytes, in which about every thirtieth code
# unit is a surrogate, pairs in big endian, a file with a BOM and an empty file.
write_files() {
    python3 - << 'END'
import random
pick = random.Random(16)
alphabets = ["etaoinshrdlu", "äöüßéèçñå", "абвгдежзик", "漢字文字列変換速度", "😀😁😂🎉𝄞𐍈"]
chosen = pick.choices(alphabets, weights=[8, 2, 2, 3, 2], k=1_000_000)
words = ("".join(pick.choices(it, k=pick.randint(1, 9))) for it in chosen)
files = {"text": " ".join(words).encode("utf-16-le"), "random": pick.randbytes(3 << 20)}
files |= {"bom": "\ufeffa😀".encode("utf-16-le"), "empty": b""}
files["pairs"] = ("😀" * 1001).encode("utf-16-be")
for name, raw in files.items():
    open(name, "wb").write(raw)
assert len(files["text"]) > 12_000_000
END
}

# Tests that the folder has this many parts and nothing else, and that they are the whole text.
joined() {
    utf16_cat "$2" < "$1" > wanted
    [ "$(find parts -type f | wc -l)" = "$3" ] && cat parts/part-* | cmp - wanted
}

decodes() {
    rm -rf parts && "$here/xargs.sh" "$1" parts "$2" "$3" && joined "$@"
}

# Tests that a part that cannot be written and one that cannot be read fail, and the others do not,
# and that the same command then decodes the parts that are missing and no other one.
does_what_is_left() {
    rm -rf parts && mkdir -p parts/.part-00003
    dd() { [[ $* != *' skip=0 '* ]] && command dd "$@"; }
    export -f dd
    "$here/xargs.sh" text parts le 23
    [ $? = 123 ] && [ "$(find parts -type f -name 'part-*' | wc -l)" = 21 ] || return
    unset -f dd
    rm -r parts/.part-00003 parts/part-00007
    find parts -type f -name 'part-*' -printf '%p %i %T@\n' | sort > before
    "$here/xargs.sh" text parts le 23 && joined text le 23 &&
        diff before <(find parts -type f -printf '%p %i %T@\n' | grep -v 'part-0000[037]' | sort)
}

check 'the package and the programs' build || finish
check 'short texts' short_texts
check 'files' write_files
check 'text in many scripts' decodes text le 23
check 'random bytes, little endian' decodes random le 23
check 'random bytes, big endian' decodes random be 23
check 'pairs in big endian' decodes pairs be 8
check 'more parts than code units' decodes bom le 14
check 'an empty file' decodes empty le 2
check 'a part that fails, and one that is lost' does_what_is_left
finish
