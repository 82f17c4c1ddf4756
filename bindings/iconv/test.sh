#!/usr/bin/env bash
# Tests the module next to glibc's own converters, with the library of dist/: random calls and all
# characters, iconv(1) on files, a module that cannot run, and an installation in a folder that is a
# small system. The last line is 'N passed, M failed'.
set -uo pipefail
here=$(cd "$(dirname "$0")" && pwd)
. "$here/../../.ci/checks.sh"
export LC_ALL=C.UTF-8
unset GCONV_PATH

# Compiles a program or a library of tests/.
compile() {
    "${CC:-cc}" -std=gnu11 -D_GNU_SOURCE -O2 -Wall -Wextra -Werror -I"$top/dist/include" \
        "$here/tests/$1.c" "${@:2}"
}

# == iconv(1)

# Writes texts: several scripts, long enough for several blocks, and the same with errors.
write_texts() {
    local letters= script code
    for script in 41 E0 391 410 5D0 627 905 E01 3042 4E00 AC00 1F600 20000 10FFF0; do
        for code in {0..12}; do
            printf -v letters '%s%b' "$letters" "\\U$(printf %08x $((16#$script + code)))"
        done
        letters+=$'\n'
    done
    mkdir "$room/texts"
    cd "$room/texts" || return
    for _ in {1..150}; do printf '%s' "$letters"; done > long.UTF-8
    printf '%s' "$letters" > short.UTF-8
    : > empty.UTF-8
    for text in long short empty; do
        for form in UTF-16LE UTF-16BE UTF-16; do
            iconv -f UTF-8 -t $form $text.UTF-8 > $text.$form || return
        done
    done
    { printf '\xFE\xFF' && cat short.UTF-16BE; } > swapped.UTF-16
    for form in UTF-16LE UTF-16BE UTF-16 UTF-8; do
        # Unpaired surrogates, or bytes that begin and end no character.
        { cat short.$form && printf '\xDC\xDC\xE2\x82' && cat short.$form; } > ill.$form
        { cat ill.$form long.$form short.$form && printf '\xED\xB0'; } > early.$form
        head -c -1 short.$form > cut.$form
    done
}

# Runs iconv with these words on a text, and puts what it writes, says and returns into files.
converted() {
    iconv "${@:3}" "$2" > "$room/$1.out" 2> "$room/$1.said"
    echo "status $?" >> "$room/$1.said"
}

# Tests that iconv does the same with the module on all texts of a form, with these words.
same_as_glibc() {
    local text
    for text in "$room"/texts/*."$1"; do
        converted glibc "$text" -f "$1" "${@:2}"
        GCONV_PATH=$folder converted module "$text" -f "$1" "${@:2}"
        cmp "$room/glibc.out" "$room/module.out" && diff "$room/glibc.said" "$room/module.said" || {
            echo "$text"
            return 1
        }
    done
}

# Tests which modules a conversion of iconv loads; more words run it.
loads() {
    local wanted=$1 from=$2 to=$3
    shift 3
    printf 'xy' | LD_DEBUG=files "$@" iconv -f "$from" -t "$to" 2>&1 > "$room/converted" |
        sed -n 's|.*calling init: .*/\([^/]*\)\.so$|\1|p' | grep -v '^ld-linux' | sort -u |
        paste -sd ' ' > "$room/loaded"
    cat "$room/loaded"
    [ "$(< "$room/loaded")" = "$wanted" ]
}

# Tests that the module makes its own conversions only, and that it is not a step of others.
takes_its_own() {
    local from to
    for from in UTF-8 UTF-16 UTF-16LE UTF-16BE; do
        for to in UTF-8 UTF16 UTF16LE UTF16BE; do
            if [ "$from$to" = UTF-8UTF-8 ]; then
                loads '' "$from" "$to" "$@"
            else
                loads DETHRUX "$from" "$to" "$@"
            fi || return
        done
    done
    loads 'ISO8859-1 UTF-16' UTF-16LE ISO-8859-1 "$@" &&
        loads 'ISO8859-1 UTF-16' ISO-8859-1 UTF-16 "$@" &&
        loads UTF-16 UTF-16LE UCS-4 "$@" && loads UTF-32 UTF-32 UTF-8 "$@"
}

# == modules that cannot run

# Tests that iconv fails before it converts anything.
is_refused() {
    printf 'x\0' | iconv -f UTF-16LE -t UTF-8 > "$room/converted" 2> "$room/line"
    [ $? = 1 ] && [ ! -s "$room/converted" ] && grep -q '^iconv: ' "$room/line"
}

# Tests this with a library that is missing, and with one whose version is too old.
without_library() {
    local alone=$room/alone
    mkdir "$alone" && cp "$here/dethrux.conf" "$alone/gconv-modules" &&
        make -s -C "$here" CC="${CC:-cc}" BUILD="$room/built" "$room/built/system/DETHRUX.so" &&
        cp "$room/built/system/DETHRUX.so" "$alone" && GCONV_PATH=$alone is_refused || return
    nm -D --undefined-only "$alone/DETHRUX.so" |
        sed -n 's/.* U \(dethrux_.*\)/int \1(void) { return 1; }/p' |
        "${CC:-cc}" -shared -fPIC -x c - -Wl,-soname,libdethrux.so.0.2 \
        -o "$alone/libdethrux.so.0.2" &&
        LD_LIBRARY_PATH=$alone GCONV_PATH=$alone is_refused &&
        LD_LIBRARY_PATH=$library GCONV_PATH=$alone iconv -f UTF-16LE "$room/texts/short.UTF-16LE" |
        cmp - "$room/texts/short.UTF-8"
}

# == an installation

# Tests what `make install` asks before it leaves the module in place: iconv takes the module of a
# folder and none of an empty one, and a module that is loaded converts.
asks_iconv() {
    local words=(make -s -C "$here" "CC=${CC:-cc}" works)
    mkdir "$room/none" && "${words[@]}" GCONV="$folder" && ! "${words[@]}" GCONV="$room/none" &&
        ! LD_LIBRARY_PATH=$room/alone "${words[@]}" GCONV="$room/alone"
}

# Runs words in the small system, as root or as if this were root.
inside() {
    if [ $EUID = 0 ]; then chroot "$system" "$@"; else unshare -r chroot "$system" "$@"; fi
}

list() {
    (cd "$system" && find . -type f -exec sha256sum {} + | sort && find . -type d | sort)
}

# Makes a system of iconv, its modules and the libraries, and installs the module there for a while.
installation() {
    local file words=(make -s -C "$here" "CC=${CC:-cc}" "DESTDIR=$system")
    for file in $(ldd "$(command -v iconv)" | grep -o '/[^ ]*') "$(command -v iconv)"; do
        install -D "$file" "$system/$file" || return
    done
    mkdir -p "$system$gconv" && cp -a "$gconv/." "$system$gconv" &&
        install -D -t "$system/lib" "$library/libdethrux.so.0.2" &&
        iconvconfig --prefix="$system" && list > "$room/before" || return
    "${words[@]}" install || return
    list | diff "$room/before" - | sed -n 's/^> [0-9a-f]*  //p' > "$room/new"
    printf '%s\n' ".$gconv/"{DETHRUX.so,gconv-modules.cache,gconv-modules.d/dethrux.conf} |
        diff - <(sort "$room/new") && takes_its_own inside &&
        "${words[@]}" uninstall && list | diff "$room/before" -
}

# Tests that without glibc's own files the folder has only the module's, and then nothing.
staged() {
    make -s -C "$here" CC="${CC:-cc}" DESTDIR="$room/stage" install &&
        [ "$(find "$room/stage" -type f | wc -l)" = 2 ] &&
        make -s -C "$here" CC="${CC:-cc}" DESTDIR="$room/stage" uninstall &&
        [ "$(find "$room/stage" -type f | wc -l)" = 0 ]
}

check 'make' make -s -C "$here" CC="${CC:-cc}" || finish
folder=$(make -s -C "$here" CC="${CC:-cc}" folder)
library=$(make -s -C "$top/dist" CC="${CC:-cc}" folder)
gconv=$(dirname "$(find /usr/lib/{*/,}gconv -name UTF-16.so 2> "$room/said" | head -n 1)")
system=$room/system
mkdir "$room/private"
cp "$folder/DETHRUX.so" "$room/private"
sed 's/UTF-16/DETHRUX-&/g' "$here/dethrux.conf" "$here/tests/refused.conf" \
    > "$room/private/gconv-modules"
check 'the test of calls' compile calls -o "$room/calls"
counts 'calls' env GCONV_PATH="$room/private" "$room/calls"
check 'texts' write_texts
for from in UTF-8 UTF-16 UTF-16LE UTF-16BE; do
    for to in UTF-8 UTF-16 UTF-16LE UTF-16BE; do
        [ $from$to != UTF-8UTF-8 ] || continue
        check "iconv from $from to $to" same_as_glibc $from -t $to
        check "iconv -c from $from to $to" same_as_glibc $from -t $to -c
        check "iconv from $from to $to//TRANSLIT" same_as_glibc $from -t $to//TRANSLIT
    done
done
check 'what the module converts' takes_its_own env GCONV_PATH="$folder"
check 'without the library' without_library
check 'what an installation asks' asks_iconv
check 'an unknown suffix' same_as_glibc UTF-16LE -t UTF-8//UNKNOWN
check 'an installation' installation
check 'a folder of a packager' staged
finish
