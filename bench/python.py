"""Times bindings/python next to CPython, and prints three tables in Markdown.

    python3 bench/python.py [FAST]

The package must be installed. The first table is of UTF-16 to and from str: by CPython's codec, by
the codec of this package, and by its functions `decode` and `encode`, with a BOM by those that
`codecs.getdecoder` and `getencoder` return. The second is of UTF-16 to and from UTF-8, for which
CPython needs a str between, and of validation. The third is of ill-formed UTF-16 to UTF-8 with each
error handler. All calls of a row run in turn, in rounds, and the best time
of each counts. A ratio is CPython's time by that of the package: above 1 the package is faster.
FAST is a number of rounds instead of 25.
"""

import codecs
import itertools
import random
import sys
import timeit

import dethrux

TEXTS = {
    "ASCII": "the quick brown fox jumps over the lazy dog ",
    "Latin": "größe über straße naïve façade ",
    "Cyrillic": "съешь же ещё этих мягких французских булок ",
    "CJK": "漢字文字列変換速度測定計算機科学言語処理",
    "emoji": "😀😁😂😃😄😅😆😇😈😉",
}
# How many bytes of UTF-16, or how many characters, and how many calls of each there are in a round.
SIZES = {"10 chars": 2000, "100 chars": 2000, "1 MiB": 2}
ORDERS = {"little": "utf-16-le", "big": "utf-16-be"}
HANDLERS = ("replace", "ignore", "backslashreplace", "surrogatepass")
ROUNDS = int(sys.argv[1]) if len(sys.argv) > 1 else 25


def with_emoji(sample):
    """Return 2^19 characters of a sample, of which on average one in twenty is an emoji.

    In a shorter text that is repeated a processor would learn where the emoji are.
    """
    chance = random.Random(0)
    letters = itertools.islice(itertools.cycle(sample), 1 << 19)
    return "".join("😀" if chance.randrange(20) == 0 else it for it in letters)


TEXTS |= {f"{name}, emoji": with_emoji(TEXTS[name]) for name in ("ASCII", "Latin", "CJK")}


def text_of(sample, size):
    """Return a text of a size."""
    chars = len(sample)
    if size == "1 MiB":
        return sample * max(1, (1 << 20) // len(sample.encode("utf-16-le")))
    count = int(size.split()[0])
    return (sample * (count // chars + 1))[:count]


def best(calls, names, number):
    """Return the least time of each call of these names, in nanoseconds."""
    timers = [timeit.Timer(call, globals={"dethrux": dethrux, **names}) for call in calls]
    times = [[timer.timeit(number) for timer in timers] for _ in range(ROUNDS)]
    return [min(each) / number * 1e9 for each in zip(*times)]


def shown(time):
    """Return a time in microseconds."""
    return f"{time / 1000:.3g}"


def ratios(times, columns):
    """Return the first time and the ratios to the others, for each group of times."""
    groups = [times[at : at + columns] for at in range(0, len(times), columns)]
    return [cell for group in groups for cell in (shown(group[0]), *(
        f"{group[0] / time:.2f}" for time in group[1:]
    ))]


def table(heads, rows):
    """Print a table."""
    print("| " + " | ".join(heads) + " |")
    print("|" + "---|" * 3 + "---:|" * (len(heads) - 3))
    for row in rows:
        print("| " + " | ".join(row) + " |", flush=True)
    print()


def each_text():
    for name, sample in TEXTS.items():
        for size, number in SIZES.items():
            yield name, size, text_of(sample, size), number


def to_and_from_str():
    # CPython decodes "utf-16" without a search for the codec. The functions are those of the codec.
    decoder, encoder = codecs.getdecoder("dethrux-utf-16"), codecs.getencoder("dethrux-utf-16")
    for name, size, text, number in each_text():
        for order, codec in (*ORDERS.items(), ("BOM", "utf-16")):
            raw, mine = text.encode(codec), f"dethrux-{codec}"
            ways = ["dethrux.decode(raw, order)", "dethrux.encode(text, order)"]
            if order == "BOM":
                ways = ["decoder(raw)[0]", "encoder(text)[0]"]
            calls = ["raw.decode(codec)", "raw.decode(mine)", ways[0]]
            calls += ["text.encode(codec)", "text.encode(mine)", ways[1]]
            assert raw.decode(mine) == eval(ways[0]) == text
            assert text.encode(mine) == eval(ways[1]) == raw
            yield name, size, order, *ratios(best(calls, locals(), number), 3)


def to_and_from_utf8():
    for name, size, text, number in each_text():
        utf8 = text.encode()
        for order, codec in ORDERS.items():
            raw = text.encode(codec)
            assert dethrux.decode_to_utf8(raw, order) == utf8
            assert dethrux.encode_from_utf8(utf8, order) == raw
            calls = [
                "raw.decode(codec).encode()",
                "dethrux.decode_to_utf8(raw, order)",
                "utf8.decode().encode(codec)",
                "dethrux.encode_from_utf8(utf8, order)",
                "raw.decode(codec)",
                "dethrux.validate(raw, order)",
            ]
            yield name, size, order, *ratios(best(calls, locals(), number), 2)


def ill_formed():
    codec = "utf-16-le"
    for name, size, text, number in each_text():
        raw = text.encode(codec)
        middle = len(text) // 2
        wrong = (text[:middle] + "\udc00" + text[middle:]).encode(codec, "surrogatepass")
        for errors in HANDLERS:
            expected = wrong.decode(codec, errors).encode("utf-8", errors)
            assert dethrux.decode_to_utf8(wrong, "little", errors) == expected
            calls = [
                'wrong.decode(codec, errors).encode("utf-8", errors)',
                'dethrux.decode_to_utf8(wrong, "little", errors)',
                "wrong.decode(codec, errors)",
                'dethrux.decode(wrong, "little", errors)',
            ]
            yield name, size, errors, *ratios(best(calls, locals(), max(number // 10, 2)), 2)


def main():
    version = ".".join(map(str, sys.version_info[:3]))
    print(f"CPython {version}, dethrux {dethrux.__version__}.", end=" ")
    print("CPython's times in µs, then how many times as fast the package is.\n")
    ways = [
        f"{way}: {each}"
        for way in ("decode", "encode")
        for each in ("CPython", "codec", "function")
    ]
    table(["Text", "Size", "Order", *ways], to_and_from_str())
    ways = [f"{way}: {each}" for way in ("to UTF-8", "from UTF-8", "validate") for each in (
        "CPython", "function"
    )]
    table(["Text", "Size", "Order", *ways], to_and_from_utf8())
    ways = [f"{way}: {each}" for way in ("to UTF-8", "to str") for each in ("CPython", "function")]
    table(["Text", "Size", "Handler", *ways], ill_formed())


main()
