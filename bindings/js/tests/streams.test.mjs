import assert from "node:assert/strict";
import { test } from "node:test";
import { load, stringOf, unitsOf } from "dethrux";
import { be, isIllFormed, isNode, isSame, le, replaced, together, utf8 } from "./common.mjs";

const dethrux = await load();
const TYPED = Object.getPrototypeOf(Uint8Array.prototype);
const TEXT = "a\u00e9\u4e00\u{1f600}\udc00b\ud800";

/** A stream of these chunks: ReadableStream.from, which Chromium does not have. */
function streamOf(chunks) {
    return new ReadableStream({
        start(controller) {
            chunks.forEach((it) => controller.enqueue(it));
            controller.close();
        },
    });
}

/** The chunks that a stream gives for these. */
async function passed(chunks, through) {
    const found = [];
    for await (const chunk of streamOf(chunks).pipeThrough(through)) {
        found.push(chunk);
    }
    return found;
}

const singly = (array) => Array.from(array, (_, at) => array.subarray(at, at + 1));

test("a stream of bytes in both byte orders", async () => {
    for (const [order, bytes] of Object.entries({ le: le(TEXT), be: be(TEXT) })) {
        const found = await passed(singly(bytes), dethrux.decoderStream(order));
        assert.deepEqual(together(found), utf8(TEXT));
        assert.ok(found.every((it) => it.length > 0));
    }
});

test("a stream of code units", async () => {
    const found = await passed(singly(unitsOf(TEXT)), dethrux.decoderStream());
    assert.deepEqual(together(found), utf8(TEXT));
});

test("a stream with a BOM, and without one", async () => {
    for (const bytes of [le(`\ufeff${TEXT}`), be(`\ufeff${TEXT}`)]) {
        assert.deepEqual(together(await passed(singly(bytes), dethrux.decoderStream("bom"))), utf8(TEXT));
        assert.deepEqual(together(await passed([bytes], dethrux.decoderStream("bom"))), utf8(TEXT));
    }
    const without = await passed(singly(le(TEXT)), dethrux.decoderStream("bom", "le"));
    assert.deepEqual(together(without), utf8(TEXT));
    assert.deepEqual(await passed([], dethrux.decoderStream("bom")), []);
    assert.deepEqual(together(await passed([Uint8Array.of(0xff)], dethrux.decoderStream("bom"))), utf8("\ufffd"));
});

test("streams to WTF-8", async () => {
    const wanted = dethrux.toWtf8(unitsOf(TEXT)).output;
    assert.deepEqual(together(await passed(singly(unitsOf(TEXT)), dethrux.wtf8DecoderStream())), wanted);
    assert.deepEqual(together(await passed(singly(le(TEXT)), dethrux.wtf8DecoderStream("le"))), wanted);
    assert.deepEqual(together(await passed(singly(be(TEXT)), dethrux.wtf8DecoderStream("be"))), wanted);
    const odd = [...le(TEXT), 0x61].map((it) => Uint8Array.of(it));
    await assert.rejects(passed(odd, dethrux.wtf8DecoderStream("le")), /odd byte/);
    const decoder = dethrux.wtf8Decoder("le");
    assert.deepEqual(decoder.feed(Uint8Array.of(0x3d, 0xd8, 0x61)), new Uint8Array());
    assert.throws(() => decoder.finish(), /odd byte/);
    assert.deepEqual(decoder.pending, Uint8Array.of(0x3d, 0xd8, 0x61));
    assert.deepEqual(decoder.feed(Uint8Array.of(0)), Uint8Array.of(0xed, 0xa0, 0xbd, 0x61));
});

// U+D83D in WTF-8. Before a trailing surrogate it is ill formed.
const LEADING = Uint8Array.of(0xed, 0xa0, 0xbd);

test("streams of WTF-8, cut anywhere", async () => {
    const wanted = unitsOf(`${TEXT}\u{1f600}\ud83d`);
    const wtf8 = dethrux.toWtf8(wanted).output;
    const ways = { undefined: (it) => [...it], le: wordsOf(true), be: wordsOf(false) };
    for (const front of [0, 65530]) {
        const bytes = together([new Uint8Array(front), wtf8]);
        for (let cut = front; cut <= bytes.length; cut += 1) {
            for (const [order, made] of Object.entries(ways)) {
                const encoder = dethrux.wtf8Encoder(order in { le: 0, be: 0 } ? order : undefined);
                const parts = [encoder.feed(bytes.subarray(0, cut)), encoder.feed(bytes.subarray(cut))];
                assert.deepEqual(encoder.pending, LEADING);
                const units = [...parts, encoder.finish()].flatMap(made);
                assert.deepEqual(units.slice(0, front), Array(front).fill(0));
                assert.deepEqual(units.slice(front), [...wanted]);
                assert.deepEqual(encoder.pending, new Uint8Array());
            }
        }
    }
    assert.deepEqual(together(await passed(singly(wtf8), dethrux.wtf8EncoderStream("le"))), le(stringOf(wanted)));
    assert.deepEqual(await passed(singly(LEADING), dethrux.wtf8EncoderStream("be")), [be("\ud83d")]);
    assert.deepEqual(await passed(singly(LEADING), dethrux.wtf8EncoderStream()), [unitsOf("\ud83d")]);
});

/** The code units of bytes. */
const wordsOf = (little) => (bytes) =>
    Array.from({ length: bytes.length / 2 }, (_, at) => new DataView(bytes.buffer).getUint16(2 * at, little));

test("bytes that are not WTF-8 throw where fromWtf8 stops, and change nothing", () => {
    const fronts = [[], [0x61], LEADING, [0x61, ...LEADING, 0x61], new Uint8Array(65534)];
    const faults = [[0xff], [0x80], [0xc0, 0x80], [0xf4, 0x90], [0xe2, 0x82, 0x61], [0xf0, 0x9f, 0x98]];
    for (const front of fronts) {
        for (const bad of [...faults, [0xed], [...LEADING, 0xed, 0xb8, 0x80]]) {
            const bytes = Uint8Array.from([...front, ...bad]);
            const { read, status, errorLen } = dethrux.fromWtf8(bytes, "le");
            const len = status === "incomplete" ? bytes.length - read : errorLen;
            for (let cut = Math.max(front.length - 4, 0); cut <= bytes.length; cut += 1) {
                const encoder = dethrux.wtf8Encoder("le");
                encoder.feed(utf8("another stream"));
                encoder.finish();
                let before;
                const calls = () => {
                    for (const chunk of [bytes.subarray(0, cut), bytes.subarray(cut)]) {
                        before = encoder.pending;
                        encoder.feed(chunk);
                    }
                    before = encoder.pending;
                    encoder.finish();
                };
                isIllFormed(calls, read, len);
                assert.deepEqual(encoder.pending, before);
            }
        }
    }
});

test("streams of UTF-8", async () => {
    const bytes = Uint8Array.of(...utf8("a\u4e00\u{1f600}"), 0xe2, 0x82);
    const text = new TextDecoder().decode(bytes);
    assert.equal((await passed(singly(bytes), dethrux.encoderStream())).map(stringOf).join(""), text);
    assert.deepEqual(together(await passed(singly(bytes), dethrux.encoderStream("le"))), le(text));
});

test("what is pending", () => {
    const decoder = dethrux.decoder("le");
    assert.deepEqual(decoder.feed(Uint8Array.of(0x61, 0, 0x3d, 0xd8, 0)), utf8("a"));
    assert.deepEqual(decoder.pending, Uint8Array.of(0x3d, 0xd8, 0));
    assert.deepEqual(decoder.feed(Uint8Array.of(0xde)), utf8("\u{1f600}"));
    assert.deepEqual(decoder.pending, new Uint8Array());
    const ofUnits = dethrux.decoder();
    ofUnits.feed(Uint16Array.of(0x61, 0xd83d));
    assert.deepEqual(ofUnits.pending, Uint16Array.of(0xd83d));
    const encoder = dethrux.encoder("le");
    encoder.feed(Uint8Array.of(0xf0, 0x9f));
    assert.deepEqual(encoder.pending, Uint8Array.of(0xf0, 0x9f));
    const toUnits = dethrux.encoder();
    toUnits.feed(Uint8Array.of(0xf0, 0x9f, 0x98));
    assert.deepEqual(toUnits.pending, Uint8Array.of(0xf0, 0x9f, 0x98));
    const bom = dethrux.decoder("bom");
    assert.deepEqual(bom.pending, new Uint8Array());
    bom.feed(Uint8Array.of(0xff));
    assert.deepEqual(bom.pending, Uint8Array.of(0xff));
    bom.feed(Uint8Array.of(0xfe, 0x3d, 0xd8, 0));
    assert.deepEqual(bom.pending, Uint8Array.of(0x3d, 0xd8, 0));
});

test("a change of what was pending changes no stream", () => {
    const [decoder, encoder, bom] = [dethrux.decoder("le"), dethrux.encoder(), dethrux.decoder("bom")];
    for (const [coder, byte] of [[decoder, 0x3d], [encoder, 0xf0], [bom, 0xff]]) {
        coder.feed(Uint8Array.of(byte));
        coder.pending.fill(0x41);
        assert.deepEqual(coder.pending, Uint8Array.of(byte));
    }
});

test("a decoder begins a new stream after its end", () => {
    for (const order of ["le", "bom"]) {
        const decoder = dethrux.decoder(order, order === "bom" ? "le" : undefined);
        decoder.feed(Uint8Array.of(0x61, 0, 0x3d));
        assert.deepEqual(decoder.finish(), utf8("\ufffd"));
        assert.deepEqual(decoder.feed(Uint8Array.of(0x61, 0)), utf8("a"));
        assert.deepEqual(decoder.finish(), new Uint8Array());
    }
    const decoder = dethrux.decoder("bom");
    assert.deepEqual(decoder.feed(Uint8Array.of(0xfe, 0xff, 0, 0x61)), utf8("a"));
    decoder.finish();
    assert.deepEqual(decoder.feed(Uint8Array.of(0xff, 0xfe, 0x61, 0)), utf8("a"));
});

test("two decoders at once do not mix", () => {
    const [first, second] = [dethrux.decoder("le"), dethrux.decoder("be")];
    first.feed(Uint8Array.of(0x3d, 0xd8));
    second.feed(Uint8Array.of(0));
    assert.deepEqual(first.feed(Uint8Array.of(0, 0xde)), utf8("\u{1f600}"));
    assert.deepEqual(second.feed(Uint8Array.of(0x61)), utf8("a"));
});

test("a chunk that is larger than a slice", () => {
    const text = `${"x".repeat(32767)}\u{1f600}`.repeat(5);
    const decoder = dethrux.decoder();
    assert.ok(isSame(decoder.feed(unitsOf(text)), utf8(text)));
    const encoder = dethrux.encoder();
    assert.ok(stringOf(encoder.feed(utf8(text))) === text);
});

test("a chunk without memory for its text changes nothing", () => {
    const decoder = dethrux.decoder("le");
    decoder.feed(Uint8Array.of(0x3d));
    const chunk = new Uint8Array(70_000);
    // The text of the whole chunk, 3 bytes for D83D, which is unpaired, and 1 for each unit after.
    const failing = (set) => function (...words) {
        if (this.length === 35_002) {
            throw new RangeError("no memory");
        }
        return set.apply(this, words);
    };
    chunk[0] = 0xd8;
    assert.throws(() => replaced(TYPED, "set", failing, () => decoder.feed(chunk)), /no memory/);
    assert.deepEqual(decoder.pending, Uint8Array.of(0x3d));
    assert.equal(decoder.feed(chunk).length, 35_002);
});

/** Whether a call fails that has memory for this many copies. */
function fails(copies, call) {
    let left = copies;
    const failing = (slice) => function (...words) {
        left -= 1;
        if (left < 0) {
            throw new RangeError("no memory");
        }
        return slice.apply(this, words);
    };
    try {
        replaced(TYPED, "slice", failing, call);
        return false;
    } catch (error) {
        assert.match(error.message, /no memory/);
        return true;
    }
}

test("an end without memory for its text changes nothing", () => {
    const [character, mark, none] = [utf8("\u{1f600}"), utf8("\ufffd"), new Uint8Array()];
    const cases = [
        [() => dethrux.decoder("le"), le("\u{1f600}"), [mark, mark, mark], character],
        [() => dethrux.encoder("le"), character, [1, 2, 3].map(() => le("\ufffd")), le("\u{1f600}")],
        [() => dethrux.encoder(), character, [1, 2, 3].map(() => unitsOf("\ufffd")), unitsOf("\u{1f600}")],
        [() => dethrux.wtf8Decoder("le"), le("\u{1f600}"), [, Uint8Array.of(0xed, 0xa0, 0xbd)], character],
        [() => dethrux.decoder("bom"), le("\ufeffa"), [mark, none, mark], utf8("a")],
        [() => dethrux.wtf8Encoder("le"), Uint8Array.of(...LEADING, 0x61), [, , le("\ud83d")], le("\ud83da")],
    ];
    for (const [coderOf, bytes, ends, text] of cases) {
        ends.forEach((end, at) => {
            const begun = () => {
                const coder = coderOf();
                coder.feed(bytes.subarray(0, at + 1));
                return coder;
            };
            const { pending } = begun();
            for (let copies = 0; ; copies += 1) {
                const [first, second] = [begun(), begun()];
                if (!fails(copies, () => first.finish())) {
                    assert.ok(copies > 1);
                    break;
                }
                assert.deepEqual(first.pending, pending);
                assert.deepEqual(first.finish(), end);
                assert.deepEqual(first.pending, none);
                assert.ok(fails(copies, () => second.finish()));
                assert.deepEqual(second.feed(bytes.subarray(at + 1)), text);
            }
        });
    }
});

test("a wrong chunk changes nothing", () => {
    const decoder = dethrux.decoder("le");
    decoder.feed(Uint8Array.of(0x3d));
    assert.throws(() => decoder.feed("a"), TypeError);
    assert.deepEqual(decoder.pending, Uint8Array.of(0x3d));
});

/** What a stream writes for two chunks, whose arrays change after it took them. */
function fedChanging(take, chunks) {
    return chunks.map((chunk) => {
        const found = take(chunk);
        chunk.fill(0x41);
        return found;
    });
}

test("no stream keeps a chunk, not even a Buffer", () => {
    const fatal = true;
    const [first, second] = [[0x61, 0, 0x3d, 0xd8], [0, 0xde]];
    for (const Kind of isNode ? [Uint8Array, Buffer] : [Uint8Array]) {
        const chunks = (...given) => given.map((it) => Kind.from(it));
        const text = dethrux.textDecoder("le");
        const take = (chunk) => text.decode(chunk, { stream: true });
        assert.deepEqual(fedChanging(take, chunks(first, second)), ["a", "\u{1f600}"]);
        for (const decoder of [dethrux.decoder("le"), dethrux.decoder("le", { fatal }), dethrux.wtf8Decoder("le")]) {
            const found = fedChanging((it) => decoder.feed(it), chunks(first, second));
            assert.deepEqual(found, [utf8("a"), utf8("\u{1f600}")]);
        }
        const bom = dethrux.decoder("bom");
        const found = fedChanging((it) => bom.feed(it), chunks([0xff], [0xfe, ...first], second));
        assert.deepEqual(together(found), utf8("a\u{1f600}"));
        for (const encoder of [dethrux.encoder("le"), dethrux.encoder("le", { fatal }), dethrux.wtf8Encoder("le")]) {
            const found = fedChanging((it) => encoder.feed(it), chunks([0x61, 0xe2, 0x82], [0xac]));
            assert.deepEqual(found, [le("a"), le("\u20ac")]);
        }
    }
});

test("a large chunk needs little memory of the module", async () => {
    let pages = 0;
    const counting = (grow) => function (count) {
        pages += count;
        return grow.call(this, count);
    };
    for (const options of [{}, { fatal: true }]) {
        const library = await load();
        replaced(WebAssembly.Memory.prototype, "grow", counting, () => {
            for (const order of ["le", "bom"]) {
                library.decoder(order, ...(order === "bom" ? ["le"] : []), options).feed(new Uint8Array(4_000_000));
            }
            library.encoder("le", options).feed(new Uint8Array(4_000_000));
        });
    }
    assert.ok(pages < 20, `${pages} pages of 64 KiB`);
});

const WHOLE = "a\u00e9\u4e00\u{1f600}\ufeffb";
const fatal = true;

test("strict streams of well-formed text, cut anywhere", async () => {
    const cases = [
        [() => dethrux.decoderStream("le", { fatal }), le(WHOLE), utf8(WHOLE)],
        [() => dethrux.decoderStream("be", { fatal }), be(WHOLE), utf8(WHOLE)],
        [() => dethrux.decoderStream(undefined, { fatal }), unitsOf(WHOLE), utf8(WHOLE)],
        [() => dethrux.decoderStream("bom", "be", { fatal }), le(`\ufeff${WHOLE}`), utf8(WHOLE)],
        [() => dethrux.decoderStream("bom", "be", { fatal }), be(WHOLE), utf8(WHOLE)],
        [() => dethrux.encoderStream("le", { fatal }), utf8(WHOLE), le(WHOLE)],
        [() => dethrux.encoderStream("be", { fatal }), utf8(WHOLE), be(WHOLE)],
        [() => dethrux.encoderStream(undefined, { fatal }), utf8(WHOLE), le(WHOLE)],
    ];
    const asBytes = (it) => new Uint8Array(it.buffer, it.byteOffset, it.byteLength);
    for (const [through, array, wanted] of cases) {
        assert.deepEqual(together((await passed(singly(array), through())).map(asBytes)), wanted);
        for (let cut = 0; cut <= array.length; cut += 1) {
            const chunks = [array.subarray(0, cut), array.subarray(cut)];
            assert.deepEqual(together((await passed(chunks, through())).map(asBytes)), wanted);
        }
    }
});

test("a strict stream says where its first error is, wherever it is cut", () => {
    // What is well formed, then the error with its length, and what follows.
    const [lead, euro] = [le("\ud83d"), [0xe2, 0x82]];
    const cases = [
        [() => dethrux.decoder("le", { fatal }), [], le("\udc00"), le("a")],
        [() => dethrux.decoder("le", { fatal }), le("a\u{1f600}"), lead, le("b")],
        [() => dethrux.decoder("be", { fatal }), be("\ufeffa"), be("\udc00"), []],
        [() => dethrux.decoder("le", { fatal }), le("a"), [...lead, 0x61], []],
        [() => dethrux.decoder("le", { fatal }), le("a"), [0x61], []],
        [() => dethrux.decoder("bom", "be", { fatal }), le("\ufeffa"), lead, le("b")],
        [() => dethrux.decoder("bom", "be", { fatal }), be("a"), be("\ud800"), be("b")],
        [() => dethrux.decoder("bom", "be", { fatal }), [], [0xff], []],
        [() => dethrux.encoder("le", { fatal }), utf8("a\u4e00"), euro, [0x28]],
        [() => dethrux.encoder("be", { fatal }), [], [0xff], utf8("a")],
        [() => dethrux.encoder(undefined, { fatal }), utf8("\u{1f600}"), euro, []],
        [() => dethrux.encoder("le", { fatal }), [], [0xed], [0xa0, 0x80]],
    ];
    for (const [made, before, wrong, after] of cases) {
        const all = Uint8Array.of(...before, ...wrong, ...after);
        for (let cut = 0; cut <= all.length; cut += 1) {
            const coder = made();
            const parts = [all.subarray(0, cut), all.subarray(cut)];
            const run = () => [...parts.map((it) => coder.feed(it)), coder.finish()];
            isIllFormed(run, before.length, wrong.length);
        }
    }
    const units = dethrux.decoder(undefined, { fatal });
    isIllFormed(() => units.feed(unitsOf("a\u{1f600}\udc00")), 3, 1);
    isIllFormed(() => units.feed(unitsOf("ab\ud800c")), 2, 1);
});

test("an error changes nothing in a strict stream", () => {
    for (const [decoder, start] of [[dethrux.decoder("le", { fatal }), 0], [dethrux.decoder("bom", "be", { fatal }), 2]]) {
        for (let round = 0; round < 2; round += 1) {
            const bom = start > 0 ? "\ufeff" : "";
            isIllFormed(() => decoder.feed(le(`${bom}a\udc00`)), start + 2, 2);
            assert.deepEqual(decoder.feed(Uint8Array.of(...le(`${bom}a`), 0x3d)), utf8("a"));
            isIllFormed(() => decoder.finish(), start + 2, 1);
            isIllFormed(() => decoder.feed(Uint8Array.of(0xd8, 0x61, 0)), start + 2, 2);
            assert.deepEqual(decoder.pending, Uint8Array.of(0x3d));
            decoder.pending.fill(0);
            assert.deepEqual(decoder.feed(Uint8Array.of(0xd8, 0, 0xde)), utf8("\u{1f600}"));
            assert.deepEqual(decoder.finish(), new Uint8Array());
        }
    }
    const encoder = dethrux.encoder(undefined, { fatal });
    assert.deepEqual(encoder.feed(Uint8Array.of(0x61, 0xe2)), unitsOf("a"));
    isIllFormed(() => encoder.feed(Uint8Array.of(0x41)), 1, 1);
    assert.deepEqual(encoder.pending, Uint8Array.of(0xe2));
    isIllFormed(() => encoder.finish(), 1, 1);
    assert.deepEqual(encoder.feed(Uint8Array.of(0x82, 0xac)), unitsOf("\u20ac"));
    assert.deepEqual(encoder.finish(), new Uint16Array());
});

test("a strict stream with chunks that are larger than a slice", () => {
    const text = `${"x".repeat(32767)}\u{1f600}`.repeat(5);
    const decoder = dethrux.decoder("le", { fatal });
    assert.ok(isSame(decoder.feed(le(text)), utf8(text)));
    isIllFormed(() => decoder.feed(le(`${text}\udc00`)), text.length * 4, 2);
    const encoder = dethrux.encoder("be", { fatal });
    assert.ok(isSame(encoder.feed(utf8(text)), be(text)));
    isIllFormed(() => encoder.feed(together([utf8(text), Uint8Array.of(0xff)])), utf8(text).length * 2, 1);
});

test("a stream that fails says so to its reader", async () => {
    await assert.rejects(passed([le("a"), le("\udc00")], dethrux.decoderStream("le", { fatal })), { offset: 2 });
    await assert.rejects(passed([utf8("a"), Uint8Array.of(0xe2)], dethrux.encoderStream("le", { fatal })), { offset: 1 });
});
