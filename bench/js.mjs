// Times the package next to Node's own way: `node js.mjs TEXTS`, in a folder where the package is
// installed. Prints how many times as fast it is, on 64 KiB of each text and of made ones, and on
// short ones.
import { readFileSync, readdirSync } from "node:fs";
import { join } from "node:path";
import { load } from "dethrux";

const dethrux = await load();
const [encoder, utf8Decoder] = [new TextEncoder(), new TextDecoder()];
const utf16Decoder = new TextDecoder("utf-16le");
const strictDecoder = new TextDecoder("utf-16le", { fatal: true });
const bigDecoder = new TextDecoder("utf-16be");

/** Returns the nanoseconds that each of these takes in its fastest round, timed in turn. */
function fastest(calls, times) {
    const best = calls.map(() => Infinity);
    for (let round = 0; round < 300; round += 1) {
        for (const [number, call] of calls.entries()) {
            const start = process.hrtime.bigint();
            for (let at = 0; at < times; at += 1) {
                call();
            }
            best[number] = Math.min(best[number], Number(process.hrtime.bigint() - start) / times);
        }
    }
    return best;
}

/** The package's way and the platform's, by the heading of a column. */
function ways(text) {
    const [utf8, le] = [encoder.encode(text), Buffer.from(text, "utf16le")];
    const [be, fatal] = [Buffer.from(le).swap16(), { fatal: true }];
    return {
        decode: [() => dethrux.decode(le, "le"), () => utf16Decoder.decode(le)],
        "`fatal`": [() => dethrux.decode(le, "le", fatal), () => strictDecoder.decode(le)],
        "big endian": [() => dethrux.decode(be, "be"), () => bigDecoder.decode(be)],
        encode: [() => dethrux.encode(text, "le"), () => Buffer.from(text.toWellFormed(), "utf16le")],
        toUtf8: [() => dethrux.toUtf8(le, "le").output, () => encoder.encode(utf16Decoder.decode(le))],
        fromUtf8: [
            () => dethrux.fromUtf8(utf8, "le").output,
            () => Buffer.from(utf8Decoder.decode(utf8), "utf16le"),
        ],
    };
}

/** Returns how many times as fast as the platform each way is. */
function ratios(text, times) {
    return Object.entries(ways(text)).map(([way, [ours, its]]) => {
        const [found, wanted] = [ours(), its()];
        if (typeof found === "string" ? found !== wanted : Buffer.compare(found, wanted)) {
            throw new Error(`${way} differs: ${text.slice(0, 40)}`);
        }
        const [time, wantedTime] = fastest([ours, its], times);
        return wantedTime / time;
    });
}

const row = (name, numbers) =>
    console.log(`| ${name} | ${numbers.map((it) => it.toFixed(2)).join(" | ")} |`);

// Texts of one kind. In the last, about one character in twenty is an emoji, without a period.
const MADE = {
    ASCII: "the quick brown fox jumps over the lazy dog ".repeat(745),
    Chinese: "漢字文字列変換速度測定計算機科学言語処理".repeat(1639),
    "letters, emoji": Array.from({ length: 32768 }, (_, at) =>
        (Math.imul(at + 1, 2654435761) >>> 8) % 20 ? "abcdefgh"[at % 8] : "😀").join(""),
};
const names = Object.keys(ways(""));
const files = readdirSync(process.argv[2]).filter((it) => it.endsWith(".txt"));
const texts = files.map((it) => readFileSync(join(process.argv[2], it), "utf8"));

console.log(`| Text | ${names.join(" | ")} |\n|---|${"---:|".repeat(names.length)}`);
const rows = texts.map((text, at) => {
    const found = ratios(text.slice(0, 32768).toWellFormed(), 1);
    row(files[at].replace(".txt", ""), found);
    return found;
});
for (const [name, text] of Object.entries(MADE)) {
    row(name, ratios(text.slice(0, 32768).toWellFormed(), 1));
}
const sorted = names.map((_, column) => rows.map((it) => it[column]).sort((a, b) => a - b));
row("the least", sorted.map((it) => it[0]));
row("the median", sorted.map((it) => it[it.length >> 1]));
row("the greatest", sorted.map((it) => it.at(-1)));
const words = texts[files.findIndex((it) => it.startsWith("german"))] ?? texts[0];
for (const len of [8, 32, 128, 512, 2048, 8192]) {
    row(`${len} code units`, ratios(words.slice(5000, 5000 + len).toWellFormed(), Math.ceil(4096 / len)));
}
