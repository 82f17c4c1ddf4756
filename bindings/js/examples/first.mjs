// Reads a file of UTF-16 that Windows wrote, says what is wrong with it, and writes UTF-8.
import { createReadStream, createWriteStream, readFileSync } from "node:fs";
import { Readable, Writable } from "node:stream";
import { load, unitsOf } from "dethrux";

const [path] = process.argv.slice(2);
const dethrux = await load();

// The BOM gives the byte order. Without one, Windows means little endian.
const raw = readFileSync(path);
const { order, len } = dethrux.detectBom(raw, "le");
const utf16 = raw.subarray(len);
console.log(order, dethrux.validate(utf16, order));

// The lossy call writes U+FFFD for each ill-formed sequence.
console.log(new TextDecoder().decode(dethrux.toUtf8Lossy(utf16, order).output));

// Without a byte order, UTF-16 is code units, like strings.
const { output } = dethrux.fromUtf8(new TextEncoder().encode("Grüße"));
console.log(dethrux.compare(output, unitsOf("Grüße")));

// A stream takes chunks that are cut anywhere.
await Readable.toWeb(createReadStream(path, { highWaterMark: 7 }))
    .pipeThrough(dethrux.decoderStream("bom", "le"))
    .pipeTo(Writable.toWeb(createWriteStream(`${path}.utf8`)));
