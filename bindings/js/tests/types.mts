// Is compiled, not run: what the types allow, and below each @ts-expect-error what they do not.
import {
    IllFormedError,
    load,
    unitsOf,
    type Bom,
    type Progress,
    type StringDecoder,
    type Validity,
    type Written,
} from "dethrux";

const dethrux = await load(new URL("file:///dethrux.wasm"));
const bytes = new Uint8Array(2);
const units = unitsOf("a");

const validity: Validity = dethrux.validate(bytes, "le");
dethrux.validate(units);
const utf8: Progress<Uint8Array> = dethrux.toUtf8Lossy(units, 3);
const words: Progress<Uint16Array> = dethrux.fromUtf8(bytes);
const raw: Progress<Uint8Array> = dethrux.fromUtf8(bytes, "be", 8);
const points: Uint32Array = dethrux.toUtf32(bytes, "be").output;
const isBoundary: boolean = dethrux.isCharBoundary(units, 1);
const place: number = dethrux.find(bytes, "le", bytes);
dethrux.rfind(units, units);
const nul: number = dethrux.nulOffset(bytes);
const bom: Bom = dethrux.detectBom(bytes);
const part: number = dethrux.shardOffset(8, 2, 1);
const largePart: bigint = dethrux.shardOffset(8n, 2n, 1n);
const pending: Uint16Array = dethrux.decoder().pending;
const text: ReadableStream<Uint8Array> = new ReadableStream<Uint8Array>().pipeThrough(
    dethrux.decoderStream("bom", "le"),
);
const word: string = dethrux.decode(bytes, "be", { fatal: true, ignoreBOM: true });
dethrux.decode(units, { fatal: true });
const encoded: Uint8Array = dethrux.encode("a", "le", { fatal: true });
const asUnits: Uint16Array = dethrux.encode("a");
const { read }: { read: number } = dethrux.encodeInto("a", bytes, "le");
dethrux.encodeInto("a", units, { fatal: true });
const written: Written = dethrux.toUtf8Into(bytes, "le", bytes);
dethrux.toUtf32LossyInto(units, new Uint32Array(1));
dethrux.fromUtf8Into(bytes, bytes, "be");
dethrux.fromUtf32Into(new Uint32Array(1), units);
const strings: StringDecoder<Uint8Array> = dethrux.textDecoder("le", { ignoreBOM: true });
const last: string = strings.decode(bytes, { stream: true }) + strings.decode();
dethrux.decoderStream("bom", "le", { fatal: true });
const strict = (error: unknown): number => (error instanceof IllFormedError ? error.offset : -1);
const ofUnits: Uint8Array = dethrux.decoder(undefined, { fatal: true }).feed(units);

const fromWtf8: Uint16Array = dethrux.wtf8Encoder().feed(bytes);
load("dethrux.wasm");

// @ts-expect-error: bytes have a byte order
dethrux.validate(bytes);
// @ts-expect-error: bytes have a byte order
dethrux.decode(bytes, { fatal: true });
// @ts-expect-error: a string is encoded, not bytes
dethrux.encode(bytes, "le");
// @ts-expect-error: the byte order follows the bytes that are written
dethrux.fromUtf8Into(bytes, "le", bytes);
// @ts-expect-error: UTF-32 is written to code units of 32 bits
dethrux.toUtf32Into(units, units);
// @ts-expect-error: there is no such option
dethrux.decoder("le", { strict: true });
// @ts-expect-error: a BOM is not a byte order of a string decoder
dethrux.textDecoder("bom");
// @ts-expect-error: code units have no byte order
dethrux.validate(units, "le");
// @ts-expect-error: there is no such byte order
dethrux.toUtf8(bytes, "utf-16le");
// @ts-expect-error: a string is not an array
dethrux.toUtf8("a");
// @ts-expect-error: a decoder of code units takes no bytes
dethrux.decoder().feed(bytes);
// @ts-expect-error: the pattern is code units as well
dethrux.find(units, bytes);
// @ts-expect-error: the byte order is before the pattern
dethrux.rfind(bytes, bytes, "le");
// @ts-expect-error: there is no such call
dethrux.toUtf7(bytes);
// @ts-expect-error: there is no such status
validity.status = "valid";

export { asUnits, bom, encoded, fromWtf8, isBoundary, largePart, last, nul, ofUnits, part, pending, place };
export { points, raw, read, strict, text, utf8, word, words, written };
