// SPDX-License-Identifier: MIT OR Apache-2.0

/**
 * Dethrux: UTF-16 to and from UTF-8, UTF-32, Latin-1 and WTF-8, by a proved library as WebAssembly.
 *
 * UTF-16 is bytes, a `Uint8Array` that a byte order follows, or code units, a `Uint16Array`.
 * Lengths, offsets and capacities count elements of the array that they are about. No function
 * keeps an array that it is given, and each returns new ones. A function throws a `TypeError` for a
 * wrong argument. It throws a `RangeError` for a wrong number, for a string that is too long, or if
 * there is no memory. After an exception nothing has changed. `include/dethrux.h` has the whole
 * documentation of each call. `packaging/calls` writes the functions of the calls: `dist/wasm` has
 * the whole file.
 */

/** The byte order of UTF-16: little endian or big endian. */
export type ByteOrder = "le" | "be";

/**
 * Why a call stopped: all was read; ill-formed input follows, of `errorLen` elements; the input
 * ends inside a character; the next character does not fit; it is above U+00FF (only `toLatin1`).
 */
export type Status = "done" | "ill-formed" | "incomplete" | "no-space" | "not-latin1";

/** Where a call stopped. */
export interface Stop {
    status: Status;
    /** The length of the ill-formed sequence with "ill-formed", else 0. */
    errorLen: number;
}

/** The longest well-formed prefix, and what follows it. */
export interface Validity extends Stop {
    /** The length of the longest well-formed prefix. */
    validUpTo: number;
}

/** What a conversion wrote, and how far it came. */
export interface Progress<Output> extends Stop {
    output: Output;
    /** How much of the input was read. */
    read: number;
}

/** How much was written to an array of the caller, and how far a conversion came. */
export interface Written extends Stop {
    /** How much of the input was read. */
    read: number;
    /** How much of the array was written; the rest of it is unchanged. */
    written: number;
}

/** Whether ill-formed text is an error. */
export interface StrictOptions {
    /** Throw an `IllFormedError` for ill-formed text, instead of replacing it with U+FFFD. */
    fatal?: boolean;
}

/** The options of the platform's `TextDecoder`. */
export interface TextOptions extends StrictOptions {
    /** Keep a BOM at the start in the string. */
    ignoreBOM?: boolean;
}

/** What a function or a stream with `fatal` throws for ill-formed text. */
export class IllFormedError extends TypeError {
    /** Where the ill-formed sequence begins: in a stream, elements since the stream's start. */
    readonly offset: number;
    /** How many elements it has. At the end of the input it is the incomplete character. */
    readonly length: number;
    constructor(offset: number, length: number);
}

/** The longest well-formed prefix, its characters, and what follows it. */
export interface Inspection extends Validity {
    /** The number of its characters. */
    chars: number;
    /** The smallest repertoire that has all of them. */
    repertoire: "ascii" | "latin1" | "bmp" | "unicode";
}

/** What the start of a stream says about its byte order. */
export interface Bom {
    /** The length of the BOM: 2, or 0 if there is none. */
    len: number;
    order: ByteOrder;
    /** "undecided" if fewer than two bytes have come. */
    status: "absent" | "present" | "undecided";
}

/**
 * A stream of UTF-16 in chunks that are cut anywhere. `decoder` replaces what is ill formed with
 * U+FFFD, or throws if `fatal` is true. `wtf8Decoder` keeps unpaired surrogates.
 */
export interface Decoder<Chunk> {
    /** What has come and is not decoded yet: at most 3 bytes. */
    readonly pending: Chunk;
    /** Returns the UTF-8, or WTF-8, of the next chunk. */
    feed(chunk: Chunk): Uint8Array;
    /** Ends the stream: returns what is written for what is pending. A new stream begins. */
    finish(): Uint8Array;
}

/**
 * A stream of UTF-8 in chunks that are cut anywhere. What is ill formed becomes U+FFFD, or if
 * `fatal` is true, the encoder throws.
 */
export interface Encoder<Output> {
    /** What has come and is not encoded yet: at most 3 bytes, unless another number is said. */
    readonly pending: Uint8Array;
    /** Returns the UTF-16 of the next chunk. */
    feed(chunk: Uint8Array): Output;
    /** Ends the stream: returns U+FFFD if something is pending. A new stream begins. */
    finish(): Output;
}

/** A stream of UTF-16 to strings, with the interface of the platform's `TextDecoder`. */
export interface StringDecoder<Chunk> {
    readonly encoding: "utf-16le" | "utf-16be";
    readonly fatal: boolean;
    readonly ignoreBOM: boolean;
    /**
     * Returns the string of the next chunk. If `stream` is true, it keeps an incomplete character
     * for the next chunk. Otherwise the stream ends, and a new one begins.
     */
    decode(chunk?: Chunk, options?: { stream?: boolean }): string;
}

/** A question about UTF-16. */
export interface OfUtf16<Result> {
    (utf16: Uint8Array, order: ByteOrder): Result;
    (utf16: Uint16Array): Result;
}

/** A question about UTF-16 at an offset. */
export interface OfUtf16At<Result> {
    (utf16: Uint8Array, order: ByteOrder, at: number): Result;
    (utf16: Uint16Array, at: number): Result;
}

/** A search in UTF-16 for a pattern of the same form. Returns -1 if it occurs nowhere. */
export interface SearchOfUtf16 {
    (utf16: Uint8Array, order: ByteOrder, pattern: Uint8Array): number;
    (utf16: Uint16Array, pattern: Uint16Array): number;
}

/** A conversion from UTF-16. Without a capacity the output has all that can be written. */
export interface FromUtf16<Output> {
    (utf16: Uint8Array, order: ByteOrder, capacity?: number): Progress<Output>;
    (utf16: Uint16Array, capacity?: number): Progress<Output>;
}

/** A conversion to UTF-16: to bytes in a byte order, or without one to code units. */
export interface ToUtf16<Input> {
    (input: Input, order: ByteOrder, capacity?: number): Progress<Uint8Array>;
    (input: Input, order?: undefined, capacity?: number): Progress<Uint16Array>;
}

/** A conversion from UTF-16 to an array of the caller. */
export interface FromUtf16Into<Output> {
    (utf16: Uint8Array, order: ByteOrder, to: Output): Written;
    (utf16: Uint16Array, to: Output): Written;
}

/** A conversion to UTF-16 in an array of the caller: bytes in a byte order, or code units. */
export interface ToUtf16Into<Input> {
    (input: Input, to: Uint8Array, order: ByteOrder): Written;
    (input: Input, to: Uint16Array): Written;
}

/** The length of such UTF-16: in bytes with a byte order, else in code units. */
export type ForUtf16<Input> = (input: Input, order?: ByteOrder) => number;

/** A change of UTF-16 in place, or a question about it, in any byte order. */
export type OfUtf16InAnyOrder<Result> = (utf16: Uint8Array | Uint16Array) => Result;

/** A repair of UTF-16 in place. Returns how many sequences it replaced. */
export type RepairOfUtf16 = OfUtf16<number>;

/** A comparison of two texts. Returns -1, 0 or 1. */
export interface PairOfUtf16 {
    (first: Uint16Array, second: Uint16Array): -1 | 0 | 1;
    (first: Uint16Array, second: Uint8Array, order: ByteOrder): -1 | 0 | 1;
    (first: Uint8Array, order: ByteOrder, second: Uint16Array): -1 | 0 | 1;
    (
        first: Uint8Array,
        firstOrder: ByteOrder,
        second: Uint8Array,
        secondOrder: ByteOrder,
    ): -1 | 0 | 1;
}

/** A question about a stream that begins with these bytes. Without a BOM it has the other order. */
export type OfStart<Result> = (bytes: Uint8Array, otherwise?: ByteOrder) => Result;

/**
 * A question at an offset of a file, for the 4 bytes of the file from `max(0, at - at % 2 - 2)` on,
 * or as many as it has.
 */
export type AroundOffset = <Offset extends number | bigint>(
    around: Uint8Array,
    order: ByteOrder,
    at: Offset,
) => Offset extends bigint ? bigint : number;

/** An offset of the part with this index, of about equal ones of a file. */
export type OfOffsets = <Offset extends number | bigint>(
    len: Offset,
    count: Offset,
    index: Offset,
) => Offset extends bigint ? bigint : number;

/** A stream of the Web from bytes to bytes. */
export type BytesStream = TransformStream<Uint8Array, Uint8Array>;

/** What is made for UTF-16 of bytes in a byte order, or without one for code units. */
export interface OfOnlyOrder<OfBytes, OfUnits> {
    (order: ByteOrder): OfBytes;
    (): OfUnits;
}

/** What is made for UTF-16 of bytes in a byte order, or without one for code units. */
export interface OfOrder<OfBytes, OfUnits> {
    (order: ByteOrder, options?: StrictOptions): OfBytes;
    (order?: undefined, options?: StrictOptions): OfUnits;
}

/** The same, also for bytes in the byte order that a BOM gives. */
export interface OfOrderOrBom<OfBytes, OfUnits> extends OfOrder<OfBytes, OfUnits> {
    (order: "bom", otherwise?: ByteOrder, options?: StrictOptions): OfBytes;
}

/** The functions of the library. */
export interface Dethrux {
    /** Returns the version of the library as a number, DETHRUX_VERSION of its header. */
    version: () => number;
    /** Returns the length of the longest well-formed prefix, and what follows it. */
    validate: OfUtf16<Validity>;
    /** Returns the number of characters (scalar values). */
    countChars: OfUtf16<number>;
    /** Returns whether the bytes are UTF-16 whose characters are all ASCII, below U+0080. */
    isAscii: OfUtf16<boolean>;
    /** Returns the length of what `toUtf8Lossy` writes for the whole input. */
    toUtf8LossyLen: OfUtf16<number>;
    /** Returns the length of what `fromUtf8` writes for the longest well-formed prefix. */
    fromUtf8Len: ForUtf16<Uint8Array>;
    /** Returns the length of what `fromUtf8Lossy` writes for the whole input. */
    fromUtf8LossyLen: ForUtf16<Uint8Array>;
    /** Returns how many U+FFFD `toUtf8Lossy` writes for ill-formed sequences of the whole input. */
    toUtf8Replacements: OfUtf16<number>;
    /**
     * Returns how many U+FFFD `fromUtf8Lossy` writes for ill-formed sequences of the whole input.
     */
    fromUtf8Replacements: (bytes: Uint8Array) => number;
    /** Converts UTF-16 to UTF-8, up to the first ill-formed sequence. */
    toUtf8: FromUtf16<Uint8Array>;
    /** Does what `toUtf8` does, into an array of the caller. */
    toUtf8Into: FromUtf16Into<Uint8Array>;
    /** Converts UTF-16 to UTF-8 and replaces what is ill formed by U+FFFD. */
    toUtf8Lossy: FromUtf16<Uint8Array>;
    /** Does what `toUtf8Lossy` does, into an array of the caller. */
    toUtf8LossyInto: FromUtf16Into<Uint8Array>;
    /** Converts the next chunk of a stream to UTF-8, without a decoder. */
    toUtf8Partial: FromUtf16<Uint8Array>;
    /** Does what `toUtf8Partial` does, into an array of the caller. */
    toUtf8PartialInto: FromUtf16Into<Uint8Array>;
    /** Converts UTF-8 to UTF-16, up to the first ill-formed sequence, of 1 to 3 bytes. */
    fromUtf8: ToUtf16<Uint8Array>;
    /** Does what `fromUtf8` does, into an array of the caller. */
    fromUtf8Into: ToUtf16Into<Uint8Array>;
    /** Converts UTF-8 to UTF-16 and replaces what is ill formed by U+FFFD. */
    fromUtf8Lossy: ToUtf16<Uint8Array>;
    /** Does what `fromUtf8Lossy` does, into an array of the caller. */
    fromUtf8LossyInto: ToUtf16Into<Uint8Array>;
    /** Converts the next chunk of a stream to UTF-16, without an encoder. */
    fromUtf8Partial: ToUtf16<Uint8Array>;
    /** Does what `fromUtf8Partial` does, into an array of the caller. */
    fromUtf8PartialInto: ToUtf16Into<Uint8Array>;
    /**
     * Returns the length of the longest well-formed prefix, the number of its characters, and the
     * smallest repertoire that has them.
     */
    inspect: OfUtf16<Inspection>;
    /** Converts UTF-16 to UTF-32, up to the first ill-formed sequence. */
    toUtf32: FromUtf16<Uint32Array>;
    /** Does what `toUtf32` does, into an array of the caller. */
    toUtf32Into: FromUtf16Into<Uint32Array>;
    /**
     * Converts UTF-16 to UTF-32 and replaces what is ill formed by U+FFFD, as `toUtf8Lossy` does.
     */
    toUtf32Lossy: FromUtf16<Uint32Array>;
    /** Does what `toUtf32Lossy` does, into an array of the caller. */
    toUtf32LossyInto: FromUtf16Into<Uint32Array>;
    /** Returns how many code units of UTF-32 `toUtf32Lossy` writes for the whole input. */
    toUtf32LossyLen: OfUtf16<number>;
    /** Returns how many code units at the start are UTF-32, and what follows them. */
    validateUtf32: (utf32: Uint32Array) => Validity;
    /** Converts UTF-32 to UTF-16, up to the first ill-formed code unit. */
    fromUtf32: ToUtf16<Uint32Array>;
    /** Does what `fromUtf32` does, into an array of the caller. */
    fromUtf32Into: ToUtf16Into<Uint32Array>;
    /** Converts UTF-32 to UTF-16 and replaces each ill-formed code unit by U+FFFD. */
    fromUtf32Lossy: ToUtf16<Uint32Array>;
    /** Does what `fromUtf32Lossy` does, into an array of the caller. */
    fromUtf32LossyInto: ToUtf16Into<Uint32Array>;
    /** Returns the length of what `fromUtf32Lossy` writes for the whole input. */
    fromUtf32LossyLen: ForUtf16<Uint32Array>;
    /**
     * Converts UTF-16 to Latin-1 (ISO 8859-1), up to the first ill-formed sequence or the first
     * character above U+00FF.
     */
    toLatin1: FromUtf16<Uint8Array>;
    /** Does what `toLatin1` does, into an array of the caller. */
    toLatin1Into: FromUtf16Into<Uint8Array>;
    /** Converts Latin-1 (ISO 8859-1) to UTF-16. */
    fromLatin1: ToUtf16<Uint8Array>;
    /** Does what `fromLatin1` does, into an array of the caller. */
    fromLatin1Into: ToUtf16Into<Uint8Array>;
    /** Converts all code units of UTF-16 to WTF-8, which keeps unpaired surrogates. */
    toWtf8: FromUtf16<Uint8Array>;
    /** Does what `toWtf8` does, into an array of the caller. */
    toWtf8Into: FromUtf16Into<Uint8Array>;
    /** Returns the length of what `toWtf8` writes for the whole input. */
    toWtf8Len: OfUtf16<number>;
    /** Converts the next chunk of a stream to WTF-8, without a decoder. */
    toWtf8Partial: FromUtf16<Uint8Array>;
    /** Does what `toWtf8Partial` does, into an array of the caller. */
    toWtf8PartialInto: FromUtf16Into<Uint8Array>;
    /** Converts WTF-8 to UTF-16, up to the first ill-formed sequence, of 1 to 3 bytes. */
    fromWtf8: ToUtf16<Uint8Array>;
    /** Does what `fromWtf8` does, into an array of the caller. */
    fromWtf8Into: ToUtf16Into<Uint8Array>;
    /** Returns the length of what `fromWtf8` writes for the longest well-formed prefix. */
    fromWtf8Len: ForUtf16<Uint8Array>;
    /** Converts the next chunk of a stream of WTF-8, cut anywhere, to UTF-16. */
    fromWtf8Partial: ToUtf16<Uint8Array>;
    /** Does what `fromWtf8Partial` does, into an array of the caller. */
    fromWtf8PartialInto: ToUtf16Into<Uint8Array>;
    /** Returns whether an offset is a boundary between characters. */
    isCharBoundary: OfUtf16At<boolean>;
    /** Returns the greatest boundary at or before an offset. */
    floorCharBoundary: OfUtf16At<number>;
    /** Returns the greatest boundary at or before an offset of a file, from a few of its bytes. */
    floorCharBoundaryAround: AroundOffset;
    /** Returns the offset where part `index` of `count` parts begins in a file of `len` bytes. */
    shardOffset: OfOffsets;
    /** Returns the least offset at which a pattern occurs in a text. */
    find: SearchOfUtf16;
    /** Returns the greatest offset at which a pattern occurs in a text. */
    rfind: SearchOfUtf16;
    /** Returns the offset of the first NUL (U+0000), like strnlen of C. */
    nulOffset: OfUtf16InAnyOrder<number>;
    /** Swaps the two bytes of each code unit in place: UTF-16 in the other byte order. */
    swapByteOrder: OfUtf16InAnyOrder<void>;
    /** Replaces each unpaired surrogate by U+FFFD in place. */
    makeWellFormed: RepairOfUtf16;
    /** Compares two texts by their scalar values, each in its byte order. */
    compare: PairOfUtf16;
    /** Returns the byte order mark (BOM) at the start of a stream, and the byte order. */
    detectBom: OfStart<Bom>;

    /**
     * Returns the string of UTF-16, as the platform's `TextDecoder` does: without a BOM at the
     * start, unless `ignoreBOM` is true, and with U+FFFD for what is ill formed.
     */
    decode(utf16: Uint8Array, order: ByteOrder, options?: TextOptions): string;
    decode(utf16: Uint16Array, options?: TextOptions): string;
    /**
     * Returns the UTF-16 of a string: bytes in a byte order, or without one code units. U+FFFD
     * replaces an unpaired surrogate, as in `TextEncoder`. It writes no BOM.
     */
    encode(text: string, order: ByteOrder, options?: StrictOptions): Uint8Array;
    encode(text: string, order?: undefined, options?: StrictOptions): Uint16Array;
    /**
     * Writes the UTF-16 of as many characters of a string as fit into an array. Returns how many
     * code units of the string it read, and how many elements it wrote.
     */
    encodeInto(
        text: string,
        to: Uint8Array,
        order: ByteOrder,
        options?: StrictOptions,
    ): { read: number; written: number };
    encodeInto(
        text: string,
        to: Uint16Array,
        options?: StrictOptions,
    ): { read: number; written: number };

    /** Returns a decoder to strings, from bytes, or without a byte order from code units. */
    textDecoder(order: ByteOrder, options?: TextOptions): StringDecoder<Uint8Array>;
    textDecoder(order?: undefined, options?: TextOptions): StringDecoder<Uint16Array>;
    /**
     * Returns a decoder of bytes, or without a byte order of code units. With "bom" the BOM gives
     * the byte order and is not part of the text; without one it is `otherwise`, by default "be".
     */
    decoder: OfOrderOrBom<Decoder<Uint8Array>, Decoder<Uint16Array>>;
    /** Returns an encoder to bytes, or without a byte order to code units. */
    encoder: OfOrder<Encoder<Uint8Array>, Encoder<Uint16Array>>;
    /**
     * Returns a decoder to WTF-8, which keeps unpaired surrogates. If the stream ends with an odd
     * byte, its `finish` throws an `Error` and changes nothing.
     */
    wtf8Decoder: OfOnlyOrder<Decoder<Uint8Array>, Decoder<Uint16Array>>;
    /**
     * Returns an encoder of WTF-8. A surrogate becomes the code unit. If bytes are not WTF-8, it
     * throws an `IllFormedError`, and changes nothing. At most 6 bytes are pending: a leading
     * surrogate, which `finish` returns, and the start of what follows it.
     */
    wtf8Encoder: OfOnlyOrder<Encoder<Uint8Array>, Encoder<Uint16Array>>;
    /** Returns a stream of the Web that passes its chunks through such a decoder. */
    decoderStream: OfOrderOrBom<BytesStream, TransformStream<Uint16Array, Uint8Array>>;
    /** Returns a stream of the Web that passes its chunks through such an encoder. */
    encoderStream: OfOrder<BytesStream, TransformStream<Uint8Array, Uint16Array>>;
    /** Returns a stream of the Web that passes its chunks through such a decoder. */
    wtf8DecoderStream: OfOnlyOrder<BytesStream, TransformStream<Uint16Array, Uint8Array>>;
    /** Returns a stream of the Web that passes its chunks through such an encoder. */
    wtf8EncoderStream: OfOnlyOrder<BytesStream, TransformStream<Uint8Array, Uint16Array>>;
}

/**
 * Loads the library: the module of the package, or another one at a URL, as bytes or compiled.
 * Throws an `Error` if the engine has no WebAssembly with vectors of 128 bits.
 */
export function load(source?: URL | string | BufferSource | WebAssembly.Module): Promise<Dethrux>;

/** Returns whether the engine can run the module. */
export function isSupported(): boolean;

/** Returns the code units of a string. */
export function unitsOf(text: string): Uint16Array;

/** Returns the string of code units. */
export function stringOf(units: Uint16Array): string;
