// SPDX-License-Identifier: MIT OR Apache-2.0

/**
 * Dethrux: UTF-16 to and from UTF-8, UTF-32, Latin-1 and WTF-8, by a proved library as WebAssembly.
 *
 * UTF-16 is bytes, a `Uint8Array` that a byte order follows, or code units, a `Uint16Array`.
 * Lengths, offsets and capacities count elements of the array that they are about. No function
 * keeps an array that it is given, and each returns new ones. A function throws a `TypeError` for a
 * wrong argument. It throws a `RangeError` for a wrong number, for a string that is too long, or if
 * there is no memory. After an exception nothing has changed. `include/dethrux.h` has the whole
 * documentation of each call. `packaging/calls` writes the functions of the calls: `dist/wasm` has
 * the whole file.
 */

/** The byte order of UTF-16: little endian or big endian. */
export type ByteOrder = "le" | "be";

/**
 * Why a call stopped: all was read; ill-formed input follows, of `errorLen` elements; the input
 * ends inside a character; the next character does not fit; it is above U+00FF (only `toLatin1`).
 */
export type Status = "done" | "ill-formed" | "incomplete" | "no-space" | "not-latin1";

/** Where a call stopped. */
export interface Stop {
    status: Status;
    /** The length of the ill-formed sequence with "ill-formed", else 0. */
    errorLen: number;
}

/** The longest well-formed prefix, and what follows it. */
export interface Validity extends Stop {
    /** The length of the longest well-formed prefix. */
    validUpTo: number;
}

/** What a conversion wrote, and how far it came. */
export interface Progress<Output> extends Stop {
    output: Output;
    /** How much of the input was read. */
    read: number;
}

/** How much was written to an array of the caller, and how far a conversion came. */
export interface Written extends Stop {
    /** How much of the input was read. */
    read: number;
    /** How much of the array was written; the rest of it is unchanged. */
    written: number;
}

/** Whether ill-formed text is an error. */
export interface StrictOptions {
    /** Throw an `IllFormedError` for ill-formed text, instead of replacing it with U+FFFD. */
    fatal?: boolean;
}

/** The options of the platform's `TextDecoder`. */
export interface TextOptions extends StrictOptions {
    /** Keep a BOM at the start in the string. */
    ignoreBOM?: boolean;
}

/** What a function or a stream with `fatal` throws for ill-formed text. */
export class IllFormedError extends TypeError {
    /** Where the ill-formed sequence begins: in a stream, elements since the stream's start. */
    readonly offset: number;
    /** How many elements it has. At the end of the input it is the incomplete character. */
    readonly length: number;
    constructor(offset: number, length: number);
}

/** The longest well-formed prefix, its characters, and what follows it. */
export interface Inspection extends Validity {
    /** The number of its characters. */
    chars: number;
    /** The smallest repertoire that has all of them. */
    repertoire: "ascii" | "latin1" | "bmp" | "unicode";
}

/** What the start of a stream says about its byte order. */
export interface Bom {
    /** The length of the BOM: 2, or 0 if there is none. */
    len: number;
    order: ByteOrder;
    /** "undecided" if fewer than two bytes have come. */
    status: "absent" | "present" | "undecided";
}

/**
 * A stream of UTF-16 in chunks that are cut anywhere. `decoder` replaces what is ill formed with
 * U+FFFD, or throws if `fatal` is true. `wtf8Decoder` keeps unpaired surrogates.
 */
export interface Decoder<Chunk> {
    /** What has come and is not decoded yet: at most 3 bytes. */
    readonly pending: Chunk;
    /** Returns the UTF-8, or WTF-8, of the next chunk. */
    feed(chunk: Chunk): Uint8Array;
    /** Ends the stream: returns what is written for what is pending. A new stream begins. */
    finish(): Uint8Array;
}

/**
 * A stream of UTF-8 in chunks that are cut anywhere. What is ill formed becomes U+FFFD, or if
 * `fatal` is true, the encoder throws.
 */
export interface Encoder<Output> {
    /** What has come and is not encoded yet: at most 3 bytes, unless another number is said. */
    readonly pending: Uint8Array;
    /** Returns the UTF-16 of the next chunk. */
    feed(chunk: Uint8Array): Output;
    /** Ends the stream: returns U+FFFD if something is pending. A new stream begins. */
    finish(): Output;
}

/** A stream of UTF-16 to strings, with the interface of the platform's `TextDecoder`. */
export interface StringDecoder<Chunk> {
    readonly encoding: "utf-16le" | "utf-16be";
    readonly fatal: boolean;
    readonly ignoreBOM: boolean;
    /**
     * Returns the string of the next chunk. If `stream` is true, it keeps an incomplete character
     * for the next chunk. Otherwise the stream ends, and a new one begins.
     */
    decode(chunk?: Chunk, options?: { stream?: boolean }): string;
}

/** A question about UTF-16. */
export interface OfUtf16<Result> {
    (utf16: Uint8Array, order: ByteOrder): Result;
    (utf16: Uint16Array): Result;
}

/** A question about UTF-16 at an offset. */
export interface OfUtf16At<Result> {
    (utf16: Uint8Array, order: ByteOrder, at: number): Result;
    (utf16: Uint16Array, at: number): Result;
}

/** A search in UTF-16 for a pattern of the same form. Returns -1 if it occurs nowhere. */
export interface SearchOfUtf16 {
    (utf16: Uint8Array, order: ByteOrder, pattern: Uint8Array): number;
    (utf16: Uint16Array, pattern: Uint16Array): number;
}

/** A conversion from UTF-16. Without a capacity the output has all that can be written. */
export interface FromUtf16<Output> {
    (utf16: Uint8Array, order: ByteOrder, capacity?: number): Progress<Output>;
    (utf16: Uint16Array, capacity?: number): Progress<Output>;
}

/** A conversion to UTF-16: to bytes in a byte order, or without one to code units. */
export interface ToUtf16<Input> {
    (input: Input, order: ByteOrder, capacity?: number): Progress<Uint8Array>;
    (input: Input, order?: undefined, capacity?: number): Progress<Uint16Array>;
}

/** A conversion from UTF-16 to an array of the caller. */
export interface FromUtf16Into<Output> {
    (utf16: Uint8Array, order: ByteOrder, to: Output): Written;
    (utf16: Uint16Array, to: Output): Written;
}

/** A conversion to UTF-16 in an array of the caller: bytes in a byte order, or code units. */
export interface ToUtf16Into<Input> {
    (input: Input, to: Uint8Array, order: ByteOrder): Written;
    (input: Input, to: Uint16Array): Written;
}

/** The length of such UTF-16: in bytes with a byte order, else in code units. */
export type ForUtf16<Input> = (input: Input, order?: ByteOrder) => number;

/** A change of UTF-16 in place, or a question about it, in any byte order. */
export type OfUtf16InAnyOrder<Result> = (utf16: Uint8Array | Uint16Array) => Result;

/** A repair of UTF-16 in place. Returns how many sequences it replaced. */
export type RepairOfUtf16 = OfUtf16<number>;

/** A comparison of two texts. Returns -1, 0 or 1. */
export interface PairOfUtf16 {
    (first: Uint16Array, second: Uint16Array): -1 | 0 | 1;
    (first: Uint16Array, second: Uint8Array, order: ByteOrder): -1 | 0 | 1;
    (first: Uint8Array, order: ByteOrder, second: Uint16Array): -1 | 0 | 1;
    (
        first: Uint8Array,
        firstOrder: ByteOrder,
        second: Uint8Array,
        secondOrder: ByteOrder,
    ): -1 | 0 | 1;
}

/** A question about a stream that begins with these bytes. Without a BOM it has the other order. */
export type OfStart<Result> = (bytes: Uint8Array, otherwise?: ByteOrder) => Result;

/**
 * A question at an offset of a file, for the 4 bytes of the file from `max(0, at - at % 2 - 2)` on,
 * or as many as it has.
 */
export type AroundOffset = <Offset extends number | bigint>(
    around: Uint8Array,
    order: ByteOrder,
    at: Offset,
) => Offset extends bigint ? bigint : number;

/** An offset of the part with this index, of about equal ones of a file. */
export type OfOffsets = <Offset extends number | bigint>(
    len: Offset,
    count: Offset,
    index: Offset,
) => Offset extends bigint ? bigint : number;

/** A stream of the Web from bytes to bytes. */
export type BytesStream = TransformStream<Uint8Array, Uint8Array>;

/** What is made for UTF-16 of bytes in a byte order, or without one for code units. */
export interface OfOnlyOrder<OfBytes, OfUnits> {
    (order: ByteOrder): OfBytes;
    (): OfUnits;
}

/** What is made for UTF-16 of bytes in a byte order, or without one for code units. */
export interface OfOrder<OfBytes, OfUnits> {
    (order: ByteOrder, options?: StrictOptions): OfBytes;
    (order?: undefined, options?: StrictOptions): OfUnits;
}

/** The same, also for bytes in the byte order that a BOM gives. */
export interface OfOrderOrBom<OfBytes, OfUnits> extends OfOrder<OfBytes, OfUnits> {
    (order: "bom", otherwise?: ByteOrder, options?: StrictOptions): OfBytes;
}

/** The functions of the library. */
export interface Dethrux {
    /* packaging/calls writes the functions of the calls here. */

    /**
     * Returns the string of UTF-16, as the platform's `TextDecoder` does: without a BOM at the
     * start, unless `ignoreBOM` is true, and with U+FFFD for what is ill formed.
     */
    decode(utf16: Uint8Array, order: ByteOrder, options?: TextOptions): string;
    decode(utf16: Uint16Array, options?: TextOptions): string;
    /**
     * Returns the UTF-16 of a string: bytes in a byte order, or without one code units. U+FFFD
     * replaces an unpaired surrogate, as in `TextEncoder`. It writes no BOM.
     */
    encode(text: string, order: ByteOrder, options?: StrictOptions): Uint8Array;
    encode(text: string, order?: undefined, options?: StrictOptions): Uint16Array;
    /**
     * Writes the UTF-16 of as many characters of a string as fit into an array. Returns how many
     * code units of the string it read, and how many elements it wrote.
     */
    encodeInto(
        text: string,
        to: Uint8Array,
        order: ByteOrder,
        options?: StrictOptions,
    ): { read: number; written: number };
    encodeInto(
        text: string,
        to: Uint16Array,
        options?: StrictOptions,
    ): { read: number; written: number };

    /** Returns a decoder to strings, from bytes, or without a byte order from code units. */
    textDecoder(order: ByteOrder, options?: TextOptions): StringDecoder<Uint8Array>;
    textDecoder(order?: undefined, options?: TextOptions): StringDecoder<Uint16Array>;
    /**
     * Returns a decoder of bytes, or without a byte order of code units. With "bom" the BOM gives
     * the byte order and is not part of the text; without one it is `otherwise`, by default "be".
     */
    decoder: OfOrderOrBom<Decoder<Uint8Array>, Decoder<Uint16Array>>;
    /** Returns an encoder to bytes, or without a byte order to code units. */
    encoder: OfOrder<Encoder<Uint8Array>, Encoder<Uint16Array>>;
    /**
     * Returns a decoder to WTF-8, which keeps unpaired surrogates. If the stream ends with an odd
     * byte, its `finish` throws an `Error` and changes nothing.
     */
    wtf8Decoder: OfOnlyOrder<Decoder<Uint8Array>, Decoder<Uint16Array>>;
    /**
     * Returns an encoder of WTF-8. A surrogate becomes the code unit. If bytes are not WTF-8, it
     * throws an `IllFormedError`, and changes nothing. At most 6 bytes are pending: a leading
     * surrogate, which `finish` returns, and the start of what follows it.
     */
    wtf8Encoder: OfOnlyOrder<Encoder<Uint8Array>, Encoder<Uint16Array>>;
    /** Returns a stream of the Web that passes its chunks through such a decoder. */
    decoderStream: OfOrderOrBom<BytesStream, TransformStream<Uint16Array, Uint8Array>>;
    /** Returns a stream of the Web that passes its chunks through such an encoder. */
    encoderStream: OfOrder<BytesStream, TransformStream<Uint8Array, Uint16Array>>;
    /** Returns a stream of the Web that passes its chunks through such a decoder. */
    wtf8DecoderStream: OfOnlyOrder<BytesStream, TransformStream<Uint16Array, Uint8Array>>;
    /** Returns a stream of the Web that passes its chunks through such an encoder. */
    wtf8EncoderStream: OfOnlyOrder<BytesStream, TransformStream<Uint8Array, Uint16Array>>;
}

/**
 * Loads the library: the module of the package, or another one at a URL, as bytes or compiled.
 * Throws an `Error` if the engine has no WebAssembly with vectors of 128 bits.
 */
export function load(source?: URL | string | BufferSource | WebAssembly.Module): Promise<Dethrux>;

/** Returns whether the engine can run the module. */
export function isSupported(): boolean;

/** Returns the code units of a string. */
export function unitsOf(text: string): Uint16Array;

/** Returns the string of code units. */
export function stringOf(units: Uint16Array): string;
