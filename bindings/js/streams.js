// SPDX-License-Identifier: MIT OR Apache-2.0

import { bytesOf, input, ORDERS, room, state } from "./machine.js";
import { end, inWidth, isArray, takeForm, takeOptions, takeOrder } from "./shapes.js";

// The bytes of a chunk that one call takes, so that the memory of the module stays small.
const SLICE = 65536;
export const LE = ORDERS.indexOf("le");
const NOTHING = new Uint8Array();

/** What a strict call throws: the offset of what is ill formed, in the whole stream. */
export class IllFormedError extends TypeError {
    constructor(offset, length) {
        super(`dethrux: ill-formed text at offset ${offset}, of length ${length}`);
        this.name = "IllFormedError";
        this.offset = offset;
        this.length = length;
    }
}

/** Returns arrays of bytes as one. */
function joined(arrays) {
    const all = new Uint8Array(arrays.reduce((len, it) => len + it.length, 0));
    let at = 0;
    for (const it of arrays) {
        all.set(it, at);
        at += it.length;
    }
    return all;
}

/** The error of the end of a stream of UTF-16. No other call for one fails. */
const oddByte = () => new Error("dethrux: the stream ends with an odd byte, which WTF-8 cannot keep");

/** A stream in chunks that are cut anywhere: what a decoder and an encoder have in common. */
class Stream {
    // The struct of the header: pending bytes and their number.
    #state;
    #call;
    #errorOf;
    // How many bytes of the stream have come.
    #came = 0;

    /** `errorOf` makes an error of a call's progress, and of the `came` and pending bytes. */
    constructor(call, most, errorOf) {
        this.#call = call;
        this.#state = new Uint8Array(most + 1);
        this.#errorOf = errorOf;
    }

    /** The bytes that have come and are not converted yet. */
    get pendingBytes() {
        return this.#state.slice(0, this.#state.at(-1));
    }

    /**
     * Makes a call with this many bytes for its output, and returns the output. If the call fails
     * or there is no memory for it, nothing changes.
     */
    #made(name, parts, capacity) {
        const all = [state(this.#state), ...parts, room(capacity)];
        const made = this.#call(name, "progress", all);
        const after = made.bytes(0, this.#state.length);
        if (made.result.status !== "done") {
            throw this.#errorOf(made.result, this.#came, this.#state.at(-1), after.at(-1));
        }
        const output = made.bytes(all.length - 1, made.result.written);
        this.#state = after;
        return output;
    }

    /** Returns what the call at the end of the stream wrote. A new stream begins. */
    ended(name, parts, capacity) {
        const output = this.#made(name, parts, capacity);
        this.#came = 0;
        return output;
    }

    /** Returns what the calls for a chunk wrote. If there is no memory for it, nothing changes. */
    fed(name, order, chunk, capacity) {
        const before = [this.#state, this.#came];
        try {
            return joined(this.#slices(name, order, chunk, capacity));
        } catch (error) {
            [this.#state, this.#came] = before;
            throw error;
        }
    }

    /** Returns what the call for each slice of a chunk wrote. */
    #slices(name, order, chunk, capacity) {
        const found = [];
        for (let at = 0; at < chunk.length; at += SLICE) {
            const slice = chunk.subarray(at, at + SLICE);
            found.push(this.#made(name, [order, input(slice)], capacity(slice.length)));
            this.#came += slice.length;
        }
        return found;
    }
}

const kindOf = (width) => (width === 2 ? "Uint16Array" : "Uint8Array");

function checked(chunk, kind) {
    if (!isArray(chunk, kind)) {
        throw new TypeError(`dethrux: a chunk of this stream is a ${kind}`);
    }
    return bytesOf(chunk);
}

/**
 * The error of a call of an encoder of WTF-8. An ill-formed sequence begins with the bytes that are
 * pending after the call, an incomplete one with the pending bytes that the call did not read.
 */
function illFormed({ status, read, errorLen }, came, before, after) {
    return status === "ill-formed"
        ? new IllFormedError(came + read - after, errorLen)
        : new IllFormedError(came - before + read, before - read);
}

// The calls of each kind of stream, with the capacities of the header, for a chunk of `len` bytes
// and for the end; the most bytes that are pending; and the error of a call.
const DECODER = {
    feed: "decoder_feed",
    capacity: (len) => Math.floor((len + 3) / 2) * 3,
    finish: "decoder_finish",
    last: 3,
    most: 3,
    errorOf: oddByte,
};
const WTF8_DECODER = { ...DECODER, feed: "wtf8_decoder_feed", finish: "wtf8_decoder_finish" };
const ENCODER = {
    feed: "encoder_feed",
    capacity: (len) => len * 2 + 2,
    finish: "encoder_finish",
    last: 2,
    most: 3,
    errorOf: illFormed,
};
const WTF8_ENCODER = {
    feed: "wtf8_encoder_feed",
    capacity: (len) => len * 2 + 4,
    finish: "wtf8_encoder_finish",
    last: 2,
    most: 6,
    errorOf: illFormed,
};

/** Converts a stream with the calls of a kind. The elements of both arrays have these widths. */
class Coder {
    #stream;
    #kind;
    #order;
    #widths;

    constructor(call, kind, order, widths) {
        this.#stream = new Stream(call, kind.most, kind.errorOf);
        this.#kind = kind;
        this.#order = order;
        this.#widths = widths;
    }

    get pending() {
        return inWidth(this.#stream.pendingBytes, this.#widths[0]);
    }

    feed(chunk) {
        const bytes = checked(chunk, kindOf(this.#widths[0]));
        const { feed, capacity } = this.#kind;
        return inWidth(this.#stream.fed(feed, this.#order, bytes, capacity), this.#widths[1]);
    }

    finish() {
        const { finish, last } = this.#kind;
        return inWidth(this.#stream.ended(finish, [this.#order], last), this.#widths[1]);
    }
}

/** Converts a stream with a strict call, and throws at the first error. */
class Strict {
    #convert;
    #kind;
    // The elements of the input and of the output have this many bytes.
    #width;
    #made;
    #rest = new Uint8Array();
    // How many bytes of the stream are converted, or were left out before.
    #read;

    /** `convert` takes bytes and returns bytes, and `widths` are those of both arrays. */
    constructor(convert, widths, start = 0) {
        this.#convert = convert;
        this.#width = widths[0];
        this.#kind = kindOf(this.#width);
        this.#made = (bytes) => inWidth(bytes, widths[1]);
        this.#read = start;
    }

    get pending() {
        return inWidth(this.#rest.slice(), this.#width);
    }

    feed(chunk) {
        const bytes = checked(chunk, this.#kind);
        const found = [];
        let [rest, read] = [this.#rest, this.#read];
        for (let at = 0; at < bytes.length; at += SLICE) {
            const slice = joined([rest, bytes.subarray(at, at + SLICE)]);
            const progress = this.#convert(slice);
            if (progress.status === "ill-formed") {
                throw this.#error(read + progress.read, progress.errorLen);
            }
            found.push(progress.output);
            rest = slice.slice(progress.read);
            read += progress.read;
        }
        const output = this.#made(joined(found));
        [this.#rest, this.#read] = [rest, read];
        return output;
    }

    finish() {
        if (this.#rest.length > 0) {
            throw this.#error(this.#read, this.#rest.length);
        }
        this.#read = 0;
        return this.#made(new Uint8Array());
    }

    #error(offset, length) {
        return new IllFormedError(offset / this.#width, length / this.#width);
    }
}

/** Decodes UTF-16 whose byte order its BOM gives, with the decoder that `made` returns. */
class BomDecoder {
    #functions;
    #otherwise;
    #made;
    #head = new Uint8Array();
    #decoder;

    constructor(functions, otherwise, made) {
        this.#functions = functions;
        this.#otherwise = otherwise;
        this.#made = made;
    }

    get pending() {
        return this.#decoder ? this.#decoder.pending : this.#head.slice();
    }

    feed(chunk) {
        if (this.#decoder) {
            return this.#decoder.feed(chunk);
        }
        const head = joined([this.#head, checked(chunk, "Uint8Array")]);
        const bom = this.#functions.detectBom(head, this.#otherwise);
        if (bom.status === "undecided") {
            this.#head = head;
            return new Uint8Array();
        }
        return this.#begin(head, bom);
    }

    finish() {
        const decoder = this.#decoder ?? this.#made(this.#otherwise, 0);
        // At most one byte, so it has no text yet.
        decoder.feed(this.#head);
        const text = decoder.finish();
        this.#head = new Uint8Array();
        this.#decoder = undefined;
        return text;
    }

    #begin(head, { order, len }) {
        const decoder = this.#made(order, len);
        const text = decoder.feed(head.subarray(len));
        this.#head = new Uint8Array();
        this.#decoder = decoder;
        return text;
    }
}

/** Returns a stream of the Web that passes chunks through a decoder or an encoder. */
function transform(coder) {
    const pass = (array, to) => array.length > 0 && to.enqueue(array);
    return new TransformStream({
        transform: (chunk, to) => void pass(coder.feed(chunk), to),
        flush: (to) => void pass(coder.finish(), to),
    });
}

/**
 * Returns how many bytes at the end of UTF-16 are the start of a character: an odd byte, and before
 * it a leading surrogate.
 */
function incompleteLen(bytes, order) {
    const odd = bytes.length % 2;
    const high = bytes[bytes.length - odd - (order === 1 ? 2 : 1)];
    return high >> 2 === 0xd8 >> 2 ? odd + 2 : odd;
}

/** Decodes UTF-16 to strings, like the platform's TextDecoder. */
export class Text {
    #machine;
    #form;
    #options;
    #rest = NOTHING;
    // How many bytes of the stream are decoded.
    #read = 0;

    constructor(machine, form, { fatal, ignoreBOM }) {
        this.#machine = machine;
        this.#form = form;
        this.#options = { fatal: Boolean(fatal), ignoreBOM: Boolean(ignoreBOM) };
    }

    get encoding() {
        return `utf-16${ORDERS[this.#form.order]}`;
    }

    get fatal() {
        return this.#options.fatal;
    }

    get ignoreBOM() {
        return this.#options.ignoreBOM;
    }

    decode(chunk, ...words) {
        const { stream } = takeOptions(words);
        const { order, width } = this.#form;
        const given = chunk === undefined ? NOTHING : checked(chunk, kindOf(width));
        const bytes = this.#rest.length > 0 ? joined([this.#rest, given]) : given;
        // At the end of the stream an incomplete character is an error, which `#text` throws.
        const rest = this.fatal && !stream ? 0 : incompleteLen(bytes, order);
        const whole = bytes.length - rest;
        const text = this.#text(rest > 0 ? bytes.subarray(0, whole) : bytes);
        const hasBom = this.#read === 0 && !this.ignoreBOM && text.startsWith("\uFEFF");
        // A slice of a Buffer would not be a copy.
        this.#rest = rest > 0 && stream ? joined([bytes.subarray(whole)]) : NOTHING;
        this.#read = stream ? this.#read + whole : 0;
        return (hasBom ? text.slice(1) : text) + (rest > 0 && !stream ? "\uFFFD" : "");
    }

    /** Returns the string of bytes that end between characters. */
    #text(bytes) {
        const { order, width } = this.#form;
        const len = this.#machine.putText(bytes);
        const error = this.#machine.repairText(len, order, LE, this.fatal);
        if (error) {
            throw new IllFormedError((this.#read + error.at) / width, error.length / width);
        }
        return this.#machine.textString(len);
    }
}

/** Returns the functions for streams. */
export function streams(machine, functions) {
    const call = machine.call.bind(machine);
    const decoding = (kind, { order, width }) => new Coder(call, kind, order, [width, 1]);
    const encoding = (kind, { order, width }) => new Coder(call, kind, order, [1, width]);
    const coders = {
        decoder(form, { fatal }, start) {
            const convert = (bytes) => functions.toUtf8(bytes, ORDERS[form.order]);
            return fatal ? new Strict(convert, [form.width, 1], start) : decoding(DECODER, form);
        },
        encoder(form, { fatal }) {
            const convert = (bytes) => functions.fromUtf8(bytes, ORDERS[form.order]);
            return fatal ? new Strict(convert, [1, form.width]) : encoding(ENCODER, form);
        },
        textDecoder: (form, options) => new Text(machine, form, options),
    };
    const made = (name, words) => coders[name](takeForm(words), takeOptions(words));
    const decoder = (...words) => {
        if (words[0] !== "bom") {
            return made("decoder", words);
        }
        const [, otherwise = "be", ...more] = words;
        const options = takeOptions(more);
        const begun = (order, len) => coders.decoder(takeForm([order]), options, len);
        takeOrder([otherwise]);
        return new BomDecoder(functions, otherwise, begun);
    };
    const encoder = (...words) => made("encoder", words);
    const formAlone = (words) => {
        const form = takeForm(words);
        end(words);
        return form;
    };
    const wtf8Decoder = (...words) => decoding(WTF8_DECODER, formAlone(words));
    const wtf8Encoder = (...words) => encoding(WTF8_ENCODER, formAlone(words));
    const textDecoder = (...words) => made("textDecoder", words);
    return {
        decoder,
        encoder,
        wtf8Decoder,
        wtf8Encoder,
        textDecoder,
        decoderStream: (...words) => transform(decoder(...words)),
        encoderStream: (...words) => transform(encoder(...words)),
        wtf8DecoderStream: (...words) => transform(wtf8Decoder(...words)),
        wtf8EncoderStream: (...words) => transform(wtf8Encoder(...words)),
    };
}
