// What a decoder gives for the chunks between the cuts.

// How many cuttings are tried at once, and those that were tried, by their offsets.
const MOST_CUTTINGS = 4096;
let tried = new Set();

/** Feeds chunks to a decoder: what it writes for each and keeps after it, and what it ends with. */
function decodeChunks(chunks) {
    const decoder = library.decoder(shown.order);
    const fed = (bytes) => ({ output: decoder.feed(bytes), pending: decoder.pending });
    const steps = chunks.map(({ bytes }) => fed(bytes));
    return { steps, end: decoder.finish() };
}

/** Returns what was written for all chunks together. */
const outputOf = ({ steps, end }) =>
    Uint8Array.from([...steps.flatMap((it) => [...it.output]), ...end]);

function showChunks() {
    const places = sortedCuts();
    const chunks = chunksAt(places);
    const found = decodeChunks(chunks);
    tintBytes(chunks);
    const rows = found.steps.map((step, at) => chunkElement(at, chunks[at].bytes, step));
    byId("chunks").replaceChildren(...rows, endElement(found.end));
    const whole = library.toUtf8Lossy(shown.bytes, shown.order).output;
    tried.add(places.join());
    byId("joined").textContent = textOf(outputOf(found));
    showTally(octets(outputOf(found)) === octets(whole) ? 0 : 1);
}

/** Colours each byte by its chunk. */
function tintBytes(chunks) {
    const tints = chunks.flatMap(({ bytes }, number) => Array(bytes.length).fill(number % 4));
    byId("strip").querySelectorAll(".byte").forEach((it, at) => (it.dataset.tint = tints[at]));
}

function chunkElement(number, bytes, { output, pending }) {
    const size = element("small", {}, plural(bytes.length, "byte"));
    return element(
        "li",
        { "data-tint": number % 4 },
        element("h4", {}, `Chunk ${number + 1}`, " ", size),
        " ",
        described("reads", octets(bytes), "octets"),
        ...written(output),
        described("keeps", octets(pending), "octets kept"),
    );
}

/** What was written, as a text and in bytes. */
const written = (output) => [
    described("writes", textOf(output), "text"),
    described("in UTF-8", octets(output) || "–", "octets"),
];

function endElement(end) {
    return element(
        "li",
        { className: "end" },
        element("h4", {}, "End of the stream"),
        " ",
        ...written(end),
    );
}

/** A row of a chunk: a term, and what there is of it. */
function described(term, words, className) {
    const value = element("span", { className: words ? className : "empty" }, words || "nothing");
    return element("p", {}, element("span", { className: "term" }, term), " ", value, " ");
}

function showTally(different) {
    const line = different
        ? "This is not the text of the stream in one piece. Please report it."
        : `${plural(tried.size, "cutting")} tried, 1 text: the text of the stream in one piece.`;
    byId("tally").textContent = line;
    byId("tally").className = different ? "different" : "same";
}

/** Yields all cuttings of a short stream, or random ones of a longer one. */
function* manyCuttings(len) {
    const isShort = len > 0 && 2 ** (len - 1) <= MOST_CUTTINGS;
    for (let number = 0; number < (isShort ? 2 ** (len - 1) : MOST_CUTTINGS); number += 1) {
        const isCut = isShort ? (at) => (number >> (at - 1)) & 1 : () => Math.random() < 0.3;
        yield placesIn(len).filter(isCut);
    }
}

function tryMany() {
    const whole = octets(library.toUtf8Lossy(shown.bytes, shown.order).output);
    let different = 0;
    for (const places of manyCuttings(shown.bytes.length)) {
        different += octets(outputOf(decodeChunks(chunksAt(places)))) !== whole;
        tried.add(places.join());
    }
    showTally(different);
}

/** Each place between two bytes of a stream of this length. */
const placesIn = (len) => Array.from({ length: Math.max(0, len - 1) }, (_, at) => at + 1);
const everyCut = () => placesIn(shown.bytes.length);
const randomCuts = () => everyCut().filter(() => Math.random() < 0.25);
