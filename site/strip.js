// The strip: characters, code units, bytes, and the gaps between bytes where cuts may be. It shows
// a window of the file.

const WINDOW = 128;
// How many bytes are shown before the place that was asked for.
const BEFORE = 32;
// What was asked for last. An answer to something else comes too late.
let lastAsked;

/** Shows the bytes around an offset, and returns whether they are shown. */
async function showAt(at) {
    const found = report;
    const { file, order, from } = found;
    const asked = {};
    lastAsked = asked;
    const start = await boundaryAt(found, Math.max(from, Math.min(at - BEFORE, file.size)));
    const end = await boundaryAt(found, start + WINDOW);
    const most = stretchAt(found, end).end;
    const read = await readBytes(file, start, Math.max(end, Math.min(end + 3, most)));
    if (asked !== lastAsked || found !== report) {
        return false;
    }
    const bytes = read.subarray(0, end - start);
    shown = { start, bytes, order, ...itemsBetween(start, read, bytes.length) };
    byId("offset").value = start;
    byId("offset").max = file.size;
    byId("window").textContent = `to ${counted(end)} of ${plural(file.size, "byte")}`;
    turnOff("earlier", start <= from);
    turnOff("later", end >= file.size);
    byId("back").hidden = true;
    cuts = [];
    tried = new Set();
    showStrip();
    byId("cutting").hidden = !shown.isStream;
    if (shown.isStream) {
        showCuts();
    }
    return true;
}

/** Shows the error of a button in the list, and moves the focus to it. */
async function jumpTo(button) {
    const at = Number(button.dataset.show);
    if (!(await showAt(at))) {
        return;
    }
    const item = byId("strip").querySelector(`[data-item="${at}"]`);
    item.classList.add("current");
    item.tabIndex = -1;
    item.focus({ preventScroll: true });
    item.scrollIntoView({ block: "center" });
    byId("back").hidden = false;
    byId("back").onclick = () => button.focus();
}

function showStrip() {
    const items = shown.items.length ? shown.items.map(itemElement) : [emptyElement()];
    byId("strip").replaceChildren(...items);
    items.at(-1).querySelector(".places").append(gapElement(shown.bytes.length));
}

/** What the strip shows if there are no bytes. */
function emptyElement() {
    const note = element("span", { className: "note" }, "There are no bytes.");
    return element("li", { className: "none" }, note, element("span", { className: "places" }));
}

/** The code units of an item; UTF-8 has none. */
function unitElements({ at, len }) {
    const { bytes, order } = shown;
    const units = [];
    for (let it = at; it < at + len && order !== "utf8"; it += 2) {
        const isWhole = it + 1 < at + len;
        const text = isWhole ? hex(unitAt(bytes, order, it), 4) : `${hex(bytes[it], 2)}…`;
        units.push(element("span", { className: "unit" }, text), " ");
    }
    return units;
}

function itemElement(item) {
    const places = Array.from({ length: item.len }, (_, at) => placeElement(item.at + at));
    const face = glyph(item);
    const at = shown.start + item.at;
    const about = item.why ? { title: `At byte ${counted(at)}: ${item.why}` } : {};
    return element(
        "li",
        { className: `item ${item.kind}`, "data-item": at, ...about },
        element("span", { className: [...face].length > 2 ? "glyph word" : "glyph" }, face),
        " ",
        element("span", { className: "name" }, nameOf(item)),
        " ",
        element("span", { className: "units" }, ...unitElements(item)),
        " ",
        element("span", { className: "places" }, ...places),
    );
}

/** A byte with the gap before it. */
function placeElement(at) {
    const byte = element("span", { className: "byte", "data-at": at }, hex(shown.bytes[at], 2));
    return element("span", { className: "place" }, gapElement(at), byte, " ");
}

const gapElement = (at) => element("span", { className: "gap", "data-gap": at });

const gapAt = (at) => byId("strip").querySelector(`[data-gap="${at}"]`);
