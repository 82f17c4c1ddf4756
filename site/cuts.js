// Cuts: their handles in the strip, and how they are moved.

// The offset of each cut.
let cuts = [];

const sortedCuts = () => [...cuts].sort((first, second) => first - second);

/** Returns the chunks between the cuts. */
function chunksAt(places) {
    const edges = [0, ...places, shown.bytes.length];
    const chunk = (at, end) => ({ at, bytes: shown.bytes.subarray(at, end) });
    return edges.slice(1).map((end, number) => chunk(edges[number], end));
}

/** Puts a handle for each cut into its gap, and shows what the chunks give. */
function showCuts() {
    byId("strip").querySelectorAll(".cut").forEach((it) => it.remove());
    cuts.forEach((at, number) => gapAt(at).append(cutElement(at, number)));
    showChunks();
}

function cutElement(at, number) {
    const cut = element("span", {
        className: "cut",
        role: "slider",
        tabindex: 0,
        "aria-label": `Cut ${number + 1}`,
        "aria-orientation": "horizontal",
        "aria-valuemin": 0,
        "aria-valuemax": shown.bytes.length,
        "aria-valuenow": at,
        "aria-valuetext": placeWords(at),
        "data-cut": number,
    });
    return cut;
}

/** Says where a cut is. */
function placeWords(at) {
    const item = shown.items.find((it) => it.at < at && at < it.at + it.len);
    const where = `before byte ${counted(shown.start + at)}`;
    return item ? `${where}, inside ${nameOf(item)}` : where;
}

/** Moves a cut, and keeps the focus on it. */
function moveCut(number, to) {
    const at = Math.min(Math.max(to, 0), shown.bytes.length);
    if (cuts[number] === at) {
        return;
    }
    cuts[number] = at;
    showCuts();
    byId("strip").querySelector(`[data-cut="${number}"]`).focus({ preventScroll: true });
}

function setCuts(places) {
    cuts = places;
    showCuts();
}

/** Adds a cut at an offset, or in the middle of the longest chunk. */
function addCut(at = middleOfLongest()) {
    setCuts([...cuts, at]);
    byId("strip").querySelector(`[data-cut="${cuts.length - 1}"]`).focus({ preventScroll: true });
}

function middleOfLongest() {
    const longer = (one, other) => (other.bytes.length > one.bytes.length ? other : one);
    const longest = chunksAt(sortedCuts()).reduce(longer);
    return longest.at + Math.floor(longest.bytes.length / 2);
}

function removeCut(number) {
    setCuts(cuts.filter((_, at) => at !== number));
    (byId("strip").querySelector(".cut") ?? byId("add")).focus({ preventScroll: true });
}

const STEPS = {
    ArrowLeft: (at) => at - 1,
    ArrowDown: (at) => at - 1,
    ArrowRight: (at) => at + 1,
    ArrowUp: (at) => at + 1,
    PageDown: (at) => at - 8,
    PageUp: (at) => at + 8,
    Home: () => 0,
    End: () => shown.bytes.length,
};

function pressKey(event) {
    const number = event.target.dataset?.cut;
    if (number === undefined || event.ctrlKey || event.altKey || event.metaKey) {
        return;
    }
    if (event.key in STEPS) {
        moveCut(Number(number), STEPS[event.key](cuts[number]));
        event.preventDefault();
    } else if (event.key === "Delete" || event.key === "Backspace") {
        removeCut(Number(number));
        event.preventDefault();
    }
}

/** Returns the offset of the gap that is nearest to the pointer, of its line first. */
function nearestGap({ clientX, clientY }) {
    const distance = (gap) => {
        const { left, right, top, bottom } = gap.getBoundingClientRect();
        const below = Math.max(top - clientY, clientY - bottom, 0);
        return Math.abs((left + right) / 2 - clientX) + below * 20;
    };
    const gaps = [...byId("strip").querySelectorAll(".gap")];
    const found = gaps.map((it) => ({ at: Number(it.dataset.gap), away: distance(it) }));
    return found.reduce((best, it) => (it.away < best.away ? it : best)).at;
}

/** Begins to drag a cut, or makes one where the strip was pressed. */
function pressPointer(event) {
    if (event.button !== 0 || !event.target.closest(".places")) {
        return;
    }
    const handle = event.target.closest(".cut");
    if (!handle) {
        addCut(nearestGap(event));
    }
    const number = handle ? Number(handle.dataset.cut) : cuts.length - 1;
    byId("strip").querySelector(`[data-cut="${number}"]`).focus({ preventScroll: true });
    drag(number);
    event.preventDefault();
}

function drag(number) {
    const move = (event) => moveCut(number, nearestGap(event));
    const end = () => {
        document.removeEventListener("pointermove", move);
        document.body.classList.remove("dragging");
    };
    document.body.classList.add("dragging");
    document.addEventListener("pointermove", move);
    document.addEventListener("pointerup", end, { once: true });
    document.addEventListener("pointercancel", end, { once: true });
}
