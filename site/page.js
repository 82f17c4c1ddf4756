// The controls of the page, and its start.

const EXAMPLES = {
    unpaired: "61 00 00 DC 62 00 3D D8 63 00 3D D8 00 DE",
    odd: "FE FF 00 47 00 72 00 FC D8 3D DE",
    lost: octets(bytesOfText("One byte was lost here.", "le")).replace(" 00 77", " 77"),
    utf8: octets(new TextEncoder().encode("Grüße, мир €5")),
    dump: "00000000: fffe 4700 7200 fc00 00dc df00 6500 2100  ..G.r.......e.!.",
};

function useExample(name) {
    byId("form").value = "auto";
    byId("order").value = "auto";
    byId("align").checked = true;
    byId("input").value = EXAMPLES[name];
    takeField();
}

/** Reads the field instead of a file. */
function takeField() {
    given = undefined;
    byId("file").value = "";
    readField();
}

function takeFile(file) {
    given = file;
    byId("input").value = "";
    byId("input-note").textContent = "";
    byId("order").value = "auto";
    readAgain();
}

/** Reads the same file or field, as it is chosen now. */
function readAgain() {
    if (given) {
        checkFile(given, given.name);
    } else {
        readField();
    }
}

function switchOrder({ target }) {
    byId("order").value = target.value;
    byId("order").focus();
    readAgain();
}

function listen() {
    const on = (id, event, call) =>
        byId(id).addEventListener(event, (it) => isOff(it.target) || guarded(() => call(it)));
    on("input", "input", takeField);
    on("form", "change", () => given || readField());
    on("order", "change", readAgain);
    on("align", "change", readAgain);
    on("switch", "click", switchOrder);
    document.querySelectorAll("[data-example]").forEach((it) =>
        it.addEventListener("click", () => useExample(it.dataset.example)),
    );
    on("errors", "click", ({ target }) => target.dataset.show && jumpTo(target));
    on("earlier-errors", "click", () => showRows(firstRow - ROWS));
    on("later-errors", "click", () => showRows(firstRow + ROWS));
    on("row", "change", ({ target }) => showRows(Math.floor(target.value) - 1));
    on("offset", "change", ({ target }) => showAt(Math.floor(target.value) + BEFORE));
    on("earlier", "click", () => showAt(shown.start - WINDOW + BEFORE));
    on("later", "click", () => showAt(shown.start + shown.bytes.length + BEFORE));
    on("strip", "keydown", pressKey);
    on("strip", "pointerdown", pressPointer);
    on("add", "click", () => addCut());
    on("every", "click", () => setCuts(everyCut()));
    on("random", "click", () => setCuts(randomCuts()));
    on("none", "click", () => setCuts([]));
    on("try", "click", tryMany);
    on("file", "change", ({ target }) => target.files[0] && takeFile(target.files[0]));
    // The same file may be chosen again.
    on("file", "click", ({ target }) => (target.value = ""));
    on("stop", "click", () => {
        showNothing("Stopped.");
        byId("file").focus();
    });
    listenForFiles();
}

/** Takes a file that is dropped or pasted anywhere on the page. */
function listenForFiles() {
    const take = (event, { files }) => {
        document.body.classList.remove("over");
        if (files.length) {
            event.preventDefault();
            byId("file").value = "";
            takeFile(files[0]);
        }
    };
    document.addEventListener("dragover", (event) => {
        if (event.dataTransfer.types.includes("Files")) {
            event.preventDefault();
            document.body.classList.add("over");
        }
    });
    document.addEventListener("dragleave", () => document.body.classList.remove("over"));
    document.addEventListener("drop", (event) => take(event, event.dataTransfer));
    document.addEventListener("paste", (event) => take(event, event.clipboardData));
}

/** Returns the bytes of the module, which the page has compressed. */
async function unpackedModule() {
    const packed = Uint8Array.from(atob(byId("module").textContent), (it) => it.charCodeAt(0));
    const stream = new Blob([packed]).stream().pipeThrough(new DecompressionStream("gzip"));
    return new Uint8Array(await new Response(stream).arrayBuffer());
}

async function start() {
    try {
        const bytes = await unpackedModule();
        library = await dethrux.instantiate(bytes);
        module = await WebAssembly.compile(bytes);
    } catch (error) {
        byId("trouble").hidden = false;
        byId("trouble").textContent = `${error.message}.`;
        return;
    }
    listen();
    document.body.dataset.ready = Math.round(performance.now());
}

start();
