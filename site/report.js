// The report on a file: the verdict, a list of its errors, and what can be saved.

const ROWS = 20;
// The most bytes of the decoded text that are shown.
const MOST_PREVIEW = 2000;
let worker;
// The number of the first error in the list, from 0 on, and the list that was asked for last.
let firstRow = 0;
let lastList;

/** Returns the text of this page's binding and its worker, as a program for a worker. */
function workerUrl() {
    const program = ["binding", "worker"].map((id) => byId(id).textContent);
    return URL.createObjectURL(new Blob(program, { type: "text/javascript" }));
}

/** Starts to check a file. Text that was typed has a known byte order. */
function checkFile(file, name, known) {
    stop();
    const url = workerUrl();
    const started = new Worker(url);
    worker = started;
    URL.revokeObjectURL(url);
    const take = (data) => worker === started && showMessage({ file, name, known }, data);
    worker.onmessage = ({ data }) => guarded(() => take(data));
    worker.onerror = ({ message }) => take({ trouble: message || "the check failed" });
    const order = byId("order").value;
    const wanted = known ?? (order === "auto" ? undefined : order);
    worker.postMessage({ module, file, wanted, isAligning: !known && byId("align").checked });
    document.body.dataset.state = "busy";
    byId("busy").hidden = !given;
    byId("progress").value = 0;
    if (given) {
        byId("verdict-line").textContent = `Reading ${name}, ${plural(file.size, "byte")}…`;
        byId("verdict").className = "verdict";
    }
}

function stop() {
    worker?.terminate();
    worker = undefined;
    byId("busy").hidden = true;
}

/** Says why nothing is shown. */
function showNothing(words) {
    stop();
    report = undefined;
    byId("found").hidden = true;
    byId("verdict").className = "verdict";
    byId("verdict-line").textContent = words;
    byId("hint").hidden = true;
    byId("input-note").textContent = "";
    document.body.dataset.state = "done";
}

/** Makes a call. If the file cannot be read any more, it says why. */
async function guarded(call) {
    const running = call();
    const found = report;
    try {
        await running;
    } catch (error) {
        if (!(error instanceof DOMException)) {
            throw error;
        }
        if (found === report && !worker) {
            showTrouble(found.name, error.message);
        }
    }
}

const showTrouble = (name, words) => showNothing(`${name}: ${words.replace(/\.$/, "")}.`);

async function showMessage(checked, { progress, trouble, found }) {
    if (trouble) {
        showTrouble(checked.name, trouble);
    } else if (found) {
        stop();
        report = { ...checked, ...found };
        byId("found").hidden = false;
        showVerdict();
        showHint();
        const { errors, from } = report;
        await Promise.all([showOutputs(), showRows(0), showAt(errors[0] ?? from)]);
        document.body.dataset.state = worker ? "busy" : "done";
    } else {
        byId("progress").value = progress;
    }
}

const WHY = {
    bom: "as its BOM says",
    guess: "a guess from what it holds",
    unsure: "an uncertain guess",
    wanted: "as you chose",
};

function showVerdict() {
    const { file, order, why, known, count } = report;
    const reading = `${ORDER_NAMES[order]} (${known ? "from your text" : WHY[why]})`;
    const size = plural(file.size, "byte");
    const isOther = order === "utf8" && why !== "wanted";
    const line = isOther
        ? `It is not UTF-16 but ${reading}: ${size}, ${count ? plural(count, "error") : "no error"}.`
        : count
          ? `Yes: ${plural(count, "error")} in ${size} of ${reading}.`
          : `No: there is no error in ${size} of ${reading}.`;
    byId("verdict-line").textContent = line;
    byId("verdict").className = `verdict ${count || isOther ? "invalid" : "valid"}`;
}

/** Offers another reading if it looks better. */
function showHint() {
    const better = report.known ? undefined : report.better;
    byId("hint").hidden = !better;
    if (better) {
        byId("hint-line").textContent = `It looks more like ${ORDER_NAMES[better]}.`;
        byId("switch").textContent = `Read it as ${ORDER_NAMES[better]}`;
        byId("switch").value = better;
    }
}

/** Shows a page of the list. */
async function showRows(first) {
    const { errors, count, order } = report;
    firstRow = Math.max(0, Math.min(first, errors.length - 1));
    const list = {};
    lastList = list;
    const ats = errors.subarray(firstRow, firstRow + ROWS);
    const found = await Promise.all(Array.from(ats, errorAt));
    if (list !== lastList) {
        return;
    }
    byId("errors").start = firstRow + 1;
    byId("errors").replaceChildren(...found.map(rowElement));
    byId("list").hidden = count === 0;
    byId("pager").hidden = count <= ROWS;
    byId("row").value = firstRow + 1;
    byId("row").max = errors.length;
    const range = `${counted(firstRow + 1)} to ${counted(firstRow + found.length)}`;
    const kept = count > errors.length ? `; the first ${counted(errors.length)} are listed` : "";
    byId("range").textContent = `Errors ${range} of ${counted(count)}${kept}`;
    turnOff("earlier-errors", firstRow === 0);
    turnOff("later-errors", firstRow + ROWS >= errors.length);
    byId("becomes").textContent = order === "be" ? "FF FD" : "FD FF";
}

function rowElement({ at, bytes, why, isBom }) {
    const place = `byte ${counted(at)}`;
    const about = { type: "button", "data-show": at, "aria-label": `Show ${place}` };
    const show = element("button", about, "Show");
    return element(
        "li",
        {},
        element("strong", {}, `At ${place}`, " ", element("small", {}, `0x${hex(at, 1)}`)),
        " ",
        element("code", { className: "octets" }, octets(bytes)),
        ` becomes ${isBom ? octets([bytes[1], bytes[0]]) : "U+FFFD"}: ${why} `,
        ...(isBom ? [] : [show]),
    );
}

/** Offers both files, and shows how the text begins. */
async function showOutputs() {
    const found = report;
    const { text, utf16, name } = found;
    const plain = name.replace(/(?<=.)\.[^.]*$/, "");
    for (const [ending, blob] of Object.entries({ utf8: text, utf16 })) {
        const link = byId(`save-${ending}`);
        URL.revokeObjectURL(link.href);
        link.href = URL.createObjectURL(blob);
        link.download = `${plain}.${ending}.txt`;
        link.querySelector("small").textContent = plural(blob.size, "byte");
    }
    const start = await readBytes(text, 0, MOST_PREVIEW);
    if (found === report) {
        byId("preview").textContent = textOf(start, text.size > MOST_PREVIEW);
    }
}
