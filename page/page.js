"use strict";

const $ = (id) => document.getElementById(id);
const { examples, faults } = JSON.parse($("data").textContent);
const SHOWN = 200000;   // characters of output that are shown
const NUMBERED = 20000; // lines that get a number
const ROWS = 5000;      // steps that are shown

const TABS = {
    run: "What the run wrote, and its answer: the arrays as they are then, and the result.",
    asm: "The code of the machine: each line is one instruction.",
    check: "For each exported function, whether it is independent by the rules, or which rule it breaks and where.",
    solo: "The answer where each instance runs alone, one after another. Independent functions whose instances do not clash give that of the gang.",
    trace: "Each instruction that is executed, the masks that it reads, and what it writes. A lane that is on is filled, lane 0 first.",
};

// ---- the machine: a Worker, which is ended where a run is to stop

class Machine {
    constructor() {
        this.wasm = unzipped($("wasm").textContent);
        this.code = URL.createObjectURL(new Blob([$("worker").textContent], { type: "text/javascript" }));
        this.count = 0;
        this.begin();
    }

    begin() {
        this.waiting = new Map();
        this.worker = new Worker(this.code);
        this.worker.onmessage = ({ data }) => {
            this.waiting.get(data.id)(data);
            this.waiting.delete(data.id);
        };
        this.ready = this.wasm.then((wasm) => this.worker.postMessage({ wasm }));
    }

    // Does one command; answers { status, out, err }, { error }, or null where it was stopped.
    command(words, files) {
        return this.asked({ words, files });
    }

    // Traces a run: `isp_trace` of include/isp.h. Answers the same.
    trace(trace) {
        return this.asked({ trace });
    }

    // Runs a function of code as a module of WebAssembly. Answers { status, out, err, time, bytes } too, without bytes where no module is made.
    kernel(kernel) {
        return this.asked({ kernel });
    }

    async asked(what) {
        for (let ready; ready !== this.ready; await ready) {
            ready = this.ready;
        }
        const id = ++this.count;
        return new Promise((resolve) => {
            this.waiting.set(id, resolve);
            this.worker.postMessage({ id, ...what });
        });
    }

    stop() {
        const stopped = [...this.waiting.values()];
        this.worker.terminate();
        this.begin();
        stopped.forEach((resolve) => resolve(null));
    }
}

async function unzipped(base64) {
    const bytes = Uint8Array.from(atob(base64), (it) => it.charCodeAt(0));
    const stream = new Blob([bytes]).stream().pipeThrough(new DecompressionStream("gzip"));
    return new Uint8Array(await new Response(stream).arrayBuffer());
}

const machine = new Machine();
let tab = "run", running = 0;

// ---- runs

function words() {
    const gang = ["--gang", $("gang").value], names = ["source", $("entry").value, "arguments"];
    return {
        run: ["run", ...gang, "--budget", $("budget").value.trim(), ...names],
        asm: ["asm", ...gang, "source"],
        check: ["check", ...gang, "source"],
        solo: ["solo", ...gang, ...names],
        // what the steps begin with: the arguments are tried, and the code is made
        trace: ["run", ...gang, "--budget", "0", ...names],
    }[tab];
}

// The steps of the run, where the source, the entry and the arguments are taken: a budget of 0 ends with status 4 then.
async function traced(files) {
    const tried = await machine.command(words(), files);
    if (!tried || tried.error || tried.status !== 4) {
        return tried;
    }
    const made = await machine.command(["asm", "--gang", $("gang").value, "source"], files);
    if (!made || made.error || made.status) {
        return made;
    }
    const code = new TextDecoder().decode(made.out), entry = $("entry").value, [budget, from, count] = ["budget", "from", "count"].map(number);
    return machine.trace({ code, entry, packed: packed(code, entry, $("arguments").value), budget, from, count, lanes: $("lanes").checked });
}

// The whole number in a field, at most what 64 bits hold; 0 where there is none.
function number(name) {
    const text = $(name).value.trim(), most = 2n ** 64n - 1n;
    const found = /^\d+$/.test(text) ? BigInt(text) : 0n;
    return found < most ? found : most;
}

// ---- arguments as bytes, in the form of isp.h

const WIDTHS = { b: 1, i8: 1, u8: 1, i16: 2, u16: 2, i32: 4, u32: 4, i64: 8, u64: 8 };

// The parameters of an exported function: its lines `par a i32 name` of the code text.
function parameters(code, entry) {
    const lines = code.split("\n"), first = lines.findIndex((it) => it.startsWith(`func ${entry} export`));
    const found = [];
    for (const line of lines.slice(first + 1)) {
        const [word, kind, type, name] = line.split(" ");
        if (word !== "par") {
            break;
        }
        found.push({ isArray: kind === "a", width: WIDTHS[type], name });
    }
    return found;
}

function packed(code, entry, text) {
    const exact = (_, value, { source }) => typeof value === "number" ? BigInt(source) : value;
    const given = JSON.parse(text, exact), parts = [];
    for (const { isArray, width, name } of parameters(code, entry)) {
        const values = isArray ? given[name] : [given[name]], bytes = isArray ? width : 8;
        const part = new DataView(new ArrayBuffer((isArray ? 8 : 0) + bytes * values.length));
        if (isArray) {
            part.setBigUint64(0, BigInt(values.length), true);
        }
        values.forEach((it, i) => writeBits(part, (isArray ? 8 : 0) + bytes * i, BigInt(it), width, bytes));
        parts.push(new Uint8Array(part.buffer));
    }
    const whole = new Uint8Array(parts.reduce((sum, it) => sum + it.length, 0));
    parts.reduce((at, it) => (whole.set(it, at), at + it.length), 0);
    return whole;
}

// The bits of a number in its width, in so many bytes.
function writeBits(view, at, number, width, bytes) {
    const bits = BigInt.asUintN(8 * width, number);
    for (let i = 0; i < bytes; i++) {
        view.setUint8(at + i, Number((bits >> BigInt(8 * i)) & 255n));
    }
}

async function run() {
    if (running) {
        machine.stop();
    }
    const mine = ++running, started = performance.now();
    clear("Running ..");
    $("stop").disabled = false;
    const files = [{ name: "source", text: $("source").value }, { name: "arguments", text: $("arguments").value }];
    const asked = tab === "trace" ? traced(files) : machine.command(words(), files);
    const done = await asked.catch((error) => ({ error: String(error) }));
    if (mine !== running) {
        return;
    }
    if (!done) {
        clear("Stopped.");
    } else if (done.error) {
        clear(`The page could not run this: ${done.error}. The program isp can.`);
    } else {
        show(done, performance.now() - started);
        await asModule(done, files, () => mine === running);
    }
    if (mine === running) {
        running = 0;
        $("stop").disabled = true;
    }
}

// ---- the kernel as WebAssembly, where the machine has ended or trapped: a module has no budget, and does the same

async function asModule(done, files, isWanted) {
    if (tab !== "run" || (done.status !== 0 && done.status !== 3)) {
        return;
    }
    const entry = $("entry").value, text = $("arguments").value;
    const made = await machine.command(["asm", "--gang", $("gang").value, "source"], files);
    if (!isWanted() || !made || made.error) {
        return;
    }
    const ran = await machine.kernel({ code: new TextDecoder().decode(made.out), entry, text });
    if (isWanted() && ran) {
        showModule(ran, done, entry);
    }
}

function showModule(ran, done, entry) {
    const text = (bytes) => new TextDecoder().decode(bytes);
    if (ran.error || !ran.bytes?.length) {
        $("module").textContent = `Not as WebAssembly: ${ran.error || lineOf(text(ran.err))}`;
    } else {
        const same = ran.status === done.status && ran.out === text(done.out) && ran.err === text(done.err);
        const link = document.createElement("a");
        link.href = URL.createObjectURL(new Blob([ran.bytes], { type: "application/wasm" }));
        link.download = `${entry}.wasm`;
        link.textContent = `save its ${ran.bytes.length} bytes`;
        const time = ran.time.toFixed(ran.time < 10 ? 1 : 0);
        $("module").replaceChildren(`As WebAssembly: ${time} ms, ${same ? "and the same" : `but not the same: ${ran.err || ran.out.slice(0, SHOWN)}`}; `, link, ".");
    }
    $("module").hidden = false;
}

// A line of the library without its head. One that has been cut has no end.
function lineOf(line) {
    const told = line.replace(/^isp: /, "");
    return told.endsWith("\n") ? told.trim() : `${told.trim()} ..`;
}

function clear(state) {
    $("about").textContent = TABS[tab];
    $("state").textContent = state;
    $("out").textContent = "";
    $("out").className = tab === "asm" ? "code" : "";
    $("fault").hidden = $("picture").hidden = $("steps").hidden = $("module").hidden = true;
    $("window").hidden = tab !== "trace";
    mark(null);
}

function show({ status, out, err }, time) {
    const text = new TextDecoder().decode(out), line = new TextDecoder().decode(err);
    clear(`${status ? "" : "Done. "}Status ${status}, ${time.toFixed(time < 10 ? 1 : 0)} ms.`);
    if (tab === "trace" && !line) {
        showSteps(text);
    } else {
        showOutput(text);
    }
    if (line) {
        showFault(line);
    }
    if (status === 0 && (tab === "run" || tab === "solo")) {
        showPicture(text);
    }
}

// ---- output, with the places in it as buttons

const PLACE = /\b(\d+)\.\.(\d+)/g;

function showOutput(text) {
    const shown = text.slice(0, SHOWN);
    if (tab === "check") {
        $("out").replaceChildren(...withPlaces(shown));
    } else {
        $("out").textContent = shown;
    }
    if (text.length > SHOWN) {
        $("state").textContent += ` The first ${SHOWN} of ${text.length} characters are shown.`;
    }
}

function withPlaces(text) {
    const parts = [];
    let behind = 0;
    for (const found of text.matchAll(PLACE)) {
        const button = document.createElement("button");
        button.className = "place";
        button.textContent = found[0];
        button.onclick = () => select(mark([+found[1], +found[2]]));
        parts.push(text.slice(behind, found.index), button);
        behind = found.index + found[0].length;
    }
    return [...parts, text.slice(behind)];
}

// A line is `3 share L3: mtest m3 v2 m0 m0=1111 -> m3=1110`.
const STEP = /^(\d+) (\S+) (L\d+): (.*?)((?: m\d+=[01]+)*)(?: -> (.*))?$/;

function showSteps(text) {
    const table = document.createElement("table"), head = table.createTHead().insertRow();
    for (const it of ["step", "where", "instruction", "reads", "writes"]) {
        const cell = document.createElement("th");
        cell.textContent = it;
        head.append(cell);
    }
    const body = table.createTBody(), lines = text.split("\n").filter((it) => it);
    for (const line of lines.slice(0, ROWS)) {
        const found = STEP.exec(line);
        if (!found) {
            continue;
        }
        const [, number, name, place, instruction, masks, written] = found, row = body.insertRow();
        [number, `${name} ${place}`, instruction].forEach((it) => row.insertCell().textContent = it);
        row.insertCell().append(...masks.trim().split(" ").filter((it) => it).flatMap(squares));
        row.insertCell().append(...(written ? squares(written) : []));
    }
    $("steps").replaceChildren(table);
    $("steps").hidden = false;
    $("state").textContent += ` ${lines.length} steps${lines.length > ROWS ? `, of which the first ${ROWS} are shown` : ""}.`;
}

// `m3=1110` as its name and a square for each lane; anything else as it is.
function squares(text) {
    const [name, bits] = text.split("=");
    if (!/^[01]+$/.test(bits || "") || !name.startsWith("m")) {
        return [text];
    }
    const lanes = document.createElement("span");
    lanes.className = "lanes";
    lanes.role = "img";
    lanes.ariaLabel = bits;
    lanes.append(...[...bits].map((it) => {
        const square = document.createElement("i");
        square.className = it === "1" ? "on" : "";
        return square;
    }));
    return [name, lanes];
}

function showFault(text) {
    const line = document.createElement("p"), place = / at (\d+)\.\.(\d+)/.exec(text);
    line.className = "line";
    line.textContent = text.trim();
    const span = place ? mark([+place[1], +place[2]]) : null;
    const parts = [line];
    if (span) {
        const button = document.createElement("button");
        button.className = "place";
        button.textContent = placeOf(span[0]);
        button.onclick = () => select(span);
        line.append(" ", button);
    }
    const fault = faults[(/^(?:.* )?isp: (\d+ \w+|trap \w+|rule \d|not apart|budget used|turns used|memory)/.exec(text) || [])[1]];
    if (fault) {
        parts.push(paragraph(fault.sentence), paragraph(fault.fix), ...tableOf(fault.rows));
    }
    $("fault").replaceChildren(...parts);
    $("fault").hidden = false;
}

function paragraph(text) {
    const made = document.createElement("p");
    made.textContent = text;
    return made;
}

function tableOf(rows) {
    if (!rows.length) {
        return [];
    }
    const table = document.createElement("table");
    for (const [at, fix] of rows) {
        const row = table.insertRow();
        row.insertCell().textContent = at;
        row.insertCell().textContent = fix;
    }
    return [table];
}

// ---- places: the program counts bytes, and the page characters

function indexes([begin, end]) {
    const bytes = new TextEncoder().encode($("source").value), text = (from, to) => new TextDecoder().decode(bytes.slice(from, to));
    const first = text(0, begin).length;
    return [first, first + text(begin, end).length];
}

// Marks a span of bytes, and answers it in characters; marks nothing without one.
function mark(bytes) {
    const source = $("source").value, span = bytes && indexes(bytes);
    if (!span) {
        $("marks").textContent = "";
        return null;
    }
    const marked = document.createElement("mark");
    marked.textContent = source.slice(...span) || " ";
    $("marks").replaceChildren(source.slice(0, span[0]), marked, source.slice(span[1]) + "\n");
    follow();
    return span;
}

function placeOf(index) {
    const before = $("source").value.slice(0, index), line = before.split("\n");
    return `line ${line.length}, column ${[...line.at(-1)].length + 1}`;
}

function select(span) {
    const source = $("source"), line = source.value.slice(0, span[0]).split("\n").length;
    source.focus();
    source.setSelectionRange(...span);
    const height = parseFloat(getComputedStyle(source).lineHeight);
    source.scrollTop = Math.max(0, (line - 4) * height);
    follow();
}

// ---- the editor

function follow() {
    const { scrollTop, scrollLeft } = $("source");
    $("marks").scrollTop = $("numbers").scrollTop = scrollTop;
    $("marks").scrollLeft = scrollLeft;
}

function edited() {
    const source = $("source").value;
    const lines = Math.min(source.split("\n").length, NUMBERED);
    if ($("numbers").dataset.lines !== String(lines)) {
        $("numbers").dataset.lines = lines;
        $("numbers").textContent = Array.from({ length: lines }, (_, i) => i + 1).join("\n") + "\n";
    }
    mark(null);
    const names = new Set([...source.slice(0, SHOWN).matchAll(/\bexport\b[\w\s]*?\b(\w+)\s*\(/g)].map((it) => it[1]));
    $("entries").replaceChildren(...[...names].map((it) => new Option(it)));
    if (names.size && !names.has($("entry").value)) {
        $("entry").value = [...names][0];
    }
    follow();
}

// ---- pictures

// The answer behind what the run wrote, which may end within a line: `arrays` and a brace stand nowhere else in it, as a parameter of
// that name is a list.
function answerOf(text) {
    return JSON.parse(text.slice(text.lastIndexOf('{"arrays":{')));
}

function showPicture(text) {
    const { arrays } = answerOf(text);
    const names = Object.keys(arrays).filter((it) => arrays[it].length > 1);
    if (!names.length) {
        return;
    }
    const chosen = names.includes($("array").value) ? $("array").value : names[0];
    $("array").replaceChildren(...names.map((it) => new Option(it, it, false, it === chosen)));
    $("width").value ||= widthOf(arrays[chosen].length);
    $("times").value ||= Math.max(1, Math.floor(255 / arrays[chosen].reduce((most, it) => Math.max(most, it), 1)));
    $("array").onchange = $("width").oninput = $("times").oninput = () => draw(arrays[$("array").value]);
    $("picture").hidden = false;
    draw(arrays[chosen]);
}

// The argument `width`, or the side of a square.
function widthOf(count) {
    const given = /"width"\s*:\s*(\d+)/.exec($("arguments").value);
    return given ? given[1] : Math.ceil(Math.sqrt(count));
}

function draw(values) {
    const width = Math.min(Math.max(Math.floor(+$("width").value) || 1, 1), 4096), times = +$("times").value || 0;
    const height = Math.min(Math.ceil(values.length / width), 4096), canvas = $("canvas");
    [canvas.width, canvas.height] = [width, height];
    const image = new ImageData(width, height);
    for (let i = 0; i < Math.min(values.length, width * height); i++) {
        const grey = typeof values[i] === "boolean" ? 255 * values[i] : values[i] * times;
        image.data.set([grey, grey, grey, 255], 4 * i);
    }
    canvas.getContext("2d").putImageData(image, 0, 0);
}

// ---- tabs, examples, links, keys

function choose(name) {
    tab = name;
    for (const it of Object.keys(TABS)) {
        $(`tab-${it}`).setAttribute("aria-selected", it === name);
        $(`tab-${it}`).tabIndex = it === name ? 0 : -1;
    }
    $("panel").setAttribute("aria-labelledby", `tab-${name}`);
}

for (const name of Object.keys(TABS)) {
    $(`tab-${name}`).onclick = () => {
        choose(name);
        run();
    };
}

document.querySelector("[role=tablist]").onkeydown = ({ key }) => {
    const names = Object.keys(TABS), step = { ArrowRight: 1, ArrowLeft: -1 }[key];
    if (step) {
        const next = $(`tab-${names.at((names.indexOf(tab) + step) % names.length)}`);
        next.focus();
        next.click();
    }
};

function fill({ source, entry, given, gang }) {
    $("source").value = source;
    $("entry").value = entry;
    $("arguments").value = given;
    $("gang").value = gang || $("gang").value;
    $("width").value = $("times").value = "";
    edited();
    choose("run");
    run();
}

for (const name of Object.keys(examples)) {
    $("example").add(new Option(name));
}

$("example").onchange = () => {
    const name = $("example").value;
    if (name) {
        fill({ ...examples[name], entry: name });
    }
};

$("link").onclick = () => {
    const kept = { source: $("source").value, entry: $("entry").value, given: $("arguments").value, gang: $("gang").value };
    location.hash = encodeURIComponent(JSON.stringify(kept));
    navigator.clipboard?.writeText(location.href).catch(() => {});
    $("state").textContent = "The address of this page has the source and the arguments now.";
};

function linked() {
    try {
        return JSON.parse(decodeURIComponent(location.hash.slice(1)));
    } catch {
        return null;
    }
}

$("source").oninput = () => {
    $("example").value = "";
    edited();
};
$("source").onscroll = follow;
$("from").onchange = $("count").onchange = $("lanes").onchange = run;
$("run").onclick = run;
$("stop").onclick = () => machine.stop();
document.onkeydown = (event) => {
    if (event.key === "Enter" && event.ctrlKey) {
        event.preventDefault();
        run();
    } else if (event.key === "Escape" && running) {
        machine.stop();
    }
};

const first = Object.keys(examples).includes("brighten") ? "brighten" : Object.keys(examples)[0];
const kept = linked();
if (!kept) {
    $("example").value = first;
}
fill(kept && typeof kept.source === "string" ? kept : { ...examples[first], entry: first });
