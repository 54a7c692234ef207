// Does commands of isp, traces runs, and runs kernels as modules of WebAssembly, each by a new instance of the library, and so over memory of
// its own. page/build puts js/isp.js behind it, for `load` and `Trap`.
"use strict";

const OUT = 8 << 20, ERR = 64 << 10;
// bytes of structs of include/isp.h: a struct isp_file is two of isp_text; the line of a report stands at its end
const TEXT = 16, TRACE = 48, REPORT = 216, LINE = 128;
let module;

onmessage = async ({ data }) => {
    if (data.wasm) {
        module = WebAssembly.compile(data.wasm);
        return;
    }
    try {
        const instance = await WebAssembly.instantiate(await module, {});
        postMessage({ id: data.id, ...(await done(instance.exports, data)) });
    } catch (error) {
        postMessage({ id: data.id, error: String(error) });
    }
};

function done(isp, { words, files, trace, kernel }) {
    if (trace) {
        return traced(isp, trace);
    }
    return kernel ? asModule(isp, kernel) : command(isp, words, files);
}

// What `isp_command` of include/isp.h does with these words and files: its status, and what it wrote.
function command(isp, words, files) {
    const texts = [...words, ...files.flatMap(({ name, text }) => [name, text])].map((it) => new TextEncoder().encode(it));
    const at = given(isp, texts);
    const used = room(isp, 16);
    const call = (out, err) => {
        const places = [room(isp, out), room(isp, err)];
        const status = isp.isp_command(at, BigInt(words.length), at + BigInt(words.length * TEXT), BigInt(files.length),
            places[0], BigInt(out), places[1], BigInt(err), used);
        const told = new DataView(isp.memory.buffer, Number(used), 16);
        const sizes = [Number(told.getBigUint64(0, true)), Number(told.getBigUint64(8, true))];
        return { status, sizes, places };
    };
    let done = call(OUT, ERR);
    if (done.status === 10) {
        done = call(...done.sizes);
    }
    const [out, err] = done.places.map((place, i) => new Uint8Array(isp.memory.buffer, Number(place), done.sizes[i]).slice());
    return { status: done.status, out, err };
}

// What `isp_trace` does with code, an entry, arguments as bytes, and the steps that are asked for: its status, and the lines.
function traced(isp, { code, entry, packed, budget, from, count, lanes }) {
    const texts = [code, entry].map((it) => new TextEncoder().encode(it));
    const [codeAt, entryAt, packedAt] = [...texts, packed].map((it) => placed(isp, it));
    const trace = placed(isp, new Uint8Array(TRACE)), report = room(isp, REPORT);
    const view = new DataView(isp.memory.buffer, Number(trace), TRACE);
    [entryAt, BigInt(texts[1].length), budget, from, count].forEach((it, i) => view.setBigUint64(8 * i, it, true));
    view.setUint32(40, lanes ? 1 : 0, true);
    const call = (size) => {
        const place = room(isp, size);
        const status = isp.isp_trace(codeAt, BigInt(texts[0].length), trace, packedAt, BigInt(packed.length), place, BigInt(size), report);
        return { status, place, used: Number(new DataView(isp.memory.buffer, Number(report), 8).getBigUint64(0, true)) };
    };
    let done = call(OUT);
    if (done.status === 10) {
        done = call(done.used);
    }
    return { status: done.status, out: new Uint8Array(isp.memory.buffer, Number(done.place), done.status ? 0 : done.used).slice(), err: lineOf(isp, report) };
}

// What a report says of a refusal.
function lineOf(isp, report) {
    const line = new Uint8Array(isp.memory.buffer, Number(report) + REPORT - LINE, LINE);
    return line.slice(0, line.indexOf(0));
}

// ---- kernels as WebAssembly

// The module that `isp_wasm` makes of code: its status, and the bytes or the line of a refusal.
function moduleOf(isp, code) {
    const text = new TextEncoder().encode(code), codeAt = placed(isp, text), report = room(isp, REPORT);
    const call = (size) => {
        const place = room(isp, size);
        const status = isp.isp_wasm(codeAt, BigInt(text.length), place, BigInt(size), report);
        return { status, place, used: Number(new DataView(isp.memory.buffer, Number(report), 8).getBigUint64(0, true)) };
    };
    let made = call(OUT);
    if (made.status === 10) {
        made = call(made.used);
    }
    return { status: made.status, bytes: new Uint8Array(isp.memory.buffer, Number(made.place), made.status ? 0 : made.used).slice(), err: lineOf(isp, report) };
}

// Runs a function of code as a module, from arguments in JSON: what `isp run` writes, how long the call took, and the module's bytes.
async function asModule(isp, { code, entry, text }) {
    const made = moduleOf(isp, code);
    if (made.status) {
        return made;
    }
    const kernels = await load(made.bytes), { parameters, result } = kernels.signature(entry);
    const given = JSON.parse(text, (_, value, { source }) => typeof value === "number" ? BigInt(source) : value);
    const arrays = parameters.filter((it) => it.isArray).map(({ name, type }) => [name, kernels.array(type, given[name])]);
    const started = performance.now();
    try {
        const ran = kernels.call(entry, { ...given, ...Object.fromEntries(arrays) }), time = performance.now() - started;
        // (an answer has them in the order of their names)
        const told = arrays.map(([name, { type, values }]) => `"${name}":[${Array.from(values, (it) => jsonOf(type, it))}]`).sort();
        return { status: 0, out: `${ran.output}{"arrays":{${told}},"result":${jsonOf(result, ran.result)}}\n`, err: "", time, bytes: made.bytes };
    } catch (error) {
        if (!(error instanceof Trap)) {
            throw error;
        }
        const { kind, begin, end, instance, output } = error, time = performance.now() - started;
        return { status: 3, out: output, err: `isp: trap ${kind} at ${begin}..${end}, instance ${instance}\n`, time, bytes: made.bytes };
    }
}

function jsonOf(type, value) {
    return type === null ? "null" : String(type === "bool" ? Boolean(value) : value);
}

// ---- memory

// Puts bytes into memory.
function placed(isp, bytes) {
    const at = room(isp, bytes.length);
    new Uint8Array(isp.memory.buffer, Number(at), bytes.length).set(bytes);
    return at;
}

// Puts texts into memory, where their structs stand one behind another: first those of the words, then two for each file.
function given(isp, texts) {
    const size = texts.reduce((sum, it) => sum + it.length, texts.length * TEXT);
    const at = room(isp, size + 1);
    const bytes = new Uint8Array(isp.memory.buffer, Number(at), size), view = new DataView(isp.memory.buffer, Number(at), size);
    let behind = texts.length * TEXT;
    texts.forEach((text, i) => {
        view.setBigUint64(i * TEXT, at + BigInt(behind), true);
        view.setBigUint64(i * TEXT + 8, BigInt(text.length), true);
        bytes.set(text, behind);
        behind += text.length;
    });
    return at;
}

function room(isp, size) {
    const at = isp.room(BigInt(Math.max(size, 1)));
    if (!at) {
        throw new Error("no memory for the texts");
    }
    return at;
}
