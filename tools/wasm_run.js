// Runs modules of isp_wasm_module: reads a job a line, and writes what came out, a line each, for tools/wasm-test.
//
// A job is {wasm, entry, params: [[name, type, isArray]], args: {name: value}, result: type | null}. The host does what isp_wasm's
// specs/Kernel.antt asks: arrays lie behind isp.base, each in bytes of its own; an array is passed as an address and a count. A number is a
// text, since JSON here has no whole numbers of 64 bits.
const fs = require("fs"), readline = require("readline");

const WIDTH = { b: 1, i8: 1, u8: 1, i16: 2, u16: 2, i32: 4, u32: 4, i64: 8, u64: 8 };
const ARRAY = { b: Uint8Array, i8: Int8Array, u8: Uint8Array, i16: Int16Array, u16: Uint16Array, i32: Int32Array, u32: Uint32Array, i64: BigInt64Array, u64: BigUint64Array };

// pages for arrays that functions open, behind those that are passed
const ROOM = 256;

class Trap extends Error {
  constructor(report) { super("trap"); this.report = report; }
}

// a value, as WebAssembly takes it: its bits without a sign
const passed = (type, value) => WIDTH[type] === 8 ? BigInt.asUintN(64, BigInt(value)) : Number(BigInt.asUintN(8 * WIDTH[type], BigInt(value)));
const stored = (type, value) => WIDTH[type] === 8 ? BigInt(value) : Number(value);

// an element or a result, as an answer says it
function shown(type, value) {
  const bits = 8 * WIDTH[type], whole = BigInt(value);
  if (type === "b") return whole !== 0n;
  return String(type[0] === "u" ? BigInt.asUintN(bits, whole) : BigInt.asIntN(bits, whole));
}

function call(job) {
  const out = [];
  let memory;
  const instance = new WebAssembly.Instance(new WebAssembly.Module(fs.readFileSync(job.wasm)), { isp: {
    write: (at, count) => { out.push(Buffer.from(new Uint8Array(memory.buffer, at >>> 0, count >>> 0))); },
    trap: (...report) => { throw new Trap(report); },
    print_signed: value => { out.push(Buffer.from(String(BigInt.asIntN(64, value)))); },
    print_unsigned: value => { out.push(Buffer.from(String(BigInt.asUintN(64, value)))); },
    print_bool: value => { out.push(Buffer.from(value ? "true" : "false")); },
    print_byte: value => { out.push(Buffer.from([value & 255])); },
  } });
  memory = instance.exports["isp.memory"];
  let at = instance.exports["isp.base"].value;
  const places = {}, given = [];
  for (const [name, type, isArray] of job.params) {
    if (!isArray) { given.push(passed(type, job.args[name])); continue; }
    const count = job.args[name].length;
    at = (at + 7) & ~7;
    places[name] = at;
    given.push(at, BigInt(count));
    at += count * WIDTH[type];
    const have = memory.buffer.byteLength;
    if (at > have) memory.grow((at - have + 65535) >>> 16);
  }
  for (const [name, type, isArray] of job.params) {
    if (isArray) new ARRAY[type](memory.buffer, places[name], job.args[name].length).set(job.args[name].map(value => stored(type, value)));
  }
  memory.grow(ROOM);
  instance.exports["isp.stack"].value = at;
  const found = {};
  try {
    const value = instance.exports[job.entry](...given);
    found.result = job.result ? shown(job.result, value) : null;
  } catch (error) {
    if (!(error instanceof Trap)) throw error;
    found.trap = error.report;
  }
  found.output = Buffer.concat(out).toString("hex");
  found.arrays = {};
  for (const [name, type, isArray] of job.params) {
    if (isArray) found.arrays[name] = Array.from(new ARRAY[type](memory.buffer, places[name], job.args[name].length), value => shown(type, value));
  }
  return found;
}

readline.createInterface({ input: process.stdin }).on("line", line => {
  try { console.log(JSON.stringify(call(JSON.parse(line)))); } catch (error) { console.log(JSON.stringify({ error: String(error) })); }
});
