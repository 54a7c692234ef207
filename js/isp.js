/**
 * Kernels as WebAssembly, from JavaScript: in a browser, in Node, or where else there are modules and vectors of 128 bits.
 *
 *     import { load } from "./isp.js";
 *     const kernels = await load(fetch("brighten.wasm"));
 *     const pixels = kernels.array("uint8", [0, 10, 100, 200]);
 *     kernels.call("brighten", { pixels, count: 4, level: 50 });
 *     console.log(pixels.values);    // Uint8Array [50, 60, 150, 250]
 *
 * The module is what `ispx wasm` writes of a kernel. Of this file nothing is proved; tools/js-test tries it.
 */

/** By the code's word of a type: its name in ISPC, the bytes of an element, and what an array of it is in JavaScript. */
const TYPES = {
  b: { name: "bool", bytes: 1, array: Uint8Array },
  i8: { name: "int8", bytes: 1, array: Int8Array },
  u8: { name: "uint8", bytes: 1, array: Uint8Array },
  i16: { name: "int16", bytes: 2, array: Int16Array },
  u16: { name: "uint16", bytes: 2, array: Uint16Array },
  i32: { name: "int", bytes: 4, array: Int32Array },
  u32: { name: "uint", bytes: 4, array: Uint32Array },
  i64: { name: "int64", bytes: 8, array: BigInt64Array },
  u64: { name: "uint64", bytes: 8, array: BigUint64Array },
};

const CODES = new Map([...Object.entries(TYPES).map(([code, { name }]) => [name, code]), ["int32", "i32"], ["uint32", "u32"]]);

/** The kinds of traps, by the number that a module gives. */
const KINDS = ["divide", "index", "assert", "depth"];

/** How many calls may run at once; the next one traps. */
const MOST_CALLS = 256;

const ALIGNED = 16, PAGE = 65536;

// ---- how a run can stop

/** A run that stopped at a fault, as a division by zero. The arrays are as they were then. */
export class Trap extends Error {
  /** @param why kind, bytes `begin` up to `end` of the source, and instance; what was printed before; and the source, if there is one */
  constructor(why, output, source) {
    const place = source === undefined ? { line: 0, column: 0 } : placeOf(source, why.begin);
    const where = place.line ? `${place.line}:${place.column}: ` : "";
    super(`${where}trap ${why.kind}, instance ${why.instance}, at ${why.begin}..${why.end}`);
    Object.assign(this, { name: "Trap", ...why, ...place, output });
  }
}

/** A run that the engine ended by an error of its own (`cause`), as where it has no stack for so many calls. The arrays are as they were then. */
export class EngineError extends Error {
  constructor(cause, output) {
    super(`the engine ended the run: ${cause?.message ?? String(cause)}`, { cause });
    Object.assign(this, { name: "EngineError", output });
  }
}

/** The line and the column of a byte of the source, from 1; a column is a character. */
function placeOf(source, byte) {
  const before = new TextDecoder("utf-8", { ignoreBOM: true }).decode(new TextEncoder().encode(source).subarray(0, byte));
  const start = before.lastIndexOf("\n") + 1;
  return { line: before.split("\n").length, column: [...before.slice(start)].length + 1 };
}

// ---- what a module says of itself: the code that it is made of, as text (docs/MACHINE.md)

/** The instructions that write to an array, and which of their words names it. */
const WRITES = { store: 0, scatter: 0, vstore: 0, clear: 0, pstore: 1 };

/** A function: its parameters in order, its result's type, which of its arrays it writes to, its calls, and the bytes of its own arrays. */
class Routine {
  parameters = [];
  written = new Set();
  calls = [];
  opens = 0;

  constructor([name, exported, , result = null], gang) {
    Object.assign(this, { name, isExported: exported === "export", result, gang });
  }

  /** Takes a further line of the function. */
  add(word, words) {
    if (word === "par") this.parameters.push({ name: words[2], code: words[1], isArray: words[0] === "a" });
    if (word === "loc") this.opens += (words[0] === "p" ? this.gang : 1) * TYPES[words[1]].bytes * Number(words[2]);
    if (word === "call") this.calls.push({ callee: Number(words[0].slice(1)), arrays: words.slice(4).filter((it) => it.startsWith("a")) });
    if (word in WRITES) this.written.add(words[WRITES[word]]);
  }

  /** Says of each parameter whether the function writes to it. */
  finish() {
    this.parameters.filter((it) => it.isArray).forEach((it, k) => (it.isWritten = this.written.has(`a${k}`)));
  }
}

/** The gang, and the functions in the order of their numbers. */
function readCode(module) {
  const [section] = WebAssembly.Module.customSections(module, "isp");
  if (!section) throw new TypeError("this module has no section isp: ispx wasm has not written it");
  const routines = [];
  let gang = 0;
  for (const line of new TextDecoder().decode(section).split("\n")) {
    const [word, ...words] = line.split(" ");
    if (word === "isp") gang = Number(words[2]);
    else if (word === "func") routines.push(new Routine(words, gang));
    else routines.at(-1)?.add(word, words);
  }
  followCalls(routines);
  routines.forEach((it) => it.finish());
  return { gang, routines };
}

/** Adds the arrays to which the functions write that a function calls. */
function followCalls(routines) {
  for (let grown = true; grown; ) {
    grown = false;
    for (const { written, calls } of routines) {
      const before = written.size;
      for (const { callee, arrays } of calls) {
        arrays.filter((_, k) => routines[callee].written.has(`a${k}`)).forEach((it) => written.add(it));
      }
      grown ||= written.size > before;
    }
  }
}

/** How many bytes are enough for the arrays that a function opens, and those that it calls (`room_is_enough` of isp_wasm). */
function roomFor(routine, routines) {
  return routine.calls.length ? MOST_CALLS * Math.max(...routines.map((it) => it.opens)) : routine.opens;
}

// ---- values

/** A value of a type as WebAssembly takes it: its bits without a sign. `what` is what the message calls it. */
function bitsOf(what, code, value) {
  const { name, bytes } = TYPES[code];
  const wrong = `${what}: wanted ${name}, given ${String(value)}`;
  if (code === "b") {
    if (typeof value !== "boolean") throw new TypeError(wrong);
    return Number(value);
  }
  if (typeof value !== "bigint" && !Number.isInteger(value)) throw new TypeError(wrong);
  if (typeof value === "number" && !Number.isSafeInteger(value)) throw new RangeError(`${wrong}: so large a number has to be a bigint`);
  const number = BigInt(value);
  const bits = BigInt.asUintN(8 * bytes, number);
  if (withSign(code, bits) !== number) throw new RangeError(wrong);
  return bytes === 8 ? bits : Number(bits);
}

/** The bits of a number as a bigint, with a sign where the type has one. */
function withSign(code, bits) {
  return code[0] === "i" ? BigInt.asIntN(8 * TYPES[code].bytes, bits) : BigInt.asUintN(8 * TYPES[code].bytes, bits);
}

/** What a function gives back, in JavaScript: a boolean, a number, or of 64 bits a bigint. */
function resultOf(code, given) {
  if (code === null) return undefined;
  if (code === "b") return given !== 0;
  const found = withSign(code, BigInt(given));
  return TYPES[code].bytes === 8 ? found : Number(found);
}

/** An array in the module's memory, which a kernel reads and writes in place. */
class SharedArray {
  #memory;
  constructor(memory, code, address, length) {
    this.#memory = memory;
    Object.assign(this, { type: TYPES[code].name, code, address, length });
    Object.freeze(this);
  }

  /** The elements. A later `array` or `call` can make the memory grow, and then this is another view: ask for it anew. */
  get values() {
    return new TYPES[this.code].array(this.#memory.buffer, this.address, this.length);
  }

  isIn(memory) {
    return this.#memory === memory;
  }
}

// ---- arguments

function inOrder({ name, parameters }, given) {
  if (Array.isArray(given)) {
    if (given.length !== parameters.length) throw new TypeError(`${name} takes ${parameters.length} arguments, given ${given.length}`);
    return given;
  }
  const extra = Object.keys(given).find((it) => !parameters.some((other) => other.name === it));
  if (extra !== undefined) throw new TypeError(`${name} has no parameter ${extra}`);
  return parameters.map((it) => {
    if (!Object.hasOwn(given, it.name)) throw new TypeError(`${name}: ${it.name} is not given`);
    return given[it.name];
  });
}

/** Refuses two arrays that overlap, where the kernel writes to one of them. */
function checkApart(name, arrays) {
  arrays.forEach((one, k) => {
    for (const other of arrays.slice(0, k)) {
      const overlap = one.within === other.within && one.begin < other.end && other.begin < one.end;
      if (overlap && (one.parameter.isWritten || other.parameter.isWritten)) {
        throw new TypeError(`${name}: ${other.parameter.name} and ${one.parameter.name} overlap, and the kernel writes to one of them`);
      }
    }
  });
}

/** Refuses bytes other than 0 and 1 as bools. */
function checkBools(name, bytes) {
  const at = bytes.findIndex((it) => it > 1);
  if (at >= 0) throw new RangeError(`${name}[${at}]: wanted bool, a byte 0 or 1, given ${bytes[at]}`);
}

/** Whether a typed array has elements of this type. */
function hasType(view, code) {
  const tag = view[Symbol.toStringTag];
  return tag === TYPES[code].array.name || (code === "u8" && tag === "Uint8ClampedArray");
}

/** What a kernel left in a copy goes back to where it came from: into a list bools as booleans, 64 bits as bigints. */
function copyBack(copy, original) {
  if (ArrayBuffer.isView(original)) original.set(copy.values);
  else copy.values.forEach((it, k) => (original[k] = copy.code === "b" ? it !== 0 : it));
}

// ---- the functions of a module

/** The functions of a module that are exported, and its memory, where the arrays lie that `array` makes. */
export class Kernels {
  #exports;
  #gang;
  #functions = new Map();
  #source;
  // the bytes behind the last array, and behind the last byte that may not be zero
  #end;
  #used;
  // of the call that runs: what it has printed, and arrays that are copied back
  #printed = [];
  #copies = [];

  /** @param source the text of the kernel, if a trap is to have line and column */
  constructor(module, source) {
    const { gang, routines } = readCode(module);
    this.#gang = gang;
    this.#source = source;
    for (const it of routines.filter((it) => it.isExported)) this.#functions.set(it.name, { ...it, room: roomFor(it, routines) });
    this.#exports = new WebAssembly.Instance(module, { isp: this.#host() }).exports;
    this.#end = this.#used = this.#exports["isp.base"].value;
  }

  /** How many instances run a kernel. */
  get gang() {
    return this.#gang;
  }

  /** The names of the functions. */
  get names() {
    return [...this.#functions.keys()];
  }

  /** What a function takes, in order, and gives: names and types of ISPC. */
  signature(name) {
    const { parameters, result } = this.#function(name);
    return {
      parameters: parameters.map((it) => ({ name: it.name, type: TYPES[it.code].name, isArray: it.isArray })),
      result: result === null ? null : TYPES[result].name,
    };
  }

  /**
   * A new array in the module's memory, of so many zeros or of these values. Nothing is copied when a kernel is called with it. It stays as
   * long as these Kernels. TypeError and RangeError where there is no such type, a value is not of the type, or the memory has no room.
   */
  array(type, from) {
    const code = CODES.get(type);
    if (!code) throw new TypeError(`no type of elements: ${String(type)}`);
    if (typeof from === "number") return this.#room(code, from);
    if (from === null || typeof from !== "object") throw new TypeError(`array: wanted a number of elements or their values, given ${String(from)}`);
    return this.#filled({ name: "array", code }, from);
  }

  /**
   * Runs a function: its arguments by name, or in a list. An array is one that `array` made, or a view of its values: the kernel works on
   * it in place. Or it is another typed array or a list, which is copied in and back. Gives the result, and what was printed.
   *
   * Trap where the run stops at a fault; TypeError and RangeError for arguments that do not fit, before anything runs; EngineError where
   * the engine ends the run.
   */
  call(name, given = {}) {
    const routine = this.#function(name);
    const values = inOrder(routine, given);
    const arrays = routine.parameters.flatMap((it, k) => (it.isArray ? [this.#found(it, values[k])] : []));
    checkApart(name, arrays);
    const end = this.#end;
    try {
      const passed = routine.parameters.flatMap((it, k) => (it.isArray ? this.#passed(arrays.shift()) : [bitsOf(it.name, it.code, values[k])]));
      return this.#run(routine, passed);
    } finally {
      this.#end = end;
      this.#copies = [];
    }
  }

  #function(name) {
    const found = this.#functions.get(name);
    if (!found) throw new TypeError(`there is no function ${String(name)}: the functions are ${this.names.join(", ")}`);
    return found;
  }

  get #memory() {
    return this.#exports["isp.memory"];
  }

  /** Makes the memory so large, at least. */
  #grow(end, what) {
    const more = Math.ceil((end - this.#memory.buffer.byteLength) / PAGE);
    if (more <= 0) return;
    try {
      this.#memory.grow(more);
    } catch {
      throw new RangeError(`no memory for ${what}`);
    }
  }

  /** Room after the last array for so many elements, all zero. */
  #room(code, length) {
    if (!Number.isSafeInteger(length) || length < 0) throw new RangeError(`no number of elements: ${String(length)}`);
    const at = Math.ceil(this.#end / ALIGNED) * ALIGNED;
    const end = at + length * TYPES[code].bytes;
    this.#grow(end, `${length} elements of ${TYPES[code].name}`);
    // (memory that is new is zero)
    if (at < this.#used) new Uint8Array(this.#memory.buffer, at, Math.min(end, this.#used) - at).fill(0);
    this.#end = end;
    this.#used = Math.max(this.#used, end);
    return new SharedArray(this.#memory, code, at, length);
  }

  /** An array with the values of a typed array or a list. */
  #filled({ name, code }, values) {
    const isView = ArrayBuffer.isView(values) && hasType(values, code);
    if (isView && code === "b") checkBools(name, values);
    const elements = isView ? values : Array.from(values, (it, k) => bitsOf(`${name}[${k}]`, code, it));
    const made = this.#room(code, elements.length);
    made.values.set(elements);
    return made;
  }

  /** Where the array lies that is given for a parameter; `value` has to be copied where it does not lie in the memory. */
  #found(parameter, value) {
    const wanted = `${parameter.name}: wanted an array of ${TYPES[parameter.code].name}`;
    if (value instanceof SharedArray) {
      if (value.code !== parameter.code) throw new TypeError(`${wanted}, given one of ${value.type}`);
      if (!value.isIn(this.#memory)) throw new TypeError(`${wanted} in this module's memory, given one of another`);
      const [begin, end] = [value.address, value.address + value.length * TYPES[value.code].bytes];
      return { parameter, within: this.#memory.buffer, begin, end, length: value.length };
    }
    if (ArrayBuffer.isView(value)) {
      if (!hasType(value, parameter.code)) throw new TypeError(`${wanted}, given ${value[Symbol.toStringTag]}`);
      const [begin, end] = [value.byteOffset, value.byteOffset + value.byteLength];
      const isInside = value.buffer === this.#memory.buffer;
      if (isInside && (begin < this.#exports["isp.base"].value || end > this.#end)) throw new TypeError(`${wanted} that array() made, given other memory of the module`);
      return { parameter, within: value.buffer, begin, end, length: value.length, value: isInside ? undefined : value };
    }
    if (!Array.isArray(value)) throw new TypeError(wanted);
    if (parameter.isWritten && Object.isFrozen(value)) throw new TypeError(`${wanted} that can be written to`);
    return { parameter, within: value, begin: 0, end: value.length, length: value.length, value };
  }

  /** An array as a function takes it: its address and its count. */
  #passed({ parameter, begin, length, value }) {
    if (value === undefined) {
      if (parameter.code === "b") checkBools(parameter.name, new Uint8Array(this.#memory.buffer, begin, length));
      return [begin, BigInt(length)];
    }
    const copy = this.#filled(parameter, value);
    if (parameter.isWritten) this.#copies.push([copy, value]);
    return [copy.address, BigInt(length)];
  }

  /** Runs a function, behind whose arrays those lie that functions open. */
  #run({ name, result, room }, passed) {
    const stack = Math.ceil(this.#end / ALIGNED) * ALIGNED;
    if (room) this.#grow(stack + room + 1, `${room} bytes of the arrays that functions open`);
    this.#used = Math.max(this.#used, stack + room);
    this.#exports["isp.stack"].value = stack;
    this.#printed = [];
    try {
      const found = this.#exports[name](...passed);
      return { result: resultOf(result, found), output: this.#output() };
    } catch (error) {
      throw error instanceof Trap ? error : new EngineError(error, this.#output());
    } finally {
      for (const [copy, original] of this.#copies) copyBack(copy, original);
    }
  }

  /** What a module calls. */
  #host() {
    const print = (value) => this.#printed.push(new TextEncoder().encode(String(value)));
    return {
      // (an i32 and an i64 come with a sign)
      write: (at, count) => this.#printed.push(new Uint8Array(this.#memory.buffer, at >>> 0, count >>> 0).slice()),
      print_signed: print,
      print_unsigned: (value) => print(BigInt.asUintN(64, value)),
      print_bool: (value) => print(value !== 0),
      print_byte: (value) => this.#printed.push(Uint8Array.of(value)),
      trap: (kind, begin, end, instance) => {
        throw new Trap({ kind: KINDS[kind], begin: begin >>> 0, end: end >>> 0, instance }, this.#output(), this.#source);
      },
    };
  }

  #output() {
    const decoder = new TextDecoder("utf-8", { ignoreBOM: true });
    return this.#printed.map((it) => decoder.decode(it, { stream: true })).join("") + decoder.decode();
  }
}

/**
 * The kernels of a module: of its bytes, of a compiled module, or of what `fetch` promises. With `source`, the text of the kernel, a trap
 * has the line and the column. TypeError where the module has no section `isp`, or the server did not send it.
 */
export async function load(from, { source } = {}) {
  const given = await from;
  if (given instanceof WebAssembly.Module) return new Kernels(given, source);
  if (typeof Response === "undefined" || !(given instanceof Response)) return new Kernels(await WebAssembly.compile(given), source);
  if (!given.ok) throw new TypeError(`${given.url}: the server answers ${given.status}`);
  return new Kernels(await WebAssembly.compile(await given.arrayBuffer()), source);
}
