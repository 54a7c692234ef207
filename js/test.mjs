#!/usr/bin/env node
/**
 * Tries js/isp.js in Node, over kernels that `ispx wasm` makes modules.
 *
 *     js/test.mjs [PROGRAM]      PROGRAM is ispx: crates/ispx/out/ispx where nothing is said
 *
 * What is wanted was worked out by hand. A line for each part that fails; the last is `N parts, M fail`, and the status is 1 where one fails.
 */
import assert from "node:assert/strict";
import { spawnSync } from "node:child_process";
import { mkdtempSync, readFileSync, rmSync, writeFileSync } from "node:fs";
import { tmpdir } from "node:os";
import { fileURLToPath } from "node:url";
import { Worker } from "node:worker_threads";
import * as isp from "./isp.js";

const { EngineError, Kernels, Trap, load } = isp;
const PROGRAM = process.argv[2] ?? fileURLToPath(new URL("../crates/ispx/out/ispx", import.meta.url));
const FOLDER = mkdtempSync(`${tmpdir()}/isp-js-`);
const GANGS = [4, 8, 16, 32];
const PARTS = 44;

/** What `ispx wasm` with these options makes of a text. */
function moduleOf(text, ...options) {
  writeFileSync(`${FOLDER}/kernel`, text);
  const { status, stdout, stderr, error } = spawnSync(PROGRAM, ["wasm", ...options, `${FOLDER}/kernel`], { maxBuffer: 1 << 26 });
  assert.equal(status, 0, `${error ?? ""}${stderr} of ${text}`);
  return stdout;
}

/** The bytes of a kernel's module. */
const bytesOf = (source, gang) => moduleOf(source, "--gang", gang);

const made = (source, gang = 8) => load(bytesOf(source, gang), { source });

/** What a call throws. */
function thrown(call) {
  try {
    call();
  } catch (error) {
    return error;
  }
  return assert.fail("nothing is thrown");
}

/** A call throws an error of this class with this message. */
function refuses(kind, message, call) {
  const error = thrown(call);
  assert.equal(error.constructor, kind, String(error));
  assert.equal(error.message, message);
}

// ---- types

/** By type: what an array of it is, two values and a third that is added to them, and what comes out. */
const SUMS = {
  int8: [Int8Array, [-128, 127], 1, [-127, -128]],
  uint8: [Uint8Array, [0, 255], 1, [1, 0]],
  int16: [Int16Array, [-32768, 32767], 1, [-32767, -32768]],
  uint16: [Uint16Array, [0, 65535], 2, [2, 1]],
  int: [Int32Array, [-2147483648, 2147483647], 1, [-2147483647, -2147483648]],
  uint: [Uint32Array, [0, 4294967295], 4294967295, [4294967295, 4294967294]],
  int64: [BigInt64Array, [-(2n ** 63n), 2n ** 63n - 1n], 1n, [-(2n ** 63n) + 1n, -(2n ** 63n)]],
  uint64: [BigUint64Array, [0n, 2n ** 64n - 1n], 2n ** 64n - 1n, [2n ** 64n - 1n, 2n ** 64n - 2n]],
};

const sums = (type) => `export uniform ${type} f(uniform ${type} values[], uniform ${type} by) {
    foreach (i = 0 ... 2) values[i] = values[i] + by;
    return by;
}`;

async function everyType(type) {
  const [view, values, by, wanted] = SUMS[type];
  const kernels = await made(sums(type));
  assert.deepEqual(kernels.signature("f"), { parameters: [{ name: "values", type, isArray: true }, { name: "by", type, isArray: false }], result: type });
  const shared = kernels.array(type, values);
  assert.equal(shared.values.constructor, view);
  assert.deepEqual([shared.type, shared.length], [type, 2]);
  assert.deepEqual(kernels.call("f", { values: shared, by }), { result: by, output: "" });
  assert.deepEqual([...shared.values], wanted);
  const [typed, list] = [view.from(values), values.slice()];
  kernels.call("f", { values: typed, by });
  kernels.call("f", [list, by]);
  assert.deepEqual([[...typed], list], [wanted, wanted]);
}

const BOOLS = `export uniform bool f(uniform bool values[], uniform bool by) {
    foreach (i = 0 ... 3) values[i] = values[i] != by;
    return !by;
}`;

async function bools() {
  const kernels = await made(BOOLS);
  const shared = kernels.array("bool", [true, false, true]);
  assert.deepEqual(kernels.call("f", { values: shared, by: true }), { result: false, output: "" });
  assert.deepEqual([...shared.values], [0, 1, 0]);
  const [typed, list] = [Uint8Array.of(1, 0, 1), [true, false, true]];
  kernels.call("f", { values: typed, by: true });
  assert.deepEqual(kernels.call("f", { values: list, by: false }).result, true);
  assert.deepEqual([[...typed], list], [[0, 1, 0], [true, false, true]]);
  refuses(TypeError, "by: wanted bool, given 1", () => kernels.call("f", { values: list, by: 1 }));
  refuses(TypeError, "values[1]: wanted bool, given 1", () => kernels.call("f", { values: [true, 1, false], by: true }));
  refuses(TypeError, "array[0]: wanted bool, given 1", () => kernels.array("bool", [1]));
  shared.values[2] = 2;
  refuses(RangeError, "values[2]: wanted bool, a byte 0 or 1, given 2", () => kernels.call("f", { values: shared, by: true }));
  refuses(RangeError, "values[0]: wanted bool, a byte 0 or 1, given 9", () => kernels.call("f", { values: Uint8Array.of(9, 0, 0), by: true }));
  refuses(RangeError, "array[1]: wanted bool, a byte 0 or 1, given 3", () => kernels.array("bool", Uint8Array.of(1, 3)));
}

async function otherNames() {
  const kernels = await made("export void f(uniform int a[], uniform uint b[]) { a[0] = 5; b[0] = 6; }");
  const [a, b] = [kernels.array("int32", [1]), kernels.array("uint32", [2])];
  assert.deepEqual([a.type, b.type], ["int", "uint"]);
  kernels.call("f", { a, b });
  assert.deepEqual([a.values, b.values], [Int32Array.of(5), Uint32Array.of(6)]);
  refuses(TypeError, "a: wanted an array of int, given one of uint", () => kernels.call("f", { a: b, b: a }));
  for (const it of ["float", "i32", "", undefined, null, 5, "__proto__"]) refuses(TypeError, `no type of elements: ${it}`, () => kernels.array(it, 1));
}

// ---- arguments

const THREE = "export void f(uniform int a[], const uniform int c[], uniform int n) { a[0] = c[0] + n; }\nexport void g() { }";

async function wrongArguments() {
  const kernels = await made(THREE);
  const [a, c] = [[1], [2]];
  const wrong = (given, kind, message) => refuses(kind, message, () => kernels.call("f", given));
  wrong({ a, c }, TypeError, "f: n is not given");
  wrong({ a, c, n: 1, m: 2 }, TypeError, "f has no parameter m");
  wrong([a, c], TypeError, "f takes 3 arguments, given 2");
  wrong([a, c, 1, 2], TypeError, "f takes 3 arguments, given 4");
  for (const n of [1.5, NaN, Infinity, "1", null, undefined, true, [1]]) wrong({ a, c, n }, TypeError, `n: wanted int, given ${n}`);
  for (const n of [2147483648, -2147483649, 4294967295, 2n ** 64n]) wrong({ a, c, n }, RangeError, `n: wanted int, given ${n}`);
  wrong({ a, c, n: 2 ** 53 }, RangeError, "n: wanted int, given 9007199254740992: so large a number has to be a bigint");
  for (const it of [5, null, undefined, "12", { length: 1 }]) wrong({ a: it, c, n: 1 }, TypeError, "a: wanted an array of int");
  wrong({ a: [1, 2.5], c, n: 1 }, TypeError, "a[1]: wanted int, given 2.5");
  wrong({ a: [2 ** 31], c, n: 1 }, RangeError, "a[0]: wanted int, given 2147483648");
  wrong({ a: Uint32Array.of(1), c, n: 1 }, TypeError, "a: wanted an array of int, given Uint32Array");
  wrong({ a: new DataView(new ArrayBuffer(4)), c, n: 1 }, TypeError, "a: wanted an array of int, given DataView");
  wrong({ a: Object.freeze([1]), c, n: 1 }, TypeError, "a: wanted an array of int that can be written to");
  kernels.call("f", { a, c: Object.freeze([2]), n: 40 });
  assert.deepEqual([a, c], [[42], [2]]);
}

async function wrongNames() {
  const kernels = await made(THREE);
  assert.deepEqual(kernels.names, ["f", "g"]);
  for (const name of ["h", "", "isp.memory", undefined, "__proto__"]) refuses(TypeError, `there is no function ${name}: the functions are f, g`, () => kernels.call(name));
  refuses(TypeError, "there is no function h: the functions are f, g", () => kernels.signature("h"));
  assert.deepEqual(kernels.call("g"), { result: undefined, output: "" });
  assert.deepEqual(kernels.signature("g"), { parameters: [], result: null });
}

async function refusedCallsChangeNothing() {
  const kernels = await made("export void f(uniform int64 a[], uniform int n) { a[0] = n; }");
  const list = [7];
  refuses(TypeError, "n: wanted int, given x", () => kernels.call("f", { a: list, n: "x" }));
  assert.deepEqual(list, [7]);
  kernels.call("f", { a: list, n: -9 });
  assert.deepEqual(list, [-9n]);
}

async function numbersOf64Bits() {
  const kernels = await made("export uniform int64 f(uniform int64 n) { return n; }\nexport uniform uint64 g(uniform uint64 n) { return n; }");
  for (const n of [0, -1, -(2n ** 63n), 2n ** 63n - 1n, Number.MAX_SAFE_INTEGER]) assert.equal(kernels.call("f", { n }).result, BigInt(n));
  for (const n of [0, 2n ** 64n - 1n, 4294967296]) assert.equal(kernels.call("g", { n }).result, BigInt(n));
  refuses(RangeError, "n: wanted int64, given 9223372036854775808", () => kernels.call("f", { n: 2n ** 63n }));
  refuses(RangeError, "n: wanted uint64, given -1", () => kernels.call("g", { n: -1 }));
  refuses(RangeError, "n: wanted uint64, given 18446744073709552000: so large a number has to be a bigint", () => kernels.call("g", { n: 2 ** 64 }));
}

async function greatestCount() {
  const kernels = await made("export uniform uint f(uniform uint count) { return count; }\nexport void g(uniform uint8 a[], uniform int64 at) { a[at] = 7; }");
  assert.equal(kernels.call("f", { count: 2 ** 32 - 1 }).result, 4294967295);
  refuses(RangeError, "count: wanted uint, given 4294967296", () => kernels.call("f", { count: 2 ** 32 }));
  refuses(RangeError, "count: wanted uint, given -1", () => kernels.call("f", { count: -1 }));
  const a = kernels.array("uint8", 2 ** 32 - 1);
  kernels.call("g", { a, at: 2 ** 32 - 2 });
  assert.deepEqual([a.values[2 ** 32 - 2], a.values[2 ** 32 - 3], a.values[0]], [7, 0, 0]);
  const trap = thrown(() => kernels.call("g", { a, at: 2 ** 32 - 1 }));
  assert.deepEqual([trap.constructor, trap.kind], [Trap, "index"]);
  refuses(RangeError, "no memory for 2 elements of uint8", () => kernels.array("uint8", 2));
}

async function otherViews() {
  const kernels = await made("export void f(uniform uint8 a[]) { a[1] = a[0] + 1; }");
  const [clamped, buffer, part] = [Uint8ClampedArray.of(5, 0), Buffer.from([6, 0]), Uint8Array.of(9, 9, 7, 0, 9)];
  for (const it of [clamped, buffer, part.subarray(2, 4)]) kernels.call("f", { a: it });
  assert.deepEqual([[...clamped], [...buffer], [...part]], [[5, 6], [6, 7], [9, 9, 7, 8, 9]]);
  const found = kernels.array("uint8", Uint8ClampedArray.of(1, 2));
  assert.deepEqual(found.values, Uint8Array.of(1, 2));
}

async function ownValues() {
  const kernels = await made("export void f(uniform int a[], const uniform int c[], uniform int d[]) { a[0] = c[0] + 1; d[0] = c[1]; }");
  const [a, c, other] = [kernels.array("int", [0, 8]), kernels.array("int", [41, 3]), (await made(THREE)).array("int", 1)];
  const before = a.values;
  kernels.call("f", { a: a.values.subarray(0, 1), c, d: a.values.subarray(1) });
  assert.deepEqual(before, Int32Array.of(42, 3));
  const lower = new Int32Array(a.values.buffer, a.address - 16 < 0 ? 0 : a.address - 16, 1);
  const upper = new Int32Array(a.values.buffer, a.values.buffer.byteLength - 4, 1);
  for (const it of [...(a.address ? [lower] : []), upper]) {
    refuses(TypeError, "a: wanted an array of int that array() made, given other memory of the module", () => kernels.call("f", { a: it, c, d: [0] }));
  }
  refuses(TypeError, "a: wanted an array of int in this module's memory, given one of another", () => kernels.call("f", { a: other, c, d: [0] }));
}

const PAIRS = `void put(uniform int a[], uniform int at) { a[at] = 9; }
export void written(uniform int a[], uniform int b[]) { a[0] = b[1]; }
export void called(uniform int a[], uniform int b[]) { put(b, a[1]); }
export uniform int read(const uniform int a[], const uniform int b[]) { return a[0] * b[1]; }`;

async function overlaps() {
  const kernels = await made(PAIRS);
  const shared = kernels.array("int", [2, 3, 4]);
  const typed = Int32Array.of(2, 3, 4), list = [2, 3, 4];
  const twice = [[shared, shared], [typed, typed], [list, list], [typed.subarray(0, 2), typed.subarray(1)], [shared, shared.values.subarray(2)]];
  for (const name of ["written", "called"]) {
    for (const given of twice) refuses(TypeError, `${name}: a and b overlap, and the kernel writes to one of them`, () => kernels.call(name, given));
  }
  for (const given of twice.slice(0, 3)) assert.equal(kernels.call("read", given).result, 6);
  kernels.call("written", [typed.subarray(0, 1), typed.subarray(1)]);
  assert.deepEqual(typed, Int32Array.of(4, 3, 4));
  kernels.call("called", [[0, 0], list]);
  assert.deepEqual(list, [9, 3, 4]);
}

// ---- traps

/** By kind: a source, what is called, and what the error has. */
const TRAPS = [
  ["divide", "// é\nexport void f(uniform int a[]) {\n    print(\"é %\\n\", 1); /* 𝄞 */ a[programIndex] = 6 / a[programIndex];\n}", [2, 1, 3, 0, 0, 1, 1, 1], { line: 3, column: 50, begin: 92, end: 111, instance: 3, output: "é 1\n" }],
  ["index", "export void f(uniform int a[]) { if (programIndex > 1) a[programIndex + 4] = 1; }", [0, 0, 0, 0, 0, 0, 0], { line: 1, column: 56, begin: 55, end: 74, instance: 3, output: "" }],
  ["assert", "export void f(uniform int a[]) {\n\tassert(a[programIndex] < 3);\n}", [0, 1, 2, 2, 1, 3, 0, 4], { line: 2, column: 2, begin: 34, end: 61, instance: 5, output: "" }],
  ["depth", "int g(int n) { return g(n + 1); }\nexport void f(uniform int a[]) { if (programIndex == 2) { int x = g(1); a[programIndex] = x; } }", [0], { line: 1, column: 23, begin: 22, end: 30, instance: 2, output: "" }],
];

async function everyTrap([kind, source, a, wanted]) {
  const kernels = await made(source);
  const error = thrown(() => kernels.call("f", { a: a.slice() }));
  assert.equal(error.constructor, Trap, String(error));
  assert.ok(error instanceof Error);
  const { name, message, line, column, begin, end, instance, output } = error;
  assert.deepEqual({ line, column, begin, end, instance, output }, wanted);
  assert.deepEqual([name, error.kind], ["Trap", kind]);
  assert.equal(message, `${line}:${column}: trap ${kind}, instance ${instance}, at ${begin}..${end}`);
}

async function trapsWithoutSource() {
  const kernels = await load(bytesOf("export void f(uniform int a[]) { a[1] = 1; }", 4));
  const { line, column, begin, message } = thrown(() => kernels.call("f", { a: [0] }));
  assert.deepEqual([line, column, begin, message], [0, 0, 33, "trap index, instance 0, at 33..37"]);
}

async function arraysAfterATrap() {
  const kernels = await made("export void f(uniform int a[], uniform int n) { foreach (i = 0 ... n) a[i] = 7; }", 4);
  const [shared, typed, list] = [kernels.array("int", 6), new Int32Array(6), [0, 0, 0, 0, 0, 0]];
  for (const a of [shared, typed, list]) assert.equal(thrown(() => kernels.call("f", { a, n: 9 })).kind, "index");
  const wanted = [7, 7, 7, 7, 0, 0];
  assert.deepEqual([[...shared.values], [...typed], list], [wanted, wanted, wanted]);
  kernels.call("f", { a: shared, n: 6 });
  assert.deepEqual([...shared.values], [7, 7, 7, 7, 7, 7]);
}

// ---- output

async function printed() {
  const source = `export void f(uniform int64 s, uniform uint64 u, uniform bool b) {
    print("% % % é%\\n", s, u, b, programIndex);
    if (programIndex != 1) print("%%", programIndex > 1, (uint8)(programIndex + 254));
}`;
  const kernels = await made(source.replace('"%%"', '"% %"'), 4);
  const wanted = "-9223372036854775808 18446744073709551615 true é[0,1,2,3]\n[false,_,true,true] [254,_,0,1]";
  assert.equal(kernels.call("f", { s: -(2n ** 63n), u: 2n ** 64n - 1n, b: true }).output, wanted);
  const again = kernels.call("f", { s: 5, u: 6, b: false }).output;
  assert.equal(again, "5 6 false é[0,1,2,3]\n[false,_,true,true] [254,_,0,1]");
}

async function markOfBytes() {
  const kernels = await made('export void f() { print("\ufeffa"); }');
  assert.equal(kernels.call("f").output, "\ufeffa");
}

async function charactersInTwo() {
  const kernels = await load(moduleOf("isp 1 gang 4\ntext c3\ntext a9\nfunc f export void\nm 1\nsay t0\nsay t1\nret -\nend\n"));
  assert.equal(kernels.call("f").output, "é");
}

// ---- memory

const FILLED = `export void f(uniform uint8 a[], uniform int count) {
    foreach (i = 0 ... count) a[i] = a[i] + (i & 1) + 1;
}`;

async function endOfMemory(gang) {
  const kernels = await made(FILLED, gang);
  const { byteOffset, buffer } = kernels.array("uint8", 0).values;
  const count = (buffer.byteLength || 65536) - byteOffset - gang / 4;
  const [a, rest] = [kernels.array("uint8", count), new Uint8Array(gang / 4)];
  kernels.call("f", { a, count });
  assert.equal(a.values.buffer.byteLength, byteOffset + count + rest.length);
  assert.ok(a.values.every((it, i) => it === (i & 1) + 1));
  assert.deepEqual(new Uint8Array(a.values.buffer, byteOffset + count), rest);
  assert.equal(thrown(() => kernels.call("f", { a, count: count + 1 })).kind, "index");
  assert.deepEqual(new Uint8Array(a.values.buffer, byteOffset + count), rest);
}

async function exactEndOfMemory() {
  const kernels = await made(FILLED, 16);
  const { byteOffset, buffer } = kernels.array("uint8", 0).values;
  const count = (buffer.byteLength || 65536) - byteOffset;
  const a = kernels.array("uint8", count);
  kernels.call("f", { a, count });
  assert.equal(a.values.byteOffset + count, a.values.buffer.byteLength);
  assert.ok(a.values.every((it, i) => it === (i & 1) + 1));
}

const OPENED = `uniform int down(uniform int n) {
    uniform int own[256];
    own[255] = n;
    uniform int below = n > 0 ? 1 : 0;
    if (n > 0) below = down(n - 1);
    return below + own[255] + own[7];
}
export uniform int f(uniform uint8 a[], uniform int n) { uniform int first = down(n); a[0] = 1; return first; }
export uniform int g(uniform int n) { uniform int own[16384]; own[16383] = n; return own[16383] + own[0]; }`;

async function openedArrays() {
  const kernels = await made(OPENED);
  const { byteOffset, buffer } = kernels.array("uint8", 0).values;
  const a = kernels.array("uint8", (buffer.byteLength || 65536) - byteOffset);
  assert.equal(kernels.call("g", { n: 5 }).result, 5);
  assert.equal(kernels.call("f", { a, n: 200 }).result, 20100);
  assert.ok(a.values.every((it, k) => it === (k === 0 ? 1 : 0)));
  const again = kernels.array("int", 20000);
  assert.ok(again.values.every((it) => it === 0));
}

const OWN = `int down(int n) {
    int own[64];
    own[63] = n;
    int below = n > 0 ? 1 : 0;
    if (n > 0) below = down(n - 1);
    return below + own[63] + own[7];
}
export void f(uniform int a[]) { a[programIndex] = down(200 - programIndex); }`;

async function arraysOfEachLane() {
  const kernels = await made(OWN, 16);
  const a = kernels.array("int", 16);
  kernels.call("f", { a });
  assert.deepEqual(Array.from(a.values), Array.from({ length: 16 }, (_, p) => ((200 - p) * (201 - p)) / 2));
}

async function memoryThatCannotGrow() {
  const kernels = await made(FILLED);
  for (const [length, type] of [[2 ** 33, "uint8"], [2 ** 30 + 1, "int"], [Number.MAX_SAFE_INTEGER, "int64"]]) {
    refuses(RangeError, `no memory for ${length} elements of ${type}`, () => kernels.array(type, length));
  }
  for (const length of [-1, 1.5, NaN, Infinity]) refuses(RangeError, `no number of elements: ${length}`, () => kernels.array("int", length));
  for (const from of [null, undefined, "12", 5n]) {
    refuses(TypeError, `array: wanted a number of elements or their values, given ${from}`, () => kernels.array("int", from));
  }
  const a = kernels.array("uint8", [1, 2, 3]);
  kernels.call("f", { a, count: 3 });
  assert.deepEqual(a.values, Uint8Array.of(2, 4, 4));
}

async function openedArraysThatCannotLie() {
  const own = Array.from({ length: 40 }, (_, k) => `uniform int64 own${k}[65536]; own${k}[0] = n;`).join(" ");
  const kernels = await made(`uniform int h(uniform int n) { return n; }\nexport uniform int f(uniform int n) { ${own} return h(n); }`, 4);
  refuses(RangeError, `no memory for ${256 * 40 * 65536 * 8} bytes of the arrays that functions open`, () => kernels.call("f", { n: 1 }));
}

async function copiesLeaveNothing() {
  const kernels = await made(FILLED);
  const list = Array.from({ length: 5000 }, () => 200);
  for (let k = 0; k < 200; k++) kernels.call("f", { a: list.slice(), count: 5000 });
  const a = kernels.array("uint8", 6000);
  assert.ok(a.values.every((it) => it === 0));
  assert.ok(a.values.buffer.byteLength <= 65536);
}

async function valuesGiven() {
  const kernels = await made(FILLED);
  assert.deepEqual(kernels.array("int16", new Set([1, -2])).values, Int16Array.of(1, -2));
  assert.deepEqual(kernels.array("uint8", Int32Array.of(1, 255)).values, Uint8Array.of(1, 255));
  refuses(RangeError, "array[1]: wanted uint8, given 256", () => kernels.array("uint8", Int32Array.of(1, 256)));
  refuses(RangeError, "array[0]: wanted int8, given 128", () => kernels.array("int8", [128]));
  refuses(TypeError, "array[0]: wanted int8, given x", () => kernels.array("int8", ["x"]));
}

// ---- engines

async function noStack() {
  const many = Array.from({ length: 30 }, (_, k) => `int64 x${k} = n * ${k + 3};`).join(" ");
  const sum = Array.from({ length: 30 }, (_, k) => `x${k}`).join(" + ");
  const kernels = await made(`int64 g(int64 n) { ${many} int64 y = g(n + 1); return y + ${sum}; }\nexport void f(uniform int64 a[]) { print("x"); a[0] = 1; int64 y = g(a[0]); a[1] = reduce_add(y); }`, 32);
  const list = [0, 0];
  const error = thrown(() => kernels.call("f", [list]));
  assert.equal(error.constructor, EngineError, String(error));
  assert.deepEqual([error.name, error.cause.constructor, error.output, list], ["EngineError", RangeError, "x", [1n, 0n]]);
  assert.match(error.message, /^the engine ended the run: Maximum call stack size exceeded/);
}

/** A run without an end in a thread of its own, which is ended. */
async function endlessRuns() {
  const bytes = bytesOf("export void f(uniform int a[]) { while (true) a[0] = 1; }", 4);
  const text = `const { parentPort, workerData } = require("node:worker_threads");
    import(workerData.isp).then(async ({ load }) => {
      const kernels = await load(workerData.bytes);
      parentPort.postMessage("runs");
      kernels.call("f", { a: [0] });
      parentPort.postMessage("ends");
    });`;
  const worker = new Worker(text, { eval: true, workerData: { bytes, isp: new URL("./isp.js", import.meta.url).href } });
  const said = [];
  worker.on("message", (it) => said.push(it));
  await new Promise((resolve) => worker.once("message", resolve));
  await new Promise((resolve) => setTimeout(resolve, 100));
  assert.equal(await worker.terminate(), 1);
  assert.deepEqual(said, ["runs"]);
}

// ---- modules

async function loads() {
  const bytes = bytesOf(FILLED, 16);
  const module = await WebAssembly.compile(bytes);
  const response = () => new Response(bytes, { headers: { "Content-Type": "application/wasm" } });
  const forms = [bytes, bytes.buffer.slice(bytes.byteOffset, bytes.byteOffset + bytes.length), Promise.resolve(bytes), module, Promise.resolve(module), response(), Promise.resolve(response())];
  for (const form of forms) {
    const kernels = await load(form);
    assert.deepEqual([kernels.constructor, kernels.gang, kernels.names], [Kernels, 16, ["f"]]);
  }
  assert.equal(new Kernels(module).gang, 16);
}

async function gangs() {
  for (const gang of GANGS) assert.equal((await made(FILLED, gang)).gang, gang);
}

async function noModule() {
  const empty = Uint8Array.of(0, 97, 115, 109, 1, 0, 0, 0);
  await assert.rejects(load(empty), { name: "TypeError", message: "this module has no section isp: ispx wasm has not written it" });
  await assert.rejects(load(Uint8Array.of(1, 2, 3)), { name: "CompileError" });
  await assert.rejects(load(new Response("no", { status: 404 })), { name: "TypeError", message: ": the server answers 404" });
  await assert.rejects(load(undefined), TypeError);
}

function declared() {
  const text = readFileSync(new URL("./isp.d.ts", import.meta.url), "utf-8");
  const names = [...text.matchAll(/^export (?:class|function) (\w+)/gm)].map((it) => it[1]);
  assert.deepEqual(names.sort(), Object.keys(isp).sort());
  const [, body] = /^export class Kernels \{\n(.*?)^\}/ms.exec(text);
  const members = [...body.matchAll(/^ {2}(?:readonly )?(\w+)/gm)].map((it) => it[1]);
  assert.deepEqual(members.sort(), Object.getOwnPropertyNames(Kernels.prototype).sort());
}

// ---- all of it

const parts = [
  ...Object.keys(SUMS).map((it) => [`${it} in and out`, () => everyType(it)]),
  ...TRAPS.map((it) => [`the trap ${it[0]}`, () => everyTrap(it)]),
  ...GANGS.map((it) => [`an array near the end of memory, gang ${it}`, () => endOfMemory(it)]),
  ...Object.entries({
    bools, otherNames, wrongArguments, wrongNames, refusedCallsChangeNothing, numbersOf64Bits, greatestCount, otherViews, ownValues, overlaps, trapsWithoutSource,
    arraysAfterATrap, printed, markOfBytes, charactersInTwo, exactEndOfMemory, openedArrays, arraysOfEachLane, memoryThatCannotGrow, openedArraysThatCannotLie, copiesLeaveNothing, valuesGiven, noStack,
    endlessRuns, loads, gangs, noModule, declared,
  }),
];

let failed = 0;
for (const [name, part] of parts) {
  try {
    await part();
  } catch (error) {
    failed++;
    console.log(`${name}: ${error.stack}`);
  }
}
rmSync(FOLDER, { recursive: true });
console.log(`${parts.length} parts, ${failed} fail`);
process.exit(failed || parts.length !== PARTS ? 1 : 0);
