// Measures modules for tools/bench-wasm: FOLDER ROUNDS GANG,.. KERNEL:ARGUMENT:.. What it writes is what the C program of tools/bench-native writes.
import { readFileSync } from "node:fs";
import { load } from "../js/isp.js";

const ELEMENTS = 512 * 512;
const [folder, rounds, gangs, ...kernels] = process.argv.slice(2);

// The arrays that the C program begins with, laid into the memory of some kernels.
function arrays(module) {
  return {
    image: module.array("uint8", ELEMENTS), bytes: module.array("uint8", ELEMENTS), words: module.array("int", ELEMENTS), table: module.array("uint8", 16),
    weights: module.array("int", 25),
  };
}

function begin({ image, bytes, words, table, weights }) {
  const [a, b, c] = [image.values, bytes.values, words.values];
  for (let i = 0, x = 1; i < ELEMENTS; i++) {
    x = (Math.imul(x, 1664525) + 1013904223) | 0;
    a[i] = b[i] = x >>> 24;
    c[i] = x;
  }
  table.values.forEach((_, i, it) => (it[i] = i * 37 + 11));
  weights.values.forEach((_, i, it) => (it[i] = ((i * 7) % 23) - 2));
}

// A number of the answer, as the C program works it out.
function sum({ bytes, words }, result) {
  const [b, c] = [bytes.values, words.values];
  let found = 2166136261 ^ (result ?? 0);
  for (let i = 0; i < ELEMENTS; i++) found = Math.imul(Math.imul(found, 16777619) ^ b[i], 16777619) ^ c[i];
  return found >>> 0;
}

async function measured(text) {
  const [name, ...given] = text.split(":");
  const forms = await Promise.all(gangs.split(",").map(async (gang) => {
    const module = await load(readFileSync(`${folder}/${name}.${gang}.wasm`));
    const lent = arrays(module);
    return { module, lent, values: given.map((it) => lent[it] ?? Number(it)), least: Infinity, wrong: 0 };
  }));
  let wanted;
  for (let round = 0; round < Number(rounds); round++) {
    for (const form of forms) {
      begin(form.lent);
      const before = process.cpuUsage();
      const { result } = form.module.call(name, form.values);
      const { user, system } = process.cpuUsage(before);
      form.least = Math.min(form.least, 1000 * (user + system));
      const found = sum(form.lent, result);
      wanted ??= found;
      form.wrong += found !== wanted;
    }
  }
  return { name, sum: wanted, forms: forms.map((it) => [it.least, it.wrong]) };
}

const found = [];
for (const it of kernels) found.push(await measured(it));
console.log(JSON.stringify(found));
