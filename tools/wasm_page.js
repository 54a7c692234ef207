// Runs modules by js/isp.js in a page, for tools/wasm-test --chromium: jobs and lines are those of tools/wasm_run.js.
import { load, Trap } from "./isp.js";

const KINDS = ["divide", "index", "assert", "depth"];
const hex = (text) => [...new TextEncoder().encode(text)].map((it) => it.toString(16).padStart(2, "0")).join("");

// a number, which a job has as a text
const given = (type, text) => type === "bool" ? text !== "0" : BigInt(text);

// an element or a result, as an answer says it
const shown = (type, value) => type === "bool" ? Boolean(value) : String(value);

async function found(job) {
  const kernels = await load(fetch(job.wasm));
  const { parameters, result } = kernels.signature(job.entry);
  const values = parameters.map(({ name, type, isArray }) => {
    const text = job.args[name];
    return isArray ? kernels.array(type, text.map((it) => given(type, it))) : given(type, text);
  });
  const found = {};
  try {
    const ran = kernels.call(job.entry, values);
    found.output = hex(ran.output);
    found.result = result ? shown(result, ran.result) : null;
  } catch (error) {
    if (!(error instanceof Trap)) throw error;
    found.output = hex(error.output);
    found.trap = [KINDS.indexOf(error.kind), error.begin, error.end, error.instance];
  }
  const arrays = parameters.flatMap(({ name, type, isArray }, k) => isArray ? [[name, Array.from(values[k].values, (it) => shown(type, it))]] : []);
  found.arrays = Object.fromEntries(arrays);
  return found;
}

globalThis.ran = async (jobs) => {
  const lines = [];
  for (const job of jobs) lines.push(JSON.stringify(await found(job).catch((error) => ({ error: String(error) }))));
  return lines;
};
