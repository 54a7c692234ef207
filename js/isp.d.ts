/** Kernels as WebAssembly, from JavaScript. See isp.js. */

/** The types of ISPC that elements and values have; `int32` and `uint32` are other names of `int` and `uint`. */
export type ElementType = "bool" | "int8" | "uint8" | "int16" | "uint16" | "int" | "int32" | "uint" | "uint32" | "int64" | "uint64";

export type TypedArray =
  | Uint8Array | Uint8ClampedArray | Int8Array | Int16Array | Uint16Array | Int32Array | Uint32Array | BigInt64Array | BigUint64Array;

/** A value: of 64 bits a number that is exact, or a bigint. */
export type Scalar = number | bigint | boolean;

/** An array in the module's memory, which a kernel reads and writes in place. */
export interface SharedArray {
  readonly type: ElementType;
  readonly length: number;
  /** The elements. A later `array` or `call` can make the memory grow, and then this is another view: ask for it anew. */
  readonly values: TypedArray;
}

export interface Parameter {
  readonly name: string;
  readonly type: ElementType;
  readonly isArray: boolean;
}

export interface Signature {
  readonly parameters: Parameter[];
  /** The type of what the function gives back, or null. */
  readonly result: ElementType | null;
}

export type Argument = Scalar | SharedArray | TypedArray | Scalar[];

export interface Ran {
  /** A number, of 64 bits a bigint, or a boolean; undefined where the function gives nothing back. */
  readonly result: Scalar | undefined;
  /** What the kernel printed. */
  readonly output: string;
}

export type TrapKind = "divide" | "index" | "assert" | "depth";

/** A run that stopped at a fault. The arrays are as they were then. */
export class Trap extends Error {
  readonly name: "Trap";
  readonly kind: TrapKind;
  /** The lowest instance at which it happened. */
  readonly instance: number;
  /** Bytes of the source. */
  readonly begin: number;
  readonly end: number;
  /** From 1; 0 where `load` was given no source. */
  readonly line: number;
  readonly column: number;
  /** What the kernel printed before. */
  readonly output: string;
}

/** A run that the engine ended by an error of its own, the `cause`. The arrays are as they were then. */
export class EngineError extends Error {
  readonly name: "EngineError";
  readonly cause: unknown;
  /** What the kernel printed before. */
  readonly output: string;
}

export class Kernels {
  constructor(module: WebAssembly.Module, source?: string);
  readonly gang: number;
  readonly names: string[];
  signature(name: string): Signature;
  array(type: ElementType, from: number | ArrayLike<Scalar> | Iterable<Scalar>): SharedArray;
  call(name: string, given?: Record<string, Argument> | Argument[]): Ran;
}

export function load(
  from: BufferSource | WebAssembly.Module | Response | Promise<BufferSource | WebAssembly.Module | Response>,
  options?: { source?: string },
): Promise<Kernels>;
