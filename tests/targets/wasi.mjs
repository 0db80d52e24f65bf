// Runs a program that is compiled for wasm32 with wasi-libc: node wasi.mjs PROGRAM.wasm WORDS..
import { WASI } from "node:wasi";
import { readFileSync } from "node:fs";

const [program, ...words] = process.argv.slice(2);
const wasi = new WASI({ version: "preview1", args: [program, ...words], env: {}, preopens: { ".": "." } });
const made = await WebAssembly.instantiate(await WebAssembly.compile(readFileSync(program)), wasi.getImportObject());
process.exitCode = wasi.start(made);
