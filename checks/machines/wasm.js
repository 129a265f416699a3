// wasm.js MODULE: runs the play of a module of WebAssembly, and prints its line.
const fs = require("fs");

// for 64 bits; an older or later engine needs no such word
require("v8").setFlagsFromString("--experimental-wasm-memory64");
const module_ = new WebAssembly.Module(fs.readFileSync(process.argv[2]));
const { play_here, memory } = new WebAssembly.Instance(module_, {}).exports;
const text = Buffer.from(memory.buffer).subarray(Number(play_here()));
process.stdout.write(text.subarray(0, text.indexOf(0)));
