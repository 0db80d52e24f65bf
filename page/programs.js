"use strict";
// The console and the card printer run in the page as WebAssembly programs. A program asks a system for little: to
// print, to write a file and to read one. Files are kept here by their names until the page is closed.
const disk = new Map();
const NO_FILE = 44, NO_SEEK = 29, NOT_HERE = 8;

function joined(parts) {
  const all = new Uint8Array(parts.reduce((sum, part) => sum + part.length, 0));
  parts.reduce((at, part) => (all.set(part, at), at + part.length), 0);
  return all;
}

// The calls of the WebAssembly system interface that the C library makes, for one program.
function system(io) {
  const open = new Map();
  const view = () => new DataView(io.memory.buffer), bytes = () => new Uint8Array(io.memory.buffer);
  const put = (at, number) => (view().setUint32(at, number, true), 0);
  const pieces = (at, count) => Array.from({ length: count }, (_, i) =>
    [view().getUint32(at + 8 * i, true), view().getUint32(at + 8 * i + 4, true)]);
  return {
    fd_write(fd, at, count, done) {
      const parts = pieces(at, count).map(([from, length]) => bytes().slice(from, from + length));
      (fd < 3 ? io.printed : open.get(fd).parts).push(...parts);
      return put(done, parts.reduce((sum, part) => sum + part.length, 0));
    },
    fd_read(fd, at, count, done) {
      const file = fd === 0 ? io.input : open.get(fd);
      let sum = 0;
      for (const [to, length] of pieces(at, count)) {
        const part = file.bytes.subarray(file.at, file.at + length);
        bytes().set(part, to);
        file.at += part.length;
        sum += part.length;
      }
      return put(done, sum);
    },
    path_open(folder, flags, at, length, how, rights, inherited, more, fd) {
      const name = new TextDecoder().decode(bytes().slice(at, at + length)), creates = (how & 1) !== 0;
      if (!creates && !disk.has(name)) return NO_FILE;
      const number = Math.max(9, ...open.keys()) + 1;
      open.set(number, { name, at: 0, bytes: disk.get(name) || new Uint8Array(), parts: creates ? [] : null });
      return put(fd, number);
    },
    fd_close(fd) {
      const file = open.get(fd);
      if (file && file.parts) disk.set(file.name, joined(file.parts)), io.written.push(file.name);
      open.delete(fd);
      return 0;
    },
    fd_fdstat_get(fd, at) {
      bytes().fill(0, at, at + 24);
      bytes()[at] = fd < 3 ? 2 : fd === 3 ? 3 : 4;
      view().setBigUint64(at + 8, 0xffffffffn, true);
      return 0;
    },
    fd_prestat_get(fd, at) {
      return fd === 3 ? (put(at, 0), put(at + 4, 1)) : NOT_HERE;
    },
    fd_prestat_dir_name(fd, at) {
      bytes()[at] = 46;
      return 0;
    },
    fd_seek: () => NO_SEEK,
    proc_exit(status) {
      throw new Error("exit " + status);
    },
  };
}

async function program(base64, io) {
  const module = await WebAssembly.compile(Uint8Array.from(atob(base64), (letter) => letter.charCodeAt(0)));
  Object.assign(io, { printed: [], written: [], input: { bytes: new Uint8Array(), at: 0 } });
  const calls = system(io), asked = {};
  for (const one of WebAssembly.Module.imports(module)) asked[one.name] = calls[one.name] || (() => NOT_HERE);
  const made = await WebAssembly.instantiate(module, { wasi_snapshot_preview1: asked, env: asked });
  io.memory = made.exports.memory;
  return made.exports;
}

function taken(io) {
  const text = new TextDecoder().decode(joined(io.printed));
  io.printed = [];
  return text;
}

// The console: a line in, text out.
const desk = { io: {}, exports: null };

function give(text, run) {
  const line = new TextEncoder().encode(text + "\0"), at = desk.exports.page_memory(line.length);
  new Uint8Array(desk.io.memory.buffer).set(line, at);
  run(at);
  return taken(desk.io);
}

const say = (line) => give(line, desk.exports.page_line);
const ask = (line) => give(line, desk.exports.page_ask);
const asked = (line) => JSON.parse(ask(line));

// What the card printer prints for an image.
async function printed(image) {
  const io = {}, exports = await program(PRINTER, io);
  io.input = { bytes: image, at: 0 };
  exports._start();
  return taken(io);
}
