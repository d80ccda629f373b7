"use strict";
// Runs the program over files of the page, and over bytes as its standard input. A file is a text or bytes; what is stored is handed back, as a text
// and as bytes.
const perform = (program, words, given, input = new Uint8Array()) => {
  const encoder = new TextEncoder(), decoder = new TextDecoder();
  const files = new Map(Object.entries(given).map(([name, it]) => [name, typeof it === "string" ? encoder.encode(it) : it]));
  const open = new Map([[0, { bytes: input, at: 0 }]]), printed = [], written = {};
  let next = 3, memory;
  const part = (at, size) => new Uint8Array(memory.buffer, Number(at), Number(size));
  const name = (at) => {
    const all = new Uint8Array(memory.buffer, Number(at), Math.min(4096, memory.buffer.byteLength - Number(at)));
    return decoder.decode(all.slice(0, all.indexOf(0)));
  };
  const env = {
    read(number, at, size) {
      const file = open.get(number), taken = file.bytes.subarray(file.at, file.at + Number(size));
      part(at, taken.length).set(taken);
      file.at += taken.length;
      return BigInt(taken.length);
    },
    write(number, at, size) {
      (number < 3 ? printed : open.get(number).parts).push(part(at, size).slice());
      return size;
    },
    close(number) { open.delete(number); return 0; },
    rattle_arg(index, at, room) {
      const all = ["stack", ...words];
      if (index >= all.length) return -1n;
      const word = all[Number(index)], bytes = typeof word === "string" ? encoder.encode(word) : word;
      part(at, Math.min(bytes.length, Number(room))).set(bytes.subarray(0, Number(room)));
      return bytes.length > Number(room) ? -2n : BigInt(bytes.length);
    },
  };
  const page = {
    open(path, flags) {
      const file = name(path), bytes = files.get(file);
      if (!(flags & 1) && !bytes) return -1;
      const parts = [];
      if (flags & 1) written[file] = parts;
      open.set(next, { bytes, at: 0, parts });
      return next++;
    },
  };
  const { exports } = new WebAssembly.Instance(program, { env, page });
  memory = exports.memory;
  const status = exports.main(0, 0n);
  const join = (parts) => {
    const made = new Uint8Array(parts.reduce((size, it) => size + it.length, 0));
    parts.reduce((at, it) => (made.set(it, at), at + it.length), 0);
    return made;
  };
  const bytes = Object.fromEntries(Object.entries(written).map(([file, parts]) => [file, join(parts)]));
  const stored = Object.fromEntries(Object.entries(bytes).map(([file, it]) => [file, decoder.decode(it)]));
  const all = join(printed);
  return { status, text: decoder.decode(all), printed: all, stored, bytes };
};
