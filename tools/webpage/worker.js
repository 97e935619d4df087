// The proved call in a worker of its own: a fresh instance of its module for each run, which sees no other's memory.
"use strict";

let compiling = null;

const place = (big) => Number(BigInt.asUintN(32, big));

/** Puts the parts of an input one behind the other into the module's memory: bytes, or a number of zeros. */
function put(wasm, parts) {
  const length = parts.reduce((sum, part) => sum + (part.zeros ?? part.length), 0);
  const at = place(wasm.page_room(BigInt(length || 1)));
  if (!at) return null;
  const memory = new Uint8Array(wasm.memory.buffer);
  let to = at;
  for (const part of parts) {
    // fresh memory is zero already
    if (part.zeros === undefined) memory.set(part, to);
    to += part.zeros ?? part.length;
  }
  return { at: BigInt(at), length: BigInt(length) };
}

/** The module, which comes deflated. */
async function compile(deflated) {
  const stream = new Blob([deflated]).stream().pipeThrough(new DecompressionStream("deflate-raw"));
  return WebAssembly.compile(await new Response(stream).arrayBuffer());
}

function ran(compiled, words, parts) {
  const wasm = new WebAssembly.Instance(compiled, {}).exports;
  const line = put(wasm, [new TextEncoder().encode(words)]), input = put(wasm, parts);
  if (!line || !input) return { status: 6, out: new Uint8Array(0), err: "armcaps: want of memory" };
  const status = wasm.page_run(line.at, line.length, input.at, input.length);
  const memory = new Uint8Array(wasm.memory.buffer);
  const bytes = (at, length) => memory.slice(place(at), place(at) + Number(length));
  const out = bytes(wasm.page_out(), wasm.page_out_len()), err = bytes(wasm.page_err(), wasm.page_err_len());
  return { status, out, err: new TextDecoder().decode(err).trimEnd() };
}

onmessage = async ({ data }) => {
  if (data.module) {
    compiling = compile(data.module);
    return;
  }
  try {
    const answer = ran(await compiling, data.words, data.parts);
    postMessage({ id: data.id, ...answer }, [answer.out.buffer]);
  } catch (fault) {
    const err = `the browser ended the run: ${fault.message}`;
    postMessage({ id: data.id, status: null, out: new Uint8Array(0), err });
  }
};
