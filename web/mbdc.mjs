// Link frames and telegrams of wired M-Bus (EN 13757-2, EN 13757-3) in bytes, decoded by libmbdc as a WebAssembly module.
// For browsers and Node 18 or later. mbdc.d.ts has the types.

const PAGE = 65536; // bytes
const KINDS = ["none", "ack", "short", "long"];
// library/mbdc.h: results, a table, the bytes of mbdc_frame, mbdc_head and mbdc_record, and the numbers in these
const [DONE, FAULT, FRAME_FAULTS] = [0, 16, 14];
const [FRAME, HEAD, RECORD] = [56, 96, 288];
const [FIRST, NEXT] = [11, 17];
const EMPTY = 1; // the fault of no byte
const ENCRYPTED = FAULT + 3;
const FIXED_DATA = 0x73; // a CI field, after which there are no fillers
const FILLER = 0x2F;

const url = new URL("./mbdc.wasm", import.meta.url);
const source = url.protocol === "file:" ? (await import("node:fs/promises")).readFile(url) : fetch(url).then((it) => it.arrayBuffer());
const { memory, ...library } = (await WebAssembly.instantiate(await source, {})).instance.exports;
const BASE = memory.buffer.byteLength; // the bytes whose frames are read lie after the module's own memory
let after = BASE; // and what a call takes and writes besides lies after them

// Memory of so many bytes for a call.
function room(size) {
  const missing = after + size - memory.buffer.byteLength;
  if (missing > 0) memory.grow(Math.ceil(missing / PAGE));
  return new Uint8Array(memory.buffer, after, size);
}

const aligned = (size) => Math.ceil(size / 8) * 8;

// The numbers of a struct at a place of the memory.
const numbers = (at, size) => Array.from(new BigUint64Array(memory.buffer.slice(at, at + size)), Number);

function call(name, ...given) {
  return Number(BigInt.asUintN(64, library[`mbdc_${name}`](...given.map(BigInt))));
}

// What a call writes as text, after so many bytes of which it takes its own.
function textOf(taken, name, ...given) {
  for (let size = PAGE; ; size *= 4) {
    room(taken + size);
    const count = call(name, ...given, after + taken, size);
    if (count <= size) return new TextDecoder().decode(new Uint8Array(memory.buffer, after + taken, count));
  }
}

/** Bytes that are no frame, or a frame whose body can't be read to its end. */
export class TelegramFault extends Error {
  constructor(at, place, number, fault) {
    super(`byte ${at}: ${place} fault ${number} ${fault}`);
    Object.assign(this, { name: "TelegramFault", at, place, number, fault });
  }
}

const frameFault = (at, number) => new TelegramFault(at, "frame", number, textOf(0, "name", FRAME_FAULTS, number));

// The place in a body at which its records end.
function endOf(ci, body) {
  const head = after + aligned(body.length);
  const record = head + HEAD;
  room(record + RECORD - after).set(body);
  call("header", ci, after, body.length, head);
  let at = numbers(head, HEAD)[FIRST];
  let result;
  while ((result = call("next_record", ci, after, body.length, at, record)) === DONE) at = numbers(record, RECORD)[NEXT];
  while (ci !== FIXED_DATA && result !== ENCRYPTED && body[at] === FILLER) at++;
  return Math.min(at, body.length);
}

// A long frame, by what `mbdc decode --json` says of it.
function longFrame(bytes, frame, ci, bodyAt, bodySize) {
  const digits = new TextEncoder().encode(Array.from(bytes, (it) => it.toString(16).padStart(2, "0")).join(""));
  room(digits.length).set(digits);
  const object = JSON.parse(textOf(digits.length, "decode_json", after, digits.length));
  const content = object.content ?? object;
  const telegram = "records" in content ? content : null;
  const { kind, number, name } = content.fault ?? {};
  const body = bytes.slice(bodyAt, bodyAt + bodySize);
  const fault = kind ? new TelegramFault(frame.at + bodyAt + endOf(ci, body), kind, number, name) : null;
  const { meter, access, status, records, more, manufacturer_data } = telegram ?? {};
  return { ...frame, ci, body, telegram: telegram && { meter, access, status, records, more, manufacturer_data }, fault };
}

// The frame at a place.
function frameAt(bytes, at) {
  room(FRAME);
  const result = call("next_frame", BASE, bytes.length, at, after);
  const [kind, control, address, ci, bodyAt, bodySize, next] = numbers(after, FRAME);
  const frame = { at, size: next - at, kind: KINDS[kind], control: null, address: null, ci: null, body: null, telegram: null, fault: null };
  if (result !== DONE) {
    return { ...frame, kind: KINDS[0], fault: frameFault(at, result - FAULT) };
  }
  if (kind < 2) return frame;
  const addressed = { ...frame, control, address };
  return kind === 2 ? addressed : longFrame(bytes.slice(at, next), addressed, ci, bodyAt - at, bodySize);
}

/** The frames in a row of bytes, in order. */
export function frames(bytes, { strict = true } = {}) {
  if (!(bytes instanceof Uint8Array)) throw new TypeError("frames takes a Uint8Array");
  after = BASE;
  room(bytes.length).set(bytes);
  after += aligned(bytes.length);
  if (strict && !bytes.length) throw frameFault(0, EMPTY);
  const found = [];
  for (let at = 0; at < bytes.length; ) {
    const frame = frameAt(bytes, at);
    if (strict && frame.fault) throw frame.fault;
    found.push(frame);
    at += frame.size;
  }
  return found;
}
