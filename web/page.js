// The page of the decoder, after common.js.

const SHOWN = 200; // frames; more would make the page slow
const MOST_LINE = 4096; // characters of a line that the decoder takes
const MOST_MARKS = 10; // characters that are named where they are left out
const PAGE = 65536; // bytes of a page of the module's memory
const TRUNCATED = 3; // the fault of a frame that goes on
const BODY = 7; // the place of a long frame's body, which two bytes follow
const [CI_FIXED, FILLER] = [0x73, 0x2F];
const PLAIN_TEXT = 0xFC; // the VIF of a unit in plain text with VIFEs
const PLAIN_TEXT_EXTENSION = 8; // what the register says of it, though its records are read
// library/mbdc.h: results, the numbers of mbdc_frame, mbdc_head and mbdc_record, and the places of some
const [DONE, ENCRYPTED] = [0, 19];
const [FRAME, HEAD, RECORD] = [7, 12, 36];
const [NEXT_FRAME, FIRST, VIB, DATA, NEXT] = [6, 11, 7, 9, 17];

const WORDS = {
  en: {
    title: "M-Bus decoder", about: "Paste frames or telegrams of wired M-Bus in hex digits. Nothing leaves this page.",
    input: "Hex digits, one or more frames a line", joined: "The lines belong together", decode: "Decode",
    csv: "Copy as CSV", json: "Copy as JSON", link: "Copy link", other: "Deutsch",
    proved: "The decoder in this page is proved: it prints what the definitions of mbdc say for each input, byte for byte. "
      + "This page's own words, and the module's translation, are not.",
    refused: "This page needs Chrome or Edge 93, Firefox 92, Safari 15.4, or later.",
    frames: (n, bad) => `${n} ${n === 1 ? "frame" : "frames"}, ${bad} with a fault.`, nothing: "There are no digits.",
    cleaned: (what) => `Left out: ${what}.`, more: (n) => `${n} more are not shown; the copies have them.`, copied: "Copied.",
    notCopied: "The browser doesn't allow copying.", line: "Line", control: "Control field", address: "Address", ci: "CI field",
    access: "Access number", status: "Status", more_follow: "More records follow in the next telegram",
    maker: "Manufacturer's data", makerBytes: "manufacturer's", records: "Records", name: "Name", value: "Value", unit: "Unit", storage: "Storage", tariff: "Tariff",
    subunit: "Subunit", function: "Function", body: "Body", bytes: "Bytes", fault: "Fault", place: "Place", byte: (n) => `byte ${n}`,
    expected: "Expected", structure: "Structure", security: "Security mode", reason: "Reason",
    ack: "Acknowledgement", short: "Short frame", long: "Long frame", none: "No frame",
    power: "power low", permanent: "permanent error", temporary: "temporary error", bits: (n) => `manufacturer bits ${n}`,
    noValue: "no value", notRead: "not decoded", joinHint: "Do the lines belong together? Then tick the box above.",
    chars: { return: "carriage returns", prefix: "0x", tab: "tabs", mark: "the characters" },
    want: {
      frame1: "a frame", frame2: "E5, 10 or 68", frame3: "more bytes of the frame", frame4: "two equal lengths of 3 or more, and 68 again",
      frame5: "no byte after the frame", frame6: "16", frame7: "the sum of the bytes before it", body1: "a header of 12 bytes",
      body2: "eight digits and three letters", body3: "security mode 0 (the telegram is encrypted)", body4: "a DIF that isn't reserved",
      body5: "a record of at most ten DIFEs", body6: "a record of at most ten VIFEs", body7: "a record with a length byte below F0",
      body8: "a record whose VIF isn't FC", body9: "a whole record", hex1: "pairs of hex digits, at most 4,096 characters a line",
    },
  },
  de: {
    title: "M-Bus-Decoder", about: "Rahmen oder Telegramme des drahtgebundenen M-Bus als Hexziffern einfügen. Nichts verlässt diese Seite.",
    input: "Hexziffern, je Zeile ein Rahmen oder mehrere", joined: "Die Zeilen gehören zusammen", decode: "Dekodieren",
    csv: "Als CSV kopieren", json: "Als JSON kopieren", link: "Link kopieren", other: "English",
    proved: "Der Decoder dieser Seite ist bewiesen: Er schreibt zu jeder Eingabe Byte für Byte, was die Definitionen von mbdc sagen. "
      + "Die Wörter dieser Seite und die Übersetzung des Moduls sind es nicht. Die Namen der Codes sind englisch, wie in mbdc.",
    refused: "Diese Seite braucht Chrome oder Edge 93, Firefox 92, Safari 15.4 oder neuer.",
    frames: (n, bad) => `${n} Rahmen, davon ${bad} mit Fehler.`, nothing: "Es gibt keine Ziffern.",
    cleaned: (what) => `Weggelassen: ${what}.`, more: (n) => `${n} weitere werden nicht gezeigt; die Kopien enthalten sie.`, copied: "Kopiert.",
    notCopied: "Der Browser erlaubt das Kopieren nicht.", line: "Zeile", control: "C-Feld", address: "Adresse", ci: "CI-Feld",
    access: "Zugriffsnummer", status: "Status", more_follow: "Weitere Datensätze folgen im nächsten Telegramm",
    maker: "Herstellerdaten", makerBytes: "des Herstellers", records: "Datensätze", name: "Name", value: "Wert", unit: "Einheit", storage: "Speicher", tariff: "Tarif",
    subunit: "Untereinheit", function: "Funktion", body: "Nutzdaten", bytes: "Bytes", fault: "Fehler", place: "Stelle", byte: (n) => `Byte ${n}`,
    expected: "Erwartet", structure: "Struktur", security: "Sicherheitsmodus", reason: "Grund",
    ack: "Quittung", short: "Kurzrahmen", long: "Langrahmen", none: "Kein Rahmen",
    power: "Batterie schwach", permanent: "dauerhafter Fehler", temporary: "vorübergehender Fehler", bits: (n) => `Herstellerbits ${n}`,
    noValue: "kein Wert", notRead: "nicht dekodiert", joinHint: "Gehören die Zeilen zusammen? Dann oben ankreuzen.",
    chars: { return: "Wagenrückläufe", prefix: "0x", tab: "Tabulatoren", mark: "die Zeichen" },
    want: {
      frame1: "ein Rahmen", frame2: "E5, 10 oder 68", frame3: "weitere Bytes des Rahmens", frame4: "zwei gleiche Längen ab 3, dann wieder 68",
      frame5: "kein Byte nach dem Rahmen", frame6: "16", frame7: "die Summe der Bytes davor", body1: "ein Kopf von 12 Bytes",
      body2: "acht Ziffern und drei Buchstaben", body3: "Sicherheitsmodus 0 (das Telegramm ist verschlüsselt)", body4: "ein DIF, das nicht reserviert ist",
      body5: "ein Datensatz mit höchstens zehn DIFE", body6: "ein Datensatz mit höchstens zehn VIFE", body7: "ein Datensatz mit Längenbyte unter F0",
      body8: "ein Datensatz, dessen VIF nicht FC ist", body9: "ein ganzer Datensatz", hex1: "Paare von Hexziffern, höchstens 4096 Zeichen je Zeile",
    },
  },
};

// ---- the decoder

let base = 0; // the length of the module's own memory

// Puts an input after the module's own memory, and returns the place after it, from which on there is so much room.
function putInput(input, room) {
  const after = base + Math.ceil(input.length / 8) * 8;
  const missing = after + room - exported.memory.buffer.byteLength;
  if (missing > 0) exported.memory.grow(Math.ceil(missing / PAGE));
  new Uint8Array(exported.memory.buffer, base, input.length).set(input);
  return after;
}

const call = (name, ...given) => Number(BigInt.asUintN(64, exported[`mbdc_${name}`](...given.map(BigInt))));

function numbersAt(place, count) {
  return Array.from(new BigUint64Array(exported.memory.buffer.slice(place, place + 8 * count)), Number);
}

// What a call of the decoder writes for an input of bytes.
function writtenBy(name, input) {
  for (let room = PAGE; ; room *= 4) {
    const after = putInput(input, room);
    const count = call(name, base, input.length, after, room);
    if (count <= room) return new TextDecoder().decode(new Uint8Array(exported.memory.buffer, after, count));
  }
}

// The lines of `mbdc decode` and of `mbdc decode --json`.
const textOf = (input) => writtenBy("decode_text", input);
const jsonOf = (input) => writtenBy("decode_json", input);

const encoder = new TextEncoder();
const hexOf = (bytes) => Array.from(bytes, (byte) => byte.toString(16).toUpperCase().padStart(2, "0")).join("");
const bytesOf = (digits) => Uint8Array.from(digits.match(/../g) ?? [], (pair) => parseInt(pair, 16));

// ---- the objects of `mbdc decode --json`, and the bytes of each

// The texts that the decoder reads as frames in a line's bytes.
function splitFrames(bytes) {
  const texts = [];
  const out = putInput(bytes, 8 * FRAME);
  for (let at = 0; at < bytes.length;) {
    call("next_frame", base, bytes.length, at, out);
    const next = numbersAt(out, FRAME)[NEXT_FRAME];
    texts.push(bytes.slice(at, next));
    at = next;
  }
  return texts;
}

// The bytes of each object of a line. A line of spaces alone has none, and one at fault has no bytes.
function textsOf(line, isHexFault) {
  const digits = line.replaceAll(" ", "");
  if (digits === "" && line.length <= MOST_LINE) return [];
  return isHexFault ? [new Uint8Array()] : splitFrames(bytesOf(digits));
}

// The objects of all lines, by one call of the decoder, and the bytes of each.
function decodeLines(lines) {
  const objects = jsonOf(encoder.encode(lines.join("\n"))).split("\n").slice(0, -1).map((one) => JSON.parse(one));
  let next = 0;
  const found = lines.flatMap((line, n) => textsOf(line, objects[next]?.fault?.kind === "hex").map((text) => {
    const object = objects[next++];
    if (object?.line !== n + 1) throw new Error("the frames of a line weren't split as the decoder does");
    return { object, text };
  }));
  if (next !== objects.length) throw new Error("the frames of a line weren't split as the decoder does");
  return found;
}

// ---- what people paste

// What is left out, and what stands in its place: punctuation, symbols, and spaces of other kinds can't be meant.
const CLEANED = [
  ["return", /\r/g, ""], ["prefix", /0[xX](?=[0-9A-Fa-f]{2})/g, " "], ["tab", /\t/g, " "],
  ["mark", /(?![ \n])[\p{P}\p{S}\p{Z}\p{Cf}]/gu, " "],
];

// A character as a reader sees it, or its code where there is nothing to see.
const seen = (mark) => (/[\p{P}\p{S}]/u.test(mark) ? mark : `U+${mark.codePointAt(0).toString(16).toUpperCase().padStart(4, "0")}`);

function marksLeft(marks) {
  const named = Array.from(marks).slice(0, MOST_MARKS).map(seen);
  return `${WORDS[language].chars.mark} ${named.join(" ")}${marks.size > MOST_MARKS ? " ..." : ""}`;
}

// The input without what the decoder refuses and what can't be meant, and what was left out.
function clean(text) {
  const left = [];
  let kept = text;
  for (const [name, found, instead] of CLEANED) {
    const marks = new Set(kept.match(found) ?? []);
    if (!marks.size) continue;
    left.push(name === "mark" ? marksLeft(marks) : WORDS[language].chars[name]);
    kept = kept.replace(found, instead);
  }
  const lines = kept.split("\n").map((line) => (line.length > MOST_LINE ? line.replaceAll(" ", "") : line));
  return { lines: lines.at(-1) === "" ? lines.slice(0, -1) : lines, left };
}

// ---- the places of fields and faults

// First byte and end of each record in a long frame, the byte at which they end, and the first record with such a unit.
function walked(text) {
  const [ci, body] = [text[BODY - 1], text.slice(BODY, -2)];
  const out = putInput(body, 8 * RECORD);
  const found = { spans: [], end: BODY, plain: null };
  if (call("header", ci, base, body.length, out) !== DONE) return found;
  for (let at = numbersAt(out, HEAD)[FIRST]; ;) {
    const result = call("next_record", ci, base, body.length, at, out);
    while (body[at] === FILLER && ci !== CI_FIXED && result !== ENCRYPTED) at++;
    found.end = BODY + Math.min(at, body.length);
    if (result !== DONE) return found;
    const record = numbersAt(out, RECORD);
    if (body[record[VIB]] === PLAIN_TEXT) found.plain ??= found.end;
    found.spans.push([BODY + (ci === CI_FIXED ? record[DATA] : at), BODY + record[NEXT]]);
    at = record[NEXT];
  }
}

const faultOf = (object) => object.fault ?? object.content?.fault ?? null;

// Where a fault lies, in bytes from the frame's first; null of a line that isn't hex.
function placeOf({ kind, number }, text, { end, plain }) {
  const last = Math.max(text.length - 1, 0);
  const body = number === PLAIN_TEXT_EXTENSION ? plain : end;
  return { hex: null, body, frame: [0, 0, 0, text.length, 1, last, last, Math.max(last - 1, 0)][number] }[kind];
}

// ---- what is shown

let shown = [];

function put(list, name, value, kind = "") {
  list.append(element("dt", name), element("dd", value, kind ? { class: kind } : {}));
}

function statusWords(status) {
  const words = WORDS[language];
  const set = [[status.power_low, words.power], [status.permanent_error, words.permanent], [status.temporary_error, words.temporary]];
  const bits = status.manufacturer_bits ? [words.bits(status.manufacturer_bits)] : [];
  return [status.application, ...set.filter((one) => one[0]).map((one) => one[1]), ...bits].join(", ");
}

// The bytes of a frame, those of each record in an element of its own, and these elements.
function bytesShown(text, spans, place) {
  const shownBytes = element("div", null, { class: "bytes", role: "group", "aria-label": WORDS[language].bytes });
  const parts = spans.map(() => element("span", null));
  let at = 0;
  let last = shownBytes;
  text.forEach((byte, n) => {
    while (at < spans.length && n >= spans[at][1]) at++;
    const inside = at < spans.length && n >= spans[at][0] ? parts[at] : shownBytes;
    // (the space before a record isn't the record's)
    if (n) (inside === last ? inside : shownBytes).append(" ");
    if (inside !== shownBytes && !inside.parentNode) shownBytes.append(inside);
    inside.append(n === place ? element("span", hexOf([byte]), { class: "here" }) : hexOf([byte]));
    last = inside;
  });
  return [shownBytes, parts];
}

// A text from a meter, with a point for each control character.
const printable = (text) => text.replace(/\p{Cc}/gu, ".");

// What a record is of: its quantity, its VIFEs, a manufacturer's bytes, the text of a unit in plain text.
function nameOf(record) {
  const maker = record.maker === null ? [] : [`${WORDS[language].makerBytes} ${record.maker}`.trim()];
  const label = record.label === null ? [] : [`"${printable(record.label)}"`];
  return [record.quantity, ...record.qualifiers, ...maker, ...label];
}

function recordRow(record, part) {
  const words = WORDS[language];
  const none = record.error === null ? words.noValue : `${words.noValue} (${record.error})`;
  const value = record.value === null ? (record.reading === "other" ? `${words.notRead}: ${record.data}` : none) : printable(record.value);
  const cells = [
    [words.name, nameOf(record).join(", ")], [words.value, value, "number value"], [words.unit, printable(record.unit ?? "")],
    [words.storage, record.storage, "number"], [words.tariff, record.tariff, "number"], [words.subunit, record.subunit, "number"],
    [words.function, record.function],
  ];
  const row = rowOf(cells);
  const light = (is) => () => part?.classList.toggle("lit", is);
  for (const [event, is] of [["mouseenter", true], ["focus", true], ["mouseleave", false], ["blur", false]]) row.addEventListener(event, light(is));
  return row;
}

function recordTable(records, parts) {
  const columns = [["name"], ["value", "number value"], ["unit"], ["storage", "number"], ["tariff", "number"], ["subunit", "number"], ["function"]];
  return tableOf(WORDS[language].records, columns, records.map((record, n) => recordRow(record, parts[n])));
}

// A telegram, or what another body says that the register refuses: a header may lack a meter.
function putTelegram(list, object) {
  const words = WORDS[language];
  if (object.structure) put(list, words.structure, object.structure);
  if (object.security) put(list, words.security, `${object.security.mode} ${object.security.name}`);
  if (object.access !== null) put(list, words.access, object.access);
  if (object.status) put(list, words.status, statusWords(object.status), object.status.code ? "bad" : "");
  if (object.more) put(list, words.status, words.more_follow);
  if (object.manufacturer_data !== null) put(list, words.maker, object.manufacturer_data || "-");
  if (object.reason) put(list, words.reason, object.reason);
}

function faultShown(fault, place) {
  const words = WORDS[language];
  const list = element("dl", null);
  put(list, words.fault, `${fault.number} ${fault.name}`, "bad");
  if (place !== null) put(list, words.place, words.byte(place));
  put(list, words.expected, words.want[fault.kind + fault.number] ?? "");
  return list;
}

// A frame: whose it is and what is wrong, its records and their bytes, and the rest.
function frameShown({ object, text }) {
  const words = WORDS[language];
  const article = element("article", null);
  const list = element("dl", null);
  const content = object.content ?? object;
  const { id, number, medium } = content.meter ?? {};
  const walk = object.frame === "long" ? walked(text) : { spans: [] };
  const fault = faultOf(object);
  const place = fault && placeOf(fault, text, walk);
  const [bytes, parts] = bytesShown(text, walk.spans, place);
  const meter = content.meter ? `, ${id ?? number}, ${medium}` : "";
  article.append(element("h2", `${words.line} ${object.line}: ${words[object.frame]}${meter}`));
  if (fault) article.append(faultShown(fault, place));
  if (content.records?.length) article.append(recordTable(content.records, parts));
  if (text.length) article.append(bytes);
  if (object.control_name) put(list, words.control, `${hexOf([object.control])} ${object.control_name}`);
  if (object.control_name) put(list, words.address, object.address);
  if (object.ci_name) put(list, words.ci, `${hexOf([object.ci])} ${object.ci_name}`);
  if ("records" in content) putTelegram(list, content);
  article.append(list);
  return article;
}

function decodeAll(input) {
  const { lines, left } = clean(input);
  const joined = $("joined").checked ? [lines.join(" ").replaceAll(" ", "")] : lines;
  return { found: decodeLines(joined), left, count: lines.length };
}

function show() {
  const words = WORDS[language];
  const { found, left, count } = decodeAll($("input").value);
  const bad = found.filter((one) => faultOf(one.object)).length;
  const said = [found.length ? words.frames(found.length, bad) : words.nothing];
  if (left.length) said.push(words.cleaned(left.join(", ")));
  if (found.length > SHOWN) said.push(words.more(found.length - SHOWN));
  // (a frame over several lines is truncated in its first one)
  const isCut = found.some((one) => one.object.fault?.kind === "frame" && one.object.fault.number === TRUNCATED);
  if (isCut && count > 1 && !$("joined").checked) said.push(words.joinHint);
  shown = found.map((one) => one.object);
  $("frames").replaceChildren(...found.slice(0, SHOWN).map(frameShown));
  $("said").textContent = said.join(" ");
}

// ---- copies

const READ = ["type", "error", "phase", "direction", "maker", "label", "summer_time"];  // fields of a record, at the end

const cell = (value) => (/[",\n]|^[=+@]/.test(value) ? `"${value.replaceAll('"', '""')}"` : value);

function csv() {
  const rows = [["line", "meter", "medium", "name", "value", "unit", "storage", "tariff", "subunit", "function", "vib", "data", "fault", ...READ]];
  for (const one of shown) {
    const { id, number, medium } = one.meter ?? one.content?.meter ?? { id: "", medium: "" };
    for (const r of one.records ?? one.content?.records ?? []) {
      const name = [r.quantity, ...r.qualifiers].join("; ");
      rows.push([one.line, id ?? number, medium, name, r.value ?? "", r.unit ?? "", r.storage, r.tariff, r.subunit, r.function, r.vib, r.data, "",
        ...READ.map((field) => r[field] ?? "")]);
    }
    const fault = faultOf(one);
    if (fault) rows.push([one.line, ...Array(11).fill(""), `${fault.kind} ${fault.number} ${fault.name}`, ...READ.map(() => "")]);
  }
  return rows.map((row) => row.map((value) => cell(String(value))).join(",") + "\r\n").join("");
}

const json = () => shown.map((one) => JSON.stringify(one) + "\n").join("");
const link = () => `${location.href.split("#")[0]}#${encodeURIComponent($("input").value.trim())}`;

async function copy(text) {
  try {
    await navigator.clipboard.writeText(text);
    $("said").textContent = WORDS[language].copied;
  } catch {
    $("said").textContent = WORDS[language].notCopied;
  }
}

// ---- the page

function openLink() {
  let text = location.hash.slice(1);
  try {
    text = decodeURIComponent(text);
  } catch {
    // the text as it is
  }
  if (text) {
    $("input").value = text;
    show();
  }
}

async function main() {
  speak();
  if (!await begins()) return;
  base = exported.memory.buffer.byteLength;
  $("form").addEventListener("submit", (event) => { event.preventDefault(); show(); });
  $("joined").addEventListener("change", show);
  $("csv").addEventListener("click", () => copy(csv()));
  $("json").addEventListener("click", () => copy(json()));
  $("link").addEventListener("click", () => copy(link()));
  $("language").addEventListener("click", () => { language = language === "en" ? "de" : "en"; speak(); if (shown.length) show(); });
  addEventListener("hashchange", openLink);
  openLink();
  document.documentElement.dataset.ready = "yes";
}

main();
