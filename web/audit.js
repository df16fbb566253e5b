// The page on which a sheet is audited, after common.js.

const GROWTH = 8; // bytes printed for a byte of a file, at most
const LEAST = 65536; // bytes of the room for what is printed
const SHOWN = 2000; // rows; more would make the page slow
const NAMED = 3; // wrong numbers
const VERDICTS = ["right", "wrong", "noMemory", "tooLong"];
const HASH = /^[0-9a-f]{64}$/;
// The fields of the lines that have a number, and of those that are declared, as the table has them
const NUMBERS = {
  of_user: "span user use unit text mark", cost: "span user use unit text", change: "span then user use unit text",
  weather: "span then user use text", mean: "span user use unit text", carbon: "span user use text",
  of_flat: "span flat use unit text mark", of_house: "span use unit text", shown: "span from to unit text mark",
  value: "run moment text unit",
};
const DECLARED = {
  price: "use unit span text", average: "use unit span text", factor: "use span text", co2: "use span text",
  degrees: "of span text", user: "user flat text", place: "place flat use text", as: "use type text",
};
const FIELDS = { ...NUMBERS, ...DECLARED };
const KINDS = Object.keys(FIELDS);
const UNITS = { change: () => "%", weather: () => "kWh", carbon: () => "kg", cost: () => "€", factor: () => "kWh", co2: () => "g/kWh", degrees: () => "",
  price: (unit) => `ct/${unit}`, average: (unit) => `${unit}/m²`, user: () => "m²", place: () => "", as: () => "" };
const MINUTE = 60_000; // milliseconds
const DAY = 1440 * MINUTE;
const ZONES = [Intl.DateTimeFormat().resolvedOptions().timeZone, "Europe/Berlin"];

const WORDS = {
  en: {
    title: "Audit a sheet", about: "Computes the numbers of a sheet again, from the telegrams in its audit file. Nothing leaves this page.",
    file: "The audit file, and the sheet (its page) to compare with it: choose them, or drop them on this page", input: "Or its text", audit: "Audit", other: "Deutsch", program: "What mbdc audit prints",
    proved: "The audit is the module of mbdc audit. It is proved that it says that all holds only of a file in which all holds, and that a sheet shows the "
      + "file's numbers only of one that does. This page's own words, the table of what is in the file, and the module's heap and translation are not proved.",
    refused: "This page needs Chrome or Edge 93, Firefox 92, Safari 15.4, or later.",
    right: (n) => (n === 1 ? "The number is right." : `All ${n} numbers are right.`),
    wrong: (n, all, which) => `${n} of ${all} numbers ${n === 1 ? "is" : "are"} wrong: ${which}.`,
    unproved: (n) => `${n} ${n === 1 ? "reading has" : "readings have"} no evidence.`,
    broken: (n, which) => `${n} ${n === 1 ? "rule is" : "rules are"} broken: ${which}.`,
    unreadable: (line, fault) => `Line ${line} can't be audited (${fault}), and nothing after it.`,
    sheet: "The sheet shows the file's numbers, and no others.",
    places: (n) => `${n} ${n === 1 ? "place of the sheet isn't" : "places of the sheet aren't"} the file's.`,
    noMemory: "The browser has no memory for this file.", tooLong: "Too much is printed of this file.", unread: "The file can't be read.",
    hash: (text) => `SHA-256 of the file: ${text}.`, same: "It is the file that the sheet names.", another: "It is not the file that the sheet names.",
    noHash: "not computed by this browser here", waiting: "Choose the file that the sheet names.",
    caption: (zone) => `What is in the file: compare it with the sheet. Times are those of ${zone}.`,
    computed: (text) => `computed: ${text}`,
    of: "Number", use: "Use", period: "Period", number: "Published", mark: "Mark", declared: "declared, not audited",
    more: (n) => `${n} more are not shown.`,
    kinds: { of_user: "consumption", of_flat: "flat", of_house: "house", shown: "place", mean: "average", change: "change", weather: "by the weather",
      carbon: "CO2", cost: "cost", value: "reading", factor: "factor", co2: "CO2 of a kWh", degrees: "degree days", price: "price", average: "average of a m²",
      user: "floor area", place: "weight", as: "device type" },
    marks: { measured: "measured", hand: "by a person", provisional: "provisional", estimated: "estimated", unclear: "unclear", disturbed: "disturbed", missing: "missing" },
  },
  de: {
    title: "Ein Blatt prüfen", about: "Rechnet die Zahlen eines Blatts aus den Telegrammen in seiner Prüfdatei nach. Nichts verlässt diese Seite.",
    file: "Die Prüfdatei, und das Blatt (seine Seite), um beide zu vergleichen: wählen, oder auf diese Seite ziehen", input: "Oder ihr Text", audit: "Prüfen", other: "English", program: "Was mbdc audit druckt",
    proved: "Die Prüfung ist das Modul von mbdc audit. Bewiesen ist, dass es nur von einer Datei sagt, alles stimme, in der alles stimmt, und dass ein Blatt die "
      + "Zahlen der Datei zeige, nur von einem, das es tut. Die Wörter dieser Seite, die Tabelle dessen, was in der Datei steht, Speicher und Übersetzung des Moduls sind nicht bewiesen.",
    refused: "Diese Seite braucht Chrome oder Edge 93, Firefox 92, Safari 15.4 oder neuer.",
    right: (n) => (n === 1 ? "Die Zahl stimmt." : `Alle ${n} Zahlen stimmen.`),
    wrong: (n, all, which) => `${n} von ${all} Zahlen ${n === 1 ? "ist" : "sind"} falsch: ${which}.`,
    unproved: (n) => `${n} ${n === 1 ? "Ablesung ist" : "Ablesungen sind"} nicht belegt.`,
    broken: (n, which) => `${n} ${n === 1 ? "Regel ist" : "Regeln sind"} verletzt: ${which}.`,
    unreadable: (line, fault) => `Zeile ${line} ist nicht prüfbar (${fault}), und nichts danach.`,
    sheet: "Das Blatt zeigt die Zahlen der Datei, und keine anderen.",
    places: (n) => `${n} ${n === 1 ? "Stelle des Blatts ist" : "Stellen des Blatts sind"} nicht die der Datei.`,
    noMemory: "Der Browser hat keinen Speicher für diese Datei.", tooLong: "Zu dieser Datei wird zu viel gedruckt.", unread: "Die Datei ist nicht lesbar.",
    hash: (text) => `SHA-256 der Datei: ${text}.`, same: "Es ist die Datei, die das Blatt nennt.", another: "Es ist nicht die Datei, die das Blatt nennt.",
    noHash: "von diesem Browser hier nicht berechnet", waiting: "Wählen Sie die Datei, die das Blatt nennt.",
    caption: (zone) => `Was in der Datei steht: mit dem Blatt vergleichen. Zeiten sind die von ${zone}.`,
    computed: (text) => `berechnet: ${text}`,
    of: "Zahl", use: "Nutzung", period: "Zeitraum", number: "Veröffentlicht", mark: "Merkmal", declared: "angegeben, nicht geprüft",
    more: (n) => `${n} weitere werden nicht gezeigt.`,
    kinds: { of_user: "Verbrauch", of_flat: "Wohnung", of_house: "Haus", shown: "Messstelle", mean: "Durchschnitt", change: "Änderung", weather: "nach dem Wetter",
      carbon: "CO2", cost: "Kosten", value: "Stand", factor: "Faktor", co2: "CO2 je kWh", degrees: "Gradtage", price: "Preis", average: "Durchschnitt je m²",
      user: "Wohnfläche", place: "Gewicht", as: "Geräteart" },
    marks: { measured: "gemessen", hand: "von einer Person", provisional: "vorläufig", estimated: "geschätzt", unclear: "unklar", disturbed: "gestört", missing: "fehlt" },
  },
};

// ---- the module

const memory = () => exported.memory.buffer;

// What a call of the module prints of these files, and its verdict.
function judged(call, ...files) {
  const room = GROWTH * files.reduce((sum, file) => sum + file.length, 0) + LEAST;
  const rooms = [...files.map((file) => file.length), room, 8].map((size) => exported.mbdc_take(BigInt(size)));
  let verdict = "noMemory";
  let printed = "";
  if (!rooms.includes(0n)) {
    const [to, size] = rooms.slice(files.length);
    files.forEach((file, n) => new Uint8Array(memory(), Number(rooms[n]), file.length).set(file));
    const given = files.flatMap((file, n) => [rooms[n], BigInt(file.length)]);
    verdict = VERDICTS[Number(call(...given, to, BigInt(room), size))];
    const count = Number(new DataView(memory()).getBigUint64(Number(size), true));
    printed = new TextDecoder().decode(new Uint8Array(memory(), Number(to), count));
  }
  rooms.filter((one) => one).forEach((one) => exported.mbdc_give(one));
  return { verdict, printed };
}

// ---- what is shown

let last = null; // the file that was audited, and what was found
let waiting = null; // a sheet whose file isn't there yet
let named = ""; // the hash that the sheet's link names
const local = (number) => (language === "de" ? number.replace(".", ",") : number);

// By how much a time zone is ahead of UTC at a moment.
function aheadOf(zone, moment) {
  const local = new Date(moment).toLocaleString("sv", { timeZone: zone });
  return Date.parse(`${local.replace(" ", "T")}Z`) - moment;
}

// The end of a day, by a clock of UTC.
const endOf = (day) => Date.parse(`${day}T00:00Z`) + DAY;

// The time zone of the house: one in which the days of the file's spans end when they say, else UTC.
function zoneOf(lines) {
  const ends = lines.filter((line) => line.startsWith("span,")).flatMap((line) => {
    const [, , from, ahead, to, then] = line.split(",");
    return [[endOf(from), ahead * MINUTE], [endOf(to), then * MINUTE]];
  });
  return ZONES.find((zone) => ends.every(([end, ahead]) => aheadOf(zone, end - ahead) === ahead)) ?? "UTC";
}

const shown = (moment, form) => (Number.isNaN(moment) ? "" : new Date(moment).toLocaleString(language, { dateStyle: "medium", ...form }));
const daysShown = (begin, end) => [begin, end - DAY].map((day) => shown(day, { timeZone: "UTC" })).join(" – ");
const momentShown = (seconds, zone) => shown(seconds * 1000, { timeStyle: "short", timeZone: zone });

// Days, where it begins and ends at midnight.
function periodShown(from, to, zone) {
  const [begin, end] = [from, to].map((seconds) => seconds * 1000 + aheadOf(zone, seconds * 1000));
  return begin % DAY || end % DAY ? `${momentShown(from, zone)} – ${momentShown(to, zone)}` : daysShown(begin, end);
}

// The numbers of a file, and what is declared there, a row for each.
function rowsOf(lines, zone) {
  const spans = new Map();
  const flats = new Map();
  const units = new Map(); // what each use counts
  const rows = [];
  let place = ["", ""];
  for (const [at, line] of lines.entries()) {
    const [kind, ...fields] = line.split(",");
    if (kind === "span") spans.set(fields[0], daysShown(endOf(fields[1]), endOf(fields[3])));
    if (kind === "user") flats.set(fields[0], fields[1]);
    if (kind === "place") place = fields.slice(1, 3);
    if (kind === "use") units.set(fields[0], fields[1]);
    // (only heat cost allocators have a weight)
    const isNothing = (kind === "user" && fields[2] === "-") || (kind === "place" && units.get(fields[2]) !== "units");
    if (!Object.hasOwn(FIELDS, kind) || isNothing) continue;
    const one = Object.fromEntries(FIELDS[kind].split(" ").map((name, n) => [name, fields[n] ?? ""]));
    const [flat, use] = kind === "shown" || kind === "value" ? place : [flats.get(one.user) ?? "", ""];
    const period = { shown: () => periodShown(one.from, one.to, zone), value: () => momentShown(one.moment, zone) }[kind];
    rows.push({
      line: at + 1, kind, of: one.flat ?? one.type ?? flat, use: one.use ?? use, period: period?.() ?? spans.get(one.span) ?? "", number: one.text,
      unit: (UNITS[kind]?.(one.unit) ?? one.unit).replace("m3", "m³"), mark: Object.hasOwn(DECLARED, kind) ? "declared" : one.mark ?? "",
    });
  }
  return rows.sort((one, other) => KINDS.indexOf(one.kind) - KINDS.indexOf(other.kind));
}

// A row, and by the audit what its number isn't.
function rowShown(row, wrong) {
  const words = WORDS[language];
  const [number, mark] = wrong.get(row.line)?.split(" ") ?? [];
  const marks = [row.mark === "declared" ? words.declared : words.marks[row.mark] ?? row.mark];
  if (number) marks.push(words.computed([local(number), words.marks[mark] ?? mark].join(" ")));
  const cells = [[words.of, `${words.kinds[row.kind]} ${row.of}`, "place"], [words.use, row.use, "whole"], [words.period, row.period, "whole"],
    [words.number, row.number === "-" ? "–" : `${row.kind === "as" ? row.number : local(row.number)} ${row.unit}`, "number"],
    [words.mark, marks.filter(Boolean).join("; "), "whole"]];
  return rowOf(cells, { class: number ? "bad" : "" });
}

function tableShown(rows, zone, wrong) {
  const columns = ["of", "use", "period", "number", "mark"].map((name) => [name, name === "number" ? "number" : "whole"]);
  return tableOf(WORDS[language].caption(zone), columns, rows.slice(0, SHOWN).map((row) => rowShown(row, wrong)));
}

// What the audit found, in a sentence or more: the rows with a wrong number, and the rules, by name.
function found({ verdict, printed }, wrong) {
  const words = WORDS[language];
  const [, line, fault] = /^LINE (\d+) FAULT \d+ (\w+)$/m.exec(printed) ?? [];
  const counts = /^numbers (\d+), differ (\d+), rules (\d+), readings \d+, refused (\d+)/m.exec(printed);
  if (line) return words.unreadable(line, fault);
  if (!counts) return words[verdict];
  const [all, differ, rules, refused] = counts.slice(1).map(Number);
  if (verdict === "right") return words.right(all);
  const names = wrong.slice(0, NAMED).map((row) => `${words.kinds[row.kind]} ${row.of} ${row.use}`.trim());
  const which = [...names, ...(wrong.length > NAMED ? [".."] : [])].join(", ");
  const broken = [...new Set(Array.from(printed.matchAll(/^RULE line \d+ (\w+):/gm), ([, name]) => name))].join(", ");
  return [...(differ ? [words.wrong(differ, all, which)] : []), ...(refused ? [words.unproved(refused)] : []),
    ...(rules ? [words.broken(rules, broken)] : [])].join(" ");
}

// What the comparison of a sheet found.
function comparison({ verdict, printed }) {
  const words = WORDS[language];
  const said = { right: words.sheet, wrong: words.places(printed.split("\n").length - 1) };
  return said[verdict] ?? words[verdict];
}

function show() {
  const words = WORDS[language];
  const lines = last.text.split("\n");
  const zone = zoneOf(lines);
  const rows = rowsOf(lines, zone);
  const differs = last.printed.matchAll(/^DIFFERS line (\d+): .*, computed (.*)$/gm);
  const wrong = new Map(Array.from(differs, ([, line, computed]) => [Number(line), computed]));
  const isAnother = named && last.hash && last.hash !== named;
  const { sheet } = last; // that is compared with it, if one is
  const compared = sheet ? judged(exported.mbdc_sheet, sheet, last.bytes) : { verdict: "right", printed: "" };
  const isFine = last.verdict === "right" && compared.verdict === "right" && !isAnother;
  const said = [isAnother ? words.another : "", found(last, rows.filter((row) => wrong.has(row.line))), sheet ? comparison(compared) : "",
    rows.length > SHOWN ? words.more(rows.length - SHOWN) : ""];
  $("said").textContent = said.filter(Boolean).join(" ");
  $("said").className = isFine ? "good" : "bad";
  $("printed").textContent = last.printed + compared.printed;
  $("program").open = !isFine;
  $("hash").textContent = words.hash(last.hash ?? words.noHash) + (last.hash && last.hash === named ? ` ${words.same}` : "");
  $("table").replaceChildren(tableShown(rows, zone, wrong));
  $("found").hidden = false;
}

// Audits the bytes of a file. (A browser computes hashes on secure pages alone.)
async function audit(bytes) {
  const digest = crypto.subtle ? new Uint8Array(await crypto.subtle.digest("SHA-256", bytes)) : null;
  const hash = digest && Array.from(digest, (byte) => byte.toString(16).padStart(2, "0")).join("");
  last = { text: new TextDecoder().decode(bytes), bytes, hash, sheet: waiting, ...judged(exported.mbdc_audit, bytes) };
  waiting = null;
  show();
}

// Takes an audit file, a sheet, or both.
async function auditFiles(files) {
  try {
    const texts = await Promise.all(Array.from(files, async (file) => new Uint8Array(await file.arrayBuffer())));
    const isSheet = (bytes) => bytes[0] === "<".charCodeAt(0);
    const [file, page] = [texts.find((bytes) => !isSheet(bytes)), texts.find(isSheet)];
    waiting = page ?? waiting;
    if (file) await audit(file);
    else if (last && page) {
      last.sheet = page;
      waiting = null;
      show();
    } else if (page) $("said").textContent = WORDS[language].waiting;
  } catch (fault) {
    if (!(fault instanceof DOMException)) throw fault;
    $("said").textContent = WORDS[language].unread;
  }
}

// ---- the page

function speakAnew() {
  speak();
  if (last) show();
  else if (named) $("said").textContent = WORDS[language].waiting;
}

// Takes the hash that is after the # of a sheet's link.
function openLink(text) {
  named = HASH.test(text) ? text : "";
  speakAnew();
}

async function main() {
  openLink(location.hash.slice(1));
  if (!await begins()) return;
  $("form").addEventListener("submit", (event) => { event.preventDefault(); audit(new TextEncoder().encode($("input").value)); });
  $("file").addEventListener("change", () => auditFiles($("file").files));
  addEventListener("dragover", (event) => event.preventDefault());
  addEventListener("drop", (event) => { event.preventDefault(); auditFiles(event.dataTransfer.files); });
  $("language").addEventListener("click", () => { language = language === "en" ? "de" : "en"; speakAnew(); });
  addEventListener("hashchange", () => openLink(location.hash.slice(1)));
  document.documentElement.dataset.ready = "yes";
}

main();
