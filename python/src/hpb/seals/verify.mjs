// A second checker of a bundle, apart from the Python package: record, seals, stamps, receipts, definition and file, offline.
//
//     node verify.mjs BUNDLE
//
// It needs Node 18 or later, state.mjs beside it, and `openssl` for stamps alone. Of each finding it prints `FOUND`, a word and the number of the
// entry, with the words of docs/VERIFY.md. It ends with 0 if all is right, with 1 if something isn't, and with 2 if something can't be read. It
// looks at commands by their numbers and tickets alone: `hpb-verify` says, too, whether the rules and the rights of their senders allow them.
import { createHash, createPublicKey, verify } from "node:crypto";
import { execFileSync } from "node:child_process";
import { existsSync, mkdtempSync, readdirSync, readFileSync, rmSync, writeFileSync } from "node:fs";
import { tmpdir } from "node:os";
import { join } from "node:path";
import { Auction, canonical, read } from "./state.mjs";

const folder = process.argv[2] ?? ".", at = (name) => join(folder, name), has = (name) => existsSync(at(name));
const text = (name) => readFileSync(at(name), "latin1"), latin = (line) => Buffer.from(line, "latin1"), ASCII = /^[\0-\x7f]*$/;
const sha = (...parts) => parts.reduce((hash, part) => hash.update(part), createHash("sha256")).digest();
const hex = (buffer) => buffer.toString("hex"), bytes = (digits) => Buffer.from(digits, "hex"), hashOf = (line) => hex(sha(latin(line)));
const leaf = (data) => sha(Buffer.from([0]), data), node = (left, right) => sha(Buffer.from([1]), left, right);
const findings = new Set();
let count = 0;
const found = (word, entry) => { findings.add(`${word} ${entry}`), count++, console.log(`FOUND ${word} ${entry}`); };
const stop = (why) => { console.error(`verify.mjs: ${why}`), process.exit(2); };
const given = (name, take) => { try { return take(text(name)); } catch (fault) { return stop(`${name}: ${fault.message}`); } };
const need = (isRight, why) => { if (!isRight) throw new Error(why); };

// The record: its segments, and their lines up to the first that isn't as a front writes it.
const STATE = ["names", "count", "foreign", "used", "open"];
const entries = [], hashes = [], NONE = "0".repeat(64), NAME = "auction.record", nameOf = (number) => (number === 1 ? NAME : `${NAME}.${number}`);
function entryOf(line) {
  try { return ASCII.test(line) && line[64] === " " && hashOf(line.slice(65)) === line.slice(0, 64) ? JSON.parse(line.slice(65)) : null; } catch { return null; }
}
function isEntry(entry) {
  const isCommand = entry?.kind === "accepted", isText = (field) => typeof entry[field] === "string";
  return Object(entry) === entry && ["entry", "before", "at", "kind"].every((field) => field in entry) && (!isCommand || ["name", "line", "answer"].every(isText));
}
function readSegment(name) {
  const lines = text(name).split("\n"), rest = lines.pop();
  for (const line of rest ? [...lines, null] : lines) {
    const number = entries.length + 1, entry = line === null || line.length >= 2e6 ? null : entryOf(line);
    if (line === null && rest.length < 2e6) return found("cut", number), false;
    if (!isEntry(entry)) return found("changed", number), false;
    if (entry.entry !== number) return found("order", number), false;
    if (entry.before !== (hashes.at(-1) ?? NONE)) return found("before", number), false;
    entries.push(entry), hashes.push(line.slice(0, 64));
  }
  return true;
}
function readRecord() {
  const there = new Set(readdirSync(folder).map((name) => /^auction\.record(?:\.([2-9]|[1-9][0-9]+))?$/.exec(name)).filter(Boolean).map((one) => Number(one[1] ?? 1)));
  const isSegment = (number) => number === 1 || ((head) => head?.kind === "begin" && head.segment === number)(entryOf(text(nameOf(number)).split("\n")[0]));
  const known = new Set([...there].filter(isSegment)), last = Math.max(0, ...known), numbers = [...Array(last).keys()].map((one) => one + 1);
  if (!there.size) return found("record", 0), false;
  if (!numbers.every((one) => known.has(one)) || there.has(Math.max(last, 1) + 1)) return found("segment", 0), false;
  if (!numbers.map(nameOf).every(readSegment)) return false;
  if (!(entries[0]?.kind === "begin" && "definition" in entries[0])) return (entries.length = hashes.length = 0), found("record", 0), false;
  const { form, state } = entries[0], isBegun = form === 1 || (form === 2 && "segment" in entries[0] && STATE.every((one) => one in Object(state)));
  return (isBegun && numbers.every(isJoined)) || (found("segment", 0), false);
}
function isJoined(number) { // A segment ends with an entry `sealed`, and the next one begins with the sum of the whole file before it.
  const lines = text(nameOf(number)).split("\n").slice(0, -1), own = lines.map((line) => JSON.parse(line.slice(65)));
  const length = lines.slice(0, -1).join("\n").length + (lines.length > 1 ? 1 : 0), seal = own.at(-1);
  if (own.slice(0, -1).some((entry) => entry.kind === "sealed")) return false;
  if (seal.kind === "sealed" && (seal.bytes !== length || seal.sha256 !== hashOf(`${lines.slice(0, -1).join("\n")}\n`))) return false;
  if (number === 1) return true;
  const before = text(nameOf(number - 1)), [head] = own, end = JSON.parse(before.trimEnd().split("\n").at(-1).slice(65));
  const isBehind = head.behind?.bytes === before.length && head.behind.sha256 === hashOf(before);
  const isEnded = end.kind === "sealed" || entries[0].form === 1;
  return head.kind === "begin" && head.form === 2 && head.segment === number && isEnded && isBehind && JSON.stringify(head.definition) === definition();
}
const definition = () => JSON.stringify(entries[0].definition);
const isWhole = readRecord(), isThere = entries.length > 0;

// The definition and the commands: null if they aren't those of an auction, as far as their form shows it.
let auction = null;
if (isThere) try {
  need(canonical(entries[0].definition) === definition(), "it isn't in its form"), (auction = new Auction(entries[0].definition));
} catch { found("definition", 1); }
if (auction && has("definition.json") && given("definition.json", (line) => canonical(JSON.parse(line))) !== canonical(entries[0].definition)) found("definition", 1);
const accepted = entries.filter((entry) => entry.kind === "accepted" || entry.kind === "foreign"), tickets = {};
for (const [place, { kind, entry, line, answer }] of auction ? accepted.entries() : []) { // Each has the next number, and its sender's next ticket.
  const record = kind === "accepted" ? auction.record(String(line)) : null, sender = record && ([1, 4].includes(record[0]) ? record[1] : "desk");
  if (!record || answer !== `OK ${place + 1}` || record.readUInt32BE(4) !== (tickets[sender] ?? 0) + 1) { found("command", entry), (auction = null); break; }
  tickets[sender] = record.readUInt32BE(4);
}

// Seals: the root of a Merkle tree (RFC 6962) over the hashes of all entries before, signed by Ed25519.
const TIME = "[0-9]{4}-[0-9]{2}-[0-9]{2}T[0-9:.]{15}Z", NUMBER = "[1-9][0-9]{0,9}", COUNT = `0|${NUMBER}`, HASH = "[0-9a-f]{64}";
const WORDS = {
  SEAL: NUMBER, AT: TIME, RECORD: HASH, ENTRIES: NUMBER, ROOT: HASH, LAST: HASH, ROUND: COUNT, COUNT, DEFINITION: HASH, STATE: HASH, RESULTS: HASH, KEY: HASH,
};
const STATEMENT = new RegExp(`^${Object.entries(WORDS).map(([word, value]) => `${word} (?<${word}>${value})`).join(" ")}$`);
const fields = (seal) => STATEMENT.exec(String(seal))?.groups, SIGNATURE = /^[0-9a-f]{128}$/;
const keys = has("key.txt") ? given("key.txt", (lines) => lines.trim().split(/\s+/)) : [];
if (!keys.every((key) => /^[0-9a-f]{64}$/.test(key))) stop("key.txt has no public keys of 64 digits");
const seals = [], peaks = [], closes = new Map();
function push(digest) { // Subtrees of falling sizes, whose roots make the root of all.
  let made = { size: 1, hash: leaf(bytes(digest)) };
  while (peaks.length && peaks.at(-1).size === made.size) made = { size: 2 * made.size, hash: node(peaks.pop().hash, made.hash) };
  peaks.push(made);
}
const root = () => hex(peaks.slice(0, -1).reduceRight((right, peak) => node(peak.hash, right), peaks.at(-1)?.hash ?? sha()));
const isSigned = (seal, signature, by) => {
  const made = createPublicKey({ key: Buffer.concat([bytes("302a300506032b6570032100"), bytes(by)]), format: "der", type: "spki" });
  return verify(null, Buffer.from(seal), made, bytes(signature));
};
const keysOf = (seal) => (keys.length ? keys : [seals[0]?.fields.KEY ?? seal.KEY]);
const hasSalt = (salt) => typeof salt === "string" && /^[0-9a-f]*$/.test(salt);
const sum = (salt, data) => hex(sha(latin(`${salt}\n`), data)), sumOfLines = (salt, lines) => sum(salt, latin(lines.map((line) => `${line}\n`).join("")));
function sealWord(entry, seal, commands) {
  if (!seal || !SIGNATURE.test(entry.signature)) return "seal";
  if (seal.RECORD !== hashes[0]) return "other";
  if (!keysOf(seal).slice(seals.length ? keysOf(seal).indexOf(seals.at(-1).fields.KEY) : 0).includes(seal.KEY)) return "key";
  if (!isSigned(entry.seal, entry.signature, seal.KEY)) return "signature";
  const is = [seals.length + 1, entry.entry - 1, root(), entry.before, entry.at, commands, hashOf(`${definition()}\n`)];
  return String([seal.SEAL, seal.ENTRIES, seal.ROOT, seal.LAST, seal.AT, seal.COUNT, seal.DEFINITION]) === String(is) ? "" : "seal";
}
function answersWord({ answers, salt }, seal, isClose) {
  if (!Array.isArray(answers) || !answers.every((line) => typeof line === "string" && /^[ -~]*$/.test(line)) || !hasSalt(salt)) return "answers";
  if (sumOfLines(salt, answers) !== seal.RESULTS || (answers.length > 0) !== (seal.ROUND !== "0")) return "answers";
  if (seal.ROUND === "0") return seal.STATE === sum(salt, "") ? "" : "state";
  if (!auction) return "";
  if (!isClose || !auction.isShown(answers) || auction.round - !auction.isOver !== Number(seal.ROUND)) return "answers";
  return seal.STATE === sum(salt, auction.state) ? "" : "state";
}
let close = 0, isClose = false, isSealing = false, commands = 0;
for (const [place, entry] of entries.entries()) {
  if (entry.kind === "seal") {
    const seal = fields(entry.seal), word = sealWord(entry, seal, commands);
    isSealing = true, close = 0;
    if (word) found(word, entry.entry);
    else {
      seals.push({ fields: seal, entry, line: `${entry.seal} SIGNED ${entry.signature}` });
      if (answersWord(entry, seal, isClose)) found(answersWord(entry, seal, isClose), entry.entry);
    }
  } else if (entry.kind === "accepted") {
    if (close && isSealing) found("unsealed", close);
    close = String(entry.line).startsWith("CLOSE ") ? entry.entry : 0, isClose = close > 0;
    commands = /^OK [0-9]{1,7}$/.test(entry.answer) ? Number(entry.answer.slice(3)) : commands;
    auction?.take(auction.record(entry.line));
  } else if (entry.kind === "foreign" && Number.isInteger(entry.to)) commands = entry.to;
  push(hashes[place]);
}
// The front's last entries are `stopped` and its seal. A segment may end, and the next one begin, behind each entry.
const kinds = entries.filter((entry, place) => entry.kind !== "sealed" && !(entry.kind === "begin" && place)), [before, end] = [kinds.at(-2), kinds.at(-1)];
const isEnd = isSealing ? end?.kind === "seal" && / ROUND 0 /.test(end.seal) && before?.kind === "stopped" : end?.kind === "stopped";
if (isWhole && has("auction.hpb") && !isEnd) found("cut", entries.length + 1);
if (isWhole && close && (isSealing || keys.length)) found("unsealed", close);
else if (isWhole && keys.length && !isSealing) found("unsealed", 0);

// Stamps of RFC 3161, by openssl, at the token's own time.
const room = mkdtempSync(join(tmpdir(), "verify-")), openssl = (...words) => execFileSync("openssl", words, { cwd: room, stdio: "pipe" }).toString();
function stampIsRight(entry, line) {
  if (!/^([A-Za-z0-9+/]{4})*([A-Za-z0-9+/]{2}==|[A-Za-z0-9+/]{3}=)?$/.test(entry.token)) return false;
  writeFileSync(join(room, "token"), Buffer.from(entry.token, "base64")), writeFileSync(join(room, "data"), `${line}\n`);
  try {
    const said = openssl("ts", "-reply", "-in", "token", "-token_in", "-text").match(/^Time stamp: (.*?)(\.[0-9]+)?( [0-9]+)? GMT$/m);
    const time = new Date(`${said[1]}${said[3] ?? ""} GMT`);
    if (`${time.toISOString().slice(0, 19)}Z` !== entry.time) return false;
    if (!has("authority.pem")) return true;
    writeFileSync(join(room, "authority"), text("authority.pem"));
    openssl("ts", "-verify", "-data", "data", "-in", "token", "-token_in", "-CAfile", "authority", "-attime", String(time / 1000));
    return true;
  } catch (fault) { return fault.code === "ENOENT" ? stop("openssl isn't there") : false; }
}
let last = 0;
for (const entry of entries.filter((one) => one.kind === "stamp")) {
  if (entry.seal !== last + 1) { found("stamp", entry.entry); break; }
  const seal = seals.find((one) => Number(one.fields.SEAL) === entry.seal);
  if (seal && !stampIsRight(entry, seal.line)) found("stamp", entry.entry);
  last = entry.seal;
}
rmSync(room, { recursive: true });

// Seals and receipts that somebody kept.
function isTheRecords(line, signature) {
  const seal = fields(line), its = seals.find((one) => one.fields.SEAL === seal.SEAL);
  return seal.RECORD === hashes[0] && keysOf(seal).includes(seal.KEY) && isSigned(line, signature, seal.KEY) && its?.entry.seal === line;
}
function keptIn(lines) {
  return lines.split(/\r?\n/).filter((line) => line.startsWith("SEAL ")).map((line) => {
    const [, seal, signature] = /^(.*) SIGNED ([0-9a-f]{128})(?: STAMPED .*)?$/.exec(line) ?? [];
    need(fields(seal), "a line isn't a signed seal");
    return [seal, signature];
  });
}
for (const [seal, signature] of isThere && has("seals.txt") ? given("seals.txt", keptIn) : []) if (!isTheRecords(seal, signature)) found("kept", 0);
function leads(index, size, path, start, end) { // RFC 9162, 2.1.3.2.
  let place = index, top = size - 1, made = leaf(start);
  for (const one of path.map(bytes)) {
    if (!top) return false;
    if (place & 1 || place === top) {
      made = node(one, made);
      while (!(place & 1) && place) place >>= 1, top >>= 1;
    } else made = node(made, one);
    place >>= 1, top >>= 1;
  }
  return index >= 0 && index < size && !top && hex(made) === end;
}
function receiptIn(line) {
  const { receipt, entry, hash, path, seal, signature } = JSON.parse(line.trim().replace(/^RECEIPT [0-9]+ /, "")), { entry: number } = JSON.parse(entry);
  const isForm = receipt === 1 && [hash, ...path].every((one) => /^[0-9a-f]{64}$/.test(one)) && SIGNATURE.test(signature);
  need(isForm && fields(seal) && Number.isInteger(number), "it is no receipt");
  return { number, entry, hash, path, seal, signature };
}
for (const name of isThere && has("receipts") ? readdirSync(at("receipts")).sort() : []) {
  const { number, entry, hash, path, seal, signature } = given(join("receipts", name), receiptIn), { ENTRIES, ROOT } = fields(seal);
  const isReceipt = hashOf(entry) === hash && leads(number - 1, Number(ENTRIES), path, bytes(hash), ROOT);
  if (!isReceipt || hashes[number - 1] !== hash) found("receipt", number);
  if (isReceipt && !isTheRecords(seal, signature)) found("receipt", number);
}

// The file (docs/FORMATS.md): its definition, its state, and each state that it still shows, by the command's number.
function lookAtFile(file) {
  const sealed = new Map(seals.filter(({ fields, entry }) => fields.ROUND !== "0" && hasSalt(entry.salt) && fields.STATE !== sum(entry.salt, "")).map((one) => [Number(one.fields.COUNT), one]));
  const wrong = new Set();
  for (const states of file.states) for (const { count, state } of states) {
    const seal = sealed.get(count);
    if (seal && sum(seal.entry.salt, state) !== seal.fields.STATE) wrong.add(seal.entry.entry);
  }
  for (const entry of wrong) if (!findings.has(`state ${entry}`)) found("state", entry);
  const isSame = () => canonical(file.definition) === canonical(entries[0].definition) && file.newest.state.equals(auction.state);
  if (isWhole && auction && !isSame()) found("file", 0);
}
if (isThere && has("auction.hpb")) {
  let file = null;
  try { file = read(readFileSync(at("auction.hpb"))); } catch { found("file", 0); }
  if (file) lookAtFile(file);
}
console.log(`${entries.length} entries, ${accepted.length} commands, ${seals.length} seals. ${count ? `${count} wrong.` : "All of this is right."}`);
process.exitCode = count ? 1 : 0;
