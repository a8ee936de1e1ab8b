#!/usr/bin/env node
// A client of `hpb serve` or of a front, in one file, to copy from: docs/CLIENTS.md, and docs/PROTOCOL.md, "Sending ahead".
//
//     import { Client } from "./client.mjs";
//     const client = new Client({ port: 5000 });
//     console.log(await client.bid("x", "a", 100));            // OK 1
//     console.log(await Promise.all([client.bid("y", "b", 150), client.ask("WHO y")]));
//     client.end();
//
// Each call gives a text:
//
// - the answer, which may be a refusal such as `ERR 22 low`;
// - `OK ?` for a command that was accepted and whose number isn't known any more;
// - `UNANSWERED sent` or `UNANSWERED unsent`, if no answer came in time.
//
// The client gives the tickets, and has up to 16 lines in flight. If its connection is lost, it connects again, and sends the lines
// without an answer again, so that each command counts once. With `token` and `ca`, a certificate in PEM, it speaks TLS to a front.
//
//     printf 'BID x a 100\nBID y b 150\n\nSHOW\n\n' | node client.mjs 5000 60
//
// runs it as a program. It reads groups of lines without tickets, each ended by an empty line, and writes the outcome of each line.
import net from "node:net";
import tls from "node:tls";
import readline from "node:readline";
import { pathToFileURL } from "node:url";

const MOST_IN_FLIGHT = 16, MOST_ANSWER = 256, MOST_WRONG = 3, FIRST_PAUSE = 50, MOST_PAUSE = 2000;
const ENDS = /^ERR (91 device|93 failed|95 order|front idle|front many)$/;

/** The tickets of a bidder, or of the auctioneer, whose name is empty. A row is stalled if a command was refused with others behind it. */
class Row {
  last = null;
  next = null;
  inFlight = [];
  again = [];
  isStalled = false;
  isLookedUp = false;
  lost = new Map();

  constructor(bidder) {
    this.bidder = bidder;
  }

  /** Whether another line was lost under the same ticket: then a 13 doesn't tell which of the two was kept. */
  isUnsure(item) {
    return [...(this.lost.get(item.ticket) ?? [])].some((line) => line !== item.line());
  }

  noteLoss(item) {
    this.lost.set(item.ticket, (this.lost.get(item.ticket) ?? new Set()).add(item.line()));
    item.wasLost = true;
  }

  isUsedUpTo(ticket) {
    this.last = Math.max(this.last ?? 0, ticket);
    for (const number of this.lost.keys()) if (number <= this.last) this.lost.delete(number);
  }

  forget() {
    this.last = this.next = null;
  }

  /** With nothing in flight, the next ticket follows the last one. The auctioneer's is asked for each time. */
  settle() {
    this.isStalled = false;
    this.again = [];
    this.next = this.last === null || this.bidder === "" ? null : this.last + 1;
  }

  /** Whether a command without a ticket may go out: a bid behind others, anything else only alone. */
  maySend(item) {
    if (this.isStalled || this.next === null || this.inFlight.some((sent) => this.isUnsure(sent))) return false;
    return item.kind === "BID" || this.inFlight.length === 0;
  }
}

/** A line that was asked for. A command has a row, and once it got one, a ticket. */
class Item {
  ticket = 0;
  wasLost = false;
  wasSent = false;
  isGivenUp = false;
  wrong = 0;

  constructor(kind, row, words, done) {
    Object.assign(this, { kind, row, words, done });
  }

  line() {
    if (!this.row) return this.words.join(" ");
    const [bidder, ...rest] = this.row.bidder ? this.words : ["", ...this.words];
    return [this.kind, ...(bidder ? [bidder] : []), this.ticket, ...rest].join(" ");
  }
}

export class Client {
  #where;
  #seconds;
  #rows = new Map();
  #waiting = [];
  #flight = [];
  #socket = null;
  #isReady = false;
  #rest = "";
  #tries = 0;
  #timer = null;
  #silence = null;
  #hasEnded = false;

  /** `seconds` is how long a call waits in all. After a third of that without an answer, the connection counts as lost. */
  constructor({ host = "127.0.0.1", port, token = null, ca = undefined, seconds = 150 }) {
    this.#where = { host, port, token, ca };
    this.#seconds = seconds;
  }

  bid(bidder, node, amount) {
    return this.#command("BID", bidder, [bidder, node, amount]);
  }

  waive(bidder) {
    return this.#command("WAIVE", bidder, [bidder]);
  }

  /** Closes the round. If nobody bid or waived in the round, this ends the auction for good. */
  close() {
    return this.#command("CLOSE", "", []);
  }

  stage() {
    return this.#command("STAGE", "", []);
  }

  /** A question: `SHOW`, `NODE node` or `WHO bidder`. */
  ask(line) {
    return this.#add("ASK", null, [line]);
  }

  end() {
    this.#hasEnded = true;
    clearTimeout(this.#timer);
    this.#lose();
    for (const item of this.#waiting.splice(0)) item.done(item.wasSent ? "UNANSWERED sent" : "UNANSWERED unsent");
  }

  #command(kind, bidder, words) {
    if (!this.#rows.has(bidder)) this.#rows.set(bidder, new Row(bidder));
    return this.#add(kind, this.#rows.get(bidder), words);
  }

  #add(kind, row, words) {
    return new Promise((resolve) => {
      const item = new Item(kind, row, words, (answer) => {
        clearTimeout(item.timer);
        resolve(answer);
      });
      item.timer = setTimeout(() => this.#giveUp(item), this.#seconds * 1000);
      this.#waiting.push(item);
      if (this.#socket) this.#sendAll();
      else if (!this.#timer) this.#reach();
    });
  }

  /** Gives up a line. Nobody knows whether it counts, so its row's tickets are asked for before the next command. */
  #giveUp(item) {
    item.isGivenUp = true;
    this.#waiting = this.#waiting.filter((other) => other !== item);
    if (item.row) {
      item.row.again = item.row.again.filter((other) => other !== item);
      item.row.forget();
    }
    item.done(item.wasSent ? "UNANSWERED sent" : "UNANSWERED unsent");
  }

  // The connection.

  /** Connects after a pause, which doubles each time, up to two seconds. */
  #reach() {
    const pause = this.#tries === 0 ? 0 : Math.min(MOST_PAUSE, FIRST_PAUSE * 2 ** Math.min(this.#tries, 10));
    this.#tries += 1;
    this.#timer = setTimeout(() => {
      this.#timer = null;
      if (this.#waiting.length && !this.#hasEnded) this.#connect();
    }, pause);
  }

  #connect() {
    const { host, port, token, ca } = this.#where;
    const made = token ? tls.connect({ host, port, ca, servername: net.isIP(host) ? "" : host }) : net.connect({ host, port });
    this.#socket = made;
    const isPresent = () => this.#socket === made;
    made.setNoDelay(true);
    made.on(token ? "secureConnect" : "connect", () => isPresent() && this.#connected(made));
    made.on("data", (data) => isPresent() && this.#received(data.toString("latin1")));
    made.on("error", () => isPresent() && this.#lose());
    made.on("close", () => isPresent() && this.#lose());
    this.#heard();
  }

  #connected(made) {
    // At a port that nobody serves, a connection may lead to itself, and send everything back.
    if (made.localPort === made.remotePort && made.localAddress === made.remoteAddress) {
      this.#lose();
      return;
    }
    if (this.#where.token) made.write(`TOKEN ${this.#where.token}\n`);
    else this.#isReady = true;
    this.#heard();
    this.#sendAll();
  }

  /** Lines without an answer go out again: under their ticket, or under a new one if they would have got 15. */
  #lose() {
    if (!this.#socket) return;
    this.#socket.destroy();
    this.#socket = null;
    this.#isReady = false;
    this.#rest = "";
    clearTimeout(this.#silence);
    const back = [];
    for (const { item } of this.#flight.splice(0)) {
      if (!item) continue;
      if (item.row) {
        item.row.noteLoss(item);
        if (item.isGivenUp) item.row.forget();
        if (item.row.isStalled) item.ticket = 0;
      }
      if (!item.isGivenUp) back.push(item);
    }
    const again = [];
    for (const row of this.#rows.values()) {
      again.push(...row.again);
      Object.assign(row, { inFlight: [], isLookedUp: false, again: [] });
      if (row.isStalled) row.settle();
    }
    this.#waiting.unshift(...again, ...back);
    if (this.#waiting.length && !this.#hasEnded) this.#reach();
  }

  /** From now on, if an answer is owed, so much silence counts as a loss. */
  #heard() {
    clearTimeout(this.#silence);
    const isWaiting = () => this.#flight.length > 0 || !this.#isReady;
    this.#silence = setTimeout(() => (isWaiting() ? this.#lose() : null), (this.#seconds * 1000) / 3);
    this.#silence.unref();
  }

  // Sending.

  /** Sends whatever may go out, in order. A row that has to wait holds up only itself. */
  #sendAll() {
    if (!this.#isReady) return;
    if (this.#flight.length === 0) this.#heard();
    const held = new Set(), left = [];
    let text = "";
    for (const item of this.#waiting) {
      const isFull = this.#flight.length >= MOST_IN_FLIGHT;
      if (isFull || (item.row && (held.has(item.row) || !this.#isDue(item)))) {
        left.push(item);
        if (!isFull && !held.has(item.row)) text += this.#lookUp(item.row);
        held.add(item.row);
        continue;
      }
      item.row?.inFlight.push(item);
      item.wasSent = true;
      this.#flight.push({ item });
      text += `${item.line()}\n`;
    }
    this.#waiting = left;
    if (text) this.#socket.write(text, "latin1");
  }

  #isDue(item) {
    if (item.ticket) return !item.row.isStalled;
    if (!item.row.maySend(item)) return false;
    item.ticket = item.row.next++;
    return true;
  }

  /** Asks for a row's tickets, if they aren't known and nothing else of the row is in flight. */
  #lookUp(row) {
    if (row.next !== null || row.isLookedUp || row.inFlight.length) return "";
    row.isLookedUp = true;
    this.#flight.push({ row });
    return row.bidder ? `WHO ${row.bidder}\n` : "SHOW\n";
  }

  // Answers.

  #received(data) {
    this.#heard();
    const lines = (this.#rest + data).split("\n");
    this.#rest = lines.pop();
    for (const line of lines) if (this.#socket) this.#take(line);
    if (this.#rest.length > MOST_ANSWER) this.#lose();
    if (this.#socket) this.#sendAll();
  }

  #take(answer) {
    if (!this.#isReady) this.#takeWelcome(answer);
    // After 93 nothing is accepted there, and 95 ends the session: lines without an answer are sent again elsewhere.
    else if (ENDS.test(answer) || this.#flight.length === 0) this.#lose();
    else {
      const { item, row } = this.#flight.shift();
      if (row) this.#takeLookUp(row, answer);
      else if (item.row) this.#takeCommand(item, answer);
      else this.#done(item, answer);
    }
  }

  #takeWelcome(answer) {
    if (answer.startsWith("WELCOME ")) this.#isReady = true;
    else if (ENDS.test(answer)) this.#lose();
    else {
      for (const item of this.#waiting.splice(0)) item.done(answer);
      this.#lose();
    }
  }

  #done(item, answer) {
    this.#tries = 0;
    if (!item.isGivenUp) item.done(answer);
  }

  /** The answer to `WHO`, or to `SHOW` for the auctioneer, gives the tickets. A refusal is the answer to all commands of the row. */
  #takeLookUp(row, answer) {
    row.isLookedUp = false;
    const who = /^WHO .* TICKET (\d+)/.exec(answer), shown = /^ROUND (\d+) STAGE (\d+) (OPEN|CLOSED)/.exec(answer);
    if (who) row.last = Number(who[1]);
    else if (shown) row.last = Number(shown[1]) + Number(shown[2]) - 2 + (shown[3] === "CLOSED" ? 1 : 0);
    else {
      for (const item of this.#waiting.filter((other) => other.row === row)) this.#done(item, answer);
      this.#waiting = this.#waiting.filter((other) => other.row !== row);
      return;
    }
    row.next = row.last + 1;
  }

  #takeCommand(item, answer) {
    const row = item.row, number = Number(/^ERR (\d+)/.exec(answer)?.[1] ?? 0);
    row.inFlight.shift();
    if (answer.startsWith("OK ")) {
      row.isUsedUpTo(item.ticket);
      this.#done(item, answer);
    } else if (number === 13) {
      // The line was sent before: it was kept, and so was a later one.
      const wasKept = item.wasLost && !row.isUnsure(item);
      row.forget();
      if (wasKept) this.#done(item, "OK ?");
      else this.#numberAnew(item, answer);
    } else if (number === 15 && row.isStalled) {
      this.#again(item);
    } else if (number === 15) {
      row.forget();
      this.#numberAnew(item, answer);
    } else {
      if (number === 14) row.forget();
      else row.isStalled = row.inFlight.length > 0;
      this.#done(item, answer);
    }
    if (row.inFlight.length === 0) {
      this.#waiting.unshift(...row.again);
      row.settle();
    }
  }

  /** The rules count the same bid once, whatever tickets it has. Any other command that was lost gets no new ticket, as it might count twice. */
  #numberAnew(item, answer) {
    item.row.isStalled = item.row.inFlight.length > 0;
    item.wrong += 1;
    if (item.wrong >= MOST_WRONG || (item.wasLost && item.kind !== "BID")) this.#done(item, answer);
    else this.#again(item);
  }

  #again(item) {
    item.ticket = 0;
    if (!item.isGivenUp) item.row.again.push(item);
  }
}

/** The call for a line without a ticket. */
function asked(client, line) {
  const [kind, ...words] = line.split(" ");
  if (kind === "BID" && words.length === 3) return client.bid(...words);
  if (kind === "WAIVE" && words.length === 1) return client.waive(words[0]);
  if (line === "CLOSE") return client.close();
  if (line === "STAGE") return client.stage();
  return client.ask(line);
}

async function main([port, seconds]) {
  if (!(port >= 1 && port <= 65535 && seconds > 0)) {
    console.error("usage: client.mjs PORT SECONDS");
    return 2;
  }
  const client = new Client({ port: Number(port), seconds: Number(seconds) });
  let group = [];
  const answer = async () => {
    const answers = await Promise.all(group.map((line) => asked(client, line)));
    group = [];
    process.stdout.write([...answers, "", ""].join("\n"));
  };
  for await (const line of readline.createInterface({ input: process.stdin })) {
    if (line) group.push(line);
    else await answer();
  }
  if (group.length) await answer();
  client.end();
  return 0;
}

if (process.argv[1] && import.meta.url === pathToFileURL(process.argv[1]).href) process.exitCode = await main(process.argv.slice(2));
