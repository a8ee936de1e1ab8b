// The state of an auction as its file has it: 16,384 bytes, by docs/FORMATS.md in format 2 with the batch index 0, and how a command changes it.
// It leaves out which commands are accepted, and prices. Numbers have their greatest byte first, and amounts are below 2 to the power of 53.
const NODES = 48, NODE = 24, BIDDERS = 3096, BIDDER = 48, SIZE = 16384, PAGE = 4096, OPEN = 0xa5;
const [BID, CLOSE, STAGE, WAIVE] = [1, 2, 3, 4];
const add = (numbers) => numbers.reduce((one, other) => one + other, 0);

/** A definition in one form, whatever the order of its fields. */
export function canonical({ step, percent, stages, waivers, nodes, bidders }) {
  const node = ({ name, parent, units, opening }) => ({ name, parent, units, opening });
  return JSON.stringify({ step, percent, stages, waivers: waivers || undefined, nodes: nodes.map(node), bidders: bidders.map(({ name, units }) => ({ name, units })) });
}

/** The auctions of a definition. `state` is the one after the commands so far. */
export class Auction {
  constructor(definition, state) {
    const nodes = definition.nodes.map((node) => node.name);
    Object.assign(this, { definition, nodes, bidders: definition.bidders.map((bidder) => bidder.name) });
    this.children = nodes.map((name) => nodes.flatMap((_, place) => (definition.nodes[place].parent === name ? [place] : [])));
    this.tops = nodes.flatMap((_, place) => (definition.nodes[place].parent === null ? [place] : []));
    this.licences = nodes.map(() => []);
    for (let place = nodes.length - 1; place >= 0; place--) {
      this.licences[place] = this.children[place].length ? this.children[place].flatMap((child) => this.licences[child]) : [place];
    }
    this.state = state ?? this.begin();
  }

  begin() {
    const state = Buffer.alloc(SIZE);
    state[0] = 2, state[1] = 1, state.writeUInt32BE(1, 4);
    this.definition.bidders.forEach(({ units }, place) => {
      state.writeUInt32BE(units, BIDDERS + BIDDER * place), (state[BIDDERS + BIDDER * place + 12] = this.definition.waivers ?? 0);
    });
    return state;
  }

  get round() { return this.state.readUInt32BE(4); }
  get isOver() { return this.state[2] === 1; }
  get count() { return this.state.readUInt32BE(8); }
  node(place) { return this.state.subarray(NODES + NODE * place, NODES + NODE * (place + 1)); }
  bidder(place) { return this.state.subarray(BIDDERS + BIDDER * place, BIDDERS + BIDDER * (place + 1)); }
  high(place) { return Number(this.node(place).readBigUInt64BE(0)); }

  /** The record of a command, 16 bytes; null if the line is none of this definition. */
  record(line) {
    const [word, ...words] = line.split(" "), made = Buffer.alloc(16);
    const [who, ticket, what, amount] = word === "BID" || word === "WAIVE" ? words : [null, ...words];
    const places = [{ BID, CLOSE, STAGE, WAIVE }[word], who === null ? 0 : this.bidders.indexOf(who), word === "BID" ? this.nodes.indexOf(what) : 0];
    const numbers = word === "BID" ? [ticket, amount] : [ticket];
    if (!places[0] || places.includes(-1) || !numbers.every((one) => /^[1-9][0-9]{0,12}$/.test(one))) return null;
    made.set(places), made.writeUInt32BE(Number(ticket) >>> 0, 4);
    if (word === "BID") made.writeBigUInt64BE(BigInt(amount), 8);
    return made;
  }

  /** Takes an accepted command by its record. */
  take(record) {
    const [kind, who, what] = record, { state } = this, of = kind === BID || kind === WAIVE ? this.bidder(who) : null;
    if (kind === BID) this.bid(who, what, record.readBigUInt64BE(8));
    if (kind === CLOSE) this.close();
    if (kind === STAGE) state[1]++;
    if (kind === WAIVE) of[12]--, (of[13] = 1);
    state.writeUInt32BE(this.count + 1, 8);
    const last = of ? of.subarray(4) : state.subarray(24);
    record.copy(last, 0, 4, 8), last.writeUInt32BE(this.count, 4), record.copy(last, of ? 12 : 8);
  }

  bid(who, what, amount) {
    const node = this.node(what);
    if (amount > node.readBigUInt64BE(8)) node.writeBigUInt64BE(amount, 8), (node[17] = who);
    this.bidder(who)[47 - (what >> 3)] |= 1 << (what & 7);
  }

  /** The best choice of the high bids: what a node brings, and the nodes that win. On a tie the parts win. */
  best() {
    const inside = [], value = [], wins = this.nodes.map(() => false);
    for (let place = this.nodes.length - 1; place >= 0; place--) {
      inside[place] = add(this.children[place].map((child) => value[child])), (value[place] = Math.max(this.high(place), inside[place]));
    }
    const look = (place) => (this.high(place) > inside[place] ? (wins[place] = true) : this.children[place].forEach(look));
    this.tops.forEach(look);
    return { wins, revenue: add(this.tops.map((place) => value[place])) };
  }

  /** The units of a bidder's activity. */
  activity(who, wins) {
    const bits = this.bidder(who), active = new Set();
    this.nodes.forEach((_, place) => {
      if ((bits[47 - (place >> 3)] >> (place & 7)) & 1 || (wins[place] && this.node(place)[16] === who)) this.licences[place].forEach((one) => active.add(one));
    });
    return add([...active].map((place) => this.definition.nodes[place].units));
  }

  close() {
    const { wins } = this.best(), percent = this.definition.stages[this.state[1] - 1], nodes = this.nodes.map((_, place) => this.node(place));
    const goesOn = nodes.some((node) => node.readBigUInt64BE(8)) || this.bidders.some((_, place) => this.bidder(place)[13]);
    this.bidders.forEach((_, who) => {
      const of = this.bidder(who), eligibility = of.readUInt32BE(0), activity = this.activity(who, wins);
      if (!of[13] && activity * 100 < percent * eligibility) {
        if (of[12]) of[12]--;
        else of.writeUInt32BE(Math.floor((activity * 100) / percent), 0);
      }
      (of[13] = 0), of.fill(0, 32, 48);
    });
    for (const node of nodes) if (node.readBigUInt64BE(8)) node.copy(node, 0, 8, 16), (node[16] = node[17]), node.fill(0, 8, 16), (node[17] = 0);
    if (goesOn) this.state.writeUInt32BE(this.round + 1, 4);
    else this.state[2] = 1;
  }

  /** Whether the answers to SHOW, NODE and WHO are those of this state, with prices whose sums prove that no other choice of the bids brings more. */
  isShown(answers) {
    const { wins, revenue } = this.best(), told = answers.slice(1, 1 + this.nodes.length).map((line) => line.split(" "));
    const price = (place) => Number(told[place][told[place].indexOf("PRICE") + 1]);
    const shown = `ROUND ${this.round} STAGE ${this.state[1]} ${this.isOver ? "CLOSED" : "OPEN"} REVENUE ${revenue} COUNT ${this.count}`;
    const isRight = (name, place) => {
      const high = this.high(place), who = high ? this.bidders[this.node(place)[16]] : "-", words = told[place], least = words[words.indexOf("MIN") + 1];
      const sum = add(this.licences[place].map(price));
      return words.join(" ") === `NODE ${name} HIGH ${high} ${who} PRICE ${sum} MIN ${least} WIN ${wins[place] ? "yes" : "no"}` && high <= sum;
    };
    const who = (name, place) => {
      const of = this.bidder(place), waivers = this.definition.waivers ? ` WAIVERS ${of[12]}` : "";
      return `WHO ${name} ELIGIBILITY ${of.readUInt32BE(0)} ACTIVITY ${this.activity(place, wins)} TICKET ${of.readUInt32BE(4)}${waivers}`;
    };
    const whos = answers.slice(1 + this.nodes.length);
    return answers[0] === shown && told.length === this.nodes.length && this.nodes.every(isRight)
      && add(this.licences.flatMap((licences, place) => (licences[0] === place ? [price(place)] : []))) === revenue
      && whos.length === this.bidders.length && this.bidders.every((name, place) => whos[place] === who(name, place));
  }
}

/** The auction in a file: its definition; `newest`, the state after all commands; and `states`, each state that the file still shows. */
export function read(file) {
  const zeros = (part) => part.toString("latin1").replace(/\0+$/, "");
  const [layout, , nodes, bidders, percent, stages] = file.subarray(24, 30), frames = file.readUInt32BE(40), size = layout === 1 ? PAGE : 1536;
  if (file[0] !== OPEN || file.toString("latin1", 16, 24) !== "HPBAUCT1" || file.length !== 13 * PAGE + frames * size) throw new Error("it is no file of an auction");
  const part = (page, of, place) => file.subarray(page * PAGE + of * place, page * PAGE + of * (place + 1)), name = (page, of, place) => zeros(part(page, of, place).subarray(0, 16));
  const node = (place) => {
    const bytes = part(1, 32, place), own = bytes[17] ? { units: bytes.readUInt32BE(20), opening: Number(bytes.readBigUInt64BE(24)) } : {};
    return { name: name(1, 32, place), parent: bytes[16] === 255 ? null : name(1, 32, bytes[16]), ...own };
  };
  const definition = {
    step: file.readUInt32BE(36), percent, stages: [...file.subarray(30, 30 + stages)], waivers: file[34], nodes: [...Array(nodes).keys()].map(node),
    bidders: [...Array(bidders).keys()].map((place) => ({ name: name(2, 24, place), units: part(2, 24, place).readUInt32BE(16) })),
  };
  function* walk(body) { // A slot's state, and those after each command of the batches behind it.
    const auction = new Auction(definition, Buffer.from(body)), first = Number(body.readBigUInt64BE(16));
    (auction.state[0] = 2), auction.state.fill(0, 16, 24);
    yield auction;
    for (let batch = first; batch < first + frames; batch++) {
      const frame = file.subarray(13 * PAGE + (batch % frames) * size).subarray(0, size);
      if (frame[0] !== OPEN || Number(frame.readBigUInt64BE(16)) !== batch || Number(frame.readBigUInt64BE(24)) !== auction.count + 1) return;
      for (let place = 0; place < frame.readUInt16BE(32); place++) {
        const cell = layout === 1 || place < 29 ? 0 : 1 + Math.floor((place - 29) / 31), begin = cell ? 512 * cell + 16 + 16 * ((place - 29) % 31) : 40 + 16 * place;
        auction.take(frame.subarray(begin, begin + 16));
        yield auction;
      }
    }
  }
  const slots = [3, 8].filter((page) => file[page * PAGE] === OPEN).map((page) => file.subarray((page + 1) * PAGE, (page + 5) * PAGE));
  const last = slots.reduce((one, other) => (other.readBigUInt64BE(16) > one.readBigUInt64BE(16) ? other : one));
  return { definition, newest: [...walk(last)].at(-1), states: slots.map(walk) };
}
