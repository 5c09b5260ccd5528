import { Kleene } from "./kleene.mjs";
import { Kind, Fault } from "./tokens.mjs";
import { Structure, StructureReader } from "./structures.mjs";
import { Pace } from "./pace.mjs";

/* ======== Listings: structures by nodes, of which their places in a text are kept ======== */
export class Listing {
  nodes = new Map(); // by name: where its structures begin among all, and how many they are
  places = []; // of each structure: its node, its index there, and where it stands in the text
  messages = [];
  maps = [];
  constructor(bytes) {
    this.bytes = bytes;
    this.reader = new StructureReader(bytes);
    this.census = this.reader.census; // of all predicates
  }
  addNode(name, count, at) {
    const node = { name, first: this.places.length, count, at };
    this.nodes.set(name, node);
    return node;
  }
  addStructure(name, index) { this.places.push({ name, index, start: this.reader.pass() }); }
  /** Structure `place` of all; `places` has its node and its index there. */
  structure(place) {
    const structure = new Structure();
    this.reader.cursor.goTo(this.places[place].start);
    this.reader.read(structure);
    return structure;
  }
  place(name, index) {
    const node = this.nodes.get(name);
    return node && index < node.count ? node.first + index : -1;
  }
  title(place) { return `${this.places[place].name}/${this.places[place].index}`; }
}

/* ======== Structures of a file: where a program begins, or a heap to be replayed ======== */
export class StructuresFile extends Listing {
  static read(bytes, name) {
    const listing = new StructuresFile(bytes), { cursor } = listing.reader;
    const node = listing.addNode(name, 0, 0);
    for (; cursor.kind !== Kind.END; node.count++) listing.addStructure(name, node.count);
    return listing;
  }
}

/* ======== Reports: nodes with structures, messages, maps ======== */
export class Report extends Listing {
  /** Reads a report; a `Fault` where it is none. */
  static async read(bytes, progress = () => {}) {
    if (bytes.length > 67108864) throw new Fault(67108864, "at most 67108864 bytes", "more");
    const report = new Report(bytes), cursor = report.reader.cursor, pace = new Pace(progress);
    cursor.takeWord("tvla", "`tvla report 2`");
    cursor.takeWord("report");
    report.version = cursor.isWord("2") ? 2 : 1;
    cursor.takeWord(String(report.version), "`1` or `2`");
    while (cursor.isWord("node")) await report.readNode(pace);
    while (cursor.isWord("message")) report.readMessage();
    while (report.version === 2 && cursor.isWord("map")) {
      report.readMap();
      if (pace.isDue) await pace.rest(cursor.start / bytes.length);
    }
    const last = report.maps.length ? "`map`" : report.messages.length ? "`message`" : "`node`, `message`";
    cursor.takeWord("end", `${last} or \`end\``);
    if (cursor.kind !== Kind.END) cursor.fault("the end of the file");
    return report;
  }
  async readNode(pace) {
    const cursor = this.reader.cursor;
    cursor.advance();
    const at = cursor.start, end = cursor.end, name = cursor.take(Kind.WORD, "the name of a node");
    if (this.nodes.has(name)) cursor.fault("a node that isn't listed yet", at, end);
    cursor.takeWord("structures");
    const node = this.addNode(name, cursor.takeNumber("how many structures follow"), at);
    for (let index = 0; index < node.count; index++) {
      if (!cursor.isDirective("n")) cursor.fault(`\`%n\` of structure ${index} of the ${node.count} of node ${name}`);
      this.addStructure(name, index);
      if (pace.isDue) await pace.rest(cursor.start / this.bytes.length);
    }
  }
  readMessage() {
    const cursor = this.reader.cursor, at = cursor.start;
    cursor.advance();
    const edge = cursor.takeNumber("the number of an edge");
    const number = cursor.takeNumber("the number of a message");
    if (cursor.isWord("0")) cursor.fault("`1` or `1/2`");
    const value = this.reader.value("`1` or `1/2`");
    this.messages.push({ edge, number, value, text: cursor.take(Kind.STRING, "a string").slice(1, -1), at });
  }
  readMap() {
    const cursor = this.reader.cursor, map = { of: [] };
    cursor.advance();
    map.isInitial = cursor.isWord("initial");
    cursor.takeWord(map.isInitial ? "initial" : "edge", "`initial` or `edge`");
    map.item = map.isInitial ? [cursor.takeNumber("the number of an initial structure")]
      : ["an edge", "a structure", "a result"].map(what => cursor.takeNumber(`the number of ${what}`));
    cursor.takeWord("to");
    map.to = cursor.takeNumber("the number of a structure");
    cursor.take("{");
    cursor.list(() => cursor.kind === Kind.WORD, () => map.of.push(cursor.takeNumber("an individual")));
    cursor.take("}", "`,` or `}`");
    this.maps.push(map);
  }
  write() {
    const parts = [`tvla report ${this.version}\n`];
    for (const { name, first, count } of this.nodes.values()) {
      parts.push(`node ${name} structures ${count}\n`);
      for (let i = 0; i < count; i++) parts.push(this.structure(first + i).write());
    }
    for (const { edge, number, value, text } of this.messages)
      parts.push(`message ${edge} ${number} ${Kleene.text(value)} "${text}"\n`);
    for (const { isInitial, item, to, of } of this.maps)
      parts.push(`map ${isInitial ? "initial" : "edge"} ${item.join(" ")} to ${to} {${of.join(", ")}}\n`);
    return parts.concat("end\n").join("");
  }
}
