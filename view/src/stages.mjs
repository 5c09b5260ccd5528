import { sameCells, focusOrigins, updateOrigins, blurOrigins } from "./origins.mjs";

/* ======== Stages: one abstract step, as `tvla-explain step` writes it, a line `stage ..` for each thing that is made or dropped ======== */
const ENDS = ["result", "structure"], UPDATES = ["update", ...ENDS], TURNS = ["focus", ...UPDATES], PICKS = ["pick", ...UPDATES];
const CLAIM = /dropped by (?:the declaration of [A-Za-z_]\w*(?:\[[\w,]*\])?|rule \d+|declarations together)/y;
/** Of each kind of line: its blanks, its words, whether a structure stands behind, which kinds may follow, which ones are counted anew in it. */
const FORMS = {
  structure: { indent: 0, words: "structure N", next: ["opening"], counts: ["update", "result"] },
  opening: { indent: 2, words: "coerced", next: TURNS, dropped: ["structure"] },
  focus: { indent: 2, words: "focus F atom A", isBare: true, next: ["hand", ...TURNS], counts: ["hand"] },
  hand: { indent: 4, words: "at hand N", next: ["choice", "hand", ...TURNS], counts: ["choice"] },
  choice: { indent: 6, words: "choice N", next: ["judged"] },
  judged: { indent: 8, words: "coerced", next: ["choice", "hand", ...TURNS], dropped: ["choice", "hand", ...TURNS] },
  update: { indent: 2, words: "update of N", next: PICKS },
  pick: { indent: 4, words: "precondition is V", isBare: true, next: ["given", ...PICKS], counts: ["given"] },
  given: { indent: 6, words: "given N", next: ["ended"] },
  ended: { indent: 8, words: "coerced", next: ["blurred"], dropped: ["given", ...PICKS] },
  blurred: { indent: 8, words: "blurred", next: ["given", ...PICKS] },
  result: { indent: 2, words: "result N", next: ENDS },
};
const blanks = kind => " ".repeat(FORMS[kind].indent);
/** What stands in front of a line's numbers. */
const wordOf = kind => FORMS[kind].words.replace(/ [A-Z].*/, " ");

export class Stages {
  lines = []; // kind, the words in front, and a structure, or that it is dropped
  may = ["structure"]; // which kinds may follow
  numbers = { structure: 0 }; // of each kind that is counted, the next one's
  /** Takes one line, which has to follow the one before. */
  take(line) {
    line.take("stage ");
    const kind = this.may.find(may => Stages.begins(line, may));
    if (!kind) line.fault(this.may.map(may => `\`${blanks(may)}${wordOf(may).trim()}\``).join(" or "));
    const start = line.at += FORMS[kind].indent, isDropped = FORMS[kind].dropped !== undefined && line.sees("dropped ");
    if (isDropped) line.match(CLAIM, "a declaration");
    else this.words(kind, line);
    const stage = { kind, words: line.source.slice(start, line.at), numbers: this.last, isDropped };
    if (!isDropped && !FORMS[kind].isBare) stage.structure = line.structure();
    if (!line.isAtEnd) line.fault("the end of the line");
    for (const inner of FORMS[kind].counts ?? []) this.numbers[inner] = 0;
    this.may = isDropped ? FORMS[kind].dropped : FORMS[kind].next;
    this.lines.push(stage);
  }
  /** Whether a line can be of a kind. */
  static begins(line, kind) {
    const words = [wordOf(kind), ...FORMS[kind].dropped ? ["dropped by "] : []];
    return words.some(word => line.sees(blanks(kind) + word));
  }
  words(kind, line) {
    const start = line.at;
    line.take(wordOf(kind));
    if (kind === "pick") this.pick(line, start);
    else if (kind === "focus") this.turn(line, start);
    else if (kind in this.numbers) this.numbered(kind, line, start);
  }
  numbered(kind, line, start) {
    if (line.number("a number") !== this.numbers[kind]) line.fault(`\`${wordOf(kind)}${this.numbers[kind]}\``, start);
    this.numbers[kind]++;
  }
  /** A focus atom: the first, or one behind the one before. */
  turn(line, start) {
    const formula = line.number("the number of a formula");
    line.take(" atom ");
    this.follows("focus", "structure", [formula, line.number("the number of an atom")], line, start);
  }
  /** The individuals that are picked, in lexicographic order. */
  pick(line, start) {
    const [, told = ""] = line.match(/(?:0|1\/2|1)(?: for((?: #(?:0|[1-9]\d*))+))?/y, "`0`, `1/2` or `1` and the individuals");
    this.follows("pick", "update", [...told.matchAll(/\d+/g)].map(Number), line, start);
  }
  /** Numbers have to stand behind those of the line of this kind before, if there is one behind the last `outer`. */
  follows(kind, outer, numbers, line, start) {
    const last = this.lines.findLast(stage => stage.kind === kind || stage.kind === outer);
    const isBehind = last.kind === outer || numbers.length === last.numbers.length
      && numbers.reduce((order, number, i) => order || number - last.numbers[i], 0) > 0;
    if (!isBehind) line.fault(`what comes behind \`${last.words}\``, start);
    this.last = numbers;
  }
  /** A film for each structure that is stepped. */
  get films() {
    const films = [];
    for (const stage of this.lines) {
      if (stage.kind === "structure") films.push(new StageFilm());
      films.at(-1).take(stage);
    }
    return films.map(({ frames }, i) => ({ title: `Step of structure ${i}`, frames }));
  }
}

const isSame = (one, other) => one.write() === other.write();
const named = (structure, cells) => cells.map(u => structure.individuals[u]).join(" and ");

/** The frames of one step: a structure each, with what becomes of it, and the frame and the cells from which it comes. What leaves a
    structure alone is told of it. */
class StageFilm {
  frames = [];
  kept = []; // the frames of the structures that are at hand next
  ends = []; // those of blurred structures
  take(stage) {
    const { kind, words, structure } = stage;
    switch (kind) {
      case "structure": this.last = this.put(words, structure); break;
      case "opening": this.judge(stage); break;
      case "focus": Object.assign(this, { turn: words, hands: this.kept, kept: [] }); break;
      case "hand": Object.assign(this, { inHand: words, source: this.found(this.hands, structure) }); break;
      case "choice": this.choose(words, structure); break;
      case "judged": this.judge(stage); break;
      case "update": this.updated = this.put(words, structure, this.found(this.kept, structure), sameCells); break;
      case "pick": this.picked = words; this.updated.words.push(words); break;
      case "given": this.last = this.put(`${this.updated.title}, ${this.picked}: ${words}`, structure, this.updated, updateOrigins); break;
      case "ended": this.judge(stage); break;
      case "blurred": this.blur(structure); break;
      default: this.put(words, structure, this.found(this.ends, structure), sameCells);
    }
  }
  put(title, structure, before, origins) {
    const frame = { title, structure, before, from: before ? origins(before.structure, structure) : undefined, words: [] };
    this.frames.push(frame);
    return frame;
  }
  found(frames, structure) { return frames.find(frame => isSame(frame.structure, structure)); }
  choose(words, structure) {
    const { source, turn, inHand } = this;
    if (source && isSame(structure, source.structure)) { // it's the only choice
      source.words.push(`${turn} leaves it as it is`);
      this.last = source;
    } else this.last = this.put(`${turn}: ${inHand}, ${words}`, structure, source, focusOrigins);
  }
  judge({ isDropped, words, structure }) {
    const { last } = this;
    if (isDropped) {
      Object.assign(last, { isDropped, isFault: true }).words.push(words);
      return;
    }
    if (isSame(structure, last.structure)) this.source === last || last.words.push("coerce changes nothing");
    else this.last = this.put(`${last.title}, coerced`, structure, last, sameCells);
    this.kept.push(this.last);
  }
  blur(structure) {
    const { last } = this;
    if (isSame(structure, last.structure)) last.words.push("blur changes nothing");
    else {
      this.last = this.put(`${last.title.replace(", coerced", "")}, blurred`, structure, last, blurOrigins);
      const merged = (this.last.from ?? []).filter(cells => cells.length > 1);
      this.last.words.push(...structure.size === last.structure.size ? ["blur only orders the cells anew"]
        : merged.map(cells => `${named(last.structure, cells)} become one`));
    }
    this.ends.push(this.last);
  }
}
