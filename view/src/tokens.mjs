/* ======== Tokens: what all of tvla's texts are cut into ======== */
export const Kind = Object.freeze({ END: "end", WORD: "word", HALF: "half", STRING: "string", DIRECTIVE: "directive" });
const TOKEN = /1\/2(?!\w)|\w+|"[ !#-~]*"|%%|%[A-Za-z]+|->|==>|<->|[=!]=|[(){}[\],:+\-*=!&|?]/y;
const COMMENT = /\/\/[^\n]*|\/\*[^]*?\*\//y;
const BYTES = Array.from({ length: 256 }, (_, byte) => String.fromCharCode(byte));
const table = isIn => Uint8Array.from(BYTES, byte => Number(isIn(byte)));
const IS_BLANK = table(byte => " \n\r\t".includes(byte)), IS_LETTER = table(byte => /\w/.test(byte));
const IS_MARK = table(byte => "(){}[],:+*&|?".includes(byte)); // and no other token begins so
const RESERVED = new Set(["E", "A", "TC", "in", "foreach"]);
export const bytesOf = text => new TextEncoder().encode(text);
/** A letter for each byte, so that places in a text are those in its file. */
export const latin = bytes => new TextDecoder("latin1").decode(bytes);

/** A text that can't be what it should: the byte at which it goes wrong and what was expected there. */
export class Fault extends Error {
  constructor(at, expected, found) {
    super(`expected ${expected}, found ${found}`);
    this.at = at;
  }
  /** The fault as a line, with its place in the text: lines and columns from 1, columns in bytes. */
  told(name, bytes) {
    const lines = latin(bytes.subarray(0, this.at)).split("\n");
    return `${name}, line ${lines.length}, column ${lines.at(-1).length + 1}: ${this.message}`;
  }
}

/** Goes through a text token by token; `start` and `end` are those of the token at hand, and `kind` is the
    mark itself or one of `Kind`. */
export class Cursor {
  constructor(bytes) {
    Object.assign(this, { bytes, source: latin(bytes), start: 0, end: 0, kind: Kind.END });
    this.advance();
  }
  goTo(at) {
    this.end = at;
    this.advance();
  }
  advance() {
    const { bytes } = this;
    let at = this.start = this.behindBlanks(this.end);
    if (IS_LETTER[bytes[at]] && bytes[at + 1] !== 47) { // words and marks by tables, which is faster
      while (IS_LETTER[bytes[++at]]);
      this.end = at;
      this.kind = Kind.WORD;
    } else if (IS_MARK[bytes[at]]) {
      this.end = at + 1;
      this.kind = BYTES[bytes[at]];
    } else if (bytes[at] === 45 && bytes[at + 1] === 62) {
      this.end = at + 2;
      this.kind = "->";
    } else this.advanceByPattern();
  }
  behindBlanks(at) {
    const { bytes, source } = this;
    for (; ; at = COMMENT.lastIndex) {
      while (IS_BLANK[bytes[at]]) at++;
      COMMENT.lastIndex = at;
      if (bytes[at] !== 47 || !COMMENT.test(source)) return at;
    }
  }
  advanceByPattern() {
    const { source, start } = this, first = source[start];
    TOKEN.lastIndex = start;
    const isToken = TOKEN.test(source);
    if (!isToken && start < source.length) this.refuse(first);
    this.end = isToken ? TOKEN.lastIndex : start;
    const text = this.text(), isHalf = text === "1/2";
    this.kind = !isToken ? Kind.END : isHalf ? Kind.HALF : IS_LETTER[text.charCodeAt(0)] ? Kind.WORD
      : first === "\"" ? Kind.STRING : first === "%" && text !== "%%" ? Kind.DIRECTIVE : text;
  }
  refuse(mark) {
    const { source, start } = this, isComment = source.startsWith("/*", start);
    const at = mark === "\"" ? start + 1 + /^[ !#-~]*/.exec(source.slice(start + 1))[0].length : start;
    const expected = { "\"": "`\"` at the end of a string", "%": "a directive as `%n`",
      "/": isComment ? "a comment that ends with `*/`" : "a token" }[mark] ?? "a token";
    throw new Fault(at, expected,
      at < source.length && !isComment ? JSON.stringify(source[at]) : "the end of the file");
  }
  text() { return this.source.slice(this.start, this.end); }
  isWord(word) { return this.kind === Kind.WORD && this.text() === word; }
  isDirective(letters) { return this.kind === Kind.DIRECTIVE && this.text() === "%" + letters; }
  fault(expected, at = this.start, end = this.end) {
    const found = `\`${this.source.slice(at, Math.min(end, at + 40))}\``;
    throw new Fault(at, expected, this.kind === Kind.END ? "the end of the file" : found);
  }
  /** Takes a token, whose text it answers. */
  take(kind, expected = `\`${kind}\``) {
    if (this.kind !== kind) this.fault(expected);
    const text = this.text();
    this.advance();
    return text;
  }
  takeWord(word, expected = `\`${word}\``) {
    if (!this.isWord(word)) this.fault(expected);
    this.advance();
  }
  takeNumber(expected) {
    const text = this.kind === Kind.WORD ? this.text() : "";
    if (!/^(0|[1-9]\d*)$/.test(text) || Number(text) > 0xffffffff)
      this.fault(`${expected}: a number below 4294967296 without leading zeros`);
    this.advance();
    return Number(text);
  }
  atIdentifier() { return this.kind === Kind.WORD && this.bytes[this.start] > 57 && !RESERVED.has(this.text()); }
  takeIdentifier(expected) {
    if (!this.atIdentifier()) this.fault(expected);
    return this.take(Kind.WORD);
  }
  /** X, then any number of `,` X, as long as the token at hand can begin an X. */
  list(begins, item) {
    if (!begins()) return;
    for (item(); this.kind === ","; item()) this.advance();
  }
}
