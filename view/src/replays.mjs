import { Kind, Cursor } from "./tokens.mjs";

/* ======== Replays: where the states of a run stand in a report ======== */
export class Replay {
  states = []; // node, size, what is broken, and the listed structure with the individuals to which the heap's go
  stuck = "";
  static read(bytes) {
    const replay = new Replay(), cursor = new Cursor(bytes);
    if (cursor.isWord("stuck")) {
      replay.stuck = new TextDecoder().decode(bytes).trim();
      return replay;
    }
    while (cursor.isWord("state")) replay.states.push(Replay.state(cursor, replay.states.length));
    cursor.takeWord("end", "`state` or `end`");
    if (cursor.kind !== Kind.END) cursor.fault("the end of the file");
    return replay;
  }
  static state(cursor, number) {
    cursor.advance();
    cursor.takeWord(String(number));
    cursor.takeWord("node");
    const state = { number, node: cursor.take(Kind.WORD, "the name of a node"), broken: [] };
    cursor.takeWord("size");
    state.size = cursor.takeNumber("how many individuals the heap has");
    for (const what of number ? ["updates"] : ["concrete"]) Replay.verdict(cursor, state, what);
    if (!number) state.initial = Replay.belongs(cursor, state, "initial");
    Replay.verdict(cursor, state, "rules");
    state.listed = Replay.belongs(cursor, state, "listed");
    return state;
  }
  /** `updates ok`, or `updates broken NAME`. */
  static verdict(cursor, state, what) {
    cursor.takeWord(what);
    if (!cursor.isWord("broken")) return cursor.takeWord("ok", "`ok` or `broken`");
    cursor.advance();
    const begin = cursor.start;
    let end = begin;
    do {
      if (cursor.kind === Kind.END) cursor.fault("what is broken");
      end = cursor.end;
      cursor.advance();
    } while (!["rules", "listed", "initial"].some(word => cursor.isWord(word)));
    state.broken.push(`${what} broken ${cursor.source.slice(begin, end)}`);
  }
  /** A structure's place and the individuals to which those of the heap go, or null. */
  static belongs(cursor, state, what) {
    cursor.takeWord(what);
    if (cursor.isWord("none")) {
      cursor.advance();
      return null;
    }
    const index = cursor.takeNumber("the place of a structure or `none`"), of = [];
    cursor.take("{");
    cursor.list(() => cursor.kind === Kind.WORD, () => of.push(cursor.takeNumber("an individual")));
    if (of.length !== state.size) cursor.fault(`${state.size} individuals`);
    cursor.take("}", "`,` or `}`");
    return { index, of };
  }
}
