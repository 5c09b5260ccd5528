import { Fault } from "./tokens.mjs";
import { Report, StructuresFile } from "./reports.mjs";
import { Explanation } from "./explanations.mjs";
import { Replay } from "./replays.mjs";
import { Program } from "./programs.mjs";

/* ======== Files: what each is, by how it begins ======== */
const WORDS = new Map([["tvla", "report"], ["vars", "source"], ["state", "replay"], ["stuck", "replay"], ["step", "trace"],
  ["accepted", "verdict"], ["rejected", "verdict"],
  ...["initial", "edge", "message", "no", "node", "nothing", "stage"].map(word => [word, "explanation"])]);
const DECLARATION = /^(?:[ \t]*(?:%[spir]\b|%action\b|foreach\b|#[ \t]*include\b))/m;

/** The kind of a file; "" where it is none that is known. */
export const kindOf = text => {
  const bare = text.replace(/\/\*[^]*?(?:\*\/|$)|\/\/[^\n]*/g, "").trimStart(), word = /^\w+\b/.exec(bare)?.[0];
  if (WORDS.has(word)) return WORDS.get(word);
  if (/^%n\b/.test(bare)) return "structures";
  if (bare === "") return text === "" ? "" : "included"; // an include of comments alone
  if (!DECLARATION.test(bare) && !bare.startsWith("%%")) return "";
  return /%%/.test(bare) ? "program" : "included";
};

/** Why a file's first bytes can't be those of a text, or "". */
const foreign = bytes => {
  const [first, second, third] = bytes;
  if (first === 0xff && second === 0xfe || first === 0xfe && second === 0xff)
    return "is in UTF-16, as `>` of PowerShell writes it: write it in ASCII, by `| Out-File -Encoding ascii`";
  if (first === 0xef && second === 0xbb && third === 0xbf) return "begins with a byte order mark, which no text of tvla has";
  return "";
};

/** A file with its path, as far as the browser tells it, and its bytes. */
export class GivenFile {
  constructor(path, bytes) {
    Object.assign(this, { path, bytes, name: path.split("/").pop() });
    this.kind = foreign(bytes) ? "" : kindOf(new TextDecoder().decode(bytes.subarray(0, 1e6)));
  }
  get text() { return this.kept ??= new TextDecoder().decode(this.bytes); }
  get folder() { return this.path.slice(0, -this.name.length); }
}

/** The files that were given, what could be read of them, and why the others couldn't. */
export class Given {
  files = [];
  reports = []; // each with its file
  problems = [];
  structures = [];
  explanations = new Map(); // by their kind
  replay = null;
  verdict = "";
  program = null;

  /** Takes further files; `progress` is told what is going on. A new report takes the place of the old ones. */
  async add(files, progress) {
    this.problems = [];
    const fresh = files.filter(file => file.kind === "report");
    this.files = [...this.files.filter(old => !files.some(file => file.path === old.path && file.kind === old.kind)), ...files];
    const reports = [];
    for (const file of fresh) await this.attempt(file, async () => reports.push({ file, listing: await Report.read(file.bytes,
      done => progress(`Reading ${file.path}: ${Math.floor(done * 100)} %`)) }));
    if (reports.length) this.reports = this.isSecond(reports) ? [this.reports[0], reports[0]] : reports.slice(0, reports.length === 2 ? 2 : 1);
    if (reports.length > 2)
      this.problems.push(...reports.slice(1).map(({ file }) => `${file.path} isn't shown: of more than two reports the first is.`));
    for (const file of files.filter(({ kind }) => kind !== "report")) await this.attempt(file, () => this.take(file));
  }
  wantsSecond = false; // whether the next report is compared with the one that is shown
  isSecond(reports) {
    const isSecond = this.wantsSecond && reports.length === 1 && this.reports.length > 0;
    this.wantsSecond = false;
    return isSecond;
  }
  async attempt(file, act) {
    try {
      await act();
    } catch (fault) {
      this.problems.push(fault instanceof Fault ? fault.told(file.path, file.bytes) : `${file.path}: ${fault}`);
    }
  }
  take(file) {
    switch (file.kind) {
      case "structures":
        this.structures = [...this.structures.filter(({ file: old }) => old.path !== file.path),
          { file, listing: StructuresFile.read(file.bytes, file.name) }];
        break;
      case "explanation": {
        const explanation = Explanation.read(file.bytes);
        this.explanations.set(explanation.kind, { file, explanation });
        break;
      }
      case "replay": this.replay = { file, replay: Replay.read(file.bytes) }; break;
      case "verdict": this.verdict = file.text.trim(); break;
      case "program": case "source": case "included": break; // read when all files are there
      case "trace": this.problems.push(`${file.path}: a trace; what \`replay\` writes of it can be shown.`); break;
      default: this.problems.push(`${file.path}: ${foreign(file.bytes) || Given.unknown(file)}.`);
    }
  }
  static unknown(file) {
    const begin = file.text.trimStart().slice(0, 20).split("\n")[0];
    return file.bytes.length ? `begins as no text that the page knows: \`${begin}\`` : "is empty";
  }
  /** Programs that were given, those beside the report first, the last given in front. */
  get programs() {
    const beside = this.reports[0]?.file.folder, of = this.files.filter(({ kind }) => kind === "program" || kind === "source");
    return of.reverse().sort((a, b) => (b.folder === beside) - (a.folder === beside));
  }
  readProgram(file) {
    if (file.kind === "source") return Program.readSource(file);
    return Program.read(file, this.files.filter(({ kind }) => kind === "included" || kind === "program"));
  }
  /** Finds the first program that fits; where none does it tells the first difference. `differs` says how one differs. */
  choose(differs) {
    this.program = null;
    const refused = [];
    for (const file of this.programs) {
      try {
        const program = this.readProgram(file), difference = differs(program);
        if (!difference) {
          this.program = program;
          return;
        }
        refused.push(`${file.path} isn't taken, since it doesn't fit: ${difference}.`);
      } catch (fault) {
        if (!(fault instanceof Fault)) refused.push(`${file.path}: ${fault}`);
        else refused.push(file.kind === "source" ? fault.told(file.path, file.bytes) : Program.told(fault, file, this.files));
      }
    }
    this.problems.push(...refused);
  }
}

/** The files of a drop: those of folders too, with their paths. All is asked for before anything is awaited, for a drop ends then. */
export const droppedFiles = async transfer => {
  const items = [...transfer.items].filter(({ kind = "file" }) => kind === "file").map(item =>
    ({ entry: item.webkitGetAsEntry?.(), file: item.getAsFile?.(), handle: item.getAsFileSystemHandle?.().catch(() => null) }));
  if (!items.length) return Promise.all([...transfer.files].map(file => readFile(file, file.name)));
  return (await Promise.all(items.map(droppedItem))).flat();
};
/** A file as it is; a folder by its entries or, where these can't be read, as by Chromium on a page from disk, by its handle. */
const droppedItem = async ({ entry, file, handle }) => {
  if (file && !entry?.isDirectory) return [await readFile(file, file.name)];
  try {
    return await entryFiles(entry);
  } catch (fault) {
    const folder = await handle;
    if (!folder) throw fault;
    return handleFiles(folder, "");
  }
};
const handleFiles = async (handle, path) => {
  if (handle.kind === "file") return [await readFile(await handle.getFile(), path + handle.name)];
  const inner = [];
  for await (const one of handle.values()) inner.push(...await handleFiles(one, `${path}${handle.name}/`));
  return inner;
};
export const readFile = async (file, path) => new GivenFile(path || file.name, new Uint8Array(await file.arrayBuffer()));
const entryFiles = async entry => {
  if (entry.isFile) {
    const file = await new Promise((resolve, reject) => entry.file(resolve, reject));
    return [await readFile(file, entry.fullPath.replace(/^\//, ""))];
  }
  const reader = entry.createReader(), inner = [];
  for (let some; !some || some.length;) { // a browser gives some hundred at a time
    some = await new Promise((resolve, reject) => reader.readEntries(resolve, reject));
    inner.push(...some);
  }
  return (await Promise.all(inner.map(entryFiles))).flat();
};
