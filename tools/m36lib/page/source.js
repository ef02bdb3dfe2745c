/* The sources, with the line that is executed and the lines of the words that it refers to; or the
   instructions of the segment, where there is no source. */

const MOST_LINES_TOGETHER = 150;
const RING_CLASSES = [0, 1, 2, 3, 4, 5, 6, 7].map((ring) => `r${ring}`);
const PARTICIPLES = { read: "read", indirect: "read", write: "written", transfer: "gone to",
  call: "called",
  locate: "located", final: "referred to" };

class SourcePanel {
  constructor(run, parent) {
    this.run = run;
    this.files = Object.keys(run.start.sources);
    this.shown = null;
    this.marked = [];
    this.words = this.firstWords();
    this.title = element("h2");
    this.tabs = element("div", { class: "tabs", role: "group", "aria-label": "Sources" });
    this.body = element("div",
      { class: "listing", tabindex: "0", role: "region", "aria-label": "Lines" });
    parent.append(this.title, this.tabs, this.body);
    const lines = this.files.reduce((sum, file) => sum + run.start.sources[file].length, 0);
    this.isTogether = lines <= MOST_LINES_TOGETHER;
    if (this.files.length > 1 && !this.isTogether) this.makeTabs();
  }

  /* The first word of each line that has one, in octal, by the key of the line. */
  firstWords() {
    const found = new Map();
    for (const { file, lines } of Object.values(this.run.start.places)) {
      for (const [word, line] of Object.entries(lines)) {
        const key = `${file} ${line}`, now = parseInt(word, 8);
        if (!found.has(key) || now < found.get(key)) found.set(key, now);
      }
    }
    return found;
  }

  makeTabs() {
    const choice = element("select", { "aria-label": "Source" },
      this.files.map((file) => element("option", { value: file }, file)));
    choice.addEventListener("change", () => {
      this.showFiles([choice.value]);
      this.markLines();
    });
    this.tabs.append(choice);
    this.choice = choice;
  }

  /* Shows where a step executes, and marks the words of its references. */
  show(at, references) {
    this.at = at;
    this.references = references;
    this.title.replaceChildren(ringBadge(at.ring), ` ${at.name}`);
    const places = this.run.start.places[at.segment], file = at.file || (places && places.file);
    if (file && this.run.start.sources[file]) this.showFiles(this.isTogether ? this.files : [file]);
    else this.showInstructions(at.segment);
    this.markLines();
  }

  showFiles(files) {
    if (this.shown === files.join("/")) return;
    this.shown = files.join("/");
    this.lines = new Map();
    this.body.replaceChildren(...files.flatMap((file) => this.linesOf(file)));
    if (this.choice) this.choice.value = files[0];
  }

  linesOf(file) {
    const texts = this.run.start.sources[file];
    const count = texts[texts.length - 1] === "" ? texts.length - 1 : texts.length;
    const lines = texts.slice(0,
      count).map((text, index) => this.line(`${file} ${index + 1}`, index + 1, text));
    return [element("h3", { class: "file" }, file), ...lines];
  }

  line(key, number, text) {
    const word = this.words.has(key) ? this.words.get(key).toString(8) : "";
    const line = element("div", { class: "line", "data-line": number },
      element("span", { class: "number" }, String(number)),
      this.words.size
        ? element("span", { class: "word", title: word && `word ${word} of the segment` }, word)
        : null,
      element("code", {}, this.parts(shown(text))));
    this.lines.set(key, line);
    return line;
  }

  /* A text with the blanks before its remark drawn narrow. */
  parts(text) {
    const found = /^(.*?\S)( {2,})(".*)$/s.exec(text);
    if (!found) return [text];
    return [found[1], element("span", { class: "gap" }, found[2]),
      element("span", { class: "remark" }, found[3])];
  }

  /* The instructions of a segment that the run fetches, by their words. */
  showInstructions(segment) {
    if (this.shown === `|${segment}`) return;
    this.shown = `|${segment}`;
    this.lines = new Map();
    this.instructions = this.instructions || this.fetched();
    const words = [...(this.instructions.get(segment) || new Map())].sort();
    this.body.replaceChildren(
      element("h3", { class: "file" }, `instructions of ${this.run.segmentName(segment)}`),
      ...words.map(([word, text]) => this.line(`|${word}`, word, text)));
  }

  fetched() {
    const found = new Map(), run = this.run;
    for (let turn = 0; turn < run.count; turn++) {
      if (!run.isStep(turn)) continue;
      const at = run.at(turn), [text, code] = run.tables.instructions[run.head(turn)[1]];
      if (!found.has(at.segment)) found.set(at.segment, new Map());
      found.get(at.segment).set(at.word, text || code || "not fetched");
    }
    return found;
  }

  markLines() {
    for (const line of this.marked) {
      line.classList.remove("now", "asked", "refused", ...RING_CLASSES);
      line.removeAttribute("aria-current");
      for (const note of line.querySelectorAll(".note")) note.remove();
    }
    this.marked = [];
    const key = this.at.file ? `${this.at.file} ${this.at.line}` : `|${this.at.word}`;
    for (const reference of this.references) this.markReference(reference, key);
    const line = this.lines.get(key);
    if (!line) return;
    line.classList.add("now", `r${this.at.ring}`);
    line.setAttribute("aria-current", "step");
    this.marked.push(line);
    this.scrollTo(line);
  }

  /* A note at the line of a word that is referred to. */
  markReference(reference, here) {
    const { place, kind, allowed } = reference;
    const source = place && this.run.start.places[place.segment];
    if (!source || kind === "fetch") return;
    const key = `${source.file} ${source.lines[place.word]}`, line = this.lines.get(key);
    if (!line || key === here || line.querySelector(".note")) return;
    line.classList.add("asked");
    if (!allowed) line.classList.add("refused");
    line.append(element("span", { class: `note r${place.ring}` },
      `${PARTICIPLES[kind]} in ${place.ring}${allowed ? "" : ": refused"}`));
    this.marked.push(line);
  }

  scrollTo(line) {
    const top = line.offsetTop, height = this.body.clientHeight;
    if (top < this.body.scrollTop + 24 || top > this.body.scrollTop + height - 60) {
      this.body.scrollTop = Math.max(0, top - height / 3);
    }
  }
}
