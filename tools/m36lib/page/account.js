/* The middle of the page: the instruction, the account in sentences, the words and registers that
   changed, and the trace line. */

const TRACE_NAMES = ["step", "ring", "place", "instruction", "final address", "A", "Q",
  "indicators", "outcome"];
const HIDDEN_FROM = 4;

class AccountPanel {
  constructor(run, parent, trace) {
    this.run = run;
    this.parent = parent;
    this.trace = trace;
  }

  /* Shows a turn; of a step its outcome only where it is not to be predicted. */
  show(turn, hidden) {
    const run = this.run;
    if (!run.isStep(turn)) {
      this.showService(turn);
      return;
    }
    const step = run.step(turn);
    const before = run.registersAfter(this.stepBefore(turn));
    this.parent.replaceChildren(
      this.headline(step),
      hidden ? this.question() : this.sentences(step),
      ...(hidden ? [] : this.warnings(step)),
      this.registers(hidden ? before : step.after, hidden ? new Set() : step.changed, before, step,
        hidden),
    );
    this.scrollToRefusal();
    this.showTrace(step, hidden);
  }

  /* Begins at the top, unless what was refused is below the edge. */
  scrollToRefusal() {
    this.parent.scrollTop = 0;
    const lines = this.parent.querySelectorAll(".sentences .refused, .sentences .ended");
    if (!lines.length) return;
    const panel = this.parent.getBoundingClientRect();
    const below = lines[lines.length - 1].getBoundingClientRect().bottom - panel.bottom;
    if (below > 0) this.parent.scrollTop = below + 12;
  }

  stepBefore(turn) {
    if (this.run.processes === 1) return turn - 1;
    for (let at = turn - 1; at >= 0; at--) {
      if (this.run.processOf(at) === this.run.processOf(turn)) return at;
    }
    return -1;
  }

  headline(step) {
    return element("div", { class: "headline" },
      ringBadge(step.at.ring),
      element("div", {},
        element("p", { class: "who" }, `Ring ${step.at.ring} executes`),
        element("p", { class: "instruction" },
          element("code", {}, step.instruction || "no instruction")),
        element("p", { class: "where" }, `at ${step.at.name}`,
          step.code ? ` · word ${step.code}` : "")));
  }

  question() {
    return element("div", { class: "predict" },
      element("p", {}, "What will it ask of memory, in which ring, and what will the answer be?"),
      element("p", {}, "Predict, then press →"));
  }

  sentences(step) {
    const list = element("ol", { class: "sentences" });
    const head = `Ring ${step.at.ring} executes ${step.instruction} at ${step.at.name}.`;
    for (const sentence of step.sentences) {
      if (sentence.text !== head) list.append(this.sentence(sentence, step));
    }
    return list;
  }

  sentence(sentence, step) {
    const reference = sentence.reference;
    let kind = sentence.part;
    if (reference) kind = reference.allowed ? "allowed" : "refused";
    if (sentence.part === "end" && step.outcome.trace !== "next"
      && sentence.text === step.outcome.text) {
      kind = step.isAnswered ? "answered" : "ended";
    }
    return element("li", { class: kind },
      element("span", { class: "sign", "aria-hidden": "true" }, SIGNS[kind] || ""),
      element("div", {}, element("p", {}, sentence.text),
        sentence.link ? this.chips(sentence.link) : null),
      this.rule(sentence.rule));
  }

  rule(number) {
    if (!number) return null;
    const title = this.run.start.sections[number] || "";
    return element("span", { class: "rule", title: `MANUAL, section ${number}: ${title}` },
      `§${number}`);
  }

  /* The rings of a link of the chain, the greatest of which counts. */
  chips(link) {
    if (link.rings.length < 2) return null;
    const greatest = Math.max(...link.rings.map(([ring]) => ring));
    const chips = link.rings.map(([ring, why]) => element("span",
      { class: `chip r${ring}${ring === greatest ? " greatest" : ""}` }, why));
    return element("p", { class: "chips" }, chips, element("span", { class: "becomes" }, "→ "),
      element("span", { class: `chip result r${link.point.ring}` }, `ring ${link.point.ring}`));
  }

  warnings(step) {
    const found = [];
    if (step.differences.length) {
      found.push(element("div", { class: "warning", role: "note" },
        element("p", {}, "The machine did otherwise; the trace line is right."),
        element("ul", {}, step.differences.map((text) => element("li", {}, text)))));
    }
    if (step.unknown) found.push(element("p", { class: "warning", role: "note" }, step.unknown));
    if (step.words.length) {
      found.push(element("table", { class: "words" },
        element("caption", {}, "Words written"),
        step.words.map((word) => element("tr", {}, element("th", { scope: "row" }, word.name),
          element("td", {}, word.before === null ? "" : octal(word.before, 12)),
          element("td", {}, "→"),
          element("td", { class: "changed" }, word.after === null ? "" : octal(word.after, 12))))));
    }
    return found;
  }

  registers(values, changed, before, step, hidden, caption = "") {
    const names = this.run.registers;
    const rows = names.map((name, number) => [name, number]).filter(([name, number]) =>
      name !== "dbr" && values[number] !== "" && values[number] !== undefined);
    const when = hidden ? "Registers before the step" : "Registers after the step";
    const cell = ([name, number]) => element("div",
      { class: changed.has(number) ? "register changed" : "register", "data-register": name },
      element("span", { class: "label" }, REGISTER_LABELS[name] || name.toUpperCase()),
      this.registerValue(name, values[number]),
      changed.has(number) && before[number] !== values[number]
        ? element("span", { class: "was" }, "was ", this.registerText(name, before[number]))
          : null);
    return element("div", { class: "registers" },
      element("h3", {}, caption || when),
      element("div", { class: "wide" }, rows.filter(([name]) => WIDE.has(name)).map(cell)),
      element("div", { class: "pointers" },
        rows.filter(([name]) => name.startsWith("pr")).map(cell)),
      element("div", { class: "indexes" }, rows.filter(([name]) => /^x\d$/.test(name)).map(cell)),
      hidden ? null : element("p", { class: "next" }, this.nextText(step)));
  }

  nextText(step) {
    if (step.outcome.trace !== "next" || !step.next || this.run.processes > 1) return "";
    return `Next: ring ${step.next.ring} at ${this.run.placeName(step.next)}`;
  }

  registerText(name, value) {
    if (typeof value !== "number") return value;
    return octal(value, /^x/.test(name) ? 6 : 12);
  }

  registerValue(name, value) {
    if (!name.startsWith("pr")) return element("code", {}, this.registerText(name, value));
    const place = placeParts(value);
    return element("code", { title: value }, ringBadge(place.ring), ` ${this.run.placeName(place)}`,
      value.endsWith(" 00") ? "" : ` bit ${parseInt(value.slice(-2), 8)}`);
  }

  showTrace(step, hidden) {
    const names = this.run.processes > 1 ? ["process", ...TRACE_NAMES] : TRACE_NAMES;
    const from = HIDDEN_FROM + names.length - TRACE_NAMES.length;
    const fields = step.trace.map((text, index) => {
      const covered = hidden && index >= from;
      return element("span",
        { class: covered ? "field covered" : "field", "data-field": names[index] },
        element("span", { class: "label" }, names[index]),
        element("code", {}, covered ? "?" : text));
    });
    this.trace.replaceChildren(...fields);
  }

  /* What the system does between two steps. */
  showService(turn) {
    const row = this.run.rows[turn];
    const title = { link: "The linker", console: "The console", page: "A page",
      end: "The end" }[row.turn];
    const body = [element("p", {}, row.text)];
    if (row.turn === "console") body.push(
      element("pre", { class: "written" }, visible(row.written)));
    if (row.line) body.push(
      element("p", { class: "line-of-trace" }, element("code", {}, row.line)));
    this.parent.replaceChildren(
      element("div", { class: `service ${row.turn}` }, element("h2", {}, title), ...body),
      ...this.registersHere(turn));
    this.trace.replaceChildren(element("span", { class: "field" },
      element("span", { class: "label" }, row.turn),
      element("code", {}, row.line || "no line of the trace")));
  }

  registersHere(turn) {
    const values = this.run.registersAfter(turn);
    if (!values.length) return [];
    const step = { outcome: { trace: "" }, next: null };
    return [this.registers(values, new Set(), values, step, false, "Registers")];
  }
}

const SIGNS = { allowed: "✓", refused: "✕", chain: "↳", effect: "=", decode: "▸", end: "·",
  ended: "■", answered: "■", fetch: "▸" };
const REGISTER_LABELS = { indicators: "indicators", a: "A", q: "Q" };
const WIDE = new Set(["a", "q", "indicators"]);
