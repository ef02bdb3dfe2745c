/* The page: where it is in the run, keys and buttons. */

const MARK_TEXTS = [["page", "a page is referred to for the first time"],
  ["link", "the linker answers a link"],
  ["console", "the console writes"], ["fault", "a fault or a stop"]];
const NUMBERS_TEXT = "Numbers are octal, except those of instructions and sources (there oct is "
  + "octal), of steps, lines and faults.";

const SIZES = [0.75, 0.85, 1, 1.15, 1.3, 1.5, 1.75];

class Page {
  constructor(run) {
    this.run = run;
    this.turn = 0;
    this.predicts = false;
    this.isHidden = false;
    this.size = window.innerWidth >= 1700 ? 3 : 2;
    this.setSize();
    this.slider = byId("slider");
    this.source = new SourcePanel(run, byId("source"));
    this.account = new AccountPanel(run, byId("account"), byId("trace"));
    this.memory = new MemoryPanel(run, byId("memory"));
    this.ladder = new Ladder(run, byId("ladder"), (turn) => this.go(turn));
    this.makeHead();
    this.makeButtons();
    this.listen();
    this.go(this.firstStep());
    this.goToFragment();
  }

  makeHead() {
    const start = this.run.start;
    byId("name").textContent = shown(start.name);
    byId("name").title = { folder: "a folder that boots", image: "a bare image",
      processes: "several processes" }[start.kind];
    byId("question").hidden = !start.question;
    byId("question").textContent = start.question || "";
    if (!start.notes.length) return;
    byId("notes").hidden = false;
    byId("notes").append(...start.notes.map((note) => element("p", {}, note)));
  }

  makeButtons() {
    this.actions = [
      ["Home", "Home", "the first step", () => this.go(this.firstStep())],
      ["ArrowLeft", "←", "a step back", () => this.back()],
      ["ArrowRight", "→", "a step", () => this.forward()],
      ["End", "End", "the end", () => this.end()],
      ["ArrowUp", "↑", "the change of ring before", () => this.ring(-1), "ring"],
      ["ArrowDown", "↓", "the next change of ring", () => this.ring(1), "ring"],
      ["f", "f", "the next fault or link", () => this.event(), "fault, link"],
      ["l", "l", "out of a loop", () => this.leaveLoop(), "loop"],
      ["p", "p", "predict", () => this.togglePredict(), "predict"],
      ["-", "−", "smaller", () => this.resize(-1)],
      ["+", "+", "larger", () => this.resize(1)],
      ["?", "?", "help", () => this.help()],
    ];
    for (const [key, label, title, act, word] of this.actions) {
      const button = element("button",
        { type: "button", title: `${title} (key ${label})`, "aria-label": title,
        "aria-keyshortcuts": key, "data-key": key }, element("kbd", {}, label),
          word ? ` ${word}` : "");
      button.addEventListener("click", act);
      byId("buttons").append(button);
    }
    this.keys = new Map(this.actions.map(([key, , , act]) => [key, act]));
    this.keys.set("=", this.keys.get("+"));
    this.predictButton = byId("buttons").querySelector("[data-key=p]");
    this.predictButton.setAttribute("aria-pressed", "false");
  }

  /* What keys and marks mean. */
  help() {
    if (this.dialog) {
      this.dialog.remove();
      this.dialog = null;
      return;
    }
    const row = (head, text) =>
      element("tr", {}, element("th", { scope: "row" }, head), element("td", {}, text));
    const mark = ([kind, text]) =>
      row(drawn("svg", { width: 16, height: 14, viewBox: "-8 -7 16 14", "aria-label": kind },
      drawn("path", { d: MARKS[kind], class: `mark ${kind}` })), text);
    const close = element("button", { type: "button" }, "Close");
    close.addEventListener("click", () => this.help());
    this.dialog = element("dialog", { "aria-label": "Help" },
      element("h2", {}, "Keys"),
        element("table", {}, this.actions.map(([, label, title]) => row(label, title))),
      element("h2", {}, "Marks in the ladder"), element("table", {}, MARK_TEXTS.map(mark)),
      element("h2", {}, "Numbers"), element("p", { class: "numbers" }, NUMBERS_TEXT), close);
    this.dialog.addEventListener("close", () => this.dialog && this.help());
    document.body.append(this.dialog);
    this.dialog.showModal();
  }

  listen() {
    document.addEventListener("keydown", (event) => {
      const isOther = event.ctrlKey || event.altKey || event.metaKey;
      if (isOther || event.target.tagName === "SELECT") return;
      const act = this.keys.get(event.key);
      if (!act) return;
      event.preventDefault();
      act();
    });
    this.slider.addEventListener("input", () => this.go(Number(this.slider.value)));
    window.addEventListener("resize", () => this.show());
    window.addEventListener("hashchange", () => this.goToFragment());
  }

  /* `#14` is step 14, and `#14p` the same to be predicted. */
  goToFragment() {
    const found = /^#(\d+)(p?)$/.exec(location.hash);
    if (!found) return;
    if (found[2] && !this.predicts) this.togglePredict();
    for (let turn = 0; turn < this.run.count; turn++) {
      const number = this.run.isStep(turn) ? this.run.numbers[turn] : null;
      if (number === Number(found[1])) return this.go(turn);
    }
  }

  firstStep() {
    let turn = 0;
    while (turn < this.run.count - 1 && !this.run.isStep(turn)) turn += 1;
    return turn;
  }

  /* Goes to a turn. While predicting it skips the pages that a step brings in, since they would
     show what the step refers to. */
  go(turn) {
    let wanted = Math.max(0, Math.min(turn, this.run.count - 1));
    while (this.predicts && this.isPage(wanted) && wanted < this.run.count - 1) wanted += 1;
    this.turn = wanted;
    this.isHidden = this.predicts && this.run.isStep(wanted);
    this.show();
  }

  forward() {
    if (this.isHidden) {
      this.isHidden = false;
      this.show();
    } else if (this.turn < this.run.count - 1) this.go(this.turn + 1);
  }

  back() {
    let turn = this.turn - 1;
    while (this.predicts && turn > 0 && this.isPage(turn)) turn -= 1;
    if (turn >= 0) this.go(turn);
  }

  isPage(turn) {
    return this.run.kind(turn) === "page";
  }

  end() {
    if (this.predicts) this.say("The end is hidden while you predict.");
    else this.go(this.run.count - 1);
  }

  /* To the first step of the next stretch in another ring, or of this one or the one before. */
  ring(direction) {
    const run = this.run, ringAt = (turn) => run.tables.spots[run.spots[turn]][0];
    const steps = (from, by) => {
      let at = from + by;
      while (at >= 0 && at < run.count && !run.isStep(at)) at += by;
      return at;
    };
    let turn = run.isStep(this.turn) ? this.turn : steps(this.turn, -1);
    if (turn < 0) return;
    if (direction > 0) {
      let at = steps(turn, 1);
      while (at < run.count && ringAt(at) === ringAt(turn)) at = steps(at, 1);
      if (at < run.count) this.go(at);
      else if (this.predicts) this.end();
      else this.say("The ring does not change any more.");
      return;
    }
    const before = steps(turn, -1);
    if (before < 0) return;
    const ring = ringAt(before);
    for (let at = before; at >= 0 && ringAt(at) === ring; at = steps(at, -1)) turn = at;
    this.go(turn);
  }

  event() {
    if (this.predicts) {
      this.say("The next fault is hidden while you predict.");
      return;
    }
    const kinds = ["link", "fault", "answered"];
    const found = this.ladder.events
      .find(([turn, kind]) => turn > this.turn && kinds.includes(kind));
    if (found) this.go(found[0]);
    else this.say("There is no fault and no link after this.");
  }

  leaveLoop() {
    const turn = this.run.isStep(this.turn) ? afterLoop(this.run, this.turn) : -1;
    if (turn < 0) this.say("This step is in no loop.");
    else if (this.predicts && !this.run.isStep(turn)) this.end();
    else this.go(turn);
  }

  togglePredict() {
    this.predicts = !this.predicts;
    this.predictButton.setAttribute("aria-pressed", String(this.predicts));
    document.body.classList.toggle("predicts", this.predicts);
    this.go(this.turn);
  }

  resize(by) {
    this.size = Math.max(0, Math.min(SIZES.length - 1, this.size + by));
    this.setSize();
    this.show();
  }

  setSize() {
    document.documentElement.style.fontSize = `${16 * SIZES[this.size]}px`;
  }

  show() {
    const run = this.run, { turn, isHidden } = this;
    const limit = this.predicts ? (isHidden ? this.turnBefore() : turn) : Infinity;
    this.slider.max = String(this.predicts ? turn : run.count - 1);
    this.slider.value = String(turn);
    const place = this.place();
    this.slider.setAttribute("aria-valuetext", place);
    byId("position").textContent = place;
    if (run.spots[turn] >= 0) {
      this.source.show(run.at(turn), isHidden || !run.isStep(turn) ? [] : run.references(turn));
    }
    this.account.show(turn, isHidden);
    this.memory.show(turn, isHidden);
    this.ladder.show(turn, limit, SIZES[this.size]);
    byId("live").textContent = this.summary();
    byId("message").hidden = true;
  }

  /* The last turn that is known while this step is to be predicted. */
  turnBefore() {
    let turn = this.turn - 1;
    while (turn >= 0 && this.isPage(turn)) turn -= 1;
    return turn;
  }

  place() {
    const run = this.run, number = run.numbers[this.turn];
    const of = this.predicts ? "" : ` of ${run.steps}`;
    const kind = run.kind(this.turn);
    if (kind === "step") return `Step ${number}${of}`;
    if (kind === "end") return `End, after step ${number}`;
    return kind === "page" ? `Before step ${number + 1}${of}` : `After step ${number}${of}`;
  }

  /* What a screen reader says of a turn. */
  summary() {
    const run = this.run;
    if (!run.isStep(this.turn)) return `${this.place()}: ${run.rows[this.turn].text}`;
    const step = run.step(this.turn);
    const what = step.instruction || "nothing";
    const head = `Step ${step.number}. Ring ${step.at.ring} executes ${what} at ${step.at.name}.`;
    if (this.isHidden) return `${head} Predict, then press the right arrow.`;
    const reference = mainReference(step.references);
    const asked = reference && reference.kind !== "fetch"
      ? ` ${reference.question} ${reference.answer}` : "";
    const effects = step.sentences.filter(({ part }) => part === "effect");
    return [head + asked, ...effects.map(({ text }) => text), step.outcome.text].join(" ");
  }

  /* Says why a key does nothing, to eyes and ears. */
  say(text) {
    byId("live").textContent = text;
    byId("message").textContent = text;
    byId("message").hidden = false;
  }
}

new Page(new Run(JSON.parse(byId("run").textContent)));
