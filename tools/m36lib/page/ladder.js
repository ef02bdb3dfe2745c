/* The ladder: rings over time. A box for each stay, arrows for calls and returns, marks for what
   happens. */

const MOST_BOXES = 120;
const MARGIN_BOXES = 12;
const LANE = { label: 74, height: 60, box: 36, top: 22 };
const UNITS = [56, 44, 34, 28, 24, 20, 17, 14, 12];
const CHARACTER = 7.4;

class Ladder {
  constructor(run, parent, go) {
    this.run = run;
    this.parent = parent;
    this.go = go;
    this.stays = staysOf(run);
    this.boxes = boxesOf(this.stays, run.processes === 1);
    this.scroll = element("div", { class: "scroll", tabindex: "-1" });
    this.labels = element("div", { class: "lanes", "aria-hidden": "true" });
    parent.append(this.labels, this.scroll);
    this.findLanes();
    this.events = this.findEvents();
    this.window = null;
  }

  /* A lane for each ring, the outermost at the top; for each process, where there are several. */
  findLanes() {
    const key = (stay) => (this.run.processes > 1 ? stay.process : stay.ring);
    const keys = [...new Set(this.stays.map(key))].sort((a, b) =>
      (this.run.processes > 1 ? a - b : b - a));
    this.lanes = keys;
    this.laneOf = (stay) => keys.indexOf(key(stay));
  }

  /* Turns that have a mark: services, faults, and the end. */
  findEvents() {
    const found = [], run = this.run;
    for (let turn = 0; turn < run.count; turn++) {
      if (!run.isStep(turn)) found.push([turn, run.kind(turn)]);
      else if (/^(fault|stop)/.test(run.outcome(turn).trace)) {
        found.push([turn, run.isAnswered(turn) ? "answered" : "fault"]);
      }
    }
    return found;
  }

  boxWidth(box, unit) {
    const label = Math.max(this.boxName(box).length, this.stepsText(box).length);
    return Math.max(label * CHARACTER + 14, box.words.size * unit + 12);
  }

  /* The segment; of a single step of one process among several its instruction. */
  boxName(box) {
    const stay = box.stays[0];
    const isSingle = this.run.processes > 1 && stay.first === stay.last;
    if (!isSingle) return this.run.segmentName(stay.segment);
    return this.run.tables.instructions[this.run.head(stay.first)[1]][0] || "no instruction";
  }

  stepsText(box) {
    const run = this.run, stay = box.stays[0];
    const first = run.numbers[stay.first], last = run.numbers[stay.last];
    const ring = run.processes > 1 ? `ring ${stay.ring}, step ` : "";
    const repeats = Math.max(...box.stays.map((each) => each.repeats));
    const times = repeats >= LEAST_REPEATS ? ` × ${repeats}` : "";
    return ring + (first === last ? `${first}` : `${first}–${last}`) + times;
  }

  gapBefore(box) {
    const stay = box.stays[0];
    if (this.run.processes > 1) return 10;
    return stay.came < 0 ? 12 : this.run.mnemonic(stay.came).length * CHARACTER + 26;
  }

  /* Which boxes are drawn: all, or those around a box. */
  windowAround(index) {
    if (this.boxes.length <= MOST_BOXES) return [0, this.boxes.length];
    const now = this.window;
    const isInside = now && index >= now[0] + (now[0] ? MARGIN_BOXES : 0)
      && index < now[1] - (now[1] < this.boxes.length ? MARGIN_BOXES : 0);
    if (isInside) return now;
    const first = Math.max(0, Math.min(index - MOST_BOXES / 3, this.boxes.length - MOST_BOXES));
    return [first, first + MOST_BOXES].map(Math.floor);
  }

  layOut([first, last], width) {
    const boxes = this.boxes.slice(first, last);
    const total = (unit) => boxes.reduce((sum, box, at) =>
      sum + this.boxWidth(box, unit) + (at ? this.gapBefore(box) : 16), 110);
    const unit = UNITS.find((each) => total(each) <= width) || UNITS[UNITS.length - 1];
    let x = 16 + (first ? 60 : 0);
    boxes.forEach((box, at) => {
      if (at) x += this.gapBefore(box);
      box.x = x;
      box.width = this.boxWidth(box, unit);
      box.y = this.laneOf(box.stays[0]) * LANE.height + LANE.top;
      box.unit = (box.width - 12) / box.words.size;
      x += box.width;
    });
    return x + 94;
  }

  /* Where a turn is from the left. */
  x(turn) {
    const stay = stayOfTurn(this.stays, turn);
    if (!stay) return 16;
    const step = this.run.isStep(turn) ? turn : this.lastStep(turn, stay);
    const box = stay.box, column = box.words.get(this.run.spot(step)[2]) || 0;
    return box.x + 6 + (column + (step === turn ? 0.5 : 1)) * box.unit;
  }

  lastStep(turn, stay) {
    let at = Math.max(turn, stay.first);
    while (at > stay.first && !this.run.isStep(at)) at -= 1;
    return at;
  }

  draw(turn, scale) {
    const stay = stayOfTurn(this.stays, turn);
    const wanted = this.windowAround(stay ? stay.box.index : 0);
    const width = Math.floor((this.parent.clientWidth / scale) - LANE.label - 8);
    if (this.window && wanted[0] === this.window[0] && width === this.width
      && scale === this.scale) return;
    this.window = wanted;
    this.width = width;
    this.scale = scale;
    const total = Math.max(this.layOut(wanted, width), width);
    const hasGroups = this.boxes.slice(...wanted).some((box) => box.group);
    const height = this.lanes.length * LANE.height + (hasGroups ? 22 : 6);
    this.picture = drawn("svg",
      { width: total * scale, height: height * scale, viewBox: `0 0 ${total} ${height}`,
      role: "img" });
    this.parts = [];
    this.drawLanes(total);
    this.boxes.slice(...wanted).forEach((box) => this.drawBox(box, wanted));
    this.drawEvents(wanted);
    this.drawEdges(wanted, total);
    this.cursor = drawn("g", { class: "cursor" },
      drawn("path", { d: `M0,${height - 4} L0,8`, class: "cursor-line" }),
      drawn("path", { d: "M-6,0 L6,0 L0,9 z", class: "cursor-head" }));
    this.picture.append(this.cursor);
    this.scroll.replaceChildren(this.picture);
    this.scroll.scrollLeft = 0;
  }

  drawLanes(total) {
    this.labels.replaceChildren(...this.lanes.map((lane) => (this.run.processes > 1
      ? element("span", { class: "lane" }, `process ${lane}`)
      : element("span", { class: "lane" }, "ring ", ringBadge(lane)))));
    this.lanes.forEach((lane, number) => {
      const y = number * LANE.height + LANE.top + LANE.box / 2;
      this.picture.append(drawn("path", { d: `M0,${y} L${total},${y}`, class: "lane-line" }));
    });
  }

  drawBox(box, [first]) {
    const stay = box.stays[0], name = this.boxName(box);
    if (box.index > first) this.drawArrow(box);
    const rect = drawn("rect", { x: box.x, y: box.y, width: box.width, height: LANE.box, rx: 5 });
    const steps = drawn("text", { x: box.x + 7, y: box.y + 28, class: "steps" },
      this.stepsText(box));
    const group = drawn("g", { class: `stay r${stay.ring}` },
      drawn("title", {}, `${name}, ring ${stay.ring}`), rect,
      drawn("text", { x: box.x + 7, y: box.y + 14, class: "name" }, name), steps);
    group.addEventListener("click", (event) => this.click(box, event));
    this.picture.append(group);
    this.parts.push({ node: group, first: stay.first, last: stay.last, rect, steps, box });
    if (box.group && box.group.first === box.index) this.drawGroup(box);
  }

  drawArrow(box) {
    const stay = box.stays[0], from = stay.before;
    if (stay.came < 0 || !from || this.run.processes > 1) return;
    const before = this.boxes[box.index - 1];
    const start = before.x + before.width, y = box.y + LANE.box / 2, old = before.y + LANE.box / 2;
    const bend = start + (box.x - start) / 2;
    const inward = stay.ring < from.ring ? "inward" : stay.ring > from.ring ? "outward" : "level";
    const path = y === old ? `M${start},${y} L${box.x - 7},${y}`
      : `M${start},${old} L${bend},${old} L${bend},${y} L${box.x - 7},${y}`;
    const arrow = drawn("g", { class: `way ${inward}` },
      drawn("path", { d: path, class: "way-line" }),
      drawn("path", { d: `M${box.x},${y} l-8,-4 l0,8 z`, class: "way-head" }),
      drawn("text", { x: (start + box.x) / 2, y: Math.min(y, old) - 5, class: "way-name" },
        this.run.mnemonic(stay.came)));
    this.picture.append(arrow);
    this.parts.push({ node: arrow, first: stay.first });
  }

  /* The bracket below the boxes of a loop. */
  drawGroup(box) {
    const { group } = box, last = this.boxes[group.first + group.period - 1];
    if (last.x === undefined || last.x < box.x) return;
    const y = this.lanes.length * LANE.height + 2, end = last.x + last.width;
    const text = drawn("text", { x: (box.x + end) / 2, y: y + 14, class: "times" },
      `× ${group.repeats}`);
    const bracket = drawn("g", { class: "loop" },
      drawn("path",
        { d: `M${box.x},${y - 4} L${box.x},${y} L${end},${y} L${end},${y - 4}`,
        class: "bracket" }), text);
    this.picture.append(bracket);
    const stays = last.stays;
    this.parts.push({ node: bracket, first: stays[stays.length - 1].last, loop: group, text });
  }

  drawEvents(wanted) {
    const seen = new Map();
    const inWindow = (stay) => stay && stay.box.index >= wanted[0] && stay.box.index < wanted[1];
    for (const [turn, kind] of this.events) {
      const stay = stayOfTurn(this.stays, turn);
      if (!inWindow(stay) || kind === "answered") continue;
      const x = Math.round(this.x(turn)), place = `${x} ${stay.box.y}`;
      const kinds = seen.get(place) || [];
      if (kinds.includes(kind)) continue;
      seen.set(place, [...kinds, kind]);
      this.drawEvent(turn, kind, x, stay.box.y - 2 - kinds.length * 11, stay);
    }
  }

  drawEvent(turn, kind, x, y, stay) {
    if (kind === "end") {
      const row = this.run.rows[turn];
      const text = row.line ? row.line.split(" ").slice(1, -1).join(" ") : "goes on";
      const end = drawn("text", { x: stay.box.x + stay.box.width + 8, y: stay.box.y + 22,
        class: /^(dis|goes|schedule)/.test(text) ? "ends" : "ends bad" },
          text === "dis" ? "DIS" : text);
      this.picture.append(end);
      this.parts.push({ node: end, first: turn });
      return;
    }
    const titles = { link: "the linker", console: "the console", page: "a page is brought in",
      fault: "fault" };
    const shape = drawn("path",
      { d: MARKS[kind], transform: `translate(${x},${y})`, class: `mark ${kind}` },
      drawn("title", {}, titles[kind]));
    shape.addEventListener("click", () => this.go(turn));
    this.picture.append(shape);
    this.parts.push({ node: shape, first: turn });
  }

  drawEdges([first, last], total) {
    const numbers = this.run.numbers;
    if (first) {
      const text = `… ${numbers[this.boxes[first].stays[0].first] - 1} before`;
      this.picture.append(drawn("text", { x: 4, y: 12, class: "edge" }, text));
    }
    if (last < this.boxes.length) {
      const more = drawn("text", { x: total - 84, y: 12, class: "edge future" }, "more …");
      this.picture.append(more);
    }
  }

  click(box, event) {
    const point = (event.clientX - this.picture.getBoundingClientRect().left) / this.scale;
    const column = Math.max(0,
      Math.min(box.words.size - 1, Math.floor((point - box.x - 6) / box.unit)));
    const word = [...box.words.keys()][column], stay = box.stays[0];
    for (let turn = stay.first; turn <= stay.last; turn++) {
      if (this.run.isStep(turn) && this.run.spot(turn)[2] === word) return this.go(turn);
    }
    return this.go(stay.first);
  }

  /* Marks a turn. Past the limit nothing is shown. */
  show(turn, limit, scale) {
    this.draw(turn, scale);
    const x = this.x(turn), stay = stayOfTurn(this.stays, turn);
    this.cursor.setAttribute("transform", `translate(${x},0)`);
    const past = stay && stay.time > 0;
    for (const part of this.parts) this.showPart(part, turn, limit, stay, past);
    for (const node of this.picture.querySelectorAll(".future")) {
      node.setAttribute("visibility", limit === Infinity ? "visible" : "hidden");
    }
    this.picture.setAttribute("aria-label", this.text(turn, limit));
    this.follow(x * scale);
  }

  showPart(part, turn, limit, stay) {
    const isHidden = part.first > limit && !(part.box && part.first <= turn);
    part.node.setAttribute("visibility", isHidden ? "hidden" : "visible");
    if (part.box) {
      const cut = limit !== Infinity && part.last > limit;
      part.rect.setAttribute("width",
        cut ? Math.max(14, this.x(turn) + part.box.unit / 2 - part.box.x) : part.box.width);
      part.steps.setAttribute("visibility", isHidden || cut ? "hidden" : "visible");
      part.node.classList.toggle("now", Boolean(stay) && stay.box === part.box);
    }
    if (part.loop) {
      const here = stay && stay.box.group === part.loop;
      part.text.textContent = here ? `× ${part.loop.repeats}, now ${stay.time + 1}`
        : `× ${part.loop.repeats}`;
    }
  }

  /* The stays in words, those around the turn of a long run. */
  text(turn, limit) {
    const stay = stayOfTurn(this.stays, turn);
    if (!stay) return "no step";
    const first = Math.max(0, stay.index - 6);
    const known = this.stays.slice(first, stay.index + 7)
      .filter((each) => limit === Infinity || each.first <= turn);
    return "Ladder. " + known.map((each) => `${each === stay ? "Now " : ""}ring ${each.ring}, ${
      this.run.segmentName(each.segment)}, from step ${this.run.numbers[each.first]}`).join("; ");
  }

  follow(x) {
    const left = this.scroll.scrollLeft, width = this.scroll.clientWidth;
    if (x < left + 40 || x > left + width - 80) this.scroll.scrollLeft = Math.max(0, x - width / 2);
  }
}

const MARKS = {
  link: "M0,-5 L5,0 L0,5 L-5,0 z",
  console: "M-6,-5 L6,-5 L6,3 L1,3 L-2,6 L-2,3 L-6,3 z",
  page: "M-3,-3 L3,-3 L3,3 L-3,3 z",
  fault: "M-5,-3 L-3,-5 L0,-2 L3,-5 L5,-3 L2,0 L5,3 L3,5 L0,2 L-3,5 L-5,3 L-2,0 z",
};
