/* The right of the page: the rings, the matrix of segments by rings, pages, and the console. */

const MOST_ROWS = 40;
const MOST_SQUARES = 12;
const FEW_PAGES = 4;
const RINGS = [0, 1, 2, 3, 4, 5, 6, 7];
const VERBS = { read: "reads", indirect: "reads", write: "writes", transfer: "goes on",
  call: "calls",
  locate: "locates", fetch: "executes", final: "refers" };

/* The reference of a step that counts: the one that is refused, or else the last. */
function mainReference(references) {
  return references.find((reference) => !reference.allowed) || references[references.length - 1]
    || null;
}

class MemoryPanel {
  constructor(run, parent) {
    this.run = run;
    this.picture = element("div", { class: "picture" });
    this.matrix = element("div",
      { class: "matrix", tabindex: "0", role: "region", "aria-label": "Matrix" });
    this.console = element("div", { class: "console" });
    parent.append(element("h2", {}, "Rings"), this.picture, element("h2", {}, "Who may do what"),
      this.matrix);
    this.findTouched();
    this.makeMatrix();
    parent.append(this.legend, this.console);
  }

  /* Which page is touched when: the first turn by segment and page. */
  findTouched() {
    this.pages = new Map();
    const run = this.run, known = new Map();
    for (let turn = 0; turn < run.count; turn++) {
      if (!run.isStep(turn)) continue;
      this.touch(run.spot(turn)[1], run.spot(turn)[2], turn);
      for (const number of run.head(turn)[4]) {
        if (known.has(number)) continue;
        const place = run.reference(number).place;
        known.set(number, true);
        if (place) this.touch(place.segment, place.word, turn);
      }
    }
  }

  touch(segment, word, turn) {
    if (!this.pages.has(segment)) this.pages.set(segment, new Map());
    const pages = this.pages.get(segment), page = parseInt(word, 8) >> 10;
    if (!pages.has(page)) pages.set(page, turn);
  }

  rowsShown() {
    const segments = this.run.start.segments;
    const isSystem = (segment) => segment.kind === "stack" || segment.kind === "linkage";
    const touched = (segment) => this.pages.has(segment.number);
    const wanted = segments.filter((segment) => touched(segment) || !isSystem(segment));
    const found = wanted.length > MOST_ROWS ? wanted.filter(touched) : wanted;
    return [...found.filter((segment) => !isSystem(segment)), ...found.filter(isSystem)];
  }

  makeMatrix() {
    this.cells = new Map();
    const rows = this.rowsShown();
    const head = element("tr", {}, element("th", { scope: "col" }, "segment"),
      RINGS.map((ring) =>
        element("th", { scope: "col", class: `r${ring}`, "data-ring": ring }, String(ring))),
      element("th", { scope: "col", class: "pages" }, "pages"));
    this.heads = [...head.querySelectorAll("[data-ring]")];
    const body = rows.map((segment) => this.matrixRow(segment));
    this.matrix.append(element("table", {},
      element("caption", { class: "unseen" },
        "What each ring may do with each segment: r read, w write, e execute, c call"),
      element("thead", {}, head), element("tbody", {}, body)));
    const left = this.run.start.segments.length - rows.length;
    const legend = element("p", { class: "legend" },
      "r read · w write · e execute · c call into an inner ring · 444: R1 R2 R3",
      left && rows.length > MOST_ROWS / 2 && !this.isSmall()
        ? ` · ${left} segments that are not touched are left out` : "");
    this.legend = legend;
  }

  isSmall() {
    return this.run.start.segments.length <= MOST_ROWS + 16;
  }

  matrixRow(segment) {
    const cells = segment.rights.map((letters, ring) => {
      const cell = element("td", { class: letters ? `r${ring}` : "none", "data-ring": ring },
        letters);
      this.cells.set(`${segment.number} ${ring}`, cell);
      return cell;
    });
    const pages = element("td", { class: "pages" });
    this.cells.set(`${segment.number} pages`, pages);
    const title = `segment ${segment.number}, brackets ${segment.r1} ${segment.r2} ${segment.r3}`
      + (segment.gate ? `, a gate with ${segment.entries} entries` : "")
        + `, ${segment.words} words`;
    return element("tr", { "data-segment": segment.number },
      element("th", { scope: "row", title }, element("span", {}, this.rowName(segment)),
        element("small", {}, ` ${segment.r1}${segment.r2}${segment.r3}`)), cells, pages);
  }

  /* The name of a segment, with its file where another one has the name too. */
  rowName(segment) {
    const others = this.run.start.segments.filter((other) => other.name === segment.name);
    return others.length > 1 && segment.file !== segment.name ? `${segment.name} (${segment.file})`
      : segment.name;
  }

  show(turn, hidden) {
    const run = this.run;
    const isStep = run.isStep(turn), at = run.spots[turn] < 0 ? run.start.start : run.at(turn);
    const references = isStep && !hidden ? run.references(turn) : [];
    const main = mainReference(references);
    this.drawRings(at.ring, main, isStep && hidden);
    this.markMatrix(at, references, main);
    this.drawPages(turn, at, references, hidden);
    this.showConsole(turn);
  }

  markMatrix(at, references, main) {
    for (const cell of this.matrix.querySelectorAll(".executes, .refers, .refused, .column")) {
      cell.classList.remove("executes", "refers", "refused", "column");
      cell.removeAttribute("aria-label");
    }
    for (const cell of this.matrix.querySelectorAll(`[data-ring="${at.ring}"]`)) {
      cell.classList.add("column");
    }
    const here = this.cells.get(`${at.segment} ${at.ring}`);
    if (here) this.scrollTo(here.parentElement);
    if (here) this.markCell(here, "executes", `ring ${at.ring} executes here`);
    for (const reference of references) {
      if (reference.kind === "fetch" || !reference.place) continue;
      const cell = this.cells.get(`${reference.place.segment} ${reference.place.ring}`);
      if (!cell) continue;
      const verb = VERBS[reference.kind];
      if (reference.allowed) this.markCell(cell, "refers", `ring ${reference.place.ring} ${verb}`);
      else this.markCell(cell, "refused", `${verb}: refused`);
    }
    const isFetch = main && !main.allowed && main.kind === "fetch";
    if (isFetch && here) this.markCell(here, "refused", "execution refused");
  }

  /* Scrolls a long matrix to a row. */
  scrollTo(row) {
    const top = row.offsetTop, height = this.matrix.clientHeight, now = this.matrix.scrollTop;
    if (top < now + row.offsetHeight || top > now + height - 2 * row.offsetHeight) {
      this.matrix.scrollTop = Math.max(0, top - height / 2);
    }
  }

  markCell(cell, mark, label) {
    cell.classList.add(mark);
    cell.setAttribute("aria-label", `${cell.textContent || "nothing"}; ${label}`);
  }

  drawPages(turn, at, references, hidden) {
    const uses = this.usesOf(at, references);
    for (const [segment, pages] of this.pages) {
      const cell = this.cells.get(`${segment} pages`);
      if (!cell) continue;
      const words = this.run.segments.has(segment) ? this.run.segments.get(segment).words : 0;
      const count = Math.max(1, Math.ceil(words / 1024));
      const shown = count <= FEW_PAGES ? [...Array(count).keys()]
        : this.touchedPages(pages, hidden ? turn - 1 : turn, segment, uses);
      cell.replaceChildren(
        ...shown.map((page) => this.square(segment, page, pages.get(page), turn, uses, hidden)),
        count > FEW_PAGES ? element("small", { title: `${count} pages` }, `/${count}`) : "");
    }
  }

  /* The pages that have been touched, and of many those about the last ones. */
  touchedPages(pages, turn, segment, uses) {
    const isUsed = (page) => uses.has(`${segment} ${page}`);
    const touched = [...pages.keys()].filter((page) => pages.get(page) <= turn || isUsed(page));
    touched.sort((a, b) => a - b);
    const used = touched.findIndex(isUsed);
    const first = Math.max(0, Math.min((used < 0 ? 0 : used) - 4, touched.length - MOST_SQUARES));
    return touched.slice(first, first + MOST_SQUARES);
  }

  usesOf(at, references) {
    const uses = new Map();
    const add = (place, use) => {
      const key = `${place.segment} ${parseInt(place.word, 8) >> 10}`;
      uses.set(key, (uses.get(key) || new Set()).add(use));
    };
    add(at, "executed");
    for (const reference of references) {
      if (!reference.allowed) add(reference.refused || reference.place, "refused");
      else if (reference.kind === "write") add(reference.place, "written");
      else if (["read", "indirect"].includes(reference.kind)) add(reference.place, "read");
    }
    return uses;
  }

  square(segment, page, first, turn, uses, hidden) {
    const now = uses.get(`${segment} ${page}`) || new Set();
    const before = first !== undefined && (hidden ? first < turn : first <= turn);
    const kinds = ["refused", "written", "read", "executed"].filter((use) => now.has(use));
    const kind = kinds[0] || (before ? "before" : "untouched");
    const other = kind === "before" ? "touched before" : "not touched";
    const names = kinds.length ? kinds.join(", ") : other;
    return element("span", { class: `square ${kind}`, title: `page ${page}: ${names}`, role: "img",
      "aria-label": `page ${page}: ${names}` }, SQUARE_LETTERS[kind] || "");
  }

  /* All rings, the one that executes and the one in which memory is referred to. */
  drawRings(ring, main, hidden) {
    const size = 208, middle = size / 2, band = 12;
    const radius = (number) => 14 + number * band;
    const picture = drawn("svg", { viewBox: `0 0 ${size} ${size}`, role: "img", class: "rings" });
    for (let number = 7; number >= 0; number--) {
      picture.append(drawn("circle", { cx: middle, cy: middle, r: radius(number),
        class: `band r${number}${number === ring ? " executes" : ""}` }));
    }
    for (let number = 0; number < 8; number++) {
      const y = number ? middle - radius(number) + band / 2 + 3 : middle + 4;
      picture.append(drawn("text", { x: middle, y, class: "band-number" }, String(number)));
    }
    picture.append(
      drawn("circle", { cx: middle, cy: middle, r: ring ? radius(ring) - band / 2 : radius(0) / 2,
      class: "track executes" }));
    const other = main && main.kind !== "fetch" && main.place ? main.place.ring : null;
    if (other !== null) {
      const [from, to] = [this.markerPlace(middle, ring, radius, band, 150),
        this.markerPlace(middle, other, radius, band, 30)];
      picture.append(
        drawn("path", { d: `M${from} L${to}`, class: main.allowed ? "reach" : "reach refused" }));
      this.drawMarker(picture, middle, other, radius, band, 30,
        main.allowed ? "refers" : "refused");
    }
    const isRefused = main && !main.allowed && main.kind === "fetch";
    this.drawMarker(picture, middle, ring, radius, band, 150, isRefused ? "refused" : "executes");
    const words = [
      element("p", { class: isRefused ? "refused" : "" }, "executes in ", ringBadge(ring),
      isRefused ? " refused" : "")];
    if (hidden) words.push(element("p", { class: "covered" }, "asks in ?"));
    else if (other !== null) {
      words.push(element("p", { class: main.allowed ? "" : "refused" }, `${VERBS[main.kind]} in `,
        ringBadge(other), main.allowed ? "" : " refused"));
    }
    picture.setAttribute("aria-label", words.map((word) => word.textContent).join(", "));
    this.picture.replaceChildren(picture, element("div", { class: "picture-words" }, words));
  }

  markerPlace(middle, ring, radius, band, angle) {
    const distance = ring ? radius(ring) - band / 2 : 8, turn = (angle * Math.PI) / 180;
    return [middle + distance * Math.cos(turn), middle + distance * Math.sin(turn)];
  }

  drawMarker(picture, middle, ring, radius, band, angle, kind) {
    const [x, y] = this.markerPlace(middle, ring, radius, band, angle);
    picture.append(drawn("circle", { cx: x, cy: y, r: 8, class: `marker ${kind}` }),
      drawn("text", { x, y: y + 4, class: "marker-text" },
        { executes: "▸", refers: "•", refused: "✕" }[kind]));
  }

  showConsole(turn) {
    this.written = this.written || this.run.rows.flatMap((row, at) =>
      (!Array.isArray(row) && row.turn === "console" ? [[at, row.written]] : []));
    const text = this.written.filter(([at]) => at <= turn).map(([, written]) => written).join("");
    if (!this.written.length) return;
    if (!text) this.console.replaceChildren();
    else {
      this.console.replaceChildren(element("h2", {}, "Console"),
        element("pre", { tabindex: "0", "aria-label": "What the console has written" },
          visible(text)));
    }
  }
}

const SQUARE_LETTERS = { executed: "e", read: "r", written: "w", refused: "✕" };
