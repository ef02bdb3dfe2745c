/* What the tests ask of an opened page. It is put into the page by the browser, and is no part of
   it. */

window.probe = {
  texts(selector) {
    return [...document.querySelectorAll(selector)].map((node) => node.textContent);
  },

  /* The keys of the buttons. */
  keys() {
    return [...document.querySelectorAll("#buttons button")].map((button) => button.dataset.key);
  },

  /* What can be used and has no name for a screen reader. */
  nameless() {
    return [...document.querySelectorAll("button, input, select, svg")]
      .filter((node) => !node.getAttribute("aria-label") && !(node.labels && node.labels.length))
      .map((node) => node.outerHTML);
  },

  state() {
    const now = document.querySelector(".line.now"), cell = (name) =>
      [...document.querySelectorAll(`.matrix td.${name}`)].map((node) =>
        `${node.parentElement.dataset.segment} ${node.dataset.ring}`);
    let file = now;
    while (file && !file.classList.contains("file")) file = file.previousElementSibling;
    return {
      position: document.getElementById("position").textContent,
      trace: this.texts("#trace code").join(" "),
      line: now ? `${file.textContent} ${now.dataset.line}` : null,
      executes: cell("executes"), refused: cell("refused"),
      rings: this.texts(".picture-words p"),
      refusals: this.texts("#account li.refused"),
      live: document.getElementById("live").textContent,
      next: this.texts("#account .next")[0] || "",
      help: Boolean(document.querySelector("dialog[open]")),
      size: getComputedStyle(document.documentElement).fontSize,
      slider: [document.getElementById("slider").value, document.getElementById("slider").max],
    };
  },

  /* The texts that can be seen, and the labels that a screen reader says. */
  visible() {
    const found = [], walker = document.createTreeWalker(document.body, NodeFilter.SHOW_TEXT);
    while (walker.nextNode()) {
      const parent = walker.currentNode.parentElement;
      if (/^(SCRIPT|STYLE|NOSCRIPT|title)$/.test(parent.tagName)) continue;
      if (parent.checkVisibility({ visibilityProperty: true })) found.push(
        walker.currentNode.textContent);
    }
    for (const node of document.querySelectorAll("[aria-label], [aria-valuetext]")) {
      if (!node.checkVisibility({ visibilityProperty: true })) continue;
      found.push(node.getAttribute("aria-label") || "", node.getAttribute("aria-valuetext") || "");
    }
    return found;
  },

  /* What is wider than its place. */
  overflowing() {
    const wide = (node) => node.scrollWidth > node.clientWidth + 1;
    const found = [document.documentElement,
      ...document.querySelectorAll("main > section, .matrix, #buttons, header, #trace")]
      .filter(wide).map((node) => node.id || node.className || node.tagName);
    for (const node of document.querySelectorAll(
      "button, #trace code, .register code, .matrix td, .picture")) {
      const box = node.getBoundingClientRect(), place = node.closest("main > section");
      const right = place ? place.getBoundingClientRect().right : window.innerWidth;
      if (box.right > right + 1 || box.left < -1) found.push(`${node.tagName} ${node.textContent}`);
    }
    return found;
  },

  color(text) {
    const context = this.canvas
      || (this.canvas = document.createElement("canvas").getContext("2d",
      { willReadFrequently: true }));
    context.clearRect(0, 0, 1, 1);
    context.fillStyle = text;
    context.fillRect(0, 0, 1, 1);
    return [...context.getImageData(0, 0, 1, 1).data];
  },

  /* The colour on which a text is. */
  ground(node) {
    const stay = node.closest(".stay"), svg = node.closest("svg");
    if (stay && svg) return this.color(getComputedStyle(stay.querySelector("rect")).fill);
    if (node.classList.contains("marker-text")) return this.color(
      getComputedStyle(node.previousElementSibling).fill);
    if (node.classList.contains("band-number")) {
      return this.color(getComputedStyle(svg.querySelector(`.band.r${node.textContent}`)).fill);
    }
    for (let at = node; at; at = at.parentElement) {
      const color = this.color(getComputedStyle(at).backgroundColor);
      if (color[3] === 255) return color;
    }
    return [255, 255, 255, 255];
  },

  luminance(color) {
    const [red, green, blue] = color.map((part) => part / 255)
      .map((part) => (part <= 0.04045 ? part / 12.92 : ((part + 0.055) / 1.055) ** 2.4));
    return 0.2126 * red + 0.7152 * green + 0.0722 * blue;
  },

  /* The texts whose contrast is below 4.5 to 1. */
  faint() {
    const found = [], walker = document.createTreeWalker(document.body, NodeFilter.SHOW_TEXT);
    while (walker.nextNode()) {
      const node = walker.currentNode.parentElement, text = walker.currentNode.textContent.trim();
      if (!text || /^(SCRIPT|STYLE|NOSCRIPT|title|OPTION)$/.test(node.tagName)) continue;
      if (!node.checkVisibility({ visibilityProperty: true })) continue;
      const style = getComputedStyle(node),
        ink = this.color(node.closest("svg") ? style.fill : style.color);
      const [light, dark] = [this.luminance(ink),
        this.luminance(this.ground(node))].sort((a, b) => b - a);
      const contrast = (light + 0.05) / (dark + 0.05);
      if (contrast < 4.5) found.push(`${text}: ${contrast.toFixed(2)}`);
    }
    return found;
  },

  /* Whether a script that gets into the page is run. */
  runs() {
    const script = document.createElement("script");
    script.textContent = "window.probe.ran = true";
    document.body.append(script);
    script.remove();
    return Boolean(this.ran);
  },
};
