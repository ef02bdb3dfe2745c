"use strict";

/* The run: decodes the data of the page (tools/m36lib/encode.py says how it is written). A turn is
   a step, or what the system does between two steps. Turns are counted from 0, steps from 1. */

const HOLES = { "\ue000": 12, "\ue001": 6 };
const NUMBERS = 10;
const KEYFRAME = 256;

function octal(value, width) {
  return value.toString(8).padStart(width, "0");
}

/* A place `4:00100|000010` as its parts; null where there is none. */
function placeParts(text) {
  const found = /^(\d):(\d+)\|(\d+)/.exec(text || "");
  return found && { ring: Number(found[1]), segment: found[2], word: found[3] };
}

class Run {
  constructor(data) {
    this.start = data.start;
    this.registers = data.registers;
    this.tables = data.tables;
    this.rows = data.turns;
    this.count = this.rows.length;
    this.segments = new Map(this.start.segments.map((segment) => [segment.number, segment]));
    this.processes = this.start.processes || 1;
    this.index(data.first || []);
  }

  /* Numbers of steps, spots, and the registers at every 256th turn. */
  index(first) {
    this.numbers = new Int32Array(this.count);
    this.spots = new Int32Array(this.count);
    this.keyframes = [];
    const states = Array.from({ length: this.processes }, () => first.slice());
    let number = 0, spot = -1;
    this.rows.forEach((row, turn) => {
      if (turn % KEYFRAME === 0) this.keyframes.push(states.map((state) => state.slice()));
      if (Array.isArray(row)) {
        number += 1;
        spot = this.tables.heads[row[0]][0];
        this.apply(turn, states);
      }
      this.numbers[turn] = number;
      this.spots[turn] = spot;
    });
    this.steps = number;
  }

  apply(turn, states) {
    const changes = this.rows[turn][3] || [];
    const state = states[this.processOf(turn)];
    for (let at = 0; at < changes.length; at += 2) {
      state[changes[at]] = this.registerValue(changes[at], changes[at + 1]);
    }
  }

  registerValue(register, value) {
    return register < NUMBERS ? value : this.tables.values[value];
  }

  /* The registers after a turn; of the process that it is of, where there are several. */
  registersAfter(turn) {
    const frame = Math.floor(Math.max(turn, 0) / KEYFRAME);
    if (frame >= this.keyframes.length) return [];
    const states = this.keyframes[frame].map((state) => state.slice());
    for (let at = frame * KEYFRAME; at <= turn; at++) if (this.isStep(at)) this.apply(at, states);
    return states[turn < 0 ? 0 : this.processOf(turn)];
  }

  isStep(turn) {
    return Array.isArray(this.rows[turn]);
  }

  kind(turn) {
    return this.isStep(turn) ? "step" : this.rows[turn].turn;
  }

  spot(turn) {
    return this.tables.spots[this.spots[turn]];
  }

  processOf(turn) {
    if (this.processes === 1) return 0;
    const row = this.rows[turn];
    if (Array.isArray(row)) return this.tables.spots[this.tables.heads[row[0]][0]][6];
    return this.spots[turn] < 0 ? 0 : this.spot(turn)[6];
  }

  outcome(turn) {
    const [kind, trace, text, rule, place] = this.tables.outcomes[this.head(turn)[2]];
    return { kind, trace, text, rule, place: placeParts(place) };
  }

  /* Whether the linker or the console takes up the fault of a step. */
  isAnswered(turn) {
    return turn + 1 < this.count && ["link", "console"].includes(this.kind(turn + 1));
  }

  head(turn) {
    return this.tables.heads[this.rows[turn][0]];
  }

  /* The mnemonic of a step, or an empty text. */
  mnemonic(turn) {
    const instruction = this.tables.instructions[this.head(turn)[1]][0];
    return instruction ? instruction.split(" ")[0] : "";
  }

  references(turn) {
    return this.head(turn)[4].map((number) => this.reference(number));
  }

  reference(number) {
    const [kind, place, count, link, question, answer, allowed, fault, violation, refused, rule] =
      this.tables.references[number];
    return { kind, place: placeParts(place), count, link, question, answer,
      allowed: Boolean(allowed),
      fault, violation, refused: placeParts(refused), rule };
  }

  link(number) {
    const [kind, point, read, words, rings, text, rule] = this.tables.links[number];
    return { kind, point: placeParts(point), read: placeParts(read), words, rings, text, rule };
  }

  /* The segment and word at which a step executes, and the ring. */
  at(turn) {
    const [ring, segment, word, name, file, line, process] = this.spot(turn);
    return { ring, segment, word, name, file, line, process };
  }

  /* A step with all that the page shows of it. */
  step(turn) {
    const row = this.rows[turn], head = this.head(turn);
    const [instruction, code] = this.tables.instructions[head[1]];
    const references = this.references(turn);
    const links = head[5].map((number) => this.link(number));
    const after = this.registersAfter(turn);
    return {
      number: this.numbers[turn], at: this.at(turn), isAnswered: this.isAnswered(turn),
        instruction, code, references, links, after,
      final: this.tables.finals[row[1]], outcome: this.outcome(turn), unknown: head[6] || null,
      sentences: this.sentences(head[3], row[5] || [], references, links),
      changed: this.changed(turn), words: this.words(row[4] || []), differences: row[6] || [],
      next: this.placeAfter(turn), trace: this.traceFields(turn, after),
    };
  }

  sentences(numbers, values, references, links) {
    let used = 0;
    return numbers.map((number) => {
      if (typeof number === "string") {
        const index = Number(number.slice(1));
        if (number[0] === "l") return { ...links[index], part: "chain", link: links[index] };
        const reference = references[index];
        const text = `${reference.question} ${reference.answer}`;
        return { text, rule: reference.rule, part: "reference", reference };
      }
      const [template, rule, part] = this.tables.texts[number];
      const text = template.replace(/[\ue000\ue001]/g,
        (hole) => (used < values.length ? octal(values[used++], HOLES[hole]) : hole));
      return { text, rule, part };
    });
  }

  /* The numbers of the registers that a step changed. */
  changed(turn) {
    return new Set((this.rows[turn][3] || []).filter((_, index) => index % 2 === 0));
  }

  words(row) {
    const found = [];
    for (let at = 0; at < row.length; at += 3) {
      const [segment, word, name] = this.tables.places[row[at]];
      found.push({ segment, word, name, before: row[at + 1], after: row[at + 2] });
    }
    return found;
  }

  placeAfter(turn) {
    const row = this.rows[turn], at = this.at(turn);
    if (row[2]) return placeParts(row[2]);
    const goesOn = this.outcome(turn).kind === "next" ? 1 : 0;
    const word = octal((parseInt(at.word, 8) + goesOn) % 0o1000000, 6);
    return { ring: at.ring, segment: at.segment, word };
  }

  /* The trace line as the program writes it, field by field. */
  traceFields(turn, after) {
    const at = this.at(turn), row = this.rows[turn];
    const code = this.tables.instructions[this.head(turn)[1]][1];
    const process = this.processes > 1 ? [String(at.process)] : [];
    return [...process, String(this.numbers[turn]), String(at.ring), `${at.segment}|${at.word}`,
      code || "-", this.tables.finals[row[1]], octal(after[0], 12), octal(after[1], 12),
      after[18], this.outcome(turn).trace];
  }

  segmentName(number) {
    const segment = this.segments.get(number);
    return segment ? segment.name : number;
  }

  /* `secret|12`, the word in octal without zeros in front. */
  placeName(place) {
    return `${this.segmentName(place.segment)}|${parseInt(place.word, 8).toString(8)}`;
  }
}
