/* A stay is a series of turns in one ring and one segment. Loops are folded: loops within a stay,
   and loops of several stays. */

const LONGEST_LOOP = 12;
const LEAST_REPEATS = 3;

/* The stays of a run, with the columns of their steps: steps at one word share a column. */
function staysOf(run) {
  const stays = [], last = new Array(run.processes).fill(null);
  for (let turn = 0; turn < run.count; turn++) {
    if (!run.isStep(turn)) continue;
    const at = run.at(turn), process = run.processOf(turn);
    let stay = last[process];
    const isNew = !stay || stay.ring !== at.ring || stay.segment !== at.segment
      || (run.processes > 1 && stays[stays.length - 1] !== stay);
    if (isNew) {
      const came = stay && (stay.ring !== at.ring || stay.segment !== at.segment) ? stay.last : -1;
      stay = { index: stays.length, process, ring: at.ring, segment: at.segment, first: turn,
        last: turn,
        words: new Map(), repeats: 1, came, before: last[process] };
      stays.push(stay);
      last[process] = stay;
    }
    stay.last = turn;
    const seen = (stay.words.get(at.word) || 0) + 1;
    stay.words.set(at.word, seen);
    stay.repeats = Math.max(stay.repeats, seen);
  }
  return stays;
}

function sameStay(one, other) {
  return one.ring === other.ring && one.segment === other.segment && one.process === other.process;
}

/* How many times in a row the `period` stays from `at` on occur. */
function repeatsFrom(stays, at, period) {
  let same = 0;
  while (at + period + same < stays.length
    && sameStay(stays[at + same], stays[at + period + same])) {
    same += 1;
  }
  return 1 + Math.floor(same / period);
}

/* The loop of stays that begins at a stay: its period and how often it is taken; null if there is
   none. */
function loopAt(stays, at) {
  let best = null;
  for (let period = 2; period <= LONGEST_LOOP; period++) {
    const repeats = repeatsFrom(stays, at, period);
    if (repeats >= LEAST_REPEATS && (!best || repeats * period > best.repeats * best.period)) {
      best = { period, repeats };
    }
  }
  return best;
}

/* The boxes of the ladder. A box is one stay, or the stays at one place of a loop, which is drawn
   once. Sets the box of each stay. */
function boxesOf(stays, folds) {
  const boxes = [];
  for (let at = 0; at < stays.length;) {
    const loop = (folds && loopAt(stays, at)) || { period: 1, repeats: 1 };
    const group = loop.repeats > 1
      ? { repeats: loop.repeats, first: boxes.length, period: loop.period } : null;
    for (let offset = 0; offset < loop.period; offset++) {
      const box = { stays: [], words: new Map(), group, index: boxes.length };
      for (let time = 0; time < loop.repeats; time++) {
        const stay = stays[at + offset + time * loop.period];
        stay.box = box;
        stay.time = time;
        box.stays.push(stay);
        for (const word of stay.words.keys()) {
          if (!box.words.has(word)) box.words.set(word, box.words.size);
        }
      }
      boxes.push(box);
    }
    at += loop.period * loop.repeats;
  }
  return boxes;
}

/* The stay that a turn is in, or null if there are no stays. */
function stayOfTurn(stays, turn) {
  let low = 0, high = stays.length - 1;
  while (low < high) {
    const middle = (low + high + 1) >> 1;
    if (stays[middle].first <= turn) low = middle; else high = middle - 1;
  }
  return stays[low] || null;
}

/* The first turn after the loop that a step is in, or -1 if it is in none. The loop has ended when
   the run does not reach the step's word again within twice as many turns as the first time. */
function afterLoop(run, turn) {
  const key = (at) => `${run.processOf(at)} ${run.spots[at]}`;
  const start = key(turn), inside = new Set();
  let last = -1, limit = Infinity, seen = turn;
  for (let at = turn; at < run.count; at++) {
    if (!run.isStep(at)) continue;
    if (at - seen > limit) break;
    if (at > turn && key(at) === start) {
      if (last < 0) limit = 2 * (at - turn);
      last = seen = at;
    }
  }
  if (last < 0) return -1;
  for (let at = turn; at < last; at++) if (run.isStep(at)) inside.add(key(at));
  for (let at = last; at < run.count; at++) if (run.isStep(at) && !inside.has(key(at))) return at;
  return run.count - 1;
}
