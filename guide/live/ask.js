"use strict";
// Asks the program in this page for a run, as guide/page.py asks the one of the command line: the same questions, in the same order. What the answers
// mean is read in moments.js, here and there. `perform(words, files)` runs the program once, and gives `{status, text, stored}`.

const MOMENTS = 3000, LINE = 4096, SESSION = 250_000, ASKED = 10_000;

class Refused extends Error {
  constructor(status, text, file) {
    super(text);
    Object.assign(this, { status, file });
  }
}

const number = (text, pattern, base) => parseInt(text.match(pattern)[1], base);

// Memory after each instruction that can write it: the condition word, and what the run uses of both stacks.
const memoryMoments = (session, { show, fm9001, control }) => {
  const size = number(show, /^size (\d+)$/m, 10), final = number(show, /^final (\w+)$/m, 16), condition = number(show, /^condition (\w+)$/m, 16);
  const listed = Array.from(show.matchAll(/^([0-9a-f]{8}) [0-9a-f]{8} \S+ ?(\S*)$/gm));
  const targets = new Map(listed.map(([, address, operands]) => [parseInt(address, 16), operands.split(",")[0]]));
  const numbers = Array.from(fm9001.matchAll(/^r\d+ ([0-9a-f]{8})$/gm), ([, it]) => parseInt(it, 16));
  const registers = Array.from({ length: numbers.length / 16 }, (_, n) => numbers.slice(16 * n, 16 * n + 16));

  const begin = condition + 1 + control;
  const least = (of, moments) => moments.reduce((least, it) => Math.min(least, it[of]), size);
  const ranges = [[condition, condition + 1], [least(1, registers.filter((it) => it[15] !== final)), begin], [least(2, registers), size]];
  const parts = ranges.flatMap(([low, until]) =>
    Array.from({ length: Math.ceil((until - low) / LINE) }, (_, n) => [low + LINE * n, Math.min(LINE, until - low - LINE * n)]));

  const counts = [0];
  for (let it = 0; it + 1 < registers.length; it++) if (!/^r\d+$/.test(targets.get(registers[it][15]))) counts.push(it + 1);
  const asks = parts.map(([first, size]) => `words ${first} ${size}\n`).join(""), memory = [];
  const many = Math.max(1, Math.min(ASKED, Math.floor(SESSION / parts.reduce((sum, [, size]) => sum + size, 0))));
  for (let from = 0; from < counts.length; from += many) {
    const some = counts.slice(from, from + many), steps = some.map((it, n) => `step ${it - (some[n - 1] ?? 0)}\n${asks}`);
    const printed = session("fm9001", steps.join("")).split(/^stepped .*\n/m);
    some.forEach((it, n) => memory.push([it, printed[n + 1]]));
  }
  return { parts, memory };
};

// Whether a program is one of the infix language: it begins with a word.
const isInfix = (text) => /^\s*\w/.test(text);

// What the program prints of a run. `tell` gets what `go` prints, before all else is asked.
const gather = (perform, { source, values, control, temporary, budget }, tell) => {
  const sizes = [control, temporary], answers = { infix: null, values, control, temporary };
  let asked = 0, text = source;
  const ask = (words, more = {}, ends = [0], file = "text") => {
    asked++;
    const ran = perform(words.map(String), { s: text, v: values, ...more });
    if (!ends.includes(ran.status)) throw new Refused(ran.status, ran.text.trim(), ran.text.startsWith("values") ? "given" : file);
    return ran;
  };
  const session = (level, script) => ask(["debug", level, "s", "v", ...sizes, "d"], { d: script }).text;
  const moments = (level, shows, steps) => session(level, shows + `step 1\n${shows}`.repeat(steps));
  const cost = (level, steps) => Number(session(level, `attach cost\nstep ${steps}\ndetach cost\n`).match(/(\d+)\n$/)[1]);
  const stepsWithin = (level, count) => {
    let low = 0, high = count;
    while (low < high) {
      const middle = Math.floor((low + high + 1) / 2);
      if (cost(level, middle) <= count) low = middle;
      else high = middle - 1;
    }
    return Number(session(level, `step ${low}\n`).match(/^stepped (\d+)/)[1]);
  };

  if (isInfix(source)) {
    answers.infix = source;
    text = ask(["mini", "s", "o"]).stored.o;
  }
  answers.source = text;
  const ran = ask(["go", "s", "v", ...sizes, budget, "i"], {}, [0, 5]), image = ran.bytes.i;
  tell(ran.text);
  answers.run = ran.text;
  answers.pit = ask(["pit", "s", ...sizes, "p"]).stored.p;
  answers.show = ask(["show", "i"], { i: image }).text;
  const last = Math.min(Number(ran.text.split(/\s/)[1]), MOMENTS);
  answers.fm9001 = moments("fm9001", "show\nup\n", last);
  const made = stepsWithin("piton", last);
  Object.assign(answers, { piton: moments("piton", "show\nup\n", made), cost: cost("piton", made) });
  const steps = stepsWithin("gypsy", last);
  Object.assign(answers, { gypsy: moments("gypsy", "show\n", steps), counts: Array.from({ length: steps + 1 }, (_, n) => cost("gypsy", n)) });
  Object.assign(answers, memoryMoments(session, answers));
  return { asked, answers };
};
