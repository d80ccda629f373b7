"use strict";
// Reads what the program printed of a run, and ties it: which moments of the source, of Piton and of the processor are one. Everything is compared,
// and where two answers don't fit one another `Differs` is thrown. `momentsOf(answers)` is called by every page, also by the one with an editor.
//
// The answers are texts: `source`, `values`, and `infix` where the source was made of one; `pit`, `show`, `run` as these commands printed or stored
// them; `fm9001`, `piton` and `gypsy`, of sessions of `debug` that show each moment; `counts`, what the steps of the source cost up to each; `cost`,
// what the steps of Piton cost together; `memory`, the words of both stacks after each instruction that writes, and `parts`, which words: docs/program/page.md.

class Differs extends Error {}

const demand = (holds, text) => {
  if (!holds) throw new Differs(text);
};
const same = (a, b) => a.length === b.length && a.every((it, n) => it === b[n]);
const linesOf = (text) => text.split("\n").slice(0, -1);
const pairOf = (line) => {
  const at = line.indexOf(" = ");
  return [line.slice(0, at), line.slice(at + 3)];
};
const wordOf = (number) => Number(((BigInt(number) % 0x100000000n) + 0x100000000n) % 0x100000000n);

// The number of a word of Piton, as `(int -1)`.
const numberOf = (word) => {
  const [tag, value] = word.slice(1, -1).split(" ");
  return tag === "bool" ? Number(value === "t") : wordOf(value);
};

// ---- Texts in parentheses ----

// A text of bytes, one character for each: places in it are places of the file.
const bytesOf = (text) => Array.from(new TextEncoder().encode(text), (it) => String.fromCharCode(it)).join("");

// The tree of a text: a list has its items, an atom its text, and both where they begin and end.
const readTree = (text) => {
  const open = [{ items: [] }];
  for (const found of text.matchAll(/;[^\n]*|[()]|[^\s();]+/g)) {
    const [token] = found, end = found.index + token.length;
    if (token === "(") open.push({ at: found.index, items: [] });
    else if (token === ")") {
      const made = open.pop();
      made.end = end;
      open.at(-1).items.push(made);
    } else if (!token.startsWith(";")) open.at(-1).items.push({ at: found.index, end, text: token });
  }
  return open[0].items[0];
};
const spelled = (tree) => tree.text ?? `(${tree.items.map(spelled).join(" ")})`;
const headOf = (tree) => tree.items?.[0]?.text ?? "";

// ---- Where the code of Piton's instructions is: docs/languages/fm9001.md, "The code of Piton's instructions" ----

const LENGTHS = {
  1: `pop no-op int-to-nat popj add-int add-nat add-addr sub-int sub-nat sub-addr add1-int add1-nat sub1-int sub1-nat neg-int mult2-nat lsh-bitv
      or-bitv or-bool and-bitv and-bool xor-bitv not-bitv rsh-bitv not-bool`,
  2: "push-constant fetch deposit pop* popn jump",
  3: "push-global pop-global set-global test-nat-and-jump test-int-and-jump test-bool-and-jump test-bitv-and-jump",
  4: `push-local pop-local set-local push-temp-stk-index push-temp-stk-free-size push-ctrl-stk-free-size fetch-temp-stk deposit-temp-stk call
      pop-call pushj eq`,
  5: "jump-if-temp-stk-full jump-if-temp-stk-empty ret lt-int lt-nat lt-addr mult2-nat-with-carry-out div2-nat",
  7: "add-int-with-carry add-nat-with-carry sub-int-with-carry sub-nat-with-carry",
};
const WORDS = new Map(Object.entries(LENGTHS).flatMap(([size, names]) => names.split(/\s+/).map((name) => [name, Number(size)])));

// How many words the code of an instruction has: of `jump-case` four, and one for each label.
const wordsOf = (operation) => (headOf(operation) === "jump-case" ? 3 + operation.items.length : WORDS.get(headOf(operation)));

// The programs of a system, each instruction with its label, its text, its address and its words; and the address after them.
const placeCode = (system) => {
  let address = Number(system.items[4].text);
  const programs = system.items.slice(7).map(({ items: [name, formals, temporaries, ...rows] }) => {
    const entry = address, locals = [...formals.items, ...temporaries.items.map((it) => it.items[0])].map((it) => it.text);
    address += 2 + temporaries.items.length + locals.length;
    const instructions = rows.map((it) => {
      const [label, operation] = headOf(it) === "dl" ? [it.items[1].text, it.items[3]] : ["", it];
      const made = { label, text: spelled(operation), address, words: wordsOf(operation) };
      address += made.words;
      return made;
    });
    return { name: name.text, locals, entry, instructions };
  });
  return [programs, address];
};

// ---- What the program prints, as data ----

// What `show` prints of an image.
const readListing = (lines) => {
  const made = { words: new Map(), texts: new Map(), marks: [], variables: new Map() }, fields = {};
  let procedure = null;
  for (const line of lines) {
    const [first, ...rest] = line.split(" ");
    if (/^[0-9a-f]{8}$/.test(first)) {
      made.words.set(parseInt(first, 16), parseInt(rest[0], 16));
      made.texts.set(parseInt(first, 16), rest.slice(1).join(" "));
    } else if (first === "mark") made.marks.push([parseInt(rest[0], 16), rest[1], Number(rest[2])]);
    else if (first === "procedure") made.variables.set(rest[0], (procedure = []));
    else if (first === "variable") procedure.push([rest[0], rest[1], Number(rest[2]), Number(rest[3])]);
    else if (first !== "slot" && first !== "name") fields[first] = rest[0];
  }
  return { ...made, size: Number(fields.size), final: parseInt(fields.final, 16), condition: parseInt(fields.condition, 16) };
};

// What a session shows at its start and after each step.
const blocksOf = (text) => {
  const blocks = [[]];
  for (const line of linesOf(text)) {
    if (/^stepped \d+( ended)?$/.test(line)) blocks.push([]);
    else blocks.at(-1).push(line);
  }
  return blocks;
};

// A moment of the source: `at P depth D` or `ended`, `condition C`, and a line for each variable.
const sourceMoment = (lines, count) => {
  const at = lines[0].match(/^at (\d+) depth (\d+)$/);
  return { count, at: at && Number(at[1]), depth: at ? Number(at[2]) : 0, condition: lines[1].slice("condition ".length), variables: lines.slice(2).map(pairOf) };
};

// A moment of Piton: `at PROGRAM PLACE frames F` or `halted`, a line for each local, `stack ..`, and what is said of the source.
const pitonMoment = (lines) => {
  const at = lines[0].match(/^at (\S+) (\d+) frames (\d+)$/), stack = lines.findIndex((it) => /^stack( \(|$)/.test(it));
  const where = at ? { program: at[1], place: Number(at[2]), depth: Number(at[3]) } : { program: null, place: 0, depth: 0 };
  return { ...where, locals: lines.slice(1, stack).map(pairOf), stack: lines[stack].match(/\([^)]*\)/g) ?? [], said: lines.slice(stack + 1) };
};

// A moment of the processor: `count K`, sixteen registers, `flags cvnz`, and what is said of the source.
const machineMoment = (lines, n) => {
  demand(lines[0] === `count ${n}`, `the session's moment ${n} is the processor's`);
  return { registers: lines.slice(1, 17).map((it) => parseInt(it.split(" ")[1], 16)), flags: lines[17].slice("flags ".length), said: lines.slice(18) };
};

// Memory at each moment, as a map of addresses: what was printed last. The map of the moment asked for last is kept.
const memoryOf = ({ parts, memory }) => {
  const from = memory.map(([count]) => count), wanted = parts.flatMap(([first, size]) => Array.from({ length: size }, (_, n) => first + n));
  let kept = -1, map = null;
  return (count) => {
    let low = 0, high = from.length - 1;
    while (low < high) {
      const middle = (low + high + 1) >> 1;
      if (from[middle] <= count) low = middle;
      else high = middle - 1;
    }
    if (low === kept) return map;
    const words = linesOf(memory[low][1]).map((line) => line.split(" ").map((it) => parseInt(it, 16)));
    demand(same(words.map(([address]) => address), wanted), "memory is printed word by word");
    [kept, map] = [low, new Map(words)];
    return map;
  };
};

// ---- The levels side by side ----

class Run {
  constructor(answers) {
    this.answers = answers;
    this.listing = readListing(linesOf(answers.show));
    this.report = linesOf(answers.run);
    const system = readTree(answers.pit), [programs, end] = placeCode(system);
    this.programs = programs;
    this.code = new Map(programs.map((it) => [it.name, it]));
    this.sizes = [Number(system.items[2].text), Number(system.items[3].text)];
    // Where the control stack ends and the temporary stack begins.
    this.control = this.listing.condition + 1 + this.sizes[0];
    demand(same(this.sizes, [answers.control, answers.temporary]), "the stacks have the sizes that were asked for");
    demand(end === this.listing.final, "the words of the code are as many as the image has");
    const begins = new Set(programs.flatMap((it) => it.instructions.map((one) => one.address)));
    demand(this.listing.marks.every(([address]) => begins.has(address)), "each mark is where an instruction begins");

    this.machines = blocksOf(answers.fm9001).map(machineMoment);
    this.last = this.machines.length - 1;
    this.ended = this.machines[this.last].registers[15] === this.listing.final;
    this.memory = memoryOf(answers);
    this.piton = this.placed(blocksOf(answers.piton).map(pitonMoment));
    this.steps = blocksOf(answers.gypsy).map((lines, n) => sourceMoment(lines, answers.counts[n]));
  }

  // Where the processor stands at a moment of Piton.
  addressOf(moment) {
    return moment.program === null ? this.listing.final : this.code.get(moment.program).instructions[moment.place].address;
  }

  // Moments of Piton with their counts: the processor comes from where one instruction begins to where the next one does.
  placed(moments) {
    let count = -1;
    const made = moments.map((it) => {
      const address = this.addressOf(it);
      do count++; while (count <= this.last && this.machines[count].registers[15] !== address);
      demand(count <= this.last, `the processor comes to ${it.program ?? "the end"} ${it.place}`);
      return { ...it, count };
    });
    demand(made[0].count === 0, "the first moment is Piton's");
    demand(made.at(-1).count === this.answers.cost, "the steps of Piton cost together as many instructions");
    return made;
  }

  // The program whose code has an address.
  programAt(address) {
    return this.programs.findLast((it) => it.entry <= address).name;
  }

  // The frames at a moment of Piton, the newest first: each a program's name and its address. They are read from memory.
  frames(moment) {
    const found = [], memory = this.memory(moment.count);
    let name = moment.program, address = this.machines[moment.count].registers[0];
    while (name !== null && found.length <= moment.depth) {
      found.push([name, address]);
      const links = address + this.code.get(name).locals.length;
      address = memory.get(links);
      name = address ? this.programAt(memory.get(links + 1)) : null;
    }
    return found;
  }

  comparePiton() {
    const { size } = this.listing;
    for (const it of this.piton) {
      const machine = this.machines[it.count], memory = this.memory(it.count), where = `after ${it.count} instructions`;
      it.frames = this.frames(it);
      demand(machine.registers[15] === this.addressOf(it), `${where}: the program counter is where Piton stands`);
      demand(machine.registers[2] === size - it.stack.length, `${where}: r2 is the top of Piton's stack`);
      demand(it.stack.every((word, n) => memory.get(size - 1 - n) === numberOf(word)), `${where}: memory has Piton's stack`);
      demand(it.frames.length === it.depth, `${where}: memory has Piton's frames`);
      const [frame] = it.frames;
      demand(it.locals.every(([, word], n) => memory.get(frame[1] + n) === numberOf(word)), `${where}: memory has Piton's locals`);
      demand(same(machine.said, it.said), `${where}: Piton and the processor say the same of the source`);
    }
  }

  compareSource() {
    const moments = new Set(this.piton.map((it) => it.count));
    for (const it of this.steps) {
      const where = `after ${it.count} instructions`;
      demand(moments.has(it.count), `${where}: a moment of the source is one of Piton`);
      const state = [`condition ${it.condition}`, ...it.variables.map(([name, value]) => `${name} = ${value}`)], { said } = this.machines[it.count];
      demand(same(said.slice(-state.length), state), `${where}: the processor says what the source has`);
      demand(it.at === null ? said.length === state.length : said[0].endsWith(` at ${it.at}`), `${where}: the processor says where the source stands`);
    }
    if (this.ended) {
      demand(this.report[0] === `finished ${this.last}`, "the run ends where `run` says");
      demand(same(this.report.slice(1), this.machines[this.last].said), "the run ends as `run` says");
      demand(this.piton.at(-1).program === null && this.steps.at(-1).at === null, "all levels end together");
    }
  }
}

// ---- The activations at a moment of the source ----

const itemText = (kind, word) => (kind === "boolean" ? String(word === 1) : kind === "character" ? `#${word}` : String(word >= 2 ** 31 ? word - 2 ** 32 : word));

// The activations after a step of the source, the newest first, read from memory: each a procedure's name and its variables, with the value and, of one
// that belongs to an older activation, whose it is. The newest has the variables that the source has.
const activationsOf = (run, moments, step) => {
  const { listing } = run, memory = run.memory(step.count), owners = new Map();
  const frames = (moments.get(step.count).frames ?? []).filter(([name]) => listing.variables.has(name));
  const made = [...frames].reverse().map(([name, at]) => ({
    name,
    variables: listing.variables.get(name).map(([variable, kind, length, offset]) => {
      const first = listing.size - 1 - memory.get(at + offset), owner = owners.get(first) ?? "";
      if (!owner) owners.set(first, `${name}.${variable}`);
      const items = Array.from({ length: Math.max(1, length) }, (_, n) => itemText(kind, memory.get(first - n)));
      return [variable, length ? `(${items.join(" ")})` : items[0], owner];
    }),
  })).reverse();
  const seen = made[0]?.variables.map(([name, value]) => `${name} = ${value}`) ?? [];
  demand(step.at === null || same(seen, step.variables.map((it) => it.join(" = "))), `after ${step.count} instructions: memory has the source's variables`);
  return made;
};

// ---- Where things stand in the texts ----

// Each list of a tree, by the place where it begins.
const listsOf = (tree, found = new Map()) => {
  if (tree.items) {
    found.set(tree.at, tree);
    for (const it of tree.items) listsOf(it, found);
  }
  return found;
};

// Where the statements that have marks begin and end in the source, in bytes; of a procedure it is its head.
const spansOf = (listing, lists) => {
  const places = [...new Set(listing.marks.map(([, , place]) => place))].sort((a, b) => a - b);
  return places.map((it) => [it, headOf(lists.get(it)) === "proc" ? lists.get(it).items[1].end : lists.get(it).end]);
};

// The statements of an infix program, docs/languages/mini.md: where each begins, where it or its head ends, and its blocks.
const readInfix = (text) => {
  const tokens = [...text.matchAll(/[A-Za-z]\w*|\d+|:=|<=|\S/g)].map((it) => ({ text: it[0], at: it.index, end: it.index + it[0].length }));
  const found = [];
  let next = 0;
  const pass = (wanted) => {
    while (tokens[next].text !== wanted) next++;
    return tokens[next++];
  };
  const block = (ends) => {
    const made = [];
    while (next < tokens.length && tokens[next].text !== ends) {
      const { text: kind, at } = tokens[next], one = { number: found.length, kind, at, places: [] };
      if (kind === "int" || kind === "bool") {
        pass(";");
        continue;
      }
      found.push(one);
      made.push(one);
      if (kind !== "while" && kind !== "if") {
        Object.assign(one, { kind: ":=", end: pass(";").end });
        continue;
      }
      pass("{");
      one.end = tokens[next - 2].end;
      one.blocks = [block("}")];
      next++;
      if (kind === "if") {
        pass("{");
        one.blocks.push(block("}"));
        next++;
      }
    }
    return made;
  };
  return [block(null), found];
};

// Which lowered statements each statement of an infix program has become: "The lowered source" in docs/languages/mini.md.
const tieInfix = (statements, lowered) => {
  demand(headOf(lowered) === "seq" && headOf(lowered.items[1]) === "no-op", "a block is lowered to a sequence");
  const rest = lowered.items.slice(2);
  const takeUntil = (one, isLast) => {
    const taken = [];
    do {
      demand(rest.length > 0, "each statement of the infix program is in the lowered source");
      taken.push(rest.shift());
    } while (!isLast(taken.at(-1)));
    one.places.push(...taken.map((it) => it.at));
    return taken.at(-1);
  };
  const isStored = (it) => headOf(it) === "mg-simple-variable-assignment" && !it.items[1].text.includes("$");
  for (const one of statements) {
    if (one.kind === ":=") takeUntil(one, isStored);
    else {
      let branch = takeUntil(one, (it) => headOf(it) === (one.kind === "while" ? "loop" : "if"));
      if (one.kind === "while") {
        one.places.push(...branch.items[1].items.slice(1).map((it) => it.at), branch.items[1].at);
        branch = branch.items[1].items.at(-1);
        one.places.push(branch.items[3].at);
      }
      one.blocks.forEach((block, n) => {
        one.places.push(branch.items[2 + n].at, branch.items[2 + n].items[1].at);
        tieInfix(block, branch.items[2 + n]);
      });
    }
  }
  demand(rest.length === 0, "each lowered statement belongs to one of the infix program");
};

const infixOf = (text, source) => {
  const [top, all] = readInfix(text), main = source.items[2];
  tieInfix(top, main.items[6]);
  return { text, statements: all.map(({ at, end, places }) => ({ at, end, places })) };
};

// ---- What a page shows ----

// So many instructions of Piton are few enough to be shown though no moment enters them.
const FEW = 4000;

// Each program: its name, its locals, of the source's procedures its variables, and of those that are shown its entry, the words of its prelude, and
// its instructions: label, text, address, words, and the statement's place. That is the mark's at this address or, without one, that of the last mark.
const programsOf = ({ programs, piton, listing }) => {
  const marks = new Map(listing.marks.map(([address, , place]) => [address, place]));
  const ours = programs.filter((it) => listing.variables.has(it.name));
  const entered = new Set(piton.map((it) => it.program));
  if (ours.reduce((sum, it) => sum + it.instructions.length, 0) <= FEW) for (const it of ours) entered.add(it.name);
  const wordsIn = (from, to) => Array.from({ length: to - from }, (_, n) => [listing.words.get(from + n) ?? 0, listing.texts.get(from + n) ?? ""]);
  return programs.map(({ name, locals, entry, instructions }) => {
    const variables = listing.variables.get(name) ?? null;
    if (!entered.has(name)) return { name, locals, variables };
    let place = null;
    const rows = instructions.map(({ label, text, address, words }) => {
      if (variables) place = marks.get(address) ?? place;
      return { label, text, address, words: wordsIn(address, address + words), place };
    });
    return { name, locals, variables, entry, prelude: wordsIn(entry, instructions[0].address), rows };
  });
};

const momentsOf = (answers) => {
  const run = new Run(answers), { listing, machines } = run;
  run.comparePiton();
  run.compareSource();
  const byCount = new Map(run.piton.map((it) => [it.count, it]));
  const source = readTree(bytesOf(answers.source)), numbers = new Map(run.programs.map((it, n) => [it.name, n]));
  return {
    source: answers.source, values: answers.values.split(/\s+/).filter(Boolean).join(" "), sizes: run.sizes, report: run.report,
    last: run.last, ended: run.ended, size: listing.size, condition: listing.condition, control: run.control, final: listing.final,
    spans: spansOf(listing, listsOf(source)), infix: answers.infix ? infixOf(answers.infix, source) : null,
    programs: programsOf(run), machines, memory: run.memory,
    piton: run.piton.map((it) => ({
      ...it, program: numbers.get(it.program) ?? null, address: run.addressOf(it), frames: it.frames.map(([name, at]) => [numbers.get(name), at]),
    })),
    steps: run.steps.map((it) => ({ ...it, activations: it.at === null ? [] : activationsOf(run, byCount, it) })),
  };
};
