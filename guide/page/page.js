// Shows a run: what it has, once, and then a moment of it. A moment is a count of instructions.
const by = (id) => document.getElementById(id);

const showRun = (data) => {
  const hex = (word) => word.toString(16).padStart(8, "0");
  const signed = (word) => (word >= 2 ** 31 ? word - 2 ** 32 : word);
  const element = (name, attributes, ...children) => {
    const made = document.createElement(name);
    for (const [key, value] of Object.entries(attributes)) if (value !== null && value !== "") made.setAttribute(key, value);
    made.append(...children);
    return made;
  };
  const cell = (text, ...kinds) => element("td", { class: kinds.filter(Boolean).join(" ") }, text);

  // ---- What stays the same ----

  // Of a statement's place the number of the infix program's statement that it was made of, where there is one. One such statement has one colour.
  const infix = data.infix?.statements ?? [];
  const madeOf = new Map(infix.flatMap(({ places }, n) => places.map((it) => [it, n])));
  const tint = (n) => `--tint:${(47 * n) % 360}`;
  const tints = new Map(data.spans.map(([place], n) => [place, data.infix ? madeOf.has(place) && tint(madeOf.get(place)) : tint(n)]));
  const tinted = (place, attributes) => (place === null ? attributes : { ...attributes, "data-place": place, style: tints.get(place) || "" });

  // A text with a span and a button for each part of it, which are `{at, end, name, attributes}` in the order in which they begin. Places are counted in
  // bytes.
  const textWith = (text, parts) => {
    const bytes = new TextEncoder().encode(text), textOf = (from, to) => new TextDecoder().decode(bytes.subarray(from, to));
    let from = 0, line = 1;
    // The number of a line stands in no text, so that places stay.
    const numbered = () => element("span", { class: "line", "data-line": line++ });
    const pieces = (part, isEnd) => part.split("\n").flatMap((it, n, all) =>
      (n === 0 ? [it] : isEnd && it === "" && n === all.length - 1 ? ["\n"] : ["\n", numbered(), it]));
    const top = element("code", {}, numbered()), open = [[top, bytes.length]];
    const write = (to) => {
      while (open.length > 1 && open.at(-1)[1] <= to) {
        const [inside, end] = open.pop();
        inside.append(...pieces(textOf(from, end), end === bytes.length));
        from = end;
      }
      open.at(-1)[0].append(...pieces(textOf(from, to), to === bytes.length));
      from = to;
    };
    for (const { at, end, name, attributes } of parts) {
      write(at);
      const pick = element("button", { type: "button", class: "pick", "aria-pressed": "false", "aria-label": name });
      const made = element("span", { class: "statement", ...attributes }, pick);
      open.at(-1)[0].append(made);
      open.push([made, end]);
    }
    write(bytes.length);
    return top;
  };

  const sourceBytes = new TextEncoder().encode(data.source);
  const statements = new Map(data.spans.map(([place, end]) => {
    const text = new TextDecoder().decode(sourceBytes.subarray(place, end)).replace(/;[^\n]*/g, " ").replace(/\s+/g, " ");
    return [place, text.replace(/^\(\s*proc\s+/, "end of ")];
  }));
  const sourceOf = () => textWith(data.source, data.spans.map(([at, end]) =>
    ({ at, end, name: `${statements.get(at)}, at byte ${at}`, attributes: tinted(at, {}) })));
  const infixOf = () => textWith(data.infix.text, infix.map(({ at, end }, n) =>
    ({ at, end, name: `${data.infix.text.slice(at, end).replace(/\s+/g, " ")}, at byte ${at}`, attributes: { "data-place": `n${n}`, style: tint(n) } })));

  // Of a lowered source there are 82 temporaries, of which the program uses few: the others are counted, and not shown.
  const used = new Set(data.source.slice(data.infix ? data.source.indexOf("(seq") : 0).match(/[^\s();]+/g));
  const isUsed = ([name]) => !data.infix || !name.includes("$") || used.has(name);

  const headOf = (name, locals) => {
    const shown = locals.filter((it) => isUsed([it]));
    return element("tr", { class: "head" }, element("th", { colspan: 4, scope: "rowgroup" }, `${name} `,
      element("small", {}, `${shown.join(" ")}${shown.length < locals.length ? " …" : ""}`)));
  };

  const pitonRow = ({ label, text, address, place }, n) =>
    element("tr", tinted(place, { id: `i${address}` }), cell("", "edge"), cell(String(n), "num"), cell(label, "num"), cell(text));

  // Which of these words are numbers: those behind an instruction that takes the word behind it, and the table of a jump.
  const numbersIn = (text, words) => {
    const found = new Set();
    words.forEach(([, said], n) => {
      if (text.startsWith("(jump-case") && n >= 4) found.add(n);
      else if (!found.has(n) && /,\(r15\)\+?$/.test(said)) found.add(n + 1);
    });
    return found;
  };
  // Of a prelude and of these instructions the number is one of Piton's; of all others it is an address.
  const COUNTED = /^$|^\((push-constant|push-local|pop-local|set-local|pop\*|ret)\b/;
  const wordRows = ({ text, address, words, place }) => {
    const numbers = numbersIn(text, words);
    return words.map(([word, said], n) => {
      const shown = !numbers.has(n) ? said : `= ${COUNTED.test(text) ? signed(word) : hex(word)}`;
      const kind = numbers.has(n) ? "number" : n === 0 ? "begin" : "";
      return element("tr", tinted(place, { id: `w${address + n}`, class: kind, "data-owner": address }),
        cell("", "edge"), cell(hex(address + n), "num"), cell(hex(word), "num"), cell(shown));
    });
  };

  const depths = () => {
    const control = [], temporary = [];
    for (const { registers } of data.machines) {
      control.push(registers[15] === data.final ? 0 : data.control - registers[1]);
      temporary.push(data.size - registers[2]);
    }
    const deepest = Math.max(1, ...control, ...temporary);
    const path = (values) => values.reduce((made, it, n) => {
      if (n && it === values[n - 1]) return made;
      const y = (100 - (100 * it) / deepest).toFixed(1);
      return n ? `${made}H${((1000 * n) / Math.max(data.last, 1)).toFixed(1)}V${y}` : `M0 ${y}`;
    }, "") + "H1000";
    by("plot-control").setAttribute("d", path(control));
    by("plot-temporary").setAttribute("d", path(temporary));
    by("deepest").textContent = `words in use, at most ${deepest}`;
    by("plot").setAttribute("aria-label", `Words in use of the two stacks over the run, at most ${deepest}`);
  };

  const cut = (text, most) => (text.length > most ? `${text.slice(0, most - 1)}…` : text);
  const outcome = () => {
    const [first, ...rest] = data.report, [kind, number] = first.split(" ");
    const made = Number(number).toLocaleString("en"), shown = data.last.toLocaleString("en");
    const end = kind === "finished" ? `The run finishes after ${made} instructions: ${cut(rest.join("; "), 400)}.` : `The run has not finished after ${made} instructions, which is its budget.`;
    const shortened = data.ended || data.last === Number(number) ? "" : ` This page shows the first ${shown} instructions of it, and nothing of what follows.`;
    by("outcome").replaceChildren("Values ", element("code", {}, cut(data.values, 200)), `, stacks of ${data.sizes[0]} and ${data.sizes[1]} words. ${end}`, element("strong", {}, shortened));
  };

  // ---- A moment ----

  const counts = { source: data.steps.map((it) => it.count), piton: data.piton.map((it) => it.count) };
  const registersAt = (at) => data.machines[at].registers;

  // `before` is the moment that was shown before: what has changed since then is marked.
  let count = 0, before = 0, mode = "source", picked = null, timer = null;

  // The last of these counts that isn't above `to`.
  const latest = (numbers, to) => {
    let low = 0, high = numbers.length - 1;
    while (low < high) {
      const middle = (low + high + 1) >> 1;
      if (numbers[middle] <= to) low = middle;
      else high = middle - 1;
    }
    return low;
  };

  // The moment that a step in this direction leads to.
  const stepped = (from, way) => {
    if (mode === "machine") return from + way;
    const numbers = counts[mode], at = latest(numbers, from);
    if (way > 0) return numbers[at + 1] ?? data.last;
    return numbers[at] < from ? numbers[at] : numbers[at - 1] ?? 0;
  };

  const mark = (kind, elements) => {
    for (const it of document.querySelectorAll(`.${kind}`)) it.classList.remove(kind);
    for (const it of elements) it?.classList.add(kind);
  };

  // Scrolls the pane of an element, and nothing else, to where it is seen.
  const follow = (shown) => {
    if (!shown) return;
    const pane = shown.closest("[tabindex='0']"), inside = shown.getBoundingClientRect(), frame = pane.getBoundingClientRect();
    if (inside.top < frame.top + 24 || inside.bottom > frame.bottom - 8) pane.scrollTop += inside.top - frame.top - frame.height / 3;
  };

  const emptyOr = (rows) => (rows.length ? rows : [element("tr", {}, cell("empty", "num"))]);

  const rowsOf = (now, old) => {
    const earlier = new Map(old);
    return now.map(([name, value, owner]) => {
      const changed = earlier.has(name) && earlier.get(name) !== value;
      const alias = owner ? [element("small", { class: "alias" }, ` → ${owner}`)] : [];
      return element("tr", {}, element("th", { scope: "row" }, name, ...alias), cell(value, changed && "changed"));
    });
  };

  // The activations that wait under the active one, each with its variables.
  const waitingRows = (activations, old) => activations.flatMap(({ name, variables }, n) => {
    const before = old[old.length - activations.length + n];
    return [element("tr", { class: "head" }, element("th", { colspan: 2, scope: "rowgroup" }, name)), ...rowsOf(variables.filter(isUsed), before?.variables)];
  });

  const unused = (rows) => {
    const left = rows.filter((it) => !isUsed(it)).length;
    return left ? `${left} temporaries that the program doesn’t use are left out.` : "";
  };

  const showSource = (step, old, procedure) => {
    const { at, depth, condition, activations } = step, variables = activations[0]?.variables ?? step.variables;
    by("variables").replaceChildren(...rowsOf(variables.filter(isUsed), old.depth === depth ? old.variables : []));
    by("waiting").replaceChildren(...waitingRows(activations.slice(1), old.activations));
    by("waiting-pane").hidden = activations.length < 2;
    by("unused").textContent = unused(variables);
    by("active").textContent = procedure ? `of ${procedure}` : "";
    by("condition").textContent = condition;
    by("condition").className = condition === old.condition ? "" : "changed";
    by("depth").textContent = at === null ? "none" : depth;
  };

  const showPiton = (step, old) => {
    const { program, place, locals, stack } = step;
    by("piton-now").textContent = program === null ? "halted" : `${data.programs[program].name} ${place}`;
    by("locals").replaceChildren(...rowsOf(locals.filter(isUsed), old.program === program ? old.locals : []));
    by("unused-locals").textContent = unused(locals);
    by("piton-stack").replaceChildren(...stack.map((word, n) => element("span", { class: word === old.stack[n] ? "" : "changed" }, word)));
  };

  const showRegisters = () => {
    const { registers, flags } = data.machines[count], old = data.machines[before];
    const pairs = registers.map((word, n) => [`r${n}`, hex(word), old.registers[n] !== word]);
    pairs.push(["flags", flags, old.flags !== flags]);
    by("registers").replaceChildren(...pairs.map(([name, value, changed]) =>
      element("div", {}, element("dt", {}, name), element("dd", { id: name, class: changed ? "changed" : "" }, value))));
  };

  const wordCells = (address, memory, old) => {
    const word = memory.get(address);
    return [cell(hex(address), "num"), cell(hex(word), "word", old.get(address) !== word && "changed"), cell(String(signed(word)), "num")];
  };

  // The variables at each address of the temporary stack, by the indices in the frames of the source's procedures.
  const ownersIn = (frames, memory) => {
    const owners = new Map();
    for (const [program, at] of frames) {
      const { name, variables } = data.programs[program];
      for (const [variable, , length, offset] of variables ?? []) {
        for (let item = 0; item < Math.max(1, length); item++) {
          const address = data.size - 1 - memory.get(at + offset) - item;
          owners.set(address, [...(owners.get(address) ?? []), `${name}.${variable}${length ? `[${item}]` : ""}`]);
        }
      }
    }
    return owners;
  };

  const showTemporary = (frames, memory, old) => {
    const owners = ownersIn(frames, memory), rows = [];
    for (let address = registersAt(count)[2]; address < data.size; address++) {
      const names = [...new Set(owners.get(address) ?? [])];
      rows.push(element("tr", {}, ...wordCells(address, memory, old), cell(names.join(", "))));
    }
    by("temporary").replaceChildren(...emptyOr(rows));
  };

  const showControl = (frames, memory, old) => {
    const labels = new Map();
    for (const [program, at] of frames) {
      const { name, locals } = data.programs[program];
      [...locals, "older frame", "returns to"].forEach((it, offset) => labels.set(at + offset, [it, offset ? "" : `frame of ${name}`]));
    }
    const rows = [], registers = registersAt(count), top = registers[15] === data.final ? data.control : registers[1];
    for (let address = top; address < data.control; address++) {
      const [label, frame] = labels.get(address) ?? ["", ""];
      rows.push(element("tr", { class: frame && "frame" }, ...wordCells(address, memory, old), cell(label), element("th", { scope: "row" }, frame)));
    }
    by("control").replaceChildren(...emptyOr(rows));
    const word = memory.get(data.condition);
    by("condition-word").textContent = `${hex(data.condition)}: ${word}`;
    by("condition-word").className = old.get(data.condition) === word ? "" : "changed";
  };

  const counted = (number, name) => `${number.toLocaleString("en")} ${name}${number === 1 ? "" : "s"}`;

  const showWhere = (source, piton, step, place) => {
    const into = count - piton.count, { said } = data.machines[count];
    const isMark = step.count === count, name = statements.get(place) ?? "";
    by("where").textContent = place === null ? "The run has ended."
      : `${isMark ? "Next" : "Doing"}: ${cut(name, 60)}${into ? `, ${counted(into, "instruction")} into a step of Piton` : ""}`;
    by("mark").textContent = isMark
      ? `${place === null ? "At the end" : `At a mark, ${said[0]}`}: Piton’s state and the processor’s memory read as the same. By KeepsMoments, for j = ${source}, this is after exactly ${counted(count, "instruction")}.`
      : `As after ${counted(source, "step")} of the source; the processor is ${counted(count - step.count, "instruction")} into the next.`;
  };

  const show = () => {
    const source = latest(counts.source, count), piton = latest(counts.piton, count);
    const step = data.steps[source], state = data.piton[piton], { at: place } = step, { frames, address } = state;
    by("count-source").textContent = source.toLocaleString("en");
    by("count-piton").textContent = piton.toLocaleString("en");
    by("count-machine").textContent = count.toLocaleString("en");
    by("moment").value = count;
    by("moment").setAttribute("aria-valuetext", `${count} of ${data.last} instructions`);
    for (const end of ["x1", "x2"]) by("cursor").setAttribute(end, (1000 * count) / Math.max(data.last, 1));
    for (const id of ["first", "back"]) by(id).disabled = count === 0;
    for (const id of ["next", "end"]) by(id).disabled = count === data.last;

    const rows = [place, `n${madeOf.get(place)}`].map((it) => document.querySelector(`.statement[data-place="${it}"]`));
    rows.push(by(`i${address}`), by(`w${registersAt(count)[15]}`));
    mark("now", rows);
    mark("within", document.querySelectorAll(`[data-owner="${address}"]`));
    if (picked === null) rows.forEach(follow);

    const procedure = frames.map(([program]) => data.programs[program]).find(({ variables }) => variables);
    const memory = data.memory(count), old = data.memory(before);
    showSource(step, data.steps[latest(counts.source, before)], procedure?.name);
    showPiton(state, data.piton[latest(counts.piton, before)]);
    showRegisters();
    showTemporary(frames, memory, old);
    showControl(frames, memory, old);
    showWhere(source, state, step, place);
  };

  // ---- What the reader does ----

  // What stands in the address behind the moment stays there: in the page with an editor it is the program.
  const go = (to) => {
    before = count;
    count = Math.min(Math.max(to, 0), data.last);
    show();
    history.replaceState(null, "", `#${count}${location.hash.match(/~.*$/)?.[0] ?? ""}`);
  };
  const step = (way) => go(stepped(count, way));

  // Marks a statement and its code, or lets go of it. A statement of the infix program has the code of all that it was made into.
  const tiedTo = (key) => {
    const places = key.startsWith("n") ? [key, ...(infix[key.slice(1)]?.places ?? [])] : [key];
    return places.flatMap((it) => [...document.querySelectorAll(`[data-place="${it}"]`)]);
  };
  const pick = (key) => {
    picked = picked === key ? null : key;
    mark("picked", picked === null ? [] : tiedTo(picked));
    for (const it of document.querySelectorAll(".pick")) it.setAttribute("aria-pressed", String(it.parentNode.dataset.place === picked));
    if (picked === null) show();
    else for (const id of ["infix", "source", "piton", "words"]) follow(by(id).querySelector(".picked"));
  };

  const stop = () => {
    clearInterval(timer);
    timer = null;
    by("play").setAttribute("aria-pressed", "false");
    by("play").textContent = "Play";
  };
  const play = () => {
    if (timer) return stop();
    if (count === data.last) go(0);
    by("play").setAttribute("aria-pressed", "true");
    by("play").textContent = "Pause";
    timer = setInterval(() => (count === data.last ? stop() : step(1)), { source: 900, piton: 300, machine: 120 }[mode]);
  };

  // The moment, and perhaps a statement, that the address names: `#146`, `#146-213` or, of an infix program's third statement, `#146-n2`.
  const fromAddress = () => {
    const [, to, key] = location.hash.match(/^#(\d+)(?:-(n?\d+))?(?:~.*)?$/) ?? [null, "0"];
    count = Math.min(Number(to), data.last);
    before = count ? stepped(count, -1) : 0;
    show();
    if (key && key !== picked) pick(key);
  };

  const setMode = (to) => {
    mode = to;
    document.querySelector(`#modes [value=${to}]`).checked = true;
    stop();
  };
  const actions = {
    ArrowRight: () => step(1), ArrowLeft: () => step(-1), Home: () => go(0), End: () => go(data.last),
    1: () => setMode("source"), 2: () => setMode("piton"), 3: () => setMode("machine"),
    Escape: () => picked !== null && pick(picked),
  };
  const onKey = (event) => {
    const act = actions[event.key], typed = event.target.closest("textarea, select, input:not([type=range])");
    if (!act || typed || event.ctrlKey || event.altKey || event.metaKey) return;
    event.preventDefault();
    act();
  };

  const listen = () => {
    by("first").onclick = () => go(0);
    by("back").onclick = () => step(-1);
    by("next").onclick = () => step(1);
    by("end").onclick = () => go(data.last);
    by("play").onclick = play;
    by("moment").max = data.last;
    by("moment").oninput = (event) => go(Number(event.target.value));
    by("plot").onclick = (event) => {
      const { left, width } = by("plot").getBoundingClientRect();
      go(Math.round(((event.clientX - left) / width) * data.last));
    };
    by("modes").onchange = (event) => setMode(event.target.value);
    document.querySelector("main").onclick = (event) => {
      const found = event.target.closest("[data-place]");
      if (found) pick(found.dataset.place);
    };
    document.onkeydown = onKey;
    window.onhashchange = fromAddress;
  };

  const showTexts = () => {
    const shown = data.programs.filter(({ entry }) => entry !== undefined), left = data.programs.length - shown.length;
    document.querySelector("main").classList.toggle("four", Boolean(data.infix));
    by("infix-pane").hidden = !data.infix;
    by("infix").replaceChildren(...(data.infix ? [infixOf()] : []));
    by("lowered").textContent = data.infix ? "what it is lowered to" : "";
    by("source").replaceChildren(sourceOf());
    by("piton").replaceChildren(...shown.map(({ name, locals, rows }) => element("tbody", {}, headOf(name, locals), ...rows.map(pitonRow))));
    by("words").replaceChildren(...shown.map(({ name, locals, entry, prelude, rows }) =>
      element("tbody", {}, headOf(name, locals), ...[{ text: "", address: entry, words: prelude, place: null }, ...rows].flatMap(wordRows))));
    by("left").textContent = left ? `${left} programs that these moments don’t enter are left out.` : "";
  };

  by("shown").hidden = false;
  setMode("source");
  showTexts();
  listen();
  outcome();
  depths();
  fromAddress();
};

// Reads the answers, and shows the run; where two of them don't fit one another it says so, and shows nothing.
const showAnswers = (answers) => {
  document.body.dataset.state = "reads";
  // For who wants to look: what the program printed, as it is.
  window.answers = answers;
  try {
    showRun(momentsOf(answers));
    document.body.dataset.state = "shown";
  } catch (fault) {
    by("shown").hidden = true;
    by("outcome").textContent = fault instanceof Differs
      ? `Nothing is shown, since the program’s answers don’t fit one another. This isn’t so: ${fault.message}.`
      : `Nothing is shown, since the answers can’t be read: ${fault.message}.`;
    document.body.dataset.state = "refused";
  }
};

// What a script of this page holds as packed bytes.
const unpacked = async (id) => {
  const bytes = Uint8Array.from(atob(by(id).textContent.trim()), (it) => it.charCodeAt(0));
  return new Response(new Blob([bytes]).stream().pipeThrough(new DecompressionStream("gzip")));
};
if (by("data").textContent.trim()) unpacked("data").then((it) => it.json()).then(showAnswers);
