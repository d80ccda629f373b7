// The editor: runs the program that is in this page on what is written, in a worker, and shows its answer, or what it refuses and where.
(() => {
  const { examples, rules, endings } = JSON.parse(by("told").textContent);
  const code = `${by("host").textContent}\n${by("ask").textContent}
let program = null;
onmessage = async ({ data: { bytes, given } }) => {
  try {
    program ??= await WebAssembly.compile(bytes);
    postMessage(gather((words, files) => perform(program, words, files), given, (went) => postMessage({ went })));
  } catch (fault) {
    postMessage({ fault: fault.message, status: fault.status ?? null, file: fault.file ?? null });
  }
};`;
  const FIELDS = { control: "ctrl", temporary: "temp", budget: "budget" };
  let worker = null, since = 0, bytes = null;

  // ---- What is written, and the address ----

  const written = () => {
    const sizes = Object.entries(FIELDS).map(([key, id]) => [key, Number(by(id).value)]);
    return { source: by("text").value, values: by("given").value, ...Object.fromEntries(sizes) };
  };
  const write = ({ source, values, ...sizes }) => {
    by("text").value = source;
    by("given").value = values;
    for (const [key, id] of Object.entries(FIELDS)) by(id).value = sizes[key];
    for (const id of ["text", "given"]) markPlace(id, null);
  };

  const through = async (stream, content) => new Uint8Array(await new Response(new Blob([content]).stream().pipeThrough(stream)).arrayBuffer());
  const packedIn = async (given) => {
    const packed = await through(new CompressionStream("deflate-raw"), JSON.stringify(given));
    return btoa(String.fromCharCode(...packed)).replace(/\+/g, "-").replace(/\//g, "_").replace(/=+$/, "");
  };
  const unpackedFrom = async (text) => {
    const packed = Uint8Array.from(atob(text.replace(/-/g, "+").replace(/_/g, "/")), (it) => it.charCodeAt(0));
    return JSON.parse(new TextDecoder().decode(await through(new DecompressionStream("deflate-raw"), packed)));
  };
  const inAddress = () => location.hash.match(/~(.+)$/)?.[1];

  // ---- The answer ----

  const say = (...parts) => by("said").replaceChildren(...parts);
  const made = (name, text, kind = "") => Object.assign(document.createElement(name), { textContent: text, className: kind });

  // Marks what stands at a place of a text; a place of `null` takes the mark away.
  const markPlace = (id, place) => {
    const area = by(id), behind = area.previousElementSibling, text = area.value;
    if (place === null) return behind.replaceChildren(text);
    const found = text.slice(place).match(/^(:=|<=|[^\s();{}]+|[^])/)?.[0] ?? " ";
    behind.replaceChildren(text.slice(0, place), made("mark", found), `${text.slice(place + found.length)}\n`);
    area.focus();
    area.setSelectionRange(place, place + found.length);
    behind.scrollTop = area.scrollTop;
  };
  const placeIn = (id, place) => {
    const before = new TextDecoder().decode(new TextEncoder().encode(by(id).value).subarray(0, place));
    return [before.length, before.split("\n").length, before.length - before.lastIndexOf("\n")];
  };

  // What the rule or the last line of a refusal means: the sentences of docs/program/errors.md.
  const sentence = (line) => {
    const [, rule] = line.match(/^(?:refused|values) ([A-Z]\d+) at \d+$/) ?? [];
    if (rule) return `${rule}: ${rules[rule]}`;
    const found = endings.find(([pattern]) => new RegExp(`^${pattern}$`).test(line));
    return found ? found[1].replace(/\bN\b/g, line.match(/\d+/)?.[0] ?? "N") : "";
  };
  const refuse = (text, file) => {
    const line = text.split("\n").at(-1), at = line.match(/^(?:refused|values) \S+ at (\d+)$/);
    if (at && file) {
      const [place, row, column] = placeIn(file, Number(at[1]));
      markPlace(file, place);
      say(made("pre", text, "refused"), made("p", `${file === "text" ? "Source" : "Values"}, line ${row}, column ${column}.`), made("p", sentence(line)));
    } else say(made("pre", text, "refused"), made("p", sentence(line)));
  };

  const idle = () => {
    by("go").disabled = false;
    by("stop").disabled = true;
  };
  const done = ({ data: { went, answers, asked, fault, status, file } }) => {
    if (went !== undefined) return say(made("pre", went.trim()), made("p", "The levels are gathered …", "note"));
    idle();
    if (answers) {
      const said = by("said").querySelector("pre"), seconds = ((performance.now() - since) / 1000).toFixed(1);
      if (by("play").getAttribute("aria-pressed") === "true") by("play").click();
      showAnswers(answers);
      const agree = document.body.dataset.state === "shown" ? ", and the levels agree" : "";
      say(said, made("p", `The program was asked ${asked} times, in ${seconds} s${agree}.`, "note"));
      document.body.dataset.asked = asked;
    } else {
      by("shown").hidden = true;
      by("outcome").textContent = "";
      document.body.dataset.state = "refused";
      if (status === null) say(made("p", `This browser can’t run it: ${fault}. It needs WebAssembly with memories of 64 bits, as Chrome and Firefox have.`, "refused"));
      else refuse(fault, file);
    }
  };
  const stop = (text) => {
    worker?.terminate();
    worker = null;
    idle();
    say(made("p", text));
  };

  // ---- What the reader does ----

  const run = async (keepsMoment) => {
    const given = written(), packed = await packedIn(given);
    if (!keepsMoment || packed !== inAddress()) history.replaceState(null, "", `#0~${packed}`);
    for (const id of ["text", "given"]) markPlace(id, null);
    document.body.dataset.state = "runs";
    by("go").disabled = true;
    by("stop").disabled = false;
    say(made("p", "Runs in this browser …"));
    bytes ??= await (await unpacked("packed")).arrayBuffer();
    if (!worker) {
      worker = new Worker(URL.createObjectURL(new Blob([code], { type: "text/javascript" })));
      worker.onmessage = done;
      worker.onerror = (event) => done({ data: { fault: event.message, status: null } });
    }
    since = performance.now();
    worker.postMessage({ bytes, given });
  };
  const fromLink = async () => {
    const packed = inAddress();
    if (packed) write(await unpackedFrom(packed));
    else write(examples[0]);
    by("example").value = packed ? "" : "0";
    run(true);
  };

  by("example").replaceChildren(new Option("…", ""), ...examples.map(({ name }, n) => new Option(name, n)));
  by("example").onchange = () => {
    if (!by("example").value) return;
    const { name, ...given } = examples[by("example").value];
    write(given);
    run(false);
  };
  by("go").onclick = () => run(false);
  by("stop").onclick = () => stop("Stopped.");
  by("editor").onkeydown = (event) => {
    if (event.key === "Enter" && (event.ctrlKey || event.metaKey) && !by("go").disabled) run(false);
  };
  for (const id of ["text", "given"]) {
    by(id).oninput = () => markPlace(id, null);
    by(id).onscroll = () => { by(id).previousElementSibling.scrollTop = by(id).scrollTop; };
  }
  window.addEventListener("hashchange", () => inAddress() && packedIn(written()).then((it) => it !== inAddress() && fromLink()));
  fromLink().catch((fault) => say(made("p", `The address holds no program: ${fault.message}.`, "refused")));
})();
