"use strict";
// The page: it runs `blueprint` and `streams` over the text and the files that stand in it.

const find = (id) => document.getElementById(id);
const BLUEPRINT = "main.blue", TRACE = "trace.txt", MOVES = "moves.txt";
const MOST_TURNS = 4000000000;
// The units of a run are counted by running it some sixty times; where that takes longer, it is done only where it is asked for.
const COUNTING = 2000;
const AFTER_TYPING = 250;

let streams, workbench, editor, inputs;
let drawing = ""; // what `blueprint draw` said last
let activity = null; // "run" or "count" while Stop has something to end
let session = 0; // rises with each run, so that what belongs to an older one is dropped
let shown = null; // the last run, where it can be shown unit by unit: { files, words, end, report, units }
let wantedUnit = null; // the unit that the slider asks for, while another is being shown
let typing = 0;

const say = (text) => { find("status").textContent = text; };
function notice(text) {
  find("notice").textContent = text;
  find("notice").hidden = text === "";
}

// ---- What is run

const blueprintFile = () => ({ [BLUEPRINT]: new TextEncoder().encode(editor.text) });

/** The files of a run, and the words behind the program's name, all but `--turns`. */
function asked() {
  const files = { ...inputs.contents, ...blueprintFile() }, words = [BLUEPRINT];
  if (find("trace").checked) words.push("--trace", TRACE);
  if (find("replay").checked) {
    words.push("--replay", MOVES);
    files[MOVES] = new TextEncoder().encode(find("moves").value);
  }
  return { files, words };
}

function turnsWords() {
  const turns = find("turns").value.trim();
  return turns === "" ? [] : ["--turns", turns];
}

const reservedNames = () => [BLUEPRINT, ...(find("trace").checked ? [TRACE] : []), ...(find("replay").checked ? [MOVES] : [])];

// ---- What the blueprint is: checked and drawn as it is typed

async function look() {
  clearTimeout(typing);
  const text = editor.text;
  try {
    const checked = await workbench.run(["check", BLUEPRINT], blueprintFile());
    const drawn = await workbench.run(["draw", BLUEPRINT], blueprintFile());
    if (text !== editor.text) return;
    showFault(checked);
    const dot = textShown(drawn.output);
    drawing = dot.startsWith("digraph") ? dot : "";
    showPicture(null);
  } catch (error) {
    if (!(error instanceof Stopped)) notice(`The blueprint could not be looked at: ${error.message}`);
  }
}

/** Shows what `blueprint check` said: the rule, the line, and the cure. */
function showFault(checked) {
  const told = checked.fault ? wordsOfFault(checked.fault) : textShown(checked.errors).trimEnd();
  const line = Number((told.match(/^line (\d+)/m) ?? [])[1] ?? 0);
  const isFit = checked.code === 0;
  find("fault").className = isFit ? "dim" : "bad";
  find("fault").textContent = isFit ? "✓ No fault: this blueprint can be run." : told;
  find("go").hidden = isFit || line === 0;
  find("go").textContent = `Go to line ${line}`;
  find("go").onclick = () => editor.goTo(line);
  editor.show(isFit ? 0 : line);
}

function changed() {
  clearTimeout(typing);
  typing = setTimeout(look, AFTER_TYPING);
  forgetRun();
}

/** What is shown of a run is not that of the text that stands there now. */
function forgetRun() {
  session++;
  shown = null;
  find("stepper").hidden = find("count").hidden = true;
  find("legend").textContent = "";
  if (find("report").textContent === "" || activity) return;
  find("code").textContent = "(of what stood here before)";
  say("Something was changed since the last run.");
}

// ---- The picture

const LEGEND = "At each wire: how many elements it carried. ◂ more is asked for; ▪ shut; dashed with a box: a lane and its size.";

function showPicture(run) {
  const place = find("picture");
  try {
    if (drawing === "") throw new Error("There is no picture: the text is no blueprint yet. The fault stands below it.");
    const made = pictureOf(drawing, run);
    place.replaceChildren(made.picture);
    find("tables").replaceChildren(...tablesOf(made.drawing));
  } catch (error) {
    place.replaceChildren(element("p", { className: "dim", textContent: error.message }));
    find("tables").replaceChildren();
  }
  find("legend").textContent = run?.wires.length > 0 ? LEGEND : "";
}

// ---- A run

async function run() {
  if (activity) return;
  if (inputs.fault) return say(`Nothing was run. ${inputs.fault}`);
  const mine = ++session;
  setActivity("run");
  notice("");
  say("Running.");
  try {
    await look();
    if (mine === session) await runNow(mine);
    if (mine !== session) say("Something was changed while it ran. Run shows what it does now.");
  } catch (error) {
    if (mine === session) showFailure(error);
  } finally {
    setActivity(null);
  }
  if (mine === session && shown) await showUnits(mine, COUNTING);
}

async function runNow(mine) {
  const { files, words } = asked();
  const end = await streams.run([...words, ...turnsWords()], files);
  if (mine === session) await showEnd(end, mine);
}

function setActivity(what) {
  activity = what;
  find("stop").setAttribute("aria-disabled", String(!what));
  find("run").setAttribute("aria-disabled", String(Boolean(what)));
}

function stop() {
  if (!activity) return;
  session++;
  streams.stop();
  if (activity === "run") {
    clearResults();
    say("Stopped. The run left no report and no file.");
  } else say("Stopped. The units were not counted.");
  find("run").focus();
}

function showFailure(error) {
  clearResults();
  const words = error instanceof Stopped ? "Stopped." : wordsOfFault(error.message);
  say(words);
  if (!(error instanceof Stopped)) find("report").textContent = `${words}\n(${error.message})`;
}

function clearResults() {
  for (const id of ["report", "words", "errors", "outputs", "code", "legend"]) find(id).textContent = "";
  find("errors_part").hidden = find("stepper").hidden = find("count").hidden = true;
  shown = null;
}

async function showEnd(end, mine) {
  clearResults();
  if (end.fault) return showFailure(new Error(end.fault));
  const report = textShown(end.output), limits = wordsOfLimits(end);
  find("report").textContent = report;
  find("code").textContent = `(exit code ${end.code})`;
  const explained = await workbench.run(["explain", BLUEPRINT], blueprintFile(), end.output);
  if (mine !== session) return;
  find("words").replaceChildren(...[limits, textShown(explained.output)].filter(Boolean).map((text) => element("p", { textContent: text.trimEnd() })));
  showErrors(end.errors);
  showWritten(end.files);
  showPicture(runOfReport(report));
  say(`The run has ended: ${report.split("\n")[0]}, exit code ${end.code}; ${end.milliseconds.toFixed(1)} ms, ${sizeInWords(end.memory)}.`);
  const canStep = [0, 3, 4, OUT_OF_TURNS].includes(end.code) && /^sink /m.test(report);
  shown = canStep ? { ...asked(), end, report } : null;
}

function showErrors(errors) {
  find("errors").textContent = textShown(errors);
  find("errors_part").hidden = errors.length === 0;
}

function showWritten(files) {
  const names = Object.keys(files);
  find("outputs").replaceChildren(...names.map((name) => writtenFile(name, files[name])));
  if (!names.length) find("outputs").append(element("p", { className: "dim", textContent: "None." }));
  const trace = find("outputs").querySelector(`[data-name="${TRACE}"] .head`);
  if (!trace || !find("trace").checked) return;
  const use = element("button", { type: "button", textContent: "Use as choices" });
  use.addEventListener("click", () => {
    find("moves").value = textShown(files[TRACE]);
    find("replay").checked = true;
    optionsChanged();
    find("moves").focus();
  });
  trace.append(use);
}

// ---- A run unit by unit

/** Runs what `it`, a run that is shown, ran, with at most this many units. */
const runTo = (it, units) => streams.run([...it.words, "--turns", String(units)], it.files);

/** Finds how many units a run uses: the least number with which it does not end early. Returns 0 where the time was up before. */
async function leastUnits(it, mine, milliseconds) {
  const until = performance.now() + milliseconds;
  const isOver = () => mine !== session || performance.now() > until;
  const endsEarly = async (units) => (await runTo(it, units)).code === OUT_OF_TURNS;
  let few = 0, enough = 1;
  while (enough < MOST_TURNS && (await endsEarly(enough))) {
    few = enough;
    enough = Math.min(2 * enough, MOST_TURNS);
    if (isOver()) return 0;
  }
  while (enough - few > 1) {
    const middle = Math.floor((few + enough) / 2);
    if (await endsEarly(middle)) few = middle;
    else enough = middle;
    if (isOver()) return 0;
  }
  return enough;
}

/** Shows the slider over the units of the run. Where counting them takes longer than so many milliseconds, a button asks for it. */
async function showUnits(mine, milliseconds) {
  const it = shown, outOf = it.report.match(/^out of turns (\d+)/);
  find("count").hidden = true;
  find("at").textContent = "";
  try {
    const units = outOf ? Number(outOf[1]) : await leastUnits(it, mine, milliseconds);
    if (mine !== session) return;
    it.units = units;
    find("count").hidden = units > 0;
    if (units === 0) return;
    Object.assign(find("unit"), { max: units, value: units });
    find("stepper").hidden = false;
    await step();
  } catch (error) {
    if (mine === session && !(error instanceof Stopped)) say(`The run cannot be shown unit by unit. ${wordsOfFault(error.message)}`);
  }
}

async function countUnits() {
  if (activity) return;
  const mine = session;
  setActivity("count");
  say("Counting the units of the run.");
  try {
    await showUnits(mine, Infinity);
  } finally {
    setActivity(null);
  }
  if (mine === session && shown?.units) say(`The run uses ${shown.units} units.`);
}

/** Shows the unit that the slider is at. While one is being run, only the last that was asked for is kept. */
async function step() {
  const isBusy = wantedUnit !== null;
  wantedUnit = Number(find("unit").value);
  if (isBusy) return;
  try {
    for (let unit = -1; shown?.units && unit !== wantedUnit;) {
      unit = wantedUnit;
      await showUnit(unit, session);
    }
  } catch (error) {
    if (!(error instanceof Stopped)) say(`This unit cannot be shown. ${wordsOfFault(error.message)}`);
  } finally {
    wantedUnit = null;
  }
}

async function showUnit(unit, mine) {
  const it = shown, { units, report } = it, isEnd = unit === units;
  // A report tells of wires only where the run has not ended: behind the last unit the counts are those of the unit before.
  const hasWires = /^wire /m.test(report);
  const told = isEnd && !hasWires ? unit - 1 : unit;
  let counted = "";
  if (isEnd && hasWires) counted = report;
  else if (told > 0) counted = textShown((await runTo(it, told)).output);
  if (mine !== session) return;
  const seen = runOfReport(counted);
  if (isEnd) seen.sinks = runOfReport(report).sinks;
  showPicture(seen);
  const end = isEnd ? `: ${report.split("\n")[0]}` : "";
  const before = isEnd && !hasWires && counted ? `; the counts are those after unit ${told}` : "";
  find("at").textContent = `After ${unit} of ${units} units${end}${before}`;
  find("unit").setAttribute("aria-valuetext", find("at").textContent);
}

function moveTo(unit) {
  find("unit").value = unit;
  step();
}

// ---- Examples and links

/** Puts a state into the page: { blueprint, files, turns, moves, trace }. */
async function open(state) {
  clearResults();
  forgetRun();
  if (activity) stop();
  notice("");
  inputs.clear();
  for (const [name, bytes] of Object.entries(state.files)) inputs.add(name, bytes);
  find("turns").value = state.turns ?? "";
  find("trace").checked = state.trace === true;
  find("replay").checked = typeof state.moves === "string";
  find("moves").value = state.moves ?? "";
  optionsChanged();
  editor.text = state.blueprint;
  await look();
}

async function openExample(number) {
  const example = EXAMPLES[number], files = {};
  for (const [name, base64] of Object.entries(example.files)) files[name] = fromBase64(base64);
  find("example").value = number;
  await open({ blueprint: example.blueprint, files });
  if (example.isRun) await run();
  else say("Run starts this example, and Stop ends it.");
}

/** Opens what the address says: a state, an example by its name, or the first example. */
async function openAddress() {
  const words = new URLSearchParams(location.hash.slice(1));
  try {
    const state = await stateOfFragment(location.hash);
    if (state) {
      find("example").value = "";
      await open(state);
      return say("The link is open. Nothing was run yet.");
    }
  } catch (error) {
    await openExample(0);
    return notice(`The link is damaged: ${error.message}. The first example stands here instead.`);
  }
  const named = EXAMPLES.findIndex((it) => it.name === words.get("example"));
  await openExample(Math.max(0, named));
  if (words.has("example") && named < 0) notice(`There is no example ${words.get("example")}. The first one stands here instead.`);
  if (!words.has("unit") || !shown) return;
  if (!shown.units) await countUnits();
  if (shown?.units) moveTo(Number(words.get("unit")));
}

async function share() {
  const fragment = await fragmentOf({
    blueprint: editor.text,
    files: inputs.contents,
    turns: find("turns").value.trim(),
    trace: find("trace").checked,
    moves: find("replay").checked ? find("moves").value : undefined,
  });
  find("link").hidden = false;
  if (fragment.length > MOST_LINK) {
    find("address").value = "";
    const lengths = `it would have ${fragment.length} characters, and ${MOST_LINK} is the most that each browser takes`;
    find("linked").textContent = `The text and the files are too large for a link: ${lengths}.`;
    return;
  }
  find("address").value = location.href.replace(/#.*/, "") + fragment;
  find("linked").textContent = "The link holds the blueprint, the files and the options, all behind its #. A browser sends that part to nobody.";
  find("address").focus();
  find("address").select();
}

async function copy() {
  find("address").select();
  try {
    await navigator.clipboard.writeText(find("address").value);
    find("linked").textContent = "The link was copied.";
  } catch {
    find("linked").textContent = "This browser does not let the page copy. The link is selected: Ctrl+C copies it.";
    find("address").focus();
  }
}

// ---- The beginning

function optionsChanged() {
  find("moves").hidden = !find("replay").checked;
  inputs.changed();
}

async function upload() {
  for (const file of find("upload").files) inputs.put(file.name, new Uint8Array(await file.arrayBuffer()));
  find("upload").value = "";
}

/** Says what this browser lacks, in words; an empty text where nothing is. */
function lackOfBrowser() {
  // A module with a memory and a table of 64 bits.
  const module = new Uint8Array([0, 97, 115, 109, 1, 0, 0, 0, 4, 4, 1, 112, 4, 1, 5, 3, 1, 4, 1]);
  const lacks = [];
  if (typeof WebAssembly !== "object" || !WebAssembly.validate(module)) lacks.push("WebAssembly with 64-bit memory (memory64)");
  if (typeof Worker !== "function") lacks.push("workers");
  if (typeof DecompressionStream !== "function") lacks.push("DecompressionStream");
  return lacks.length ? `This browser cannot run the programs: it lacks ${lacks.join(" and ")}. A current Chromium, Chrome or Edge has all of it.` : "";
}

function listen() {
  find("run").addEventListener("click", run);
  find("stop").addEventListener("click", stop);
  find("share").addEventListener("click", share);
  find("copy").addEventListener("click", copy);
  find("count").addEventListener("click", countUnits);
  find("example").addEventListener("change", () => find("example").value !== "" && openExample(Number(find("example").value)));
  find("add").addEventListener("click", () => inputs.add(inputs.freeName(), new Uint8Array()).nameField.focus());
  find("upload").addEventListener("change", upload);
  for (const id of ["trace", "replay", "turns", "moves"]) find(id).addEventListener("input", optionsChanged);
  find("unit").addEventListener("input", step);
  find("first").addEventListener("click", () => moveTo(0));
  find("back").addEventListener("click", () => moveTo(Number(find("unit").value) - 1));
  find("on").addEventListener("click", () => moveTo(Number(find("unit").value) + 1));
  find("last").addEventListener("click", () => moveTo(Number(find("unit").max)));
  find("blueprint").addEventListener("input", () => {
    find("example").value = "";
    editor.show(0);
    changed();
  });
  addEventListener("keydown", (event) => {
    if ((event.ctrlKey || event.metaKey) && event.key === "Enter") run();
  });
  addEventListener("hashchange", () => {
    if (/^#(page|example)=/.test(location.hash)) openAddress();
  });
}

async function begin() {
  addEventListener("error", (event) => notice(`The page has a fault: ${event.message}`));
  addEventListener("unhandledrejection", (event) => notice(`The page has a fault: ${event.reason?.message ?? event.reason}`));
  find("made").textContent = MADE_OF;
  editor = new Editor(find("blueprint"), find("colours"), find("numbers"));
  inputs = new InputFiles(find("inputs"), reservedNames, changed);
  find("example").append(new Option("(your own text)", ""));
  for (const [i, example] of EXAMPLES.entries()) find("example").append(new Option(example.title, i));
  const lack = lackOfBrowser();
  if (lack) {
    notice(lack);
    say("Nothing can be run here.");
    return;
  }
  const [streamsBytes, workbenchBytes] = await Promise.all([unpack(PROGRAMS.streams), unpack(PROGRAMS.blueprint)]);
  workbench = new Program("blueprint", workbenchBytes);
  streams = new Program("streams", streamsBytes);
  listen();
  await openAddress();
  document.body.classList.add("ready");
}

addEventListener("DOMContentLoaded", begin);
