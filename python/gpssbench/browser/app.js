// The workbench in a browser: it shows what the server tells, and asks for edits. All text is set as text, never as HTML.
const $ = (id) => document.getElementById(id);
const make = (tag, text = "", name = "") => {
  const it = document.createElement(tag);
  it.textContent = text;
  if (name) it.className = name;
  return it;
};

let state = { statements: [], version: -1 };
let figures = { rows: [], classes: {}, missing: [] };
let at = 0; // the statement that has the focus
let editing = null; // { place, side, input }
let last = ""; // what was said last, which the progress of a run covers
let socket;

const ask = (what) => socket.readyState === WebSocket.OPEN && socket.send(JSON.stringify(what));
const edit = (line) => ask({ do: "edit", line, seen: state.version });

function connect() {
  socket = new WebSocket(new URL("ws", location.href.replace(/^http/, "ws")));
  socket.onmessage = (event) => {
    const told = JSON.parse(event.data);
    ({ state: showState, figures: showFigures, report: showReport, busy: showBusy, offer: showOffer, trial: showTrial, refused: showRefused, said: showSaid })[told.kind]?.(told);
  };
  socket.onclose = () => {
    $("said").textContent = "The workbench does not answer; trying again.";
    setTimeout(connect, 1000);
  };
}

// ---- the model

function colored(text, verb) {
  const it = document.createDocumentFragment();
  const lines = text.split("|");
  const words = lines[0].split(" ");
  const place = words[0] === verb ? 0 : 1;
  if (place) it.append(make("span", words[0], "label"), " ");
  it.append(make("span", verb, "verb"), " " + words.slice(place + 1).join(" "));
  for (const line of lines.slice(1)) it.append("\n" + line);
  return it;
}

function showState(told) {
  const same = told.version === state.version && told.file === state.file;
  if (state.fault && !told.fault) $("wrong").textContent = "";
  state = told;
  if (!same) editing = null;
  document.title = $("file").textContent = told.file;
  $("undo").disabled = !told.undo;
  $("redo").disabled = !told.redo;
  $("files").replaceChildren(...told.files.map((name) => make("option", name)));
  $("files").value = told.file;
  $("mend").hidden = !told.fault;
  $("model").hidden = !!told.fault;
  if (told.fault) {
    $("text").value = told.fault.text;
    $("wrong").textContent = `${told.fault.code}: ${told.fault.sentence}`;
    const lines = told.fault.text.split("\n");
    const from = lines.slice(0, told.fault.line - 1).join("\n").length + (told.fault.line > 1 ? 1 : 0);
    if (told.fault.line) $("text").setSelectionRange(from, from + lines[told.fault.line - 1].length);
    $("text").focus();
    return;
  }
  const options = [["", "as it was opened"], ...told.named.map((it) => [it, it])];
  if (told.pinned && !told.named.includes(told.pinned)) options.push([told.pinned, told.pinned]);
  $("baseline").replaceChildren(...options.map(([value, text]) => Object.assign(make("option", text), { value })));
  $("baseline").value = told.pinned ?? "";
  const count = Object.keys(told.replications).length;
  $("replications").value = count;
  const chosen = $("replication").value;
  $("replication").replaceChildren(...Object.keys(told.replications).map((it) => make("option", it)));
  $("replication").value = told.replications[chosen] ? chosen : Object.keys(told.replications)[0];
  $("lines").textContent = told.script.join("\n");
  if (!editing) showModel();
}

function showModel() {
  const had = document.activeElement?.closest?.("#model");
  const rows = state.statements.map((it, place) => {
    const row = make("tr", "", it.changed ? "changed" : "");
    row.dataset.place = place + 1;
    const cell = make("td", "", "statement");
    cell.tabIndex = place === at ? 0 : -1;
    cell.setAttribute("aria-label", `place ${place + 1}: ${it.text}${it.changed ? ", changed" : ""}`);
    for (const line of it.front.filter(Boolean)) cell.append(make("span", line + "\n", "comment"));
    cell.append(colored(it.text, it.verb));
    if (it.comment) cell.append(make("span", "  ; " + it.comment, "comment"));
    cell.addEventListener("click", () => begin(place, "change"));
    row.append(make("td", place + 1), cell, make("td", it.counts?.[0] ?? ""), make("td", it.counts?.[1] ?? ""));
    return row;
  });
  $("model").tBodies[0].replaceChildren(...rows);
  at = Math.min(at, Math.max(0, rows.length - 1));
  if (had) focusOn(at);
}

function focusOn(place) {
  const cells = [...$("model").querySelectorAll("td.statement")];
  if (!cells.length) return;
  at = Math.max(0, Math.min(place, cells.length - 1));
  cells.forEach((cell, number) => (cell.tabIndex = number === at ? 0 : -1));
  cells[at].focus();
}

function begin(place, side) {
  if (editing) return;
  const row = $("model").tBodies[0].rows[place];
  const input = make("input");
  input.setAttribute("list", "words");
  input.setAttribute("aria-label", side === "change" ? `statement at place ${place + 1}` : "the new statement");
  input.value = side === "change" ? state.statements[place].text : "";
  editing = { place, side, input };
  at = place;
  if (side === "change") row.cells[1].replaceChildren(input);
  else {
    const fresh = make("tr");
    const cell = make("td", "", "statement");
    cell.append(input);
    fresh.append(make("td"), cell, make("td"), make("td"));
    side === "before" ? row.before(fresh) : row.after(fresh);
  }
  input.addEventListener("click", (event) => event.stopPropagation());
  input.addEventListener("keydown", (event) => {
    event.stopPropagation();
    if (event.key === "Escape") end();
    if (event.key === "Enter") (event.ctrlKey ? attempt : commit)();
  });
  input.addEventListener("input", askOffer);
  input.focus();
  askOffer();
}

const askOffer = () => ask({ do: "offer", typed: editing.input.value });
function showOffer(told) {
  if (editing?.input.value !== told.typed) return;
  $("words").replaceChildren(...told.lines.map((it) => Object.assign(make("option"), { value: it })));
}

function end() {
  editing = null;
  $("wrong").textContent = "";
  showModel();
  focusOn(at);
}

const begun = ({ place, side, input }) =>
  (side === "change" ? `change ${place + 1} ` : `insert ${place + (side === "after" ? 2 : 1)} `) + input.value.trim();

function commit() {
  const { place, side, input } = editing;
  if (side === "change" && input.value.trim() === state.statements[place].text) return end();
  edit(begun(editing));
}

const attempt = () => ask({ do: "try", line: begun(editing) });
function showTrial(told) {
  if (!editing || begun(editing) !== told.line) return;
  beside(told.text, "trial", "status");
  editing.input.removeAttribute("aria-invalid");
}

function beside(text, name, role) {
  document.querySelector(".beside")?.remove();
  const says = make("div", text, `beside ${name}`);
  says.setAttribute("role", role);
  editing.input.after(says);
}

$("model").addEventListener("focusin", (event) => {
  const row = event.target.closest("td.statement")?.parentNode;
  if (row?.dataset.place && !editing) at = row.dataset.place - 1;
});
$("model").addEventListener("keydown", (event) => {
  if (editing || event.ctrlKey || event.metaKey || event.altKey) return;
  const act = {
    ArrowUp: () => focusOn(at - 1), ArrowDown: () => focusOn(at + 1), Home: () => focusOn(0),
    End: () => focusOn(state.statements.length - 1), Enter: () => begin(at, "change"), i: () => begin(at, "before"),
    a: () => begin(at, "after"), Delete: () => edit(`delete ${at + 1}`),
  }[event.key];
  if (act) {
    event.preventDefault();
    act();
  }
});

// ---- the answers

function showFigures(told) {
  figures = told;
  $("give-up").hidden = true;
  $("said").textContent = last;
  $("about").textContent = [
    told.seconds === undefined ? "" : `START ${told.start}, in ${told.seconds} s: ${told.cost}.`,
    told.baseline ? `Differences are to ${told.baseline}.` : "", ...told.missing,
  ].filter(Boolean).join(" ");
  showTable();
  showBars();
  if (!$("report").hidden) askReport();
}

function showTable() {
  const all = $("all").checked;
  const rows = figures.rows.filter((it) => all || it.main).map((it) => {
    const row = make("tr", "", it.apart ? "apart" : "");
    const runs = it.n === it.of ? String(it.n) : `${it.n} of ${it.of}`;
    const text = it.change[0] === "" ? "" : it.apart ? "without 0" : "holds 0";
    row.append(make("td", `${it.kind} ${it.entity} ${it.column}`, "text"));
    for (const cell of [runs, ...it.now, it.before, ...it.change]) row.append(make("td", cell));
    row.append(make("td", text, "text"));
    return row;
  });
  $("table").tBodies[0].replaceChildren(...rows);
}

function showBars() {
  const space = "http://www.w3.org/2000/svg";
  const draw = (tag, attributes, text = "") => {
    const it = document.createElementNS(space, tag);
    for (const [name, value] of Object.entries(attributes)) it.setAttribute(name, value);
    it.textContent = text;
    return it;
  };
  const charts = Object.entries(figures.classes ?? {}).map(([name, classes]) => {
    const part = make("figure");
    const most = Math.max(1, ...classes.map((it) => it[2]));
    const total = Math.max(1, classes.reduce((sum, it) => sum + it[2], 0));
    const svg = draw("svg", { viewBox: `0 0 520 ${classes.length * 20 + 4}`, role: "img", "aria-label": `histogram of ${name}` });
    classes.forEach(([above, to, count], number) => {
      const y = number * 20 + 2;
      const limits = above === "" ? `to ${to}` : to === "" ? `above ${above}` : `${above} - ${to}`;
      svg.append(draw("text", { x: 130, y: y + 13, "text-anchor": "end" }, limits));
      svg.append(draw("rect", { x: 138, y: y + 2, width: (300 * count) / most, height: 14 }));
      const share = `${count} (${((100 * count) / total).toFixed(1)} %)`;
      svg.append(draw("text", { x: 144 + (300 * count) / most, y: y + 13 }, share));
    });
    part.append(svg, make("figcaption", `${name}, over all replications`));
    return part;
  });
  $("bars").replaceChildren(...(charts.length ? charts : [make("p", "The model has no TABLE with values.")]));
}

const askReport = () => ask({ do: "report", replication: Number($("replication").value) || 1 });
const showReport = (told) => ($("bytes").textContent = told.text);

function showBusy(told) {
  $("give-up").hidden = false;
  const keeps = told.keeps ? `; ${told.keeps}` : "";
  $("said").textContent = `Simulating: ${told.done} of ${told.of} replications, ${told.seconds} s${keeps}`;
}

function showSaid(told) {
  $("wrong").textContent = "";
  $("said").textContent = last = told.text;
  editing = null;
  showModel();
}

function showRefused(told) {
  const text = `${told.code ? told.code + ": " : ""}${told.sentence}`;
  $("wrong").textContent = editing ? "" : text;
  if (editing) {
    beside(text, "refusal", "alert");
    editing.input.setAttribute("aria-invalid", "true");
    editing.input.focus();
  }
}

// ---- the rest

const tabs = [...document.querySelectorAll("[role=tab]")];
function choose(tab) {
  for (const it of tabs) {
    const is = it === tab;
    it.setAttribute("aria-selected", is);
    it.tabIndex = is ? 0 : -1;
    $(it.getAttribute("aria-controls")).hidden = !is;
  }
  tab.focus();
  if (tab.id === "tab-report") askReport();
}
tabs.forEach((tab, number) => {
  tab.addEventListener("click", () => choose(tab));
  tab.addEventListener("keydown", (event) => {
    const step = { ArrowRight: 1, ArrowLeft: -1 }[event.key];
    if (step) choose(tabs[(number + step + tabs.length) % tabs.length]);
  });
});
const undo = () => ask({ do: "undo", seen: state.version });
const redo = () => ask({ do: "redo", seen: state.version });
const pin = () => ask({ do: "pin" });
const help = () => {
  $("keys").hidden = !$("keys").hidden;
  $("help").setAttribute("aria-expanded", !$("keys").hidden);
};
$("undo").addEventListener("click", undo);
$("redo").addEventListener("click", redo);
$("pin").addEventListener("click", pin);
$("help").addEventListener("click", help);
$("give-up").addEventListener("click", () => ask({ do: "give up" }));
$("all").addEventListener("change", showTable);
$("replication").addEventListener("change", askReport);
$("files").addEventListener("change", () => ask({ do: "open", name: $("files").value }));
$("save").addEventListener("click", () => ask({ do: "save", name: $("name").value }));
$("baseline").addEventListener("change", () => ask({ do: "baseline", name: $("baseline").value }));
$("version-name").addEventListener("change", () => {
  ask({ do: "name", name: $("version-name").value });
  $("version-name").value = "";
});
$("plan").addEventListener("click", () => ask({ do: "plan", name: $("plan-name").value }));
$("mend").addEventListener("submit", (event) => {
  event.preventDefault();
  ask({ do: "text", text: $("text").value });
});
$("replications").addEventListener("change", () => ask({ do: "count", count: Number($("replications").value), seen: state.version }));
document.addEventListener("keydown", (event) => {
  if (editing || event.ctrlKey || event.metaKey || event.altKey || event.target.matches("input, textarea, select")) return;
  const act = { u: undo, r: redo, p: pin, "?": help }[event.key];
  if (act) act();
});
connect();
