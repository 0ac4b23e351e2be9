"use strict";
// Shows the sections that come as server-sent events. All text goes into the page as text, never as HTML.

const RETRY = 5000; // milliseconds until a connection that was refused is tried again
const QUIET = 20000; // milliseconds without a message after which the connection counts as lost: there is one every 15 seconds
const byId = (id) => document.getElementById(id);
const KEYS = { n: "next", r: "rejections", e: "newest", s: "seats", c: "coverage" };

let offset = 0; // the server's time less that of this machine, in seconds
let heard = 0; // when something came from the server, by this machine's clock
let state = null;
let held = null; // while the page is held: what came meanwhile, the newest of each section
let source = null;

function make(tag, classes, ...children) {
  const made = document.createElement(tag);
  if (classes) made.className = classes;
  made.append(...children);
  return made;
}

const now = () => Date.now() / 1000 + offset;
const whole = (number) => number.toLocaleString("en");

function age(at) {
  const seconds = Math.max(0, Math.round(now() - at));
  if (seconds < 60) return seconds + " s";
  if (seconds < 3600) return Math.floor(seconds / 60) + " min " + (seconds % 60) + " s";
  if (seconds < 86400) return Math.floor(seconds / 3600) + " h " + Math.floor((seconds % 3600) / 60) + " min";
  return Math.floor(seconds / 86400) + " d " + Math.floor((seconds % 86400) / 3600) + " h";
}

function size(bytes) {
  const units = ["B", "kB", "MB", "GB", "TB"];
  let unit = 0;
  while (bytes >= 1000 && unit < units.length - 1) { bytes /= 1000; unit++; }
  return (unit ? bytes.toFixed(1) : bytes) + " " + units[unit];
}

// An age that goes on while nothing comes.
function aging(at, before) {
  const shown = make("span", "");
  shown.dataset.at = at;
  shown.dataset.before = before || "";
  shown.title = new Date(at * 1000).toLocaleString();
  shown.textContent = (before || "") + age(at);
  return shown;
}

function names(list, more) {
  const made = list.map((name) => make("span", "name", name));
  if (more) made.push(make("span", "soft", "and " + whole(more) + " more"));
  return made;
}

// Sets of names, of which one has to be offered: of a single one all names.
function sets(found) {
  const [first] = found.sets;
  if (found.sets.length === 1 && !found.more) return [...(first.names.length + first.more > 1 ? ["all of"] : []), ...names(first.names, first.more)];
  const made = ["one of"];
  found.sets.forEach((set, at) => {
    if (at) made.push("or");
    made.push(make("span", "set", ...names(set.names, set.more)));
  });
  if (found.more) made.push(make("span", "soft", "or of " + whole(found.more) + " more sets"));
  return made;
}

// The mark and the words of a report.
function report(row) {
  const text = row.events.join(" ") + (row.more ? " and " + whole(row.more) + " more" : "");
  const mark = make("i", "mark " + (row.refusal ? "refusal" : "event"));
  mark.setAttribute("aria-hidden", "true");
  const kind = row.refusal ? (text ? "refused " : "refused nothing") : "";
  return make("span", "", mark, make("span", "kind", kind), make("code", "", text));
}

function table(heads, rows) {
  const head = make("tr", "", ...heads.map(([text, classes]) => make("th", classes, text)));
  return make("table", "", make("thead", "", head), make("tbody", "", ...rows));
}

function fill(id, ...children) {
  const body = document.querySelector("#" + id + " .body");
  const top = body.scrollTop;
  body.replaceChildren(...children);
  body.scrollTop = top;
  // What can be scrolled can be reached by keyboard.
  if (body.scrollHeight > body.clientHeight + 1) body.tabIndex = 0; else body.removeAttribute("tabindex");
}

const small = (id, text) => { document.querySelector("#" + id + " h2 small").textContent = text; };

function words() {
  if (state.phase === "waiting") return ["waiting", "Waiting", state.reason];
  if (state.phase === "refused") return ["wrong", "Refused", state.reason];
  if (state.phase === "reading") {
    const share = state.in_files ? Math.floor(100 * state.entries / state.in_files) : 0;
    return ["waiting", "Reading", whole(state.entries) + " of " + whole(state.in_files) + " entries so far, " + share + "%"];
  }
  if (state.failed) return ["wrong", "Closed", "The journal failed (ERR 30): no report is taken"];
  if (state.open === null) return ["waiting", "Followed", "Whether a server is there can't be seen"];
  if (!state.open) return ["wrong", "Closed", "No server has the journal open"];
  return ["good", "Open", "A server takes reports"];
}

function figure(label, value, classes) {
  return make("div", classes || "", make("dt", "", label), make("dd", classes || "", value));
}

const show = {
  state(data) {
    state = data;
    const [kind, word, about] = words();
    byId("state").className = kind;
    if (byId("word").textContent !== word) byId("word").textContent = word;
    byId("about").textContent = about;
    byId("journal").textContent = data.journal + (data.process ? " · " + data.process : "");
    const rows = [
      figure("Last entry", data.last === null ? "none yet" : aging(data.last), ""),
      figure("Rejected", whole(data.rejected), data.rejected ? "bad" : ""),
      figure("Entries", whole(data.entries)),
      figure("Accepted events", whole(data.events)),
      figure("Accepted refusals", whole(data.refusals)),
    ];
    if (data.log) {
      const codes = Object.entries(data.codes).map(([code, count]) => "ERR " + code + ": " + count).join(", ");
      const lines = figure("Not judged", whole(data.not_judged), data.not_judged ? "bad" : "");
      lines.title = codes;
      rows.splice(2, 0, lines);
      rows.push(figure("Connections", whole(data.connections)));
    }
    const behind = data.in_files - data.entries;
    if (behind > 0 && data.phase === "following") rows.push(figure("Behind", whole(behind)));
    rows.push(figure("Files", (data.parts > 1 ? data.parts + " · " : "") + size(data.bytes)));
    byId("figures").replaceChildren(...rows);
    title();
  },
  next(data) {
    if (!data.known) {
      const about = state && state.phase === "reading" ? "It is known once the journal was read." : "It isn't known" + (data.reason ? ": " + data.reason : ".");
      fill("next", make("p", "soft", about));
      return;
    }
    const may = data.may.length ? names(data.may, 0) : ["nothing"];
    let must;
    if (data.must === null) must = [make("span", "soft", "not known: the names are too long to ask")];
    else if (!data.must.sets.length) must = ["nothing: the process never comes to rest"];
    else if (data.must.sets.some((set) => !set.names.length)) must = ["nothing: the process may refuse everything"];
    else must = sets(data.must);
    fill("next", make("dl", "pairs", make("dt", "", "May come"), make("dd", "", ...may), make("dt", "", "Must be offered"), make("dd", "", ...must)));
  },
  rejections(data) {
    const rows = data.rows.map((row) => {
      let why;
      if (row.expected) why = row.expected.names.length ? ["expected", ...names(row.expected.names, row.expected.more)] : ["expected nothing"];
      else why = row.acceptances.sets.length ? ["must offer", ...sets(row.acceptances)] : ["never comes to rest"];
      return make("tr", "no", make("td", "number", whole(row.place)), make("td", "number", String(row.seat)), make("td", "", report(row), " "), make("td", "why", ...spaced(why)));
    });
    const count = data.rows.length + data.earlier;
    small("rejections", count ? whole(count) : "");
    if (!rows.length) { fill("rejections", make("p", "soft", "None: all that was reported is allowed.")); return; }
    const shown = [table([["Place", "number"], ["Seat", "number"], ["Report", ""], ["Why not", ""]], rows)];
    if (data.earlier) shown.push(make("p", "soft", whole(data.earlier) + " earlier ones: cspwatch show --rejected"));
    fill("rejections", ...shown);
  },
  newest(data) {
    const rows = data.rows.map((row) => make("tr", row.ok ? "" : "no", make("td", "number", whole(row.place)), make("td", "number", String(row.seat)), make("td", "", report(row)), make("td", "", row.ok ? "OK" : make("strong", "", "NO"))));
    if (!rows.length) { fill("newest", make("p", "soft", "Nothing was reported yet.")); return; }
    fill("newest", table([["Place", "number"], ["Seat", "number"], ["Report", ""], ["", ""]], rows));
  },
  seats(data) {
    const rows = data.rows.map((row) => {
      const when = row.at !== null ? aging(row.at) : data.since !== null ? aging(data.since, "> ") : "";
      return make("tr", row.ok ? "" : "no", make("td", "number", String(row.seat)), make("td", "age", when), make("td", "", report(row)), make("td", "number wide", whole(row.number)), make("td", "number", row.rejected === null ? "" : whole(row.rejected)));
    });
    small("seats", data.rows.length ? whole(data.rows.length + data.more) : "");
    if (!rows.length) { fill("seats", make("p", "soft", "Nobody has reported yet.")); return; }
    const shown = [table([["Seat", "number"], ["Ago", ""], ["Last report", ""], ["Reports", "number wide"], ["NO", "number"]], rows)];
    if (data.more) shown.push(make("p", "soft", "and " + whole(data.more) + " more"));
    fill("seats", ...shown);
  },
  coverage(data) {
    if (!data.known) { small("coverage", ""); fill("coverage", make("p", "soft", "The events of the script aren't known.")); return; }
    small("coverage", whole(data.rows.length - data.never.length) + " of " + whole(data.rows.length) + " events came");
    const never = new Set(data.never);
    const rows = data.rows.filter(([name]) => !never.has(name)).map(([name, accepted, rejected]) => make("tr", "", make("td", "", make("code", "", name)), make("td", "number", whole(accepted)), make("td", "number" + (rejected ? " bad" : ""), whole(rejected))));
    const shown = [];
    if (data.never.length) shown.push(make("dl", "pairs", make("dt", "", "Never came"), make("dd", "", ...names(data.never, 0))));
    if (rows.length) shown.push(table([["Event", ""], ["Accepted", "number"], ["NO", "number"]], rows));
    fill("coverage", ...shown);
  },
};

// Blanks between the names of a reason, so that it reads as text too.
const spaced = (parts) => parts.flatMap((part, at) => (at ? [" ", part] : [part]));

function title() {
  const word = byId("word").textContent;
  document.title = (byId("lost").hidden ? word : "Lost") + (state.rejected ? " · " + whole(state.rejected) + " NO" : "") + " · " + state.journal;
}

function take(message) {
  heard = Date.now();
  offset = message.now - heard / 1000;
  delete message.now;
  if (held) { Object.assign(held, message); return; }
  for (const name of Object.keys(message)) if (Object.hasOwn(show, name)) show[name](message[name]);
  lost(false);
}

function lost(is) {
  const note = byId("lost");
  if (is) note.textContent = "No connection to cspwatch-web for " + age(heard / 1000 + offset) + ": what is shown is old. It is tried again.";
  if (note.hidden === is) { note.hidden = !is; if (state) title(); }
}

function hold() {
  const button = byId("hold");
  if (held) {
    const came = held;
    held = null;
    for (const name of Object.keys(came)) if (Object.hasOwn(show, name)) show[name](came[name]);
  } else {
    held = {};
  }
  button.setAttribute("aria-pressed", String(held !== null));
  button.lastChild.textContent = held ? " Held: go on" : " Hold";
}

function connect() {
  source = new EventSource("/events");
  source.onmessage = (event) => take(JSON.parse(event.data));
  source.onerror = () => {
    if (!heard) heard = Date.now();
    lost(true);
    // The browser itself tries again where the connection has ended, and not where it was refused.
    if (source.readyState === EventSource.CLOSED) setTimeout(connect, RETRY);
  };
  source.onopen = () => { heard = Date.now(); };
}

function go(id) {
  const section = byId(id);
  section.scrollIntoView({ block: "start" });
  section.focus({ preventScroll: true });
}

document.addEventListener("keydown", (event) => {
  if (event.ctrlKey || event.altKey || event.metaKey) return;
  if (event.key === "h") hold();
  else if (Object.hasOwn(KEYS, event.key)) go(KEYS[event.key]);
  else return;
  event.preventDefault();
});
byId("hold").addEventListener("click", hold);
setInterval(() => {
  for (const one of document.querySelectorAll("[data-at]")) one.textContent = one.dataset.before + age(Number(one.dataset.at));
  if (!byId("lost").hidden) lost(true);
}, 1000);
connect();
