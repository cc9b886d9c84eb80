"use strict";
const STATES = ["SCHEDULED", "IN PROGRESS", "COMPLETED", "CANCELED"];
const MARKS = {agree: ["=", "worklist and reports agree"], waiting: ["\u2026", "a report is on its way"],
  differ: ["\u2260", "worklist and reports differ"]};
const at = id => document.getElementById(id);
const many = n => n.toLocaleString("en");
const part = new URLSearchParams(location.search);  /* the token, unless a proxy adds it, and which worklists and stations are shown */
let seen = 0, drawn = 0, began = 0, chosen = null, chosenMark = "", asking = null, last = null;

function make(name, of, text) {
  const made = document.createElement(name);
  if (of) made.className = of;
  if (text !== undefined) made.textContent = text;
  return made;
}
function put(node, text) { if (node.textContent !== text) node.textContent = text; }
function clock(seconds) {
  const then = new Date(seconds * 1000), time = then.toLocaleTimeString("en-GB");
  return then.toDateString() === new Date().toDateString() ? time : then.toLocaleDateString("en-CA") + " " + time;
}
function since(seconds) { return seconds ? clock(seconds) : "before " + clock(began); }
function age(seconds) { return span(Date.now() / 1000 - seconds); }
function span(seconds) {  /* with spaces at which no line breaks */
  const whole = Math.max(0, Math.floor(seconds)), minutes = Math.floor(whole / 60), hours = Math.floor(minutes / 60);
  if (whole < 60) return whole + "\u00a0s";
  if (minutes < 60) return minutes + "\u00a0min";
  return hours < 48 ? `${hours}\u00a0h` + (minutes % 60 ? `\u00a0${minutes % 60}\u00a0min` : "")
    : `${Math.floor(hours / 24)}\u00a0d\u00a0${hours % 24}\u00a0h`;
}
function startOf(row) {  /* a DT, as 20240229120000+0100, in the time of this browser; without hours, its day */
  const [, year, month, day, hour] = row.start.match(/^(\d{4})(\d\d)?(\d\d)?(\d\d)?/) || [];
  if (!hour || row.due === null) return [year, month, day].filter(Boolean).join("-");
  return clock(row.due).replace(/:\d\d$/, "");
}
function setMark(node, mark) {
  put(node, MARKS[mark][0]);
  node.className = "mark " + mark;
  node.title = MARKS[mark][1];
  node.setAttribute("aria-label", MARKS[mark][1]);
}

const columns = new Map(STATES.map((state, number) => {
  const column = make("section", "column"), head = make("header"), of = make("span", "of"), count = make("b", "", "0");
  column.dataset.state = state;
  column.setAttribute("aria-labelledby", "h-" + number);
  const title = make("h2", "", state), mark = make("span", "mark");
  title.id = "h-" + number;
  mark.setAttribute("role", "img");
  head.append(title, mark, count, of);
  const list = make("ol"), more = make("p", "more");
  list.setAttribute("aria-label", "Steps that are " + state);
  column.append(head, list, more);
  at("columns").append(column);
  return [state, {count, of, mark, list, more, cards: new Map()}];
}));

function newCard(uid) {
  const place = make("li"), card = make("button", "card");
  card.type = "button";
  card.dataset.uid = uid;
  for (const name of ["label", "mark", "patient", "who", "where"]) card.append(make("span", name));
  card.children[1].setAttribute("role", "img");
  card.addEventListener("click", () => choose(uid));
  place.append(card);
  return place;
}
function nameOf(row) { return row.patient.split("=")[0].replace(/\^+$/, "").replace(/\^+/g, ", "); }
function bornOf(row) { return row.birth && " born " + row.birth.replace(/^(\d{4})(\d\d)(\d\d)$/, "$1-$2-$3"); }
function drawWho(node, row) {
  const words = [row.id || "no patient ID", bornOf(row)];
  if (node.dataset.words === words.join("\n")) return;
  node.dataset.words = words.join("\n");
  node.replaceChildren(make("span", "id", words[0]), make("span", "birth", words[1]));
}
function patientOf(row) { return [nameOf(row), row.id].filter(Boolean).join("  \u00b7  ") || "no patient"; }
function whereOf(row) {
  if (row.state === "SCHEDULED") {
    const wait = row.due && row.due < Date.now() / 1000 ? "waits " + age(row.due) : "";
    return [row.stations.join(", "), startOf(row), wait].filter(Boolean).join(", ");
  }
  const when = since(row.since), held = row.claimed;
  if (row.state === "IN PROGRESS") return `${row.holder || "held"} since ${since(held)}, ${held ? "" : "over "}${age(held || began)}`;
  return [row.holder, when].filter(Boolean).join(", ");
}
function isOld(row) {
  return row.state === "IN PROGRESS" && Date.now() / 1000 - (row.claimed || began) > last.oldest;
}
function fill(place, row) {
  const card = place.firstChild, [label, mark, patient, who, where] = card.children;
  const looks = JSON.stringify([row.label, row.priority, row.readiness]);
  if (label.dataset.looks !== looks) {
    label.dataset.looks = looks;
    label.replaceChildren(make("span", "", row.label));
    if (row.priority === "HIGH") label.append(make("span", "flag urgent", "HIGH"));
    if (row.readiness !== "READY") label.append(make("span", "flag", row.readiness));
  }
  if (mark.dataset.mark !== row.mark) setMark(mark, mark.dataset.mark = row.mark);
  put(patient, nameOf(row) || "no name");
  if (patient.title !== row.patient) patient.title = row.patient;
  drawWho(who, row);
  put(where, whereOf(row));
  card.classList.toggle("old", isOld(row));
  const pressed = String(row.uid === chosen);
  if (card.getAttribute("aria-pressed") !== pressed) card.setAttribute("aria-pressed", pressed);
}
function drawColumn(state, told) {
  const it = columns.get(state), rows = told.rows[state] || [], wanted = new Set(rows.map(row => row.uid));
  for (const [uid, place] of it.cards) if (!wanted.has(uid)) { place.remove(); it.cards.delete(uid); }
  let next = it.list.firstChild;
  for (const row of rows) {
    let place = it.cards.get(row.uid);
    if (!place) it.cards.set(row.uid, place = newCard(row.uid));
    if (place === next) next = next.nextSibling; else it.list.insertBefore(place, next);
    fill(place, row);
  }
  const listed = told.counts[state] || 0, reported = told.toldCounts[state] || 0, found = told.found[state] || 0;
  put(it.count, many(found));
  put(it.of, found < listed ? `of ${many(listed)}` : "");
  setMark(it.mark, listed === reported ? "agree" : told.differing.length ? "differ" : "waiting");
  it.mark.title = `${many(listed)} in the worklist, ${many(reported)} by reports`;
  it.mark.setAttribute("aria-label", it.mark.title);
  put(it.more, found > rows.length ? `the first ${many(rows.length)} of ${many(found)}: search for others` : "");
}
function drawTop(told) {
  document.title = told.title;
  put(at("title"), told.title);
  put(at("where"), told.where);
  const kind = told.differing.length ? "differ" : told.waiting || !told.asked ? "waiting" : "agree";
  at("verdict").className = "verdict " + kind;
  put(at("verdict-words"), !told.asked ? "The worklist is being asked for"
    : kind === "agree" ? `Worklist and reports agree on ${many(told.steps)} steps`
    : kind === "differ" ? `Worklist and reports differ on ${many(told.waiting)} of ${many(told.steps)} steps`
    : `Reports are coming: ${many(told.steps - told.waiting)} of ${many(told.steps)} steps agree`);
  at("verdict").title = at("verdict-words").textContent;
  const asked = `asked as a whole at ${clock(told.asked)}, in ${many(Math.round(told.took * 1000))} ms`;
  put(at("asked"), told.asked ? asked + (told.notice && "; " + told.notice) : "");
  put(at("trouble"), told.trouble);
  at("trouble").hidden = !told.trouble;
}
function drawDay(told) {
  const facts = [["done today", many(told.day.COMPLETED)], ["canceled today", many(told.day.CANCELED)],
    ["median wait", told.wait === null ? "-" : span(told.wait)], [`held over ${span(told.oldest)}`, many(told.oldCount)]];
  if (at("day").children.length !== facts.length) {
    at("day").replaceChildren(...facts.map(() => {
      const fact = make("div");
      fact.append(make("dt"), make("dd"));
      return fact;
    }));
  }
  facts.forEach(([name, value], place) => {
    put(at("day").children[place].firstChild, name);
    put(at("day").children[place].lastChild, value);
  });
  at("day").lastChild.classList.toggle("late", told.oldCount > 0);
}
function drawChoice(id, all, words) {
  const chosenWord = part.get(id) || "", node = at(id);
  if (node.dataset.words !== words.join("\n")) {
    node.dataset.words = words.join("\n");
    node.replaceChildren(new Option(all, ""), ...words.map(word => new Option(word, word)));
  }
  if (node.value !== chosenWord) node.value = chosenWord;
  node.classList.toggle("set", Boolean(chosenWord));
}
function drawAlarm(id, rows, text) {
  const section = at(id), list = section.querySelector("ol"), uids = rows.map(row => row.uid).join();
  section.hidden = !rows.length;
  if (list.dataset.uids !== uids) {
    list.dataset.uids = uids;
    list.replaceChildren(...rows.map(row => {
      const place = make("li"), button = make("button");
      button.type = "button";
      button.addEventListener("click", () => choose(row.uid));
      place.append(button);
      return place;
    }));
  }
  rows.forEach((row, place) => put(list.children[place].firstChild, text(row)));
}
function drawAlarms(told) {
  drawAlarm("longest", told.longest, row => `${age(row.due)}: ${row.label}, ${patientOf(row)}`);
  drawAlarm("old", told.old, row => `${row.claimed ? "" : "over "}${age(row.claimed || began)}: ${row.label}, ${row.holder || "nobody says where"}`);
}
function drawAges() {
  if (!last) return;
  drawAlarms(last);
  for (const state of ["SCHEDULED", "IN PROGRESS"]) {
    for (const row of last.rows[state] || []) {
      const place = columns.get(state).cards.get(row.uid);
      if (place) {
        put(place.firstChild.lastChild, whereOf(row));
        place.firstChild.classList.toggle("old", isOld(row));
      }
    }
  }
}
function draw(told) {
  seen = told.version;
  if (!told.rows) return;
  began = told.began;
  last = told;
  drawn = Date.now();
  drawTop(told);
  drawDay(told);
  drawAlarms(told);
  drawChoice("worklist", "All worklists", told.worklists);
  drawChoice("station", "All stations", told.stations);
  for (const state of STATES) drawColumn(state, told);
  document.body.dataset.version = told.version;
  const row = chosen && STATES.flatMap(state => told.rows[state] || []).find(row => row.uid === chosen);
  const looks = row ? JSON.stringify(row) : "";
  if (chosen && looks !== chosenMark) { chosenMark = looks; showChosen(); }
}

function line(name, listed, told, mark) {
  const row = make("tr"), head = make("th", "", name), last = make("td", "mark");
  head.scope = "row";
  setMark(last, listed === told ? "agree" : mark === "agree" ? "waiting" : mark);
  row.append(head, make("td", "", listed || "-"), make("td", "", told === null ? "no report" : told || "-"), last);
  return row;
}
function heldText(step) {
  const row = step.row, told = step.told;
  if (!row) return "The worklist has it no more.";
  if (row.state === "SCHEDULED") return "Nobody holds it.";
  const who = row.holder || "A performer that has not said its station", held = told && told.held, changed = told && told.since;
  const claimed = row.begun || held;
  if (row.state === "IN PROGRESS") return `${who} holds it since ${since(claimed)}` + (claimed ? `, for ${age(claimed)}.` : ".");
  const holder = row.holder ? `, held by ${who}` + (held ? ` since ${clock(held)}` : "") : "";
  return `${row.state} ${changed ? "at " : ""}${since(changed)}${holder}.`;
}
function showStep(step) {
  put(at("d-label"), step.row ? step.row.label : "A step");
  put(at("d-patient"), step.row ? patientOf(step.row) + bornOf(step.row).replace(" born ", "  \u00b7  born\u00a0") : "");
  put(at("d-uid"), step.uid);
  put(at("held"), heldText(step));
  const told = step.told, row = step.row || {state: "", readiness: ""};
  at("both").replaceChildren(line("State", row.state, told ? told.state : null, step.mark),
    line("Input", row.readiness, told ? told.readiness : null, step.mark));
  at("life").replaceChildren(...step.life.map(each => {
    const place = make("li"), text = make("span");
    text.append(make("span", "soft", each.event + (each.text ? ": " : "")), each.text);
    place.append(make("time", "", clock(each.moment)), text);
    return place;
  }));
  at("attributes").replaceChildren(...step.attributes.map(each => {
    const row = make("tr"), head = make("th", "deep" + Math.min(each.deep, 6), each.name);
    head.scope = "row";
    head.append(make("small", "", each.tag));
    row.append(head, make("td", "", each.value));
    return row;
  }));
  at("detail").hidden = false;
}
function query(words) {
  const all = new URLSearchParams(part);
  for (const [name, word] of Object.entries(words)) all.set(name, word);
  return all;
}
async function showChosen() {
  const uid = chosen;
  try {
    const step = await (await fetch("step?" + query({uid}))).json();
    if (uid === chosen && step.uid) showStep(step);
  } catch (fault) { /* the next poll tells it */ }
}
function choose(uid) {
  chosen = chosen === uid ? null : uid;
  chosenMark = "";
  for (const card of document.querySelectorAll(".card")) card.setAttribute("aria-pressed", String(card.dataset.uid === chosen));
  if (chosen) showChosen(); else at("detail").hidden = true;
}
at("close").addEventListener("click", () => chosen && choose(chosen));
document.addEventListener("keydown", event => { if (event.key === "Escape" && chosen) choose(chosen); });

async function poll() {
  asking = new AbortController();
  if (Date.now() - drawn > 30000) seen = 0;  /* also without a change waits and claims grow old */
  let pause = 150;
  try {
    draw(await (await fetch("state?" + query({seen, find: at("find").value}), {signal: asking.signal})).json());
  } catch (fault) {
    if (fault.name !== "AbortError") {
      put(at("trouble"), "The board does not answer: is it still running?");
      at("trouble").hidden = false;
      pause = 1000;
      seen = 0;
    }
  }
  setTimeout(poll, pause);
}
function ask() { seen = 0; asking.abort(); }
let typing = 0;
at("find").addEventListener("input", () => {
  clearTimeout(typing);
  typing = setTimeout(ask, 120);
});
for (const id of ["worklist", "station"]) {
  at(id).addEventListener("change", () => {
    if (at(id).value) part.set(id, at(id).value); else part.delete(id);
    history.replaceState(null, "", "?" + part);
    ask();
  });
}
setInterval(drawAges, 1000);
poll();
