// The parts of the board that show one picture: figures, carriers with their slots, the queue, calls and radios.

import { ageText, byId, makeElement, namedNodes, namedText, refillElement, setText, syncRows, timeElement } from "./elements.js";

// The states of slots: a mark that says the same as the colour, and the words for it.
const STATES = {
  off: ["✕", "control DOWN"],
  control: ["◆", "control"],
  call: ["▶", "call"],
  free: ["○", "free"],
  waiting: ["◐", "waiting for a burst to be sent"],
  down: ["✕", "down"],
};

let openHistory = () => {};

/** Sets what a click on a radio or a group does. */
export function onParty(open) {
  openHistory = open;
}

/** A button with the number of a radio or a group and its name, if it has one, which opens its history; without the kind if `isShort`. */
function partyButton(kind, number, name, isShort = false) {
  const label = namedText(`${kind} ${number}`, name);
  const attributes = { type: "button", class: "party", title: `Calls of ${label}`, "aria-label": label, click: () => openHistory(kind, number, name) };
  return makeElement("button", attributes, ...namedNodes(isShort ? number : `${kind} ${number}`, name));
}

/** What a row shows of the parties of a call or a request, as a text. */
function partiesText(it) {
  return [it.kind, it.target, it.target_name, it.source, it.source_name].join("|");
}

/** An element for an age, which `updateAges` keeps up to date. `seconds` is the age when the state came; null if it is not known. */
function ageElement(seconds, isOlder) {
  const age = makeElement("span", { class: "age", "data-age": seconds ?? "" });
  if (isOlder) {
    age.dataset.older = "";
  }
  return age;
}

/** Writes all ages, `passed` seconds after the state came. */
export function updateAges(passed) {
  for (const age of document.querySelectorAll("[data-age]")) {
    const known = age.dataset.age !== "";
    setText(age, known ? `${"older" in age.dataset ? ">" : ""}${ageText(Number(age.dataset.age) + passed)}` : "");
  }
}

function setAge(element, seconds) {
  const age = element.querySelector("[data-age]");
  if (age) {
    age.dataset.age = seconds ?? "";
  }
}

function setFigure(name, value, more = "", level = "") {
  const figure = byId(`figure-${name}`);
  figure.dataset.level = level;
  refillElement(figure.querySelector("dd"), `${value}|${more}`, () => [makeElement("strong", {}, String(value)), " ", ...(more ? [makeElement("span", { class: "more" }, more)] : [])]);
}

function controlText(control) {
  return namedText(`carrier ${control.carrier}`, control.name);
}

/** The value of the control channel's figure, what is below it, and its level. */
function controlFigure(state) {
  if (state.control && !state.control.up) {
    return ["DOWN", controlText(state.control), "bad"];
  }
  return state.fill.kind === "move" ? ["moved", `to channel ${state.fill.channel}`, "warn"] : ["on air", state.control ? controlText(state.control) : "", "good"];
}

/** Shows the figures of a state. */
export function showFigures(state, radios) {
  const slots = state.carriers.flatMap((carrier) => carrier.slots);
  const used = slots.filter((slot) => slot.state === "call").length;
  // without a control channel no radio gets a slot: those that radios can reach are those that have a call
  const usable = state.control && !state.control.up ? used : slots.filter((slot) => slot.state !== "control" && slot.state !== "down").length;
  const down = state.carriers.filter((carrier) => !carrier.up).length;
  const longest = Math.max(0, ...state.queue.map((request) => request.age_seconds ?? 0));
  setFigure("carriers", `${state.carriers.length - down}`, `of ${state.carriers.length}`, down ? "bad" : "good");
  setFigure("control", ...controlFigure(state));
  setFigure("slots", used, `of ${usable}`, usable && used === usable ? "warn" : "");
  setFigure("queue", state.counts.lines, state.counts.lines ? `longest ${ageText(longest)}` : "", state.counts.lines ? "warn" : "");
  setFigure("radios", state.counts.radios, radios && !radios.complete ? "list not whole" : "");
  setFigure("asks", state.counts.asks);
}

function callElements(call) {
  return [
    makeElement("span", { class: "parties" }, partyButton(call.kind, call.target, call.target_name),
      makeElement("span", { class: "from" }, " from ", partyButton("radio", call.source, call.source_name, true))),
    " ",
    ageElement(call.age_seconds, call.older),
  ];
}

/** The state of a slot as it is shown: of the control slot the console says `control`, whether its carrier is up or not. */
function shownState(slot, carrier) {
  return slot.state === "control" && !carrier.up ? "off" : slot.state;
}

function slotElements(slot, state) {
  const [mark, words] = STATES[state] || ["?", state];
  const shown = [makeElement("span", { class: "mark", "aria-hidden": "true" }, mark), " "];
  return slot.call ? [...shown, makeElement("span", { class: "unseen" }, "call "), ...callElements(slot.call)] : [...shown, makeElement("span", { class: "words" }, words)];
}

function fillCarrier(row, carrier) {
  if (!row.children.length) {
    row.append(makeElement("th", { scope: "row" }), ...carrier.slots.map(() => makeElement("td")));
  }
  row.classList.toggle("down", !carrier.up);
  refillElement(row.children[0], `${carrier.number}|${carrier.name}|${carrier.up}|${carrier.since}`, () => [
    makeElement("span", { class: "carrier", title: carrier.name }, ...namedNodes(carrier.number, carrier.name)),
    " ",
    carrier.up ? makeElement("span", { class: "state" }, "up") : makeElement("span", { class: "state" }, "✕ DOWN since ", timeElement(carrier.since)),
  ]);
  carrier.slots.forEach((slot, place) => {
    const cell = row.children[place + 1];
    const call = slot.call;
    const state = shownState(slot, carrier);
    cell.className = `slot ${state}`;
    refillElement(cell, `${state}|${call ? `${partiesText(call)}|${call.older}` : ""}`, () => slotElements(slot, state));
    setAge(cell, call?.age_seconds);
  });
}

/** Shows the carriers with their slots. */
export function showCarriers(carriers) {
  byId("carriers-empty").hidden = carriers.length > 0;
  syncRows(byId("carriers-rows"), carriers, (carrier) => carrier.number, fillCarrier);
}

function fillRequest(row, request) {
  refillElement(row, `${request.place}|${partiesText(request)}`, () => [
    makeElement("th", { scope: "row" }, String(request.place)),
    makeElement("td", {}, partyButton(request.kind, request.target, request.target_name)),
    makeElement("td", {}, partyButton("radio", request.source, request.source_name, true)),
    makeElement("td", { class: "number" }, ageElement(request.age_seconds, request.older)),
  ]);
  setAge(row, request.age_seconds);
}

/** Shows the queue. */
export function showQueue(queue) {
  byId("queue-empty").hidden = queue.length > 0;
  byId("queue").querySelector("table").hidden = queue.length === 0;
  syncRows(byId("queue-rows"), queue, (request) => `${request.kind} ${request.target} ${request.source}`, fillRequest);
}

function lastedElements(call) {
  if (call.ended === null) {
    return [makeElement("span", { class: "active" }, "▶ active")];
  }
  const isAtLeast = call.older || !call.end_seen;
  const cause = call.cause ? `ended: ${call.cause.replaceAll("_", " ")}` : null;
  const why = !call.end_seen ? "the hub lost sight of it" : call.older ? "it was there when the hub connected" : cause;
  return [makeElement("span", { title: why }, `${isAtLeast ? ">" : ""}${ageText(call.seconds)}`)];
}

function fillCall(row, call) {
  row.classList.toggle("active-call", call.ended === null);
  refillElement(row, `${call.ended}|${partiesText(call)}|${call.carrier_name}`, () => [
    makeElement("td", {}, timeElement(call.began)),
    makeElement("td", {}, partyButton(call.kind, call.target, call.target_name)),
    makeElement("td", {}, partyButton("radio", call.source, call.source_name, true)),
    makeElement("td", {}, makeElement("span", { class: "unseen" }, "carrier "), String(call.carrier), makeElement("span", { class: "unseen" }, ", slot "),
      makeElement("span", { "aria-hidden": "true" }, "/"), ...namedNodes(call.slot, call.carrier_name)),
    makeElement("td", { class: "number" }, ...lastedElements(call)),
  ]);
}

/** Shows calls, seen or recorded, in the rows of a table. */
export function showCalls(body, calls) {
  body.closest("table").hidden = calls.length === 0;
  syncRows(body, calls, (call) => `${call.recorded} ${call.number} ${call.began}`, fillCall);
}

/** Shows the registered radios that the hub was asked for: those whose numbers begin with `digits`, or all; none of them while a text is searched for. */
export function showRadios(radios, digits, isText) {
  const shown = radios && !isText ? radios.registered : [];
  syncRows(byId("radios-list"), shown, (radio) => radio, (item, radio) => {
    const name = radios.names[radio];
    refillElement(item, `${name}`, () => [partyButton("radio", radio, name, true)]);
  });
  setText(byId("radios-note"), radiosNote(radios, isText ? "" : digits, isText ? 0 : shown.length));
}

function radiosNote(radios, digits, shown) {
  if (!radios) {
    return "No list of radios yet.";
  }
  const all = radios.complete ? `${radios.count} registered` : `more than ${radios.count} registered`;
  const matching = digits ? `, ${radios.found} begin with ${digits}` : "";
  return `${all}${matching}${shown && shown < radios.found ? `; the first ${shown} are listed` : ""}.`;
}

function foundNodes(it) {
  if (it.kind === "carrier") {
    return namedNodes(`carrier ${it.number}`, it.name);
  }
  const button = partyButton(it.kind === "radio" ? "radio" : "group", it.number, it.name);
  return it.registered === false ? [button, makeElement("span", { class: "more" }, " not registered")] : [button];
}

/** Shows the names that were found by a text; null: none was searched for. */
export function showNames(found, text) {
  const names = found ? found.names : [];
  syncRows(byId("names-list"), names, (it) => `${it.kind} ${it.number}`, (item, it) => {
    refillElement(item, `${it.name}|${it.registered}`, () => foundNodes(it));
  });
  const count = names.length === 1 ? "1 name has" : `${names.length || "No"} names have`;
  const shown = found?.complete ? count : `More than ${names.length} names, of which these are the first, have`;
  byId("names-note").hidden = !found;
  setText(byId("names-note"), found ? `${shown} “${text}” in ${names.length === 1 ? "it" : "them"}.` : "");
}
