// The events of the site: those that wait for an acknowledgement first, then the others, each newest first.

import { byId, makeElement, momentText, refillElement, setText, syncRows, timeElement } from "./elements.js";

/** Shows the events that the hub has. */
export function showEvents(view) {
  byId("events-rows").closest("table").hidden = view.events.length === 0;
  byId("events-empty").hidden = view.events.length > 0;
  syncRows(byId("events-rows"), view.events, (event) => `${event.number} ${event.kind}`, fillEvent);
  setText(byId("events-waiting"), waitingText(view));
  byId("events-waiting").classList.toggle("waits", view.waiting > 0);
  setText(byId("events-note"), noteOf(view));
  showFigure(view.waiting);
}

function waitingText(view) {
  const waiting = view.waiting === 1 ? "1 event waits" : `${view.waiting || "No"} ${view.waiting ? "events wait" : "event waits"}`;
  const forgotten = view.forgotten ? ` ${view.forgotten} more were removed for lack of room.` : "";
  return `${view.waiting ? "▲ " : ""}${waiting} for an acknowledgement.${forgotten}`;
}

function noteOf(view) {
  const older = view.complete ? `Events from ${momentText(view.from)} on.` : "Earlier events are not listed.";
  return `${older} A user with the role full acknowledges with dmr_console: acknowledge, and the number, or all.`;
}

function showFigure(waiting) {
  const figure = byId("figure-events");
  figure.dataset.level = waiting ? "warn" : "";
  refillElement(figure.querySelector("dd"), String(waiting), () => [makeElement("strong", {}, String(waiting)),
    ...(waiting ? [" ", makeElement("a", { class: "more", href: "#events-title" }, "see events")] : [])]);
}

function fillEvent(row, event) {
  row.classList.toggle("waits", event.waits);
  refillElement(row, JSON.stringify([event.time, event.text, event.ended, event.waits, event.acknowledged]), () => [
    makeElement("td", {}, timeElement(event.time)),
    makeElement("td", {}, event.text, ...(event.ended ? [makeElement("span", { class: "more" }, ". Over ", timeElement(event.ended))] : [])),
    makeElement("td", {}, ...stateNodes(event)),
  ]);
}

function stateNodes(event) {
  if (event.waits) {
    return [makeElement("span", { class: "mark", "aria-hidden": "true" }, "▲"), ` waits: acknowledge ${event.number}`];
  }
  const by = event.acknowledged;
  return by ? [makeElement("span", { class: "more" }, `✓ ${by.user}, `, timeElement(by.time))] : [];
}
