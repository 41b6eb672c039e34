// The board: asks the hub again and again, and shows what it answers, what is at fault, and how old all of it is.

import { siteAlarms } from "./alarms.js";
import { drawCharts, makeCharts } from "./charts.js";
import { ageText, byId, makeElement, momentText, setText, syncRows } from "./elements.js";
import { showEvents } from "./events.js";
import { openHistory, refreshHistory } from "./history.js";
import { onParty, showCalls, showCarriers, showFigures, showNames, showQueue, showRadios, updateAges } from "./tables.js";

// Milliseconds between two questions, and how long one may take.
const STATE_MS = 1000;
const CALLS_MS = 2000;
const EVENTS_MS = 2000;
const RADIOS_MS = 10_000;
const HISTORY_MS = { hour: 10_000, day: 60_000 };
const HIDDEN_FACTOR = 10;
const PATIENCE_MS = 5000;
const TIMES_MS = 250;
const NOT_MODIFIED = 304;
// Seconds since the last answer of the hub, and seconds of a picture's age beyond a few polls, after which that is an alarm.
const HUB_SECONDS = 3;
const OLD_SECONDS = 3;
const LIVE_SECONDS = 3;
const MISSED_POLLS = 5;
// How many calls are listed at first, and after "Show more".
const FEW_CALLS = 15;
const MANY_CALLS = 200;
// The same of events.
const FEW_EVENTS = 12;
const MANY_EVENTS = 500;
// How many radios, and names that were found, are listed at once: the filter finds the others.
const MOST_RADIOS = 200;
const MOST_NAMES = 50;
const LAST_RADIO = 16_777_215;

// What the hub has answered. `state` came at `came`, in milliseconds of the page's own clock; `isFailing` says that the last question for it had no answer.
const known = { state: null, came: performance.now(), isFailing: false, pollSeconds: 1, calls: FEW_CALLS, events: FEW_EVENTS, refusals: "yes", span: "hour" };

// The last answers that had a tag, by their paths without the query. The browser is not to keep who calls whom on its disk, so they are kept here.
const tagged = new Map();

/** The answer of a path as JSON; the one before if nothing has changed. Error: there is none, or it is not 200. */
async function askPath(path) {
  const [place] = path.split("?");
  const before = tagged.get(place)?.path === path ? tagged.get(place) : null;
  const answer = await fetch(path, { signal: AbortSignal.timeout(PATIENCE_MS), headers: before ? { "If-None-Match": before.tag } : {} });
  if (before && answer.status === NOT_MODIFIED) {
    return before.view;
  }
  if (!answer.ok) {
    throw new Error(`${path}: ${answer.status}`);
  }
  const view = await answer.json();
  if (answer.headers.has("ETag")) {
    tagged.set(place, { path, tag: answer.headers.get("ETag"), view });
  }
  return view;
}

/** Runs a task now, and again `pause()` milliseconds after its end. A task that fails is tried again: that the hub is away is in the alarms. */
function repeatTask(task, pause) {
  let timer = 0;
  const run = async () => {
    clearTimeout(timer);
    try {
      await task();
    } catch (fault) {
      console.warn(String(fault));
    }
    // it may have been run twice meanwhile
    clearTimeout(timer);
    timer = setTimeout(run, pause() * (document.hidden ? HIDDEN_FACTOR : 1));
  };
  document.addEventListener("visibilitychange", () => {
    if (!document.hidden) {
      run();
    }
  });
  run();
  return run;
}

async function refreshState() {
  known.isFailing = !(await askState());
  showTimes();
}

/** Asks for the state, and shows it. Whether there was one that could be shown. */
async function askState() {
  try {
    const view = await askPath("/v1/state.json");
    showState(view);
    known.state = view;
    known.came = performance.now();
    return true;
  } catch (fault) {
    console.warn(String(fault));
    return false;
  }
}

function showState(view) {
  setText(byId("site"), view.site);
  setText(byId("console"), view.controller.console ? `console ${view.controller.console}` : "no console yet");
  if (!view.state) {
    return;
  }
  // an age of the last picture does not grow while there is no newer one
  const passed = view.controller.up ? 0 : view.state.age_seconds;
  const aged = (it) => ({ ...it, age_seconds: it.age_seconds === null ? null : Math.max(0, it.age_seconds - passed) });
  const carriers = view.state.carriers.map((carrier) => ({ ...carrier, slots: carrier.slots.map((slot) => ({ ...slot, call: slot.call && aged(slot.call) })) }));
  const state = { ...view.state, carriers, queue: view.state.queue.map(aged) };
  showFigures(state, view.radios);
  showCarriers(state.carriers);
  showQueue(state.queue);
}

async function refreshCalls() {
  const view = await askPath(`/v1/calls.json?last=${known.calls}`);
  known.pollSeconds = view.poll_seconds;
  showCalls(byId("calls-rows"), view.calls);
  byId("calls-empty").hidden = view.calls.length > 0;
  byId("calls-more").hidden = known.calls > FEW_CALLS || view.calls.length < FEW_CALLS;
  const earlier = view.recorded_until ? " Earlier calls are the controller's records." : "";
  setText(byId("calls-note"), `The hub has seen ${view.seen} since ${momentText(view.since)}.${earlier}`);
  setText(byId("limits"), limitsText(view));
  await refreshHistory();
}

async function refreshEvents() {
  const view = await askPath(`/v1/events.json?last=${known.events}&refusals=${known.refusals}`);
  showEvents(view);
  byId("events-more").hidden = known.events > FEW_EVENTS || view.events.length < FEW_EVENTS;
}

function limitsText(view) {
  const recorded = view.recorded_until ? `Calls that ended before ${momentText(view.recorded_until)} are the controller's records. Later calls` : "Calls";
  return `${recorded} are what dmr_hub saw from one look at the site to the next, every ${view.poll_seconds} s. A shorter call may be missed. `
    + `The hub keeps the last ${view.kept.toLocaleString("en")} of them, until it is restarted.`;
}

/** Asks for the radios and the names that fit what is typed, and shows them, unless something else has been typed meanwhile. */
async function refreshRadios() {
  const [text, digits] = [typedText(), typedDigits()];
  const begins = digits ? `&begins=${digits}` : "";
  const [radios, names] = await Promise.all([
    askPath(`/v1/radios.json?most=${MOST_RADIOS}${begins}`),
    text ? askPath(`/v1/names.json?most=${MOST_NAMES}&find=${encodeURIComponent(text)}`) : null,
  ]);
  if (text === typedText()) {
    showRadios(radios, digits, text !== digits);
    showNames(names, text);
  }
}

async function refreshCharts() {
  const view = await askPath(`/v1/history.json?span=${known.span}`);
  // the reader may have chosen the other span meanwhile
  if (view.span === known.span) {
    drawCharts(view);
  }
}

/** What is at fault, as texts that stay the same while it is. */
function findAlarms(now) {
  const view = known.state;
  if (isHubSilent(now)) {
    return ["The hub does not answer. What is shown is not the present state."];
  }
  if (!view) {
    return [];
  }
  if (!view.controller.up) {
    return [`Controller away since ${momentText(view.controller.since)}: ${view.controller.reason || "no reason is known"}`];
  }
  const old = isPictureOld(view) ? [`No new picture of the site since ${momentText(view.state.time)}`] : [];
  return [...old, ...siteAlarms(view)];
}

/** Whether the hub has not answered for a while. A tab that sleeps asks seldom: only a question without an answer counts. */
function isHubSilent(now) {
  return known.isFailing && (now - known.came) / 1000 > HUB_SECONDS;
}

/** Whether the hub's last answer had a picture that was too old. */
function isPictureOld(view) {
  return view.state !== null && view.state.age_seconds > OLD_SECONDS + MISSED_POLLS * known.pollSeconds;
}

/** The age of the picture, in seconds. */
function pictureAge(now) {
  return known.state.state.age_seconds + (now - known.came) / 1000;
}

function showAlarms(alarms) {
  syncRows(byId("alarms"), alarms, (alarm) => alarm, (row, alarm) => {
    if (!row.children.length) {
      row.append(makeElement("span", { class: "mark", "aria-hidden": "true" }, "✕"), " ", makeElement("strong", {}, "ALARM"), ` ${alarm}`);
    }
  });
  const name = known.state ? known.state.site : "Site board";
  document.title = alarms.length ? `✕ ${alarms.length === 1 ? alarms[0] : `${alarms.length} alarms`} – ${name}` : name;
}

function showFreshness(now, alarms, isPresent) {
  const view = known.state;
  const age = !view?.state ? "no picture yet" : isPresent && pictureAge(now) < LIVE_SECONDS ? "live" : `the picture is ${ageText(pictureAge(now))} old`;
  const [level, mark, words] = !view ? ["unknown", "?", "waiting for the hub"]
    : !isPresent ? ["bad", "✕", `${view.controller.up ? "not the present state" : "controller away"}, ${age}`]
      : alarms.length ? ["bad", "✕", `${alarms.length} ${alarms.length === 1 ? "alarm" : "alarms"}, ${age}`] : ["good", "✓", `controller answers, ${age}`];
  byId("freshness").dataset.level = level;
  setText(byId("freshness").querySelector(".mark"), mark);
  setText(byId("freshness-text"), words);
}

/** Brings ages, alarms and the freshness up to date. */
function showTimes() {
  const now = performance.now();
  const alarms = findAlarms(now);
  const isPresent = Boolean(known.state?.state) && known.state.controller.up && !isHubSilent(now) && !isPictureOld(known.state);
  showAlarms(alarms);
  showFreshness(now, alarms, isPresent);
  document.body.classList.toggle("not-present", Boolean(known.state?.state) && !isPresent);
  for (const note of document.querySelectorAll(".stale")) {
    note.hidden = isPresent || !known.state?.state;
  }
  updateAges(isPresent ? (now - known.came) / 1000 : 0);
}

/** What is typed in the filter of radios. */
function typedText() {
  return byId("radio-filter").value.trim();
}

/** The same, if it is a radio's number; else nothing. */
function typedDigits() {
  return /^[1-9]\d*$/.test(typedText()) && Number(typedText()) <= LAST_RADIO ? typedText() : "";
}

function openTyped() {
  if (typedDigits()) {
    openHistory("radio", Number(typedDigits()));
  }
}

/** Has one of some buttons pressed, those of an attribute. The value of the one that is clicked is asked for from then on. */
function listenToSwitch(attribute, ask) {
  const buttons = document.querySelectorAll(`button[data-${attribute}]`);
  for (const button of buttons) {
    button.addEventListener("click", () => {
      buttons.forEach((it) => it.setAttribute("aria-pressed", String(it === button)));
      known[attribute] = button.dataset[attribute];
      ask();
    });
  }
}

/** Has the button "Show more" of a list ask for more rows. */
function listenToMore(name, most, ask) {
  byId(`${name}-more`).addEventListener("click", () => {
    known[name] = most;
    ask();
    byId(`${name}-title`).focus();
  });
}

function listenToControls(askCalls, askEvents, askRadios, askCharts) {
  byId("radio-filter").addEventListener("input", () => {
    byId("radio-open").disabled = !typedDigits();
    askRadios();
  });
  byId("radio-filter").addEventListener("keydown", (event) => event.key === "Enter" && openTyped());
  byId("radio-open").addEventListener("click", openTyped);
  listenToMore("calls", MANY_CALLS, askCalls);
  listenToMore("events", MANY_EVENTS, askEvents);
  listenToSwitch("span", askCharts);
  listenToSwitch("refusals", askEvents);
}

onParty(openHistory);
makeCharts();
repeatTask(refreshState, () => STATE_MS);
const askCalls = repeatTask(refreshCalls, () => CALLS_MS);
const askEvents = repeatTask(refreshEvents, () => EVENTS_MS);
const askRadios = repeatTask(refreshRadios, () => RADIOS_MS);
const askCharts = repeatTask(refreshCharts, () => HISTORY_MS[known.span]);
listenToControls(askCalls, askEvents, askRadios, askCharts);
setInterval(showTimes, TIMES_MS);
