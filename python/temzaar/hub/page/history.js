// The history of a radio or a group, in a dialog: the calls of it that the hub has seen.

import { byId, namedText, setText, wordsOfSeconds } from "./elements.js";
import { showCalls } from "./tables.js";

const MOST_CALLS = 200;

const dialog = byId("history");
// the radio or the group that the dialog shows
let shown = null;

/** Opens the history of a radio or a group. */
export function openHistory(kind, number, name) {
  shown = { kind, number };
  showTitle(name);
  setText(byId("history-note"), "Loading");
  showCalls(byId("history-rows"), []);
  if (!dialog.open) {
    dialog.showModal();
  }
  byId("history-title").focus();
  refreshHistory();
}

function showTitle(name) {
  setText(byId("history-title"), `Calls of ${namedText(`${shown.kind} ${shown.number}`, name)}`);
}

/** Asks for the calls again, if the dialog is open. */
export async function refreshHistory() {
  if (!dialog.open || !shown) {
    return;
  }
  const { kind, number } = shown;
  try {
    const answer = await fetch(`/v1/calls.json?${kind}=${number}&last=${MOST_CALLS}`);
    const view = await answer.json();
    if (shown?.kind === kind && shown.number === number) {
      showTitle(view.name);
      showCalls(byId("history-rows"), view.calls);
      setText(byId("history-note"), noteOf(view));
    }
  } catch {
    setText(byId("history-note"), "The hub does not answer.");
  }
}

function noteOf(view) {
  const calls = view.calls;
  if (!calls.length) {
    return "The hub has seen no such call.";
  }
  const ended = calls.filter((call) => call.ended !== null);
  const active = calls.length - ended.length;
  const seconds = ended.reduce((sum, call) => sum + call.seconds, 0);
  const limit = calls.length === MOST_CALLS ? "the last " : "";
  return [`${limit}${calls.length} ${calls.length === 1 ? "call" : "calls"}`, ...(active ? [`${active} active`] : []),
    ...(ended.length ? [`${ended.length} ended, after ${wordsOfSeconds(seconds)} in all`] : [])].join("; ");
}

byId("history-close").addEventListener("click", () => dialog.close());
dialog.addEventListener("click", (event) => {
  // a click beside the dialog's contents is one on the dialog itself
  if (event.target === dialog) {
    dialog.close();
  }
});
dialog.addEventListener("close", () => {
  // the event comes later: the dialog may be open again
  if (dialog.open) {
    return;
  }
  shown = null;
  // the browser has put the focus back, unless the element has gone meanwhile
  if (document.activeElement === document.body) {
    byId("calls-title").focus();
  }
});
