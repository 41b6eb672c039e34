// What is wrong with the site and with its records, as texts that stay the same while it is so.

import { momentText, namedText } from "./elements.js";

// A term that lacks the polls of half a carrier or more: one of its carriers did not poll.
const MISSING_POLLS = 0.5;

/** The alarms of a state of the site, the most urgent first. */
export function siteAlarms(view) {
  return [...(view.state ? stateAlarms(view.state) : []), ...(view.records ? recordAlarms(view.records) : []),
    ...(view.names?.fault ? [`The hub cannot read the names: ${view.names.fault}`] : [])];
}

function carrierText(number, name) {
  return namedText(`carrier ${number}`, name);
}

function stateAlarms(state) {
  const { control } = state;
  const isOff = control && !control.up;
  const off = isOff ? [`No control channel since ${momentText(control.since)}: ${carrierText(control.carrier, control.name)} is down, and the site is off the air`] : [];
  const down = state.carriers.filter((carrier) => !carrier.up && !(isOff && carrier.number === control.carrier));
  const unsent = state.unsent.map((it) => {
    const others = control && control.carrier !== it.carrier ? `, or the control ${carrierText(control.carrier, control.name)},` : "";
    const carrier = carrierText(it.carrier, it.name);
    return `A burst for slot ${it.slot} of ${carrier} waits since ${momentText(it.since)}: ${carrier}${others} does not poll`;
  });
  return [...off, ...down.map((carrier) => `${namedText(`Carrier ${carrier.number}`, carrier.name)} is down since ${momentText(carrier.since)}`), ...unsent];
}

function recordAlarms(records) {
  const alarms = [];
  if (records.fault) {
    alarms.push(`The hub cannot read the records: ${records.fault}`);
  } else if (records.overdue) {
    const since = records.until ? ` since ${momentText(records.until)}` : "";
    alarms.push(`No records${since}: the controller cannot write them, or carriers do not poll`);
  }
  if (records.missing_polls >= MISSING_POLLS) {
    alarms.push(`The last terms, up to ${momentText(records.until)}, lack the polls of a carrier: one that is up does not poll`);
  }
  return alarms;
}
