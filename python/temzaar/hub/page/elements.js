// Elements, texts and times, for the other modules. Everything that the hub reports becomes text: nothing here parses HTML.

const SVG = "http://www.w3.org/2000/svg";
const MINUTE = 60;
const HOUR = 3600;
// The elements of which lists of each kind are made.
const ROWS = { TBODY: "tr", UL: "li", DIV: "p" };

/** The element with an id. */
export function byId(id) {
  return document.getElementById(id);
}

/** An element with attributes and children; a child is an element or a text. `click` in the attributes is what a click does. */
export function makeElement(name, attributes = {}, ...children) {
  return fillElement(document.createElement(name), attributes, children);
}

/** The same of SVG. */
export function makeSvg(name, attributes = {}, ...children) {
  return fillElement(document.createElementNS(SVG, name), attributes, children);
}

function fillElement(element, attributes, children) {
  for (const [name, value] of Object.entries(attributes)) {
    if (name === "click") {
      element.addEventListener("click", value);
    } else if (value !== null && value !== undefined) {
      element.setAttribute(name, String(value));
    }
  }
  element.append(...children);
  return element;
}

/** A text with a name next to it, if there is one: `radio 1001 [Bus 12]`. No name has a bracket. */
export function namedText(text, name) {
  return name ? `${text} [${name}]` : String(text);
}

/** The same as children of an element. A name may be written from right to left: that turns nothing else. */
export function namedNodes(text, name) {
  return name ? [String(text), makeElement("span", { class: "named" }, " [", makeElement("bdi", {}, name), "]")] : [String(text)];
}

/** Sets a text, unless it is there already: a screen reader is not to read it again. */
export function setText(element, text) {
  if (element.textContent !== text) {
    element.textContent = text;
  }
}

/** Seconds as a text: 0:07, 12:40 or 3:05:00. */
export function ageText(seconds) {
  const whole = Math.max(0, Math.floor(seconds));
  const twoDigits = (value) => String(value).padStart(2, "0");
  const minutes = Math.floor(whole / MINUTE);
  if (whole < HOUR) {
    return `${minutes}:${twoDigits(whole % MINUTE)}`;
  }
  return `${Math.floor(whole / HOUR)}:${twoDigits(minutes % MINUTE)}:${twoDigits(whole % MINUTE)}`;
}

/** Seconds in words, for texts that are read aloud. */
export function wordsOfSeconds(seconds) {
  const whole = Math.max(0, Math.round(seconds));
  if (whole < 2 * MINUTE) {
    return `${whole} s`;
  }
  return whole < 2 * HOUR ? `${Math.floor(whole / MINUTE)} min` : `${Math.floor(whole / HOUR)} h ${Math.floor((whole % HOUR) / MINUTE)} min`;
}

/** The local time of day of a Date, without seconds if `isShort`. */
export function clockText(date, isShort = false) {
  const pieces = [date.getHours(), date.getMinutes(), ...(isShort ? [] : [date.getSeconds()])];
  return pieces.map((piece) => String(piece).padStart(2, "0")).join(":");
}

/** The time of a text in UTC as local time, with the day if it is not today. */
export function momentText(utc) {
  const date = new Date(utc);
  const isToday = date.toDateString() === new Date().toDateString();
  return (isToday ? "" : `${date.toLocaleDateString("en", { month: "short", day: "numeric" })} `) + clockText(date);
}

/** An element that shows such a time. */
export function timeElement(utc) {
  return makeElement("time", { datetime: utc, title: utc }, momentText(utc));
}

/** Makes the rows of a table or a list those of some items. A row stays the same element while its key does, so that the focus stays; `update` fills it. */
export function syncRows(body, items, keyOf, update) {
  const known = new Map([...body.children].map((row) => [row.dataset.key, row]));
  const wanted = items.map((item) => {
    const key = String(keyOf(item));
    const row = known.get(key) || makeElement(ROWS[body.tagName], { "data-key": key });
    known.delete(key);
    update(row, item);
    return row;
  });
  const hadFocus = [...known.values()].some((row) => row.contains(document.activeElement));
  known.forEach((row) => row.remove());
  wanted.forEach((row, place) => {
    if (body.children[place] !== row) {
      body.insertBefore(row, body.children[place] || null);
    }
  });
  if (hadFocus) {
    // the element in focus has gone with its row: reading goes on at the heading
    body.closest("section, dialog").querySelector("h2").focus();
  }
}

/** Fills an element again only if what it shows has changed; `signature` is a text of that. The focus within it goes to its new first button. */
export function refillElement(element, signature, makeChildren) {
  if (element.dataset.shown === signature) {
    return;
  }
  const hadFocus = element.contains(document.activeElement);
  element.dataset.shown = signature;
  element.replaceChildren(...makeChildren());
  if (hadFocus) {
    (element.querySelector("button") || element.closest("section, dialog").querySelector("h2")).focus();
  }
}
