// The colours that the reader has chosen: those of the system, light or dark. It runs before the page is drawn, so that the page does not flash.
"use strict";
(() => {
  const KEY = "dmr_hub colours";
  const root = document.documentElement;
  const system = matchMedia("(prefers-color-scheme: dark)");

  function readChoice() {
    try {
      return localStorage.getItem(KEY) || "system";
    } catch {
      // a browser that keeps nothing
      return "system";
    }
  }

  function storeChoice(choice) {
    try {
      localStorage.setItem(KEY, choice);
    } catch {
      // the choice holds until the page is closed
    }
  }

  function applyChoice(choice) {
    root.dataset.theme = choice === "system" ? (system.matches ? "dark" : "light") : choice;
    for (const button of document.querySelectorAll("button[data-colours]")) {
      button.setAttribute("aria-pressed", String(button.dataset.colours === choice));
    }
  }

  applyChoice(readChoice());
  system.addEventListener("change", () => applyChoice(readChoice()));
  document.addEventListener("DOMContentLoaded", () => {
    applyChoice(readChoice());
    for (const button of document.querySelectorAll("button[data-colours]")) {
      button.addEventListener("click", () => {
        storeChoice(button.dataset.colours);
        applyChoice(button.dataset.colours);
      });
    }
  });
})();
