// The parts of the page as tabs, by click and by arrow keys.
import { changed, element } from "./state.mjs";

const tabs = () => [...document.querySelectorAll("[role=tab]")];

/** Shows a part: stars, pixel, settings, sequence, catalogues or about. */
export function showTab(name) {
  for (const tab of tabs()) {
    const chosen = tab.id === `tab-${name}`;
    tab.setAttribute("aria-selected", String(chosen));
    tab.tabIndex = chosen ? 0 : -1;
    element(tab.getAttribute("aria-controls")).hidden = !chosen;
  }
  changed();
}

export function startTabs() {
  const all = tabs();
  all.forEach((tab, k) => {
    tab.addEventListener("click", () => showTab(tab.id.slice(4)));
    tab.addEventListener("keydown", ({ key }) => {
      const next = all[(k + { ArrowRight: 1, ArrowLeft: all.length - 1 }[key]) % all.length];
      if (!next) return;
      showTab(next.id.slice(4));
      next.focus();
    });
  });
}
