// What there is to tell about files and saving: short notes that stay until they are closed, with buttons where something is asked.
import { element, make } from "./state.mjs";

const MOST = 6;

/** Tells something; `choices` are buttons, a label and what to do. A fault stands out. */
export function tell(text, { fault = false, choices = [] } = {}) {
  const note = make("li", { className: fault ? "fault" : "" }, make("span", { textContent: text }));
  for (const { label, act } of choices) note.append(button(label, () => (note.remove(), act())));
  note.append(button("Close", () => note.remove()));
  const notes = element("notices");
  notes.append(note);
  while (notes.children.length > MOST) notes.firstElementChild.remove();
}

function button(label, act) {
  const made = make("button", { type: "button", textContent: label });
  made.addEventListener("click", act);
  return made;
}

export function clearNotices() {
  element("notices").replaceChildren();
}
