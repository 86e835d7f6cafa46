// What the page says about refusals and reasons. The sentences stand in the documents and in the Python package; the page's maker puts them into `texts`.

/** A sentence with its gaps, as {row}, filled. */
export function fill(template, values) {
  return template.replace(/\{(\w+)\}/g, (gap, name) => String(values[name] ?? gap));
}

export function reasonInWords(texts, reason) {
  const { centroid = {} } = reason;
  const measured = { row: (centroid.y / 256).toFixed(2), column: (centroid.x / 256).toFixed(2), brightness: centroid.brightness };
  return `${reason.kind}: ${fill(texts.reasons[reason.kind], reason.kind === "measured" ? measured : reason)}`;
}

/** A refusal's sentence, what to look at first, and for settings what their numbers are and may be. */
export function refusalInWords(texts, refusal, settings) {
  const sentence = texts.refusals[refusal.number] ?? "";
  const look = texts.look[refusal.number] ?? "";
  const ranges = (texts.about[refusal.number] ?? []).map((name) => `${name} is ${settings[name]}, and must be ${texts.ranges[name]}`);
  return { sentence, look, ranges };
}

/** A number with commas between its thousands. */
export function thousands(number) {
  return String(number).replace(/\B(?=(\d{3})+(?!\d))/g, ",");
}

export function plural(count, one, many = `${one}s`) {
  return `${thousands(count)} ${count === 1 ? one : many}`;
}
