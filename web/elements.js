// Small helpers for the parts of the page.

export const found = (id) => document.getElementById(id);

export function element(tag, { text, ...properties } = {}, ...children) {
  const made = Object.assign(document.createElement(tag), properties);
  if (text !== undefined) made.textContent = text;
  made.append(...children);
  return made;
}

// Marks an element as belonging to a command, a commit, or both; all that belong to one are chosen together.
export function belongTo(made, { command, commit }) {
  if (command) made.dataset.command = command;
  if (commit !== undefined && commit !== null) made.dataset.commit = commit;
  return made;
}

// Shows which elements within another belong to what is chosen; gives the first.
export function markChosen(within, { command, commit }) {
  for (const it of within.querySelectorAll(".chosen")) it.classList.remove("chosen");
  const wanted = [];
  if (command !== undefined) wanted.push(`[data-command="${command}"]`);
  if (commit !== undefined) wanted.push(`[data-commit="${commit}"]`);
  const found = wanted.length > 0 ? [...within.querySelectorAll(wanted.join())] : [];
  for (const it of found) it.classList.add("chosen");
  return found[0];
}

// Scrolls a list so far that an item is seen, and leaves the page where it is.
export function scrollWithin(list, item) {
  if (list.scrollHeight <= list.clientHeight) return;
  const box = list.getBoundingClientRect(), place = item.getBoundingClientRect();
  if (place.top < box.top || place.bottom > box.bottom) list.scrollTop += place.top - box.top - box.height / 3;
}
