// Making elements, without markup in strings.

/** An element of a page with attributes and children: elements or texts. An attribute that is null or false is left out. */
export function element(name, attributes = {}, ...children) {
  const made = document.createElement(name);
  for (const [key, value] of Object.entries(attributes)) {
    if (value === null || value === false) continue;
    if (key === "onclick") made.addEventListener("click", value);
    else made.setAttribute(key, value === true ? "" : String(value));
  }
  made.append(...children);
  return made;
}

/** The element of the page with this name. */
export function part(name) {
  return document.getElementById(name);
}

const keys = new WeakMap();

/**
 * Makes the children of a list those of these texts, in this order: what stands there for a text stays, and what isn't there yet is made, by its place. So a
 * long list costs what has changed in it.
 */
export function keepChildren(list, texts, make) {
  const wanted = new Set(texts);
  for (const child of [...list.children]) if (!wanted.has(keys.get(child))) child.remove();
  let next = list.firstElementChild;
  texts.forEach((text, place) => {
    if (next && keys.get(next) === text) {
      next = next.nextElementSibling;
      return;
    }
    const made = make(place);
    keys.set(made, text);
    list.insertBefore(made, next);
  });
  while (next) {
    const rest = next.nextElementSibling;
    next.remove();
    next = rest;
  }
}

/**
 * A button. Its key tells it from all others, and its group says which others do the same: after a change the focus goes to the button of the same key, or
 * else to the first of the group.
 */
export function button(text, label, key, group, act) {
  return element("button", { type: "button", "aria-label": label, "data-key": key, "data-group": group, onclick: act }, text);
}

/** Changes the page by `change`, and keeps the focus at what it was on, or near to it. */
export function keepingFocus(change) {
  const focused = document.activeElement;
  const { key, group } = focused?.dataset ?? {};
  const heading = focused?.closest("section")?.querySelector("h2");
  change();
  if (!focused || focused === document.body || (focused.isConnected && !focused.disabled)) return;
  const next = key && (usable(`[data-key="${CSS.escape(key)}"]`) ?? usable(`[data-group="${CSS.escape(group)}"]`));
  (next ?? heading)?.focus();
}

const usable = (selector) => document.querySelector(`${selector}:not(:disabled)`);
