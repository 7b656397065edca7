// Suggestions while one types: the pattern "editable combobox with a list" of WAI-ARIA. Without this script a form finds the term by itself.
"use strict";
(() => {
  const WAIT = 90;
  const words = document.body.dataset;
  let serial = 0;

  function element(tag, attributes, ...children) {
    const made = document.createElement(tag);
    for (const [name, value] of Object.entries(attributes)) made.setAttribute(name, value);
    made.append(...children);
    return made;
  }

  // What a suggestion says: the term found, the preferred one, and a note in the reader's language.
  function option(it, id) {
    const term = element("span", { dir: "auto" }, it.text);
    if (it.tag) term.lang = it.tag;
    const line = element("li", { id, role: "option", "aria-selected": "false" }, term);
    if (it.text !== it.pref) line.append(" ", element("small", { dir: "auto" }, `→ ${it.pref}`));
    if (it.note) line.append(" ", element("small", { dir: "auto" }, it.note));
    return line;
  }

  function suggestOn(input) {
    const goes = input.dataset.suggest === "go";
    const into = goes ? null : input.form.elements[input.dataset.into];
    const list = element("ul", { class: "suggestions", id: `suggestions-${++serial}`, role: "listbox", "aria-label": words.suggestions });
    const status = element("span", { class: "hidden", role: "status" });
    let timer = 0, asked = 0, at = -1, found = [];
    list.hidden = true;
    input.after(list, status);
    for (const [name, value] of [["role", "combobox"], ["aria-autocomplete", "list"], ["aria-expanded", "false"], ["aria-controls", list.id]]) input.setAttribute(name, value);

    function close() {
      // (an answer that is still on its way opens the list no more)
      clearTimeout(timer);
      asked++;
      list.hidden = true;
      mark(-1);
      input.setAttribute("aria-expanded", "false");
    }

    function mark(place) {
      at = place;
      [...list.children].forEach((it, index) => it.setAttribute("aria-selected", String(index === at)));
      if (at < 0) input.removeAttribute("aria-activedescendant");
      else {
        input.setAttribute("aria-activedescendant", list.children[at].id);
        list.children[at].scrollIntoView({ block: "nearest" });
      }
    }

    function take(it) {
      if (goes) {
        location.href = it.href;
        return;
      }
      input.value = it.pref;
      if (into) into.value = it.number;
      input.dispatchEvent(new Event("change", { bubbles: true }));
      close();
    }

    function show(query, answer) {
      found = answer;
      list.dataset.query = query;
      list.replaceChildren(...found.map((it, index) => option(it, `${list.id}-${index}`)));
      [...list.children].forEach((line, index) => line.addEventListener("mousedown", (event) => { event.preventDefault(); take(found[index]); }));
      list.hidden = found.length === 0;
      input.setAttribute("aria-expanded", String(!list.hidden));
      status.textContent = found.length ? words.found.replace("#", found.length) : words.none;
      // (Enter sends what was typed, until one of them is chosen)
      mark(-1);
    }

    async function ask() {
      const query = input.value.trim(), mine = ++asked;
      if (!query) {
        close();
        return;
      }
      const wanted = new URLSearchParams({ q: query, kinds: input.dataset.kinds || (goes ? "all" : "concept") });
      for (const name of ["scheme", "without"]) if (input.dataset[name]) wanted.set(name, input.dataset[name]);
      if (!goes) wanted.set("live", "1");
      const answer = await fetch(`/suggest?${wanted}`, { headers: { Accept: "application/json" } }).catch(() => null);
      if (!answer || !answer.ok || answer.redirected) return;
      const read = await answer.json();
      if (mine === asked && document.activeElement === input) show(query, read);
    }

    function step(by) {
      const places = found.length;
      mark(at < 0 ? (by > 0 ? 0 : places - 1) : (at + by + places) % places);
    }

    input.addEventListener("input", () => {
      if (into) into.value = "";
      // (what is suggested for an earlier text isn't taken by Enter for this one, also if it is still on its way)
      mark(-1);
      asked++;
      clearTimeout(timer);
      timer = setTimeout(ask, WAIT);
    });
    input.addEventListener("blur", close);
    input.addEventListener("keydown", (event) => {
      if (event.isComposing || list.hidden) return;
      if (event.key === "ArrowDown" || event.key === "ArrowUp") {
        event.preventDefault();
        step(event.key === "ArrowDown" ? 1 : -1);
      } else if (event.key === "Enter" && at >= 0) {
        event.preventDefault();
        take(found[at]);
      } else if (event.key === "Tab" && at >= 0 && !goes) {
        take(found[at]);
      } else if (event.key === "Escape") {
        event.stopPropagation();
        event.preventDefault();
        close();
      }
    });
  }

  document.querySelectorAll("[data-suggest]").forEach(suggestOn);
  // (a form that is opened later)
  document.addEventListener("added", (event) => event.target.querySelectorAll("[data-suggest]").forEach(suggestOn));
})();
