// Suggestions of another service come after the page: `data-more="PATH"` on the place for them, in the form with the record.
"use strict";
(() => {
  const place = document.querySelector("[data-more]");
  if (!place) return;
  const form = place.closest("form");
  const boxes = () => [...form.querySelectorAll("input[name=concept]")];

  function element(tag, attributes, ...children) {
    const made = document.createElement(tag);
    for (const [name, value] of Object.entries(attributes)) made.setAttribute(name, value);
    made.append(...children);
    return made;
  }

  // A line as the page has them; of a concept that the page shows, only why it is suggested once more.
  function show(it) {
    const known = boxes().find((one) => one.value === String(it.number));
    if (known) {
      known.closest("li").querySelector("small").append(` · ${it.why}`);
      return;
    }
    const digit = boxes().length + 1;
    const box = element("input", { type: "checkbox", name: "concept", value: it.number });
    const line = element("li", {}, element("label", { class: "tick" }, box, " ", element("span", { dir: "auto" }, it.term)));
    if (digit < 10) {
      box.dataset.key = digit;
      line.append(" ", element("kbd", {}, String(digit)));
    }
    line.append(" ", element("small", {}, `${it.number} · ${it.why}`));
    place.querySelector("ul").append(line);
  }

  async function ask() {
    const answer = await fetch(place.dataset.more, { method: "POST", body: new URLSearchParams(new FormData(form)) }).catch(() => null);
    const read = answer && (answer.ok || answer.status === 502) && !answer.redirected ? await answer.json() : { said: "" };
    (read.found || []).forEach(show);
    place.querySelector("[role=status]").textContent = read.said;
  }

  ask();
})();
