// Keys: / and ? everywhere, and those that a page gives by data-key="x" on a link, a button, a box, a field or the summary of a form. Ctrl+Enter presses the button with data-main, also from within a field.
"use strict";
(() => {
  function onEscape(event, field) {
    const open = event.target.closest("details.act[open]");
    if (open) {
      open.open = false;
      open.querySelector("summary").focus();
    } else if (field && (field.id === "q" || !field.value || document.querySelector("[data-main]"))) {
      // (in a field with a text, the next letter is meant for that, and leads to no other page, but where keys do most)
      field.blur();
    }
  }

  function act(event, key) {
    const it = [...document.querySelectorAll("[data-key]")].find((one) => one.dataset.key === key);
    if (!it) return;
    event.preventDefault();
    if (it.tagName === "SUMMARY") {
      it.parentElement.open = false;
      it.click();
    } else if (it.tagName === "INPUT" && it.type !== "checkbox") {
      it.focus();
    } else {
      it.click();
    }
  }

  document.addEventListener("keydown", (event) => {
    // (a letter isn't typed into a box or a choice)
    const field = event.target.closest("input:not([type=radio], [type=checkbox]), select, textarea");
    if (event.key === "Escape") onEscape(event, field);
    else if (event.key === "Enter" && event.ctrlKey) document.querySelector("[data-main]")?.click();
    else if (field || event.ctrlKey || event.metaKey || event.altKey || event.repeat) return;
    else if (event.key === "/") {
      const box = document.getElementById("q");
      if (!box) return;
      event.preventDefault();
      box.focus();
      box.select();
    } else if (event.key === "t" && !document.querySelector("[data-key=t]")) {
      const at = /^\/c\/(\d+)/.exec(location.pathname);
      location.href = at ? `/tree?at=${at[1]}` : "/tree";
    } else act(event, event.key);
  });
})();
