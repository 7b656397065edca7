// The tree: a branch loads when it opens, and the arrow keys open and close it. Without this script a link opens it.
"use strict";
(() => {
  async function openBranch(details) {
    if (!details.open || "loaded" in details.dataset) return;
    details.dataset.loaded = "";
    const answer = await fetch(`/tree/${details.dataset.branch}`, { headers: { Accept: "text/html" } }).catch(() => null);
    if (!answer || !answer.ok || answer.redirected) {
      delete details.dataset.loaded;
      details.open = false;
      return;
    }
    const part = new DOMParser().parseFromString(await answer.text(), "text/html");
    details.append(...part.body.childNodes);
  }

  function onKey(event) {
    const summary = event.target.closest("#tree summary");
    if (!summary || event.target.closest("input, select, textarea")) return;
    if (event.key !== "ArrowRight" && event.key !== "ArrowLeft") return;
    summary.parentElement.open = event.key === "ArrowRight";
    event.preventDefault();
  }

  document.addEventListener("toggle", (event) => { if (event.target.matches("details[data-branch]")) openBranch(event.target); }, true);
  document.addEventListener("keydown", onKey);
  document.querySelector("#tree .at")?.scrollIntoView({ block: "center" });
})();
