// Brings what a page shows of a table that is under way up to date, and follows where that leads once it has ended.
"use strict";
(() => {
  const PACE = 1000;
  async function look() {
    const answer = await fetch(location.href, { redirect: "manual" }).catch(() => null);
    if (answer && answer.type === "opaqueredirect") return location.reload();
    if (answer && answer.ok) {
      const page = new DOMParser().parseFromString(await answer.text(), "text/html");
      const now = page.getElementById("progress");
      if (!now) return location.reload();
      document.getElementById("progress-text").textContent = page.getElementById("progress-text").textContent;
      const [bar, its] = [document, page].map((it) => it.querySelector("progress"));
      [bar.max, bar.value] = [its.max, its.value];
    }
    setTimeout(look, PACE);
  }
  setTimeout(look, PACE);
})();
