// Forms: one click sends one request, the focus goes to what is wrong, boxes are ticked by the page. Times are as the page's language writes them.
"use strict";
(() => {
  // A second click before the answer is dropped.
  document.addEventListener("submit", (event) => {
    // (a file leaves the page as it is, to be sent again)
    if (event.target.method !== "post" || event.submitter?.hasAttribute("data-file")) return;
    if (event.target.dataset.sent) event.preventDefault();
    event.target.dataset.sent = "1";
  });
  window.addEventListener("pageshow", () => document.querySelectorAll("form[data-sent]").forEach((it) => delete it.dataset.sent));

  // A form that opens gives the focus to what is wrong in it, to its text, or to its first field; never to what it does.
  const FIELDS = ["[aria-invalid]", "input[type=text], textarea", "input:not([type=hidden]), select"];
  const focusIn = (form) => FIELDS.map((it) => form.querySelector(it)).find((it) => it)?.focus();
  document.addEventListener("toggle", (event) => {
    if (event.target.matches("details.act[open]") && event.isTrusted) focusIn(event.target);
  }, true);

  // What a page shows was so as long as the marks of its forms don't change, but for the number of the last plan.
  const seen = (page) => page.querySelector("h1[data-seen]")?.dataset.seen.replace(/\.\d+$/, "");

  // A form that has a link in its place is read from the page that the link leads to; that page is shown if this one is old.
  async function openForm(link) {
    if (link.dataset.form) return;
    link.dataset.form = "opens";
    const answer = await fetch(link.href, { headers: { Accept: "text/html" } }).catch(() => null);
    const page = answer?.ok && !answer.redirected ? new DOMParser().parseFromString(await answer.text(), "text/html") : null;
    const form = page?.getElementById(link.id);
    if (form?.tagName !== "DETAILS" || seen(page) !== seen(document)) {
      location.href = link.href;
      return;
    }
    form.open = false;
    link.replaceWith(form);
    form.dispatchEvent(new Event("added", { bubbles: true }));
    // (a form without a field leaves the focus where it was pressed)
    form.querySelector("summary").focus();
    form.open = true;
    focusIn(form);
  }

  document.addEventListener("click", (event) => {
    const link = event.target.closest("a[data-form]");
    if (!link || event.ctrlKey || event.metaKey || event.shiftKey) return;
    event.preventDefault();
    openForm(link);
  });

  // A list with a filter: `data-filter="ID"` on the field.
  function filterBy(filter) {
    const list = document.getElementById(filter.dataset.filter);
    filter.addEventListener("input", () => {
      const text = filter.value.toLowerCase();
      [...list.children].forEach((it) => { it.hidden = !it.textContent.toLowerCase().includes(text); });
    });
    filter.addEventListener("keydown", (event) => { if (event.key === "Enter") event.preventDefault(); });
  }

  // The number of ticks in a list: `data-ticks="ID"`, with what is said of none, of one and of `#`, and those on other pages.
  function countTicks(count) {
    const list = document.getElementById(count.dataset.ticks);
    const texts = JSON.parse(count.dataset.texts);
    const report = () => {
      const ticked = Number(count.dataset.elsewhere) + list.querySelectorAll("input:checked").length;
      count.textContent = texts[Math.min(ticked, 2)].replace("#", ticked);
    };
    list.addEventListener("change", report);
    // (a page that is shown again may have other boxes ticked than it was sent with)
    window.addEventListener("pageshow", report);
  }

  // A time is by the office's clock, as the days that one asks for; with its zone, where the reader's clock shows another time.
  function showTime(time) {
    const at = new Date(time.dateTime), shown = new Date(`${time.dateTime.slice(0, 23)}Z`);
    if (Number.isNaN(at.getTime()) || Number.isNaN(shown.getTime())) return;
    // (in English with the month's name: 11/12 is two days)
    const options = { year: "numeric", month: "short", day: "2-digit", hour: "2-digit", minute: "2-digit", timeZone: "UTC" };
    const text = new Intl.DateTimeFormat(document.documentElement.lang, options).format(shown);
    const isReaders = shown.getTime() - at.getTime() === -60000 * at.getTimezoneOffset();
    time.textContent = isReaders ? text : `${text} ${time.dataset.zone}`;
    time.title = time.dateTime;
  }

  document.querySelectorAll("[data-filter]").forEach(filterBy);
  // (a page says so where a file is sent as soon as it is chosen)
  document.querySelectorAll("[data-send]").forEach((it) => it.addEventListener("change", () => it.value && it.form.requestSubmit()));
  document.querySelectorAll("[data-ticks]").forEach(countTicks);
  document.querySelectorAll("time[datetime]").forEach(showTime);
  document.querySelectorAll("[data-print]").forEach((it) => { it.hidden = false; it.addEventListener("click", () => window.print()); });
  (document.querySelector("[aria-invalid]") || document.querySelector(".why[role=alert]"))?.focus();
})();
