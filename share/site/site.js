// Searches the terms on the page A to Z, and opens and closes the tree. Every page can be read without this script.
"use strict";
(() => {
  const MOST = 100;
  const fold = (text) => text.normalize("NFKD").replace(/\p{M}/gu, "").toLowerCase().replace(/ß/g, "ss");

  // How well a term matches: 0 the same, 1 it begins so, 2 a word of it begins so, 3 it contains all words; -1 not at all.
  function rank(term, query, words) {
    if (!words.every((word) => term.includes(word))) return -1;
    if (term === query) return 0;
    if (term.startsWith(query)) return 1;
    return words.every((word) => (" " + term).replace(/[^\p{L}\p{N}]/gu, " ").includes(" " + word)) ? 2 : 3;
  }

  function found(query) {
    const words = query.split(/\s+/);
    const ranked = [[], [], [], []];
    const seen = new Set();
    window.TERMS.forEach((term) => {
      const at = rank(term.folded ??= fold(term[0]), query, words);
      if (at >= 0) ranked[at].push(term);
    });
    // (a hidden label is found, but not shown: its concept stands once)
    return ranked.flat().filter((term) => {
      const key = term[3] ? `${term[1]} ${term[2]}` : `${term[1]} ${term[0]}`;
      return !seen.has(key) && seen.add(key);
    });
  }

  function anchor(text, page) {
    const link = document.createElement("a");
    link.href = page + ".html";
    link.textContent = text;
    return link;
  }

  function item([text, page, preferred, isHidden]) {
    const line = document.createElement("li");
    if (isHidden) {
      line.append(anchor(preferred, page));
    } else {
      line.append(anchor(text, page));
      if (preferred) line.append(" → " + preferred);
    }
    return line;
  }

  function show(results, rest, text) {
    const query = fold(text.trim().replace(/\s+/g, " "));
    const terms = query ? found(query) : [];
    const said = results.dataset;
    const count = terms.length === 0 ? said.none : terms.length === 1 ? said.one : said.many.replace("#", terms.length);
    results.querySelector(".count").textContent = query ? count : "";
    results.querySelector("ul").replaceChildren(...terms.slice(0, MOST).map(item));
    results.querySelector(".further").textContent = terms.length > MOST ? said.further.replace("#", terms.length - MOST) : "";
    results.querySelectorAll(".elsewhere a").forEach((link) => { link.search = "?q=" + encodeURIComponent(text.trim()); });
    results.hidden = !query;
    rest.hidden = !!query;
  }

  function load(whenThere) {
    const script = document.createElement("script");
    script.src = "terms.js";
    script.onload = whenThere;
    document.head.append(script);
  }

  function element(tag, name) {
    const made = document.createElement(tag);
    made.className = name;
    return made;
  }

  function searchOn(results) {
    results.querySelector("h1").after(element("p", "count"), element("ul", "found"), element("p", "further"));
    const input = document.querySelector("header input");
    const rest = document.getElementById("browse");
    let isLoading = false;
    const update = () => {
      if (window.TERMS) show(results, rest, input.value);
      else if (!isLoading && (isLoading = true)) load(update);
    };
    input.addEventListener("focus", update);
    input.addEventListener("input", update);
    input.form.addEventListener("submit", (event) => { event.preventDefault(); update(); });
    input.value = new URLSearchParams(location.search).get("q") || "";
    if (input.value) update();
    else input.focus();
  }

  function openAround(place) {
    for (let at = place; at; at = at.parentElement) if (at.tagName === "DETAILS") at.open = true;
    if (place) place.scrollIntoView({ block: "center" });
  }

  function treeOn(tree) {
    const bar = element("p", "bar");
    for (const [word, isOpen] of [[tree.dataset.open, true], [tree.dataset.close, false]]) {
      const button = document.createElement("button");
      button.type = "button";
      button.textContent = word;
      button.addEventListener("click", () => tree.querySelectorAll("details").forEach((it) => { it.open = isOpen; }));
      bar.append(button);
    }
    tree.before(bar);
    const tops = tree.querySelectorAll(":scope > ul > li > details");
    if (tops.length === 1) tops[0].open = true;
    const target = () => openAround(document.getElementById(location.hash.slice(1)));
    window.addEventListener("hashchange", target);
    target();
  }

  const results = document.getElementById("results");
  const tree = document.getElementById("tree");
  if (results) searchOn(results);
  if (tree) treeOn(tree);
})();
