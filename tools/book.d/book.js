// Search, and what helps on a page of unfolded definitions. Everything that it adds can be missing.
"use strict";
const header = document.querySelector("header");
const box = Object.assign(document.createElement("input"), { type: "search", placeholder: "Search names  /", ariaLabel: "Search names" });
const list = Object.assign(document.createElement("ol"), { className: "found", hidden: true });
header.append(box, list);
let loading;
const load = () => loading ??= new Promise(done => document.head.append(Object.assign(document.createElement("script"), { src: "names.js", onload: done })));
const show = async () => {
  await load();
  const words = box.value.toLowerCase().split(/\s+/).filter(Boolean);
  const rank = ([name]) => { const low = name.toLowerCase(); return low === words[0] ? 0 : low.startsWith(words[0]) ? 1 : low.includes(words[0]) ? 2 : 3; };
  const found = words.length ? BOOK.filter(row => { const text = row.join(" ").toLowerCase(); return words.every(it => text.includes(it)); })
    .sort((a, b) => rank(a) - rank(b) || a[0].length - b[0].length).slice(0, 40) : [];
  list.replaceChildren(...found.map(([name, kind, where, url, title]) => {
    const link = Object.assign(document.createElement("a"), { href: url });
    link.append(Object.assign(document.createElement("code"), { textContent: name }), Object.assign(document.createElement("span"), { className: "q", textContent: `${kind} · ${where}` }),
      Object.assign(document.createElement("span"), { className: "what", textContent: title }));
    const row = document.createElement("li");
    row.append(link);
    return row;
  }));
  list.hidden = !found.length;
};
box.addEventListener("input", show);
box.addEventListener("focus", load);
box.addEventListener("keydown", event => {
  if (event.key === "Escape") { box.value = ""; list.hidden = true; box.blur(); }
  if (event.key === "Enter" && list.firstChild) location.href = list.querySelector("a").href;
});
list.addEventListener("click", () => { list.hidden = true; });
document.addEventListener("keydown", event => { if (event.key === "/" && document.activeElement !== box) { event.preventDefault(); box.focus(); } });

// the first sentence of what a name means, when the pointer is on it
document.addEventListener("mouseover", async event => {
  const link = event.target.closest?.("main a");
  if (!link || link.title) return;
  await load();
  const place = link.getAttribute("href").replace(/^#/, `${location.pathname.split("/").pop()}#`);
  link.title = (BOOK.find(row => row[3] === place) ?? [])[4] ?? "";
});

// a link into a closed definition opens it and those around it
const reveal = () => {
  const target = document.getElementById(decodeURIComponent(location.hash.slice(1)));
  for (let at = target; at; at = at.parentElement) if (at.tagName === "DETAILS") at.open = true;
  target?.scrollIntoView();
};
addEventListener("hashchange", reveal);
reveal();

// the lines of the definitions that were not opened yet
const nodes = [...document.querySelectorAll(".tree details.node")];
const left = document.querySelector(".left");
if (left && nodes.length) {
  const read = new Set();
  const count = () => {
    for (const it of nodes) if (it.open && it.checkVisibility()) read.add(it);
    const lines = nodes.reduce((sum, it) => sum + (read.has(it) ? 0 : +(it.dataset.n ?? 0)), 0);
    left.textContent = lines ? `${lines} lines of definitions not opened yet.` : "All definitions were opened.";
  };
  const all = Object.assign(document.createElement("button"), { type: "button", textContent: "Open all", onclick: () => nodes.forEach(it => { it.open = true; }) });
  left.after(" ", all);
  document.addEventListener("toggle", count, true);
  count();
}
