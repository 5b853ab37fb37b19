// Search over names and comments, and ticks for what was read. Pages can be read without it.
"use strict";

const ROOT = document.documentElement.dataset.root;
const SHOWN = 40;

// How well an entry suits what is looked for; 0 if it does not.
function rank([name, , , comment], wanted) {
  const said = name.toLowerCase();
  const last = said.split(/::|\./).pop();
  if (said === wanted || last === wanted) return 4;
  if (last.startsWith(wanted) || said.startsWith(wanted)) return 3;
  if (said.includes(wanted)) return 2;
  const text = `${said} ${comment.toLowerCase()}`;
  return wanted.split(/\s+/).every((it) => text.includes(it)) ? 1 : 0;
}

function entry([name, kind, url, comment]) {
  const item = document.createElement("li");
  const link = item.appendChild(document.createElement("a"));
  link.href = ROOT + url;
  link.appendChild(document.createElement("code")).textContent = name;
  const small = link.appendChild(document.createElement("small"));
  small.textContent = ` ${kind}${comment && ": "}${comment}`;
  return item;
}

function addSearch() {
  const place = document.getElementById("search");
  const box = place.appendChild(document.createElement("input"));
  const list = place.appendChild(document.createElement("ol"));
  box.type = "search";
  box.placeholder = "Search  ( / )";
  box.setAttribute("aria-label", "Search names and comments");
  const show = () => {
    const wanted = box.value.trim().toLowerCase();
    const found = wanted.length < 2 ? [] : NAMES.map((it) => [rank(it, wanted), it])
      .filter(([points]) => points > 0)
      .sort((one, other) => other[0] - one[0] || one[1][0].length - other[1][0].length);
    list.replaceChildren(...found.slice(0, SHOWN).map(([, it]) => entry(it)));
  };
  box.addEventListener("input", show);
  box.addEventListener("keydown", (event) => {
    if (event.key === "Enter" && list.querySelector("a")) list.querySelector("a").click();
    if (event.key === "Escape") { box.value = ""; show(); }
  });
  document.addEventListener("keydown", (event) => {
    if (event.key !== "/" || document.activeElement === box) return;
    event.preventDefault();
    box.focus();
  });
  box.value = new URLSearchParams(location.search).get("find") || "";
  show();
}

// Ticks are kept in the browser, if it keeps anything.
function kept(key) {
  try { return localStorage.getItem(key) !== null; } catch { return false; }
}

function keep(key, isRead) {
  try {
    if (isRead) localStorage.setItem(key, "read");
    else localStorage.removeItem(key);
  } catch { /* the tick lasts until the page is left */ }
}

function addTicks() {
  const all = [...document.querySelectorAll("section.definition[data-key]")];
  const progress = document.getElementById("progress");
  const count = () => {
    const read = all.filter((it) => it.classList.contains("read")).length;
    if (!progress) return;
    progress.textContent = `${read} of ${all.length} ticked as read. Ticks stay in this browser.`;
  };
  for (const section of all) {
    const box = document.createElement("input");
    box.type = "checkbox";
    box.title = "read";
    box.setAttribute("aria-label", `${section.dataset.key} is read`);
    box.checked = kept(section.dataset.key);
    section.classList.toggle("read", box.checked);
    box.addEventListener("change", () => {
      keep(section.dataset.key, box.checked);
      section.classList.toggle("read", box.checked);
      count();
    });
    section.querySelector("h3").prepend(box);
  }
  count();
}

addSearch();
addTicks();
