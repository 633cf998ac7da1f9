// Says what is wrong at a field while it is filled in, and keeps the list of jobs up to date. The page works without this.
"use strict";

const order = document.getElementById("order");
const visited = new Set();
let asked = 0;
let wait;

function show(sentences) {
  for (const [id, sentence] of Object.entries(sentences)) {
    const field = document.getElementById(id);
    const place = document.getElementById(id + "-wrong");
    // An empty field that the clerk has not come to yet is no mistake.
    const said = visited.has(id) ? sentence : "";
    if (place.textContent !== said) place.textContent = said;
    if (said) field.setAttribute("aria-invalid", "true");
    else field.removeAttribute("aria-invalid");
  }
}

async function check() {
  const turn = ++asked;
  try {
    const answer = await fetch("/check", { method: "POST", body: new URLSearchParams(new FormData(order)) });
    const sentences = answer.ok ? await answer.json() : {};
    // A later question has a later answer.
    if (turn === asked) show(sentences);
  } catch (fault) {
    // The desk is not there. The button says so when it is pressed.
  }
}

function checkSoon(id) {
  visited.add(id);
  clearTimeout(wait);
  wait = setTimeout(check, 400);
}

function typed(event) {
  checkSoon(event.target.id);
  const changed = document.getElementById("changed");
  if (changed) changed.textContent = "The form has changed since. Show the pages again before you keep or print them.";
}

async function look() {
  const told = document.getElementById("jobs-told");
  const table = document.getElementById("jobs-table");
  if (!told || document.hidden) return;
  try {
    const answer = await fetch("/jobs");
    if (!answer.ok) return;
    const fresh = new DOMParser().parseFromString(await answer.text(), "text/html");
    const freshTold = fresh.getElementById("jobs-told");
    const freshTable = fresh.getElementById("jobs-table");
    // Only what has changed is put in, so a screen reader says no more than that.
    if (told.textContent !== freshTold.textContent) told.textContent = freshTold.textContent;
    if (table.innerHTML !== freshTable.innerHTML) table.innerHTML = freshTable.innerHTML;
    table.hidden = freshTable.hidden;
  } catch (fault) {
    // As above.
  }
}

for (const place of document.querySelectorAll("#order .wrong")) {
  if (place.textContent) visited.add(place.id.replace(/-wrong$/, ""));
}
order.addEventListener("input", typed);
order.addEventListener("focusout", (event) => {
  // A button has no sentence of its own.
  if (event.target.value) checkSoon(event.target.id);
});
setInterval(look, 3000);
