"use strict";
(() => {
  const all = (kind) => [...document.querySelectorAll(kind)];
  const by = (id) => document.getElementById(id);
  const stacks = all(".stack");
  const arrows = all(".arrow");
  const steps = all("[data-k]");
  const leaving = stacks.map(() => []);
  steps.forEach((step) => leaving[step.dataset.from].push(step));
  const title = (number) => stacks[number].querySelector("title").textContent;

  // the steps taken so far
  let path = [];
  const here = () => (path.length ? Number(path[path.length - 1].dataset.to) : 0);
  const leads = (step) => step.dataset.to !== "";
  const has = (arrow, found) => found.some((step) => step.parentNode === arrow);

  function take(step) {
    if (Number(step.dataset.from) === here() && leads(step)) {
      path.push(step);
      show();
    }
  }

  function goBack(count) {
    path = path.slice(0, count);
    show();
  }

  function item(text, act) {
    const item = document.createElement("li");
    const inside = act === undefined ? item : item.appendChild(document.createElement("button"));
    inside.textContent = text;
    if (act) inside.addEventListener("click", act);
    else if (act === null) inside.disabled = true;
    return item;
  }

  function none(text) {
    const line = item(text);
    line.className = "none";
    return line;
  }

  function listed(step) {
    const { k, mark } = step.dataset;
    const text = [k, step.textContent, mark].filter((word) => word !== "").join(" ");
    return item(text, leads(step) ? () => take(step) : null);
  }

  function show() {
    const number = here();
    const open = leaving[number];
    const possible = open.filter(leads);
    const next = new Set(possible.map((step) => Number(step.dataset.to)));
    const ended = stacks[number].classList.contains("ended");
    stacks.forEach((stack, other) => {
      stack.classList.toggle("here", other === number);
      stack.classList.toggle("next", next.has(other));
    });
    arrows.forEach((arrow) => {
      arrow.classList.toggle("open", has(arrow, possible));
      arrow.classList.toggle("taken", has(arrow, path));
    });
    const frames = ended ? [none("ended")] : title(number).split("\n").map((frame) => item(frame));
    by("stack").replaceChildren(...frames);
    const stuck = none(ended ? "ended" : "stuck: no step");
    by("steps").replaceChildren(...(open.length ? open.map(listed) : [stuck]));
    const taken = path.map((step, index) => item(step.textContent, () => goBack(index + 1)));
    by("path").replaceChildren(...taken);
    by("back").disabled = by("again").disabled = path.length === 0;
    stacks[number].scrollIntoView({ block: "nearest", inline: "nearest" });
  }

  steps.forEach((step) => step.addEventListener("click", () => take(step)));
  all(".near").forEach((near) => near.addEventListener("click", () => {
    take(near.parentNode.querySelector("[data-k]"));
  }));
  stacks.forEach((stack, number) => stack.addEventListener("click", () => {
    const step = leaving[here()].find((step) => step.dataset.to === String(number));
    if (step) take(step);
  }));
  by("back").addEventListener("click", () => goBack(path.length - 1));
  by("again").addEventListener("click", () => goBack(0));
  show();
})();
