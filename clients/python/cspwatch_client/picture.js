"use strict";
(() => {
  const list = document.getElementById("entries");
  if (!list) return;
  const get = (id) => document.getElementById(id);
  const placeOf = (row) => Number(row.id.slice(1));
  const groups = Array.from(list.querySelectorAll("ol"));
  const firsts = groups.map((group) => Number(group.dataset.first));
  const places = groups.flatMap((group) => group.dataset.no.split(" ").filter(Boolean).map(Number));
  const handed = get("rows") && JSON.parse(get("rows").textContent);
  const only = get("only"), said = get("said"), whole = get("whole");
  let current = null, goal = null;

  // Draws the rows of a group, where that was left to this script.
  function draw(group) {
    if (!handed || group.firstElementChild) return;
    const numbers = handed.groups[groups.indexOf(group)], text = (at) => handed.texts[numbers[at]];
    const rows = [];
    for (let at = 0; at < numbers.length; at += 8) {
      const [place, column, seat, number] = numbers.slice(at, at + 4);
      const parts = [place, text(at + 4), place, text(at + 5), column, seat, number, text(at + 6), text(at + 7)];
      rows.push(handed.row.replace(/%[ds]/g, () => parts.shift()));
    }
    group.innerHTML = rows.join("");
  }

  // The row of a place; null where the page has none.
  function rowOf(place) {
    const after = firsts.findIndex((first) => first > place);
    const group = groups[(after < 0 ? groups.length : after) - 1];
    if (group) draw(group);
    return get("p" + place);
  }

  // The place of the row at this height of the window: 0 above the first row, Infinity below the last.
  function placeAt(height) {
    const box = list.getBoundingClientRect();
    if (height <= box.top) return 0;
    if (height >= box.bottom) return Infinity;
    for (const step of [0, 3, -3]) {
      const found = document.elementFromPoint(Math.max(box.left, 0) + 4, height + step);
      const row = found && found.closest("li");
      if (row && list.contains(row)) return placeOf(row);
      // A group whose rows are not laid out yet.
      const group = found && found.closest("ol");
      if (group && list.contains(group)) return Number(group.dataset.first);
    }
    return 0;
  }

  // The heights of the window between which rows are seen.
  function seen() {
    return [get("top").getBoundingClientRect().bottom + 4, innerHeight - 4];
  }

  // Scrolls to an element. Rows near it that were not laid out before may turn out to have another height than was
  // reckoned with, so it scrolls again in the next frames, unless it is to scroll elsewhere by then.
  function scrollTo(element, block, frames = 6) {
    if (frames === 6) goal = element;
    if (element !== goal) return;
    element.scrollIntoView({ block, behavior: "instant" });
    if (frames > 0) requestAnimationFrame(() => scrollTo(element, block, frames - 1));
    else mark();
  }

  function show(row) {
    if (current) current.classList.remove("at");
    current = row;
    row.classList.add("at");
    row.tabIndex = -1;
    row.focus({ preventScroll: true });
    scrollTo(row, "center");
  }

  function showRejected(index) {
    show(rowOf(places[index]));
    said.textContent = `Rejected entry ${index + 1} of ${places.length}: place ${places[index]}`;
  }

  function go(step) {
    if (!places.length) return;
    const [above, below] = seen();
    let from = null;
    if (current) {
      const box = current.getBoundingClientRect();
      if (box.height && box.bottom > above && box.top < below) from = placeOf(current);
    }
    if (from === null) from = step > 0 ? placeAt(above) - 0.5 : placeAt(below) + 0.5;
    const index = step > 0 ? places.findIndex((place) => place > from) : places.findLastIndex((place) => place < from);
    if (index >= 0) showRejected(index);
    else said.textContent = step > 0 ? "No rejected entry comes after this one" : "No rejected entry comes before this one";
  }

  function filter() {
    const [above, below] = seen();
    const place = current && current.getBoundingClientRect().height ? placeOf(current) : placeAt((above + below) / 2);
    list.classList.toggle("only", only.checked);
    const index = places.findIndex((one) => one >= place);
    const shown = place > 0 && place < Infinity;
    const row = shown && rowOf(only.checked ? places[index < 0 ? places.length - 1 : index] : place);
    if (row) show(row);
    else mark();
    only.focus({ preventScroll: true });
    said.textContent = only.checked ? `${places.length} rejected entries are shown` : "All entries are shown";
  }

  function goTo(place) {
    const row = rowOf(place);
    if (!row) {
      said.textContent = `Place ${place} isn't on this page`;
      return;
    }
    if (only && only.checked && !row.classList.contains("no")) {
      only.checked = false;
      filter();
    }
    show(row);
    said.textContent = `Place ${place}`;
  }

  // Marks on the strip of the whole history which part of it is seen.
  function mark() {
    if (!whole) return;
    const last = Number(whole.dataset.last);
    const [above, below] = seen();
    const from = Math.min(Math.max(placeAt(above) - 1, 0), last), to = Math.min(placeAt(below), last);
    const part = whole.querySelector("div");
    part.hidden = to <= from;
    part.style.left = (100 * from) / last + "%";
    part.style.width = (100 * (to - from)) / last + "%";
  }

  if (handed) {
    // Groups are drawn a little before they are seen, and all of them before they are printed.
    const near = new IntersectionObserver((seen) => seen.forEach((one) => one.isIntersecting && draw(one.target)), { rootMargin: "1000px" });
    groups.forEach((group) => near.observe(group));
    addEventListener("beforeprint", () => groups.forEach(draw));
  }
  get("tools").hidden = false;
  get("next").onclick = () => go(1);
  get("previous").onclick = () => go(-1);
  get("next").disabled = get("previous").disabled = !places.length;
  if (only) {
    only.checked = false;
    only.disabled = !places.length;
    only.onchange = filter;
  }
  get("to").onsubmit = (event) => {
    event.preventDefault();
    goTo(Number(get("place").value));
  };
  document.addEventListener("keydown", (event) => {
    if (event.ctrlKey || event.metaKey || event.altKey || event.target.type === "number") return;
    if (event.key === "n") go(1);
    else if (event.key === "p") go(-1);
    else if (event.key === "r" && only) only.click();
    else return;
    event.preventDefault();
  });
  document.addEventListener("click", (event) => {
    const link = event.target.closest('a[href^="#"]');
    const target = link && get(link.hash.slice(1));
    if (target) requestAnimationFrame(() => scrollTo(target, "start"));
  });
  if (whole) {
    whole.onclick = (event) => {
      const box = whole.getBoundingClientRect();
      const place = ((event.clientX - box.left) / box.width) * Number(whole.dataset.last);
      const far = places.map((one) => Math.abs(one - 0.5 - place));
      showRejected(far.indexOf(far.reduce((least, one) => Math.min(least, one))));
    };
    let waiting = false;
    const later = () => {
      if (waiting) return;
      waiting = true;
      requestAnimationFrame(() => {
        waiting = false;
        mark();
      });
    };
    addEventListener("scroll", later, { passive: true });
    addEventListener("resize", later);
    list.addEventListener("contentvisibilityautostatechange", later, true);
    later();
  }

  // The entry that an anchor names; null where it names none.
  const named = () => {
    const found = /^#p([0-9]+)$/.exec(location.hash);
    return found && Number(found[1]);
  };
  addEventListener("hashchange", () => named() !== null && goTo(named()));
  // What is fixed above the entries is as high as the window is narrow. An anchor's row comes below it.
  const above = () => list.style.setProperty("--above", get("top").offsetHeight + 8 + "px");
  addEventListener("resize", above);
  above();
  if (named() !== null) goTo(named());
  else if (!location.hash && places.length) showRejected(0);
})();
