// Chooses a tile by mouse, keys or the address; without this every tile is shown.
const sections = [...document.querySelectorAll("section.tile")];
const links = [...document.querySelectorAll("a.choose")];
const parts = [...document.querySelectorAll(".part")];
let at = 0;

// Scrolls a box, and not the page, so that an element of it is seen.
function reveal(box, element) {
  if (!box || !element) return;
  const inner = element.getBoundingClientRect(), outer = box.getBoundingClientRect();
  box.scrollLeft += inner.left + inner.width / 2 - outer.left - outer.width / 2;
  if (inner.top < outer.top || inner.bottom > outer.bottom) box.scrollTop += inner.top - outer.top - 4;
}

// The words of the chosen tile.
function mark(tile) {
  parts.forEach((part) => part.classList.toggle("chosen", part.dataset.tile === tile));
  const part = parts.find((one) => one.dataset.tile === tile);
  reveal(document.querySelector(".row-words"), part);
}

// `moved`: by the reader, who then sees where it is.
function choose(place, moved) {
  if (!sections.length) return;
  at = Math.max(0, Math.min(sections.length - 1, place));
  sections.forEach((section, i) => section.classList.toggle("chosen", i === at));
  links.forEach((link, i) => {
    link.classList.toggle("chosen", i === at);
    if (i === at) link.setAttribute("aria-current", "true"); else link.removeAttribute("aria-current");
  });
  mark(sections[at].id.replace("tile-", ""));
  reveal(links[at].closest(".strip"), links[at]);
  if (!moved) return;
  links[at].focus({ preventScroll: true });
  history.replaceState(null, "", "#" + sections[at].id);
}

function named() {
  return sections.findIndex((section) => "#" + section.id === location.hash);
}

// The address names a tile: the strip stays in view above it.
function go() {
  if (named() < 0) return;
  choose(named(), false);
  requestAnimationFrame(() => scrollTo(0, 0));
}

links.forEach((link, i) => link.addEventListener("click", (event) => {
  event.preventDefault();
  choose(i, true);
}));

addEventListener("hashchange", go);
addEventListener("load", go);

addEventListener("keydown", (event) => {
  if (event.ctrlKey || event.altKey || event.metaKey || !sections.length) return;
  const moves = { ArrowLeft: at - 1, ArrowRight: at + 1, Home: 0, End: sections.length - 1 };
  if (event.key in moves) {
    event.preventDefault();
    choose(moves[event.key], true);
  } else if (event.key === "a" || event.key === "A") {
    document.body.classList.toggle("all");
  }
});

// The weight of a doubled area by a rule.
function weight(rule, d) {
  const size = Math.abs(d);
  if (rule === "NonZero") return Math.min(size, 512);
  const rest = size % 1024;
  return rest <= 512 ? rest : 1024 - rest;
}

// What d of a pixel is summed up from: the cover from the left, the covers further left, its own doubled areas.
function sum(plane, column, row) {
  const part = plane.dataset.part ? plane.dataset.part.split(";").map((one) => one.split(" ").map(Number)) : [];
  const incoming = Number(plane.dataset.in.split(" ")[row]);
  const inRow = part.filter(([, y]) => y === row);
  const left = inRow.filter(([x]) => x < column).reduce((total, one) => total + one[3], 0);
  const own = inRow.filter(([x]) => x === column).reduce((total, one) => total + one[2] * one[3], 0);
  return { incoming, left, own, d: 32 * (incoming + left) + own };
}

function told(plane, column, row) {
  const { incoming, left, own, d } = sum(plane, column, row);
  const rule = plane.dataset.rule;
  return `column ${column}, row ${row}: d = 32 × (${incoming} + ${left}) + ${own} = ${d}. Weight NonZero ${weight("NonZero", d)}, ` +
    `EvenOdd ${weight("EvenOdd", d)}. By its rule, ${rule}: coverage ${weight(rule, d) / 512}`;
}

// The pixel under the mouse or by keys, told below its picture.
document.querySelectorAll("svg.plane").forEach((plane) => {
  const text = plane.parentElement.querySelector(".pixel");
  const cursor = document.createElementNS("http://www.w3.org/2000/svg", "rect");
  cursor.setAttribute("class", "cursor");
  cursor.setAttribute("width", 1);
  cursor.setAttribute("height", 1);
  let column = 0, row = 0;
  const show = (x, y) => {
    [column, row] = [x, y].map((place) => Math.max(0, Math.min(15, place)));
    cursor.setAttribute("x", column);
    cursor.setAttribute("y", row);
    plane.append(cursor);
    text.textContent = told(plane, column, row);
  };
  const hide = () => { cursor.remove(); text.textContent = ""; };
  plane.addEventListener("mousemove", (event) => {
    const box = plane.getBoundingClientRect();
    const place = (from, size, whole) => Math.floor((from - whole) / size * 16);
    show(place(event.clientX, box.width, box.left), place(event.clientY, box.height, box.top));
  });
  plane.addEventListener("mouseleave", hide);
  plane.addEventListener("focus", () => show(column, row));
  plane.addEventListener("blur", hide);
  plane.addEventListener("keydown", (event) => {
    const step = { ArrowLeft: [-1, 0], ArrowRight: [1, 0], ArrowUp: [0, -1], ArrowDown: [0, 1] }[event.key];
    if (!step) return;
    event.preventDefault();
    event.stopPropagation();
    show(column + step[0], row + step[1]);
  });
});

document.body.classList.add("js");
choose(Math.max(0, named()), false);
