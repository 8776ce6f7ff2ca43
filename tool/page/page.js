"use strict";
// The page is XML too, so two signs that begin markup do not stand here: less-than, and the ampersand.
// What stands for a path lights up with it: its shapes, its row and the instructions that it passes.
const mostRows = 200;
const ranges = text => (text ? text.split(",") : []).map(range => {
  const [first, last] = range.split("-").map(Number);
  return [first, last ?? first];
});
const shapes = [], lines = [];
for (const element of document.querySelectorAll("rect[data-path], rect[data-paths]"))
  shapes.push([element, ranges(element.dataset.path ?? element.dataset.paths)]);
for (const element of document.querySelectorAll("[data-passed]"))
  lines.push([element, ranges(element.dataset.passed), ranges(element.dataset.ended)]);

// Both lists rise: the one that is behind goes on.
const meet = (some, others) => {
  let one = 0, other = 0;
  while (some[one] ? others[other] : false) {
    if (others[other][0] > some[one][1]) one += 1;
    else if (some[one][0] > others[other][1]) other += 1;
    else return true;
  }
  return false;
};
const rowsOf = paths => {
  const numbers = [];
  for (const [first, last] of paths)
    for (let path = first; last >= path; path += 1) {
      numbers.push(path);
      if (numbers.length > mostRows) return [];
    }
  return numbers.map(path => document.getElementById("path-" + path));
};

let lit = [];
const light = lists => {
  const meets = own => lists.some(paths => meet(own, paths));
  for (const element of lit) element.classList.remove("lit", "ended");
  const mark = (element, name) => {
    element.classList.add(name);
    lit.push(element);
  };
  lit = [];
  for (const [element, own] of shapes) if (meets(own)) mark(element, "lit");
  for (const [element, passed, ended] of lines) {
    if (meets(passed)) mark(element, "lit");
    if (meets(ended)) mark(element, "ended");
  }
  for (const row of rowsOf(lists.flat())) mark(row, "lit");
};
const pathsOf = element => {
  const of = element?.closest?.("[data-path], [data-paths], [data-passed], svg a");
  const data = (of?.matches("a") ? of.querySelector("rect") : of)?.dataset;
  return data ? [data.path, data.paths, data.passed, data.ended].map(ranges) : [];
};
for (const event of ["pointerover", "focusin"])
  document.addEventListener(event, there => light(pathsOf(there.target)));
addEventListener("hashchange", () => light(pathsOf(document.getElementById(location.hash.slice(1)))));
