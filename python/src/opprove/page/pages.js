"use strict";
// The box of the index leaves the theorems that have all words which are typed, or an equation or a map of the shape that is typed, or
// its text.

(() => {
  const NAME = /^[\p{L}_]/u, TOKENS = /[\p{L}_][\p{L}\p{N}_]*|->|\d+|\S/gu;
  const box = document.getElementById("find"), count = document.getElementById("count");

  // Names numbered as they come, so that a x a = a and b y b = b are of one shape; identities are 1.
  function shape(text) {
    const names = new Map();
    const number = (name) => names.get(name) || names.set(name, `@${names.size + 1}`).get(name);
    return (text.replace(/\[[^\]]*\]/g, "1").match(TOKENS) || []).map((token) => (NAME.test(token) ? number(token) : token)).join(" ");
  }

  // An equation is the same read from the right.
  const turned = (text) => text.split("=").reverse().join(" = ");

  const theorems = [...document.querySelectorAll(".theorem")].map((element) => {
    const lines = element.dataset.shapes.split("\n");
    return { element, text: [element.textContent, element.dataset.said, ...lines].join("\n").toLowerCase(), shapes: new Set(lines.map(shape)) };
  });

  function asks(part) {
    const words = part.toLowerCase().split(/\s+/).filter(Boolean);
    if (!/=|->/.test(part)) return ({ text }) => words.every((word) => text.includes(word));
    const wanted = [shape(part), shape(turned(part))];
    return ({ text, shapes }) => wanted.some((each) => shapes.has(each)) || text.includes(part.trim().toLowerCase());
  }

  function find() {
    const tests = box.value.split(",").filter((part) => part.trim()).map(asks);
    let left = 0;
    for (const theorem of theorems) {
      const isLeft = tests.every((test) => test(theorem));
      theorem.element.hidden = !isLeft;
      left += isLeft;
    }
    for (const section of document.querySelectorAll("section")) section.hidden = !section.querySelector(".theorem:not([hidden])");
    const all = `${theorems.length} theorem${theorems.length === 1 ? "" : "s"}`;
    count.textContent = tests.length ? `${left} of ${all}` : all;
  }

  document.querySelector(".find").hidden = false;
  box.addEventListener("input", find);
  find();
})();
