"use strict";
// What a page does where scripts run: it checks its own bytes, leads along the steps of proofs by keys, folds lemmas, and reduces words.

(() => {
  const found = (selector, within = document) => [...within.querySelectorAll(selector)];
  const element = (name, text = "", kind = "") => Object.assign(document.createElement(name), { textContent: text, className: kind });

  // ---- The bytes of the page, and what the checker says of them

  const bytesOf = (link) => Uint8Array.from(atob(link.getAttribute("href").split(",")[1]), (sign) => sign.charCodeAt(0));
  const statement = bytesOf(found(".statement.file")[0]);
  const reports = found(".report.file").map(bytesOf);
  const bases = new Map(); // of each report and block, what the box reduces by

  const time = (milliseconds) => (milliseconds < 1 ? "under 1 ms" : `${Math.round(milliseconds)} ms`);

  // Says at each block of a command what the checker found. A fault of the text, or a refusal, stands for all blocks that follow.
  function check(report, command) {
    const judged = [...Opprove.judged(command, statement, reports[report])], last = judged[judged.length - 1];
    const places = found(`.check[data-report="${report}"][data-command="${command}"]`);
    for (const place of places) {
      const number = Number(place.dataset.block), { line, status, milliseconds, block, problem } = judged[number - 1] || last;
      const isRight = number <= judged.length && status === 0 && line.startsWith(`# block ${number} `);
      const steps = isRight ? recomputed(problem, block, place) : { isRight, told: "" }, told = element("code", line);
      place.className = `check ${steps.isRight ? "right" : "wrong"}`;
      const more = isRight ? `, ${time(milliseconds)}${steps.told}` : "";
      place.replaceChildren(isRight ? "Checked in this page: " : "Refused in this page: ", told, more);
      if (isRight && command === "confirm") bases.set(`${report} ${number}`, { block, problem });
    }
    return places.length ? places.filter((place) => place.classList.contains("right")).length : 0;
  }

  // Whether the steps that the page shows behind the sign of a block are right, and what is said of them.
  function recomputed(problem, block, place) {
    try {
      const count = block.items ? Shown.check(problem, block, place) : null;
      const said = count === 1 ? "; the step shown was recomputed" : `; the ${count} steps shown were recomputed`;
      return { isRight: true, told: count ? said : "" };
    } catch (fault) {
      return { isRight: false, told: `; what is shown is not a proof: ${fault.message}` };
    }
  }

  function checkAll() {
    const places = found(".check[data-command]"), start = performance.now(), box = document.getElementById("checked");
    const calls = new Set(places.map((place) => `${place.dataset.report} ${place.dataset.command}`));
    let right = 0;
    for (const [report, command] of [...calls].map((call) => call.split(" "))) right += check(Number(report), command);
    const left = places.length - right, isRight = !left, blocks = `${places.length} block${places.length === 1 ? "" : "s"} of evidence`;
    const all = places.length === 1 ? "which is" : "all", refused = `${left} ${left === 1 ? "isn’t" : "aren’t"} accepted`;
    box.className = !places.length ? "" : isRight ? "right" : "wrong";
    if (!places.length) box.textContent = "This page has no evidence that it checks itself.";
    else if (isRight) box.textContent = `Checked in this page: ${blocks}, ${all} accepted, ${time(performance.now() - start)}.`;
    else box.textContent = `Refused: of ${blocks} ${refused}. What stands below is not what the bytes of this page show.`;
  }

  // ---- Steps by keys

  // One step of a chain is a stop of the Tab key; arrows, Home and End lead to the others.
  function lead(chain) {
    const stops = found(".by", chain);
    stops.forEach((stop, number) => { stop.tabIndex = number ? -1 : 0; });
    chain.addEventListener("keydown", (event) => {
      const at = stops.indexOf(document.activeElement), last = stops.length - 1;
      const next = { ArrowDown: Math.min(at + 1, last), ArrowUp: Math.max(at - 1, 0), Home: 0, End: last }[event.key];
      if (at < 0 || next === undefined) return;
      event.preventDefault();
      for (const stop of stops) stop.tabIndex = -1;
      stops[next].tabIndex = 0;
      stops[next].focus();
    });
  }

  // The assumption or the lemma that a step uses is lit while the step is looked at.
  function light(step, isLit) {
    const target = document.getElementById(step.querySelector(".by").getAttribute("href").slice(1));
    if (target) target.classList.toggle("used", isLit);
  }

  function listen(kinds, isLit) {
    for (const kind of kinds)
      document.addEventListener(kind, (event) => {
        const step = event.target.closest && event.target.closest(".step");
        if (step && step.querySelector(".by")) light(step, isLit);
      });
  }

  // ---- Folds

  function fold(button) {
    const lemmas = found(".lemma", button.closest(".claim"));
    button.closest(".folds").hidden = false;
    button.addEventListener("click", () => {
      const isOpen = lemmas.some((lemma) => lemma.open);
      for (const lemma of lemmas) lemma.open = !isOpen;
      button.textContent = isOpen ? "Unfold lemmas" : "Fold lemmas";
    });
  }

  let folded = []; // for a while, as all of a page is printed
  window.addEventListener("beforeprint", () => {
    folded = found("details:not([open])");
    for (const each of folded) each.open = true;
  });
  window.addEventListener("afterprint", () => {
    for (const each of folded) each.open = false;
  });

  // ---- Words that are reduced

  const STEPS = 200; // that are shown
  const FAULTS = {
    S2: "begins no letter", S3: "doesn’t fit: letters have blanks between them", S6: "isn’t declared",
    S10: "doesn’t compose with what stands before it", S11: "has other ends than what stands before it",
    S12: "has no ends: a 0 by itself", S16: "is an exponent beyond 500",
  };

  // The polynomial that the text stands for, as a claim of the statement would.
  function polyOf(text) {
    const line = `\nclaim ${text.replace(/[\r\n]/g, " ")} = 0\n`;
    return new Opprove.Problem(new Uint8Array([...statement, ...new TextEncoder().encode(line)])).claims.pop();
  }

  // What is wrong with the text: its column is that of the claim, less its first word.
  function wrong(fault, text) {
    if (fault.text) return `Stopped: ${fault.kind} ${fault.text}`;
    const [, code, column] = /^# refused (S[0-9]+)(?: line [0-9]+ column ([0-9]+))?/.exec(fault.line) || [];
    const behind = [...text].slice(Number(column) - 7).join("").trim().split(/\s/)[0];
    return `${behind || "The end"} ${FAULTS[code] || `is refused: ${fault.line || fault}`}.`;
  }

  function reduced({ block, problem }, text) {
    const rules = new Opprove.Rules(Opprove.orderOf(problem), block.rules), shown = element("ol", "", "steps");
    let count = 0, by = "";
    const add = (poly) => {
      const item = element("li");
      item.append(element("span", problem.polyText(poly), "w"), element("span", by, "place"));
      if (++count <= STEPS) shown.append(item);
    };
    const rest = rules.normalForm(polyOf(text), ({ number, word, total }) => {
      add(total);
      by = `by rule ${number + 1}, ${problem.text(rules.rules[number].lead)} in ${problem.text(word)}`;
    });
    add(rest);
    const many = `${count - 1} steps, of which ${STEPS - 1} are shown; what is left: ${problem.polyText(rest)}`;
    return [shown, element("p", count > STEPS ? many : count === 1 ? "No rule replaces a part of it." : "")];
  }

  function box(form) {
    const input = form.querySelector("input"), output = form.querySelector("output");
    const basis = bases.get(`${form.dataset.report} ${form.dataset.block}`);
    if (!basis) return;
    form.hidden = false;
    form.addEventListener("submit", (event) => {
      event.preventDefault();
      try {
        output.replaceChildren(...reduced(basis, input.value));
      } catch (fault) {
        output.replaceChildren(element("p", wrong(fault, input.value), "wrong"));
      }
    });
  }

  checkAll();
  found(".chain").forEach(lead);
  listen(["mouseover", "focusin"], true);
  listen(["mouseout", "focusout"], false);
  found(".fold").forEach(fold);
  found(".reduce").forEach(box);
})();
