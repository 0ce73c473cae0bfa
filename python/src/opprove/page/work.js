"use strict";
// The page to work in: an editor whose first fault is marked, and runs of the program, which the server starts and ends.

(() => {
  const part = (name) => document.getElementById(name);
  const text = part("statement"), colours = part("colours"), fault = part("fault");
  const PAUSES = { typed: 250, asked: 300 }; // milliseconds
  let marked = null, looks = 0, timer = 0, run = 0, examples = {};

  const ask = async (word, sent) => {
    const answer = await fetch(word, sent ? { method: "POST", body: JSON.stringify(sent) } : {});
    if (!answer.ok) throw new Error((await answer.text()).trim());
    return answer.json();
  };

  // ---- The editor

  const WORDS = ("language object map assume claim pinv inverse inner projection order solve model eliminate "
    + "define equivalent let use outer reflexive weighted group drazin core dual along bc bott hermitian normal unitary isometry partial ep "
    + "idempotent commute orthogonal range kernel").split(" ");
  const TOKENS = /(#.*)|([\p{XID_Start}_]\p{XID_Continue}*)|([0-9]+)|([^\s])|(\s+)/gu;

  // A line of the statement, in the colours of its tokens, with the fault where it is.
  function coloured(line, column) {
    const shown = document.createElement("span");
    let at = 1, isFirst = true, isMet = false;
    const add = (kind, signs, isBad) => {
      const className = isBad ? `${kind} bad` : kind;
      shown.append(Object.assign(document.createElement("span"), { className, textContent: signs }));
    };
    for (const [signs, comment, name, number, sign] of line.matchAll(TOKENS)) {
      const isWord = name && isFirst && WORDS.includes(name), length = [...signs].length;
      const kind = comment ? "comment" : isWord ? "word" : number ? "number" : sign ? "sign" : "";
      const isBad = column >= at && column < at + length;
      isMet = isMet || isBad;
      add(kind, signs, isBad);
      if (signs.trim()) isFirst = false;
      at += length;
    }
    if (column && !isMet) add("", " ", true);
    if (column) shown.className = "bad-line";
    return shown;
  }

  function paint() {
    const column = (number) => (marked && marked.line === number ? marked.column : 0);
    colours.replaceChildren(...text.value.split("\n").map((line, number) => coloured(line, column(number + 1))));
    scroll();
  }

  function scroll() {
    colours.scrollTop = text.scrollTop;
    colours.scrollLeft = text.scrollLeft;
  }

  // ---- Looks at what is typed

  async function look() {
    const number = ++looks;
    try {
      const { fault: found, shown, trouble } = await ask("look", { statement: text.value });
      if (number !== looks) return; // as more was typed since
      marked = found || null;
      fault.className = shown ? "fine" : "";
      const place = found && found.line ? `Line ${found.line}, column ${found.column}: ` : "";
      fault.textContent = found ? `${place}${found.told}` : trouble || "No fault.";
      if (shown) part("glance").innerHTML = shown; // which the server wrote, with all names escaped
      paint();
    } catch (error) {
      if (number === looks) fault.textContent = String(error.message);
    }
  }

  // The address keeps the statement, as the bytes of its text.
  function kept(value) {
    const bytes = btoa(String.fromCharCode(...new TextEncoder().encode(value)));
    return bytes.replace(/\+/g, "-").replace(/\//g, "_").replace(/=+$/, "");
  }
  function said(hash) {
    const bytes = atob(hash.replace(/-/g, "+").replace(/_/g, "/"));
    return new TextDecoder().decode(Uint8Array.from(bytes, (sign) => sign.charCodeAt(0)));
  }

  function typed() {
    marked = null;
    paint();
    clearTimeout(timer);
    timer = setTimeout(() => {
      if (text.value.length < 30000) history.replaceState(null, "", `#${kept(text.value)}`);
      look();
    }, PAUSES.typed);
  }

  function put(value) {
    text.value = value.replace(/\r\n?/g, "\n");
    typed();
  }

  function fromAddress() {
    try {
      if (location.hash.length > 1) return put(said(location.hash.slice(1))) || true;
    } catch (error) {
      fault.textContent = "What stands behind # in the address is no statement.";
    }
    return false;
  }

  // ---- Runs

  const number = (name) => Number(part(name).value);
  const ENDS = { stop: "stopped", time: "ended, as its time was over", end: "ended with the server" };
  const STATUSES = {
    0: "each claim is proved", 6: "no memory", 10: "some claim isn’t derivable", 11: "some claim is refuted",
    12: "some claim is undecided",
  };

  async function begin(word, sent) {
    if (run) return;
    try {
      part("result").hidden = true;
      part("told").hidden = true;
      ({ run } = await ask(word, { statement: text.value, ...sent }));
      busy(true);
      await follow(run);
    } catch (error) {
      part("run").textContent = String(error.message);
    }
    run = 0;
    busy(false);
  }

  function busy(isBusy) {
    part("stop").disabled = !isBusy;
    part("prove").disabled = part("search").disabled = isBusy;
  }

  async function follow(asked) {
    for (;;) {
      const { going, seconds, bytes, told, status, ended } = await ask(`state/${asked}`);
      const memory = bytes ? `, ${Math.round(bytes / 1e6)} MB` : "";
      part("told").textContent = told.join("\n");
      part("told").hidden = !told.length;
      if (going) part("run").textContent = `Running: ${seconds.toFixed(1)} s${memory}`;
      else return shown(asked, seconds, status, ended);
      await new Promise((done) => setTimeout(done, PAUSES.asked));
    }
  }

  async function shown(asked, seconds, status, ended) {
    const how = ended ? ENDS[ended] : STATUSES[status] || (status < 0 ? `ended by signal ${-status}, as by a limit` : `status ${status}`);
    part("run").textContent = `${seconds.toFixed(1)} s: ${how}.`;
    if (ended || ![0, 10, 11, 12].includes(status)) return;
    part("whole").href = `page/${asked}`;
    part("view").src = `page/${asked}`;
    part("result").hidden = false;
  }

  // ---- What is clicked and typed

  // A place of the statement leads to its line in the editor, where it has that line.
  part("glance").addEventListener("click", (event) => {
    const place = event.target.closest(".place"), lines = text.value.split("\n"), number = place ? Number(place.hash.slice(2)) : 0;
    if (!place) return;
    event.preventDefault();
    if (number > lines.length) return;
    const start = lines.slice(0, number - 1).reduce((sum, line) => sum + line.length + 1, 0);
    text.focus();
    text.setSelectionRange(start, start + lines[number - 1].length);
  });
  text.addEventListener("input", typed);
  text.addEventListener("scroll", scroll);
  window.addEventListener("hashchange", fromAddress);
  part("budgets").addEventListener("submit", (event) => {
    event.preventDefault();
    const budgets = Object.fromEntries(["pairs", "steps", "seed", "format"].map((name) => [name, number(name)]));
    begin("prove", { ...budgets, models: part("models").checked });
  });
  part("search").addEventListener("click", () => begin("search", { seconds: number("seconds") }));
  part("stop").addEventListener("click", () => ask("stop", { run }).catch((error) => { part("run").textContent = String(error.message); }));
  part("gallery").addEventListener("change", ({ target }) => { if (target.value) put(examples[target.value]); });
  part("open").addEventListener("click", () => part("file").click());
  part("file").addEventListener("change", async ({ target }) => { if (target.files[0]) put(await target.files[0].text()); });
  part("save").addEventListener("click", () => {
    const href = URL.createObjectURL(new Blob([text.value]));
    const isStatement = /^(object|language)\b/.test(text.value.replace(/#.*/g, "").trim());
    const link = Object.assign(document.createElement("a"), { download: isStatement ? "statement.op" : "statement.opn", href });
    link.click();
    URL.revokeObjectURL(link.href);
  });

  ask("gallery").then(({ statement, gallery }) => {
    examples = gallery;
    part("gallery").append(...Object.keys(gallery).map((name) => new Option(name.replace(/_/g, " "), name)));
    if (!fromAddress()) put(statement);
  });
})();
