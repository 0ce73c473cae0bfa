"use strict";
// Recomputes the chains of a page from the lines that it shows: each line is the one before less a multiple of one equation between
// words, and the first less the last one is what the chain is of. Words have no identities here. Letters are told by how they are
// written; where two are written alike nothing is said.

const Shown = (() => {
  const SMALL = "alpha beta gamma delta epsilon zeta eta theta iota kappa lambda mu nu xi pi rho sigma tau upsilon phi chi psi omega";
  const NAMES = `${SMALL} Gamma Delta Theta Lambda Xi Pi Sigma Upsilon Phi Psi Omega`.split(" ");
  const GREEK = Object.fromEntries(NAMES.map((name, number) => [name, [..."αβγδεζηθικλμνξπρστυφχψωΓΔΘΛΞΠΣΥΦΨΩ"][number]]));

  // How a letter is written, without its marks.
  function written(name) {
    const bare = name.replace(/[[\]']/g, ""), [, base, index] = /^(\p{L}+)_?([0-9]*|.*)$/u.exec(bare) || ["", bare, ""];
    return `${name[0] === "[" ? "1" : ""}${GREEK[base] || base}${index}${name.endsWith("'") ? "∗" : ""}`;
  }

  class Chains {
    constructor(problem) {
      this.problem = problem;
      const code = (letter) => (letter < problem.objectCount ? "" : String.fromCharCode(letter + 1));
      this.codes = new Map(problem.names.map((name, letter) => [written(name), code(letter)]));
      const isPower = (text) => problem.language === 2 && /[0-9]$/.test(text) && this.codes.has(text.replace(/[0-9]+$/, ""));
      this.isClear = this.codes.size === problem.names.length && ![...this.codes.keys()].some(isPower);
    }
    bare(poly) {
      const total = new Map();
      const isMap = (code) => code.charCodeAt(0) > this.problem.objectCount;
      for (const [word, value] of poly) add(total, [...word].filter(isMap).join(""), value);
      return total;
    }
    // The letters that a piece of a line stands for.
    letters(piece) {
      if (this.codes.has(piece)) return this.codes.get(piece);
      const [, base, count] = /^\(?(.*?)\)?([0-9]+)$/.exec(piece) || [];
      if (base === undefined || !this.codes.has(base)) throw new Error(piece);
      return this.codes.get(base).repeat(Number(count));
    }
    // The sum that a line says.
    sum(text) {
      const total = new Map(), terms = text.trim().replace(/^−/, "− ").split(/(?:^| )([+−]) /);
      for (let at = terms[0] === "" ? 1 : 0; at < terms.length; at += at ? 2 : 1) {
        const sign = at && terms[at] === "−" ? -1n : 1n, pieces = terms[at ? at + 1 : 0].split(/\s+/);
        const isScaled = /^[0-9]+$/.test(pieces[0]), size = isScaled ? BigInt(pieces.shift()) : 1n;
        add(total, pieces.map((piece) => this.letters(piece)).join(""), sign * size);
      }
      return total;
    }
  }

  function add(total, word, value) {
    const sum = (total.get(word) || 0n) + value;
    if (sum) total.set(word, sum);
    else total.delete(word);
  }
  function less(left, right) {
    const total = new Map(left);
    for (const [word, value] of right) add(total, word, -value);
    return total;
  }

  // Whether the sum is an integer times the polynomial between two words.
  function isMultiple(sum, poly) {
    if (sum.size !== poly.size || !poly.size) return false;
    const [middle, unit] = [...poly].reduce((one, other) => (other[0].length > one[0].length ? other : one));
    for (const [word, value] of sum)
      for (let at = word.indexOf(middle); at >= 0 && value % unit === 0n; at = at < word.length ? word.indexOf(middle, at + 1) : -1) {
        const left = word.slice(0, at), right = word.slice(at + middle.length), times = value / unit;
        if ([...poly].every(([other, factor]) => sum.get(left + other + right) === times * factor)) return true;
      }
    return false;
  }
  const isScaled = (sum, poly, scale) => less(sum, new Map([...poly].map(([word, value]) => [word, scale * value]))).size === 0;

  // How many steps a proof has, each recomputed, or an error with the first that isn't right. `within` are its chains, in their order,
  // and lines on letters that are taken off; the last chain is of the claim.
  function recomputed(problem, block, parts) {
    const chains = new Chains(problem), lemmas = new Map();
    let count = 0;
    const used = (link) => {
      const [, kind, name] = /^#(?:(a)|.*-l)([0-9]+)$/.exec(link.getAttribute("href"));
      if (!kind) return lemmas.get(link.getAttribute("href").slice(1));
      const poly = problem.assumptions[Number(name) - 1];
      return chains.bare(link.textContent.endsWith("∗") ? problem.adjoint(poly) : poly);
    };
    for (const { id, scale, lines, off } of parts) {
      if (off) {
        lemmas.set(id, stripped(chains, block, off, used(off.querySelector("a"))));
        continue;
      }
      const sums = lines.map((line) => chains.sum(line.querySelector(".w").textContent));
      lines.slice(1).forEach((line, at) => {
        count++;
        if (!isMultiple(less(sums[at], sums[at + 1]), used(line.querySelector(".by")))) throw new Error(`step ${count}`);
      });
      const whole = less(sums[0], sums[sums.length - 1]);
      if (id) {
        if (block.denominator % scale || [...whole.values()].some((value) => value % scale)) throw new Error(id);
        lemmas.set(id, new Map([...whole].map(([word, value]) => [word, value / scale])));
      } else {
        const claim = chains.bare(problem.claims[Number(block.claim) - 1]), times = block.items[block.items.length - 1].scale;
        if (!isScaled(whole, claim, times) && !isScaled(whole, claim, -times)) throw new Error("the ends of the chain");
      }
    }
    return count;
  }

  // The polynomial of an earlier one without a letter that is declared, as a line says it.
  function stripped(chains, block, off, poly) {
    const [left, right] = off.querySelector(".w").textContent.split(" = ").map((side) => chains.sum(side));
    const isLeft = /monic$/.test(off.textContent), said = less(left, right);
    const ends = new Set([...poly.keys()].map((word) => word[isLeft ? 0 : word.length - 1]));
    if (!isScaled(said, poly, 1n) && !isScaled(said, poly, -1n)) throw new Error(off.textContent);
    if (ends.size > 1 || ![...ends].every((code) => block[isLeft ? "monic" : "epic"].includes(code))) throw new Error(off.textContent);
    return new Map([...said].map(([word, value]) => [isLeft ? word.slice(1) : word.slice(0, -1), value]));
  }

  // Says in a page how many steps behind the sign of a block were recomputed; null where letters are written alike or there is no chain.
  function check(problem, block, place) {
    const parts = [];
    for (let at = place.nextElementSibling; at && !at.classList.contains("check"); at = at.nextElementSibling) {
      const chain = at.matches(".chain") ? at : at.querySelector(".chain"), scale = BigInt(at.dataset.scale || 1);
      if (chain) parts.push({ id: at === chain ? "" : at.id, scale, lines: [...chain.querySelectorAll(".step")] });
      else if (at.matches(".lemma")) parts.push({ id: at.id, off: at.querySelector(".off") });
    }
    return parts.length && new Chains(problem).isClear ? recomputed(problem, block, parts) : null;
  }

  return { check };
})();
