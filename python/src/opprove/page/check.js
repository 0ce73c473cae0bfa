"use strict";
// Checks what opprove finds, in a page or by node: node check.js check|model|confirm|cancel STATEMENT EVIDENCE
//
// Prints the report of that command of opprove, byte for byte, with its status. It is written from docs/FORMATS.md, shares nothing
// with the program or its other checkers, and loads nothing. Numbers are BigInt. Names are those of the Unicode of its engine.
//
// A word is a string with one character for each letter, a polynomial a Map of words with their coefficients, none of which is 0.
// What is wrong is thrown as a Refusal, which has the line that opprove prints.

const Opprove = (() => {
  // Limits, as docs/FORMATS.md lists them.
  const NUMBER_LIMIT = 2n ** 32n - 1n, INTEGER_LIMIT = 2n ** 127n - 1n, MODULUS_LIMIT = 2n ** 31n - 1n;
  const WORD_LIMIT = 500, TERM_LIMIT = 20000, ROW_LIMIT = 200000, LETTER_LIMIT = 1000000, BLOCK_LIMIT = 100;
  const SUM_LIMIT = 200000, KEPT_LIMIT = 1000000, RULE_LIMIT = 100000, STEP_LIMIT = 1000000, SIDE_LIMIT = 64;
  const NAME_LIMIT = 32, BRACKET_LIMIT = 64, FILE_LIMITS = [2 ** 20, 2 ** 26];
  const limitsOf = (language) => ({ object: 64, map: language === 2 ? 1000 : 200, order: 1, assumption: 500, claim: 100, shape: 16 });
  const MODULI = [2n, 3n, 5n, 7n, 101n, 32003n, 65537n];

  class Refusal { constructor(line) { this.line = line; } }
  const refuse = (line) => { throw new Refusal(line); };

  // ---- Texts
  // How many bytes at the front are UTF-8: as far as the text that is made of them is theirs.
  function validLength(bytes) {
    let at = 0;
    for (const sign of new TextDecoder("utf-8", { ignoreBOM: true }).decode(bytes)) {
      const own = new TextEncoder().encode(sign);
      if (own.some((byte, place) => byte !== bytes[at + place])) return at;
      at += own.length;
    }
    return at;
  }

  // The lines of a text, or the refusal that `notUtf8` gives for the number of valid bytes.
  function linesOf(bytes, notUtf8) {
    try {
      return new TextDecoder("utf-8", { fatal: true, ignoreBOM: true }).decode(bytes).split(/\r?\n/);
    } catch (error) {
      return refuse(notUtf8(validLength(bytes)));
    }
  }

  const NAME = /^[\p{XID_Start}_]\p{XID_Continue}*$/u;
  const byteLength = (text) => new TextEncoder().encode(text).length;
  const isName = (text) => text.length <= NAME_LIMIT && NAME.test(text) && byteLength(text) <= NAME_LIMIT;
  // The value of decimal digits, or one above all limits where there are more than these have.
  const valueOf = (digits) => {
    const short = digits.replace(/^0+/, "");
    return short.length > 39 ? INTEGER_LIMIT + 1n : BigInt(short || "0");
  };
  const isWithin = (value, limit) => (value < 0n ? -value : value) <= limit;

  // ---- Words and polynomials
  // Canonically: by length, and then letter by letter.
  const compare = (left, right) => left.length - right.length || (left < right ? -1 : left > right ? 1 : 0);
  const descending = (poly) => [...poly].sort((left, right) => compare(right[0], left[0]));
  const longestOf = (words) => [...words].reduce((most, word) => Math.max(most, word.length), 0);
  const least = (words) => words.reduce((one, other) => (compare(other, one) < 0 ? other : one));
  const greatest = (words, order) => words.reduce((one, other) => (order(other, one) > 0 ? other : one));
  const isEqual = (left, right, sign) => left.size === right.size && [...left].every(([word, value]) => right.get(word) === sign * value);

  // What stops arithmetic: a number that is too large, a word or a sum that is too long, or too many steps.
  class Stop { constructor(kind, text) { Object.assign(this, { kind, text }); } }
  const stop = (kind, text) => { throw new Stop(kind, text); };
  // What the work gives; where it stops, what is made of that.
  function within(work, told) {
    try {
      return work();
    } catch (fault) {
      if (fault instanceof Stop) return told(fault);
      throw fault;
    }
  }

  function checkSize(letters, terms) {
    if (letters > WORD_LIMIT) stop("size", `letters ${WORD_LIMIT}`);
    if (terms > TERM_LIMIT) stop("size", `terms ${TERM_LIMIT}`);
  }
  const made = (value, ...operation) => (isWithin(value, INTEGER_LIMIT) ? value : stop("overflow", operation.join(" ")));
  const times = (left, right) => made(left * right, left, "times", right);
  const plus = (left, right) => made(left + right, left, "plus", right);
  function addTerm(total, word, coefficient) {
    const value = plus(total.get(word) || 0n, coefficient);
    if (value) total.set(word, value); else total.delete(word);
  }
  // Adds factor * left * terms * right, term by term, each product before its sum.
  function addRow(total, factor, left, terms, right) {
    for (const [word, coefficient] of terms) addTerm(total, left + word + right, times(factor, coefficient));
  }
  // Makes total + sign * poly in the place of the total.
  function combine(total, poly, sign) {
    for (const [word, coefficient] of poly) addTerm(total, word, sign * coefficient);
    checkSize(0, total.size);
    return total;
  }

  function product(left, right) {
    const total = new Map(), longest = longestOf(right.keys());
    for (const [word, coefficient] of left.size > 1 ? descending(left) : left) {
      if (right.size) checkSize(word.length + longest, 0);
      combine(total, [...right].map(([other, factor]) => [word + other, times(coefficient, factor)]), 1n);
    }
    return total;
  }

  function power(base, exponent) {
    const [[word, coefficient] = ["", 2n]] = base, isShort = isWithin(coefficient, 1n) && word.length * exponent <= WORD_LIMIT;
    if (base.size === 1 && isShort) return new Map([[word.repeat(exponent), coefficient ** BigInt(exponent)]]);
    let total = base;
    for (let count = 1; count < exponent && base.size; count++) total = product(total, base);
    return total;
  }

  // ---- Statements: tokens, and the grammar
  const TOKEN = /([ \t]+|#[^]*)|([0-9]+)|(->|[:=+\-()[\]'^])|([\p{XID_Start}_]\p{XID_Continue}*)/uy;
  const refuseAt = (code, { line, source, at }, more = "") =>
    refuse(`# refused ${code} line ${line} column ${[...source.slice(0, at)].length + 1}${more}`);

  // The tokens of a line, and behind the last an "end"; of kind "name", "literal" or the sign itself.
  function tokensOf(source, line, language) {
    const tokens = [];
    let end = 0;
    for (let at = 0; at < source.length; at = TOKEN.lastIndex) {
      TOKEN.lastIndex = at;
      const [text, gap, digits, sign, name] = TOKEN.exec(source) || [];
      const token = { line, source, at, text, kind: digits ? "literal" : sign || "name", value: digits && valueOf(digits) };
      if (!text || (sign === "^" && language === 1) || (name && byteLength(name) > NAME_LIMIT)) refuseAt("S2", token);
      if (digits && token.value > INTEGER_LIMIT) refuseAt("S4", token);
      if (gap) continue;
      tokens.push(token);
      end = TOKEN.lastIndex;
    }
    return tokens.length ? [...tokens, { line, source, at: end, text: "", kind: "end" }] : tokens;
  }

  // How lines go on behind their first word.
  const SHAPES = {
    object: (line) => line.some("new object"),
    map: (line) => {
      line.some("new map");
      for (const kind of [":", "name", "->", "name"]) line.take(kind, kind === "name" ? "object" : "");
      if (line.is("name")) line.take("name", "self", ["self"]);
    },
    assume: (line) => line.equation(), claim: (line) => line.equation(),
    pinv: (line) => line.maps(2), inverse: (line) => line.maps(2), inner: (line) => line.maps(2), projection: (line) => line.maps(1),
    order: (line) => line.take("name", "way", ["degree", "weight"]).text === "weight" && line.some("map", "weight"),
    solve: (line) => line.some("map"), eliminate: (line) => line.some("map"),
    model: (line) => line.take("literal", "modulus") && line.is("name") && line.some("object", "side"),
  };
  const WORDS = { 2: Object.keys(SHAPES), 1: Object.keys(SHAPES).filter((word) => word !== "eliminate") };

  // A line of a statement as it is read. Its tokens have roles; its equation is two trees, in which a product and a sum are one node each.
  class Line {
    constructor(tokens) { Object.assign(this, { tokens, at: 0, roles: [], sides: [], depth: 0 }); }
    get next() { return this.tokens[this.at]; }
    is(...kinds) { return kinds.includes(this.next.kind); }
    withRole(role) { return this.roles.filter((found) => found.role === role).map((found) => found.token); }
    // Takes a token of this kind, if it is one of the words, where there are any.
    take(kind, role = "", words = null) {
      const token = this.next;
      if (token.kind !== kind || (words && !words.includes(token.text))) refuseAt("S3", token);
      this.at++;
      if (role) this.roles.push({ token, role });
      return token;
    }
    // One or more names in a role, each with a literal behind it where that has one.
    some(role, behind = "") {
      do {
        this.take("name", role);
        if (behind) this.take("literal", behind);
      } while (this.is("name"));
    }
    maps(count) { while (count--) this.take("name", "map"); }
    read(language) {
      this.word = this.take("name", "word", WORDS[language]);
      SHAPES[this.word.text](this);
      this.take("end");
      return this;
    }
    equation() {
      this.sides = [this.sum(), this.take("=") && this.sum()];
    }
    sum() {
      const first = this.next, terms = [];
      while (!terms.length || this.is("+", "-")) {
        const isNegative = this.is("-");
        if (this.is("+", "-")) this.at++;
        terms.push({ ...this.term(), isNegative });
      }
      return { first, terms };
    }
    term() {
      const first = this.next, factors = [], literal = this.is("literal") ? this.take("literal").value : 1n;
      while (this.is("name", "[", "(") || (!factors.length && literal)) factors.push(this.factor());
      return { first, literal, factors };
    }
    factor() {
      const first = this.next, factor = { first, marks: [] }, kind = this.is("(", "[") ? this.take(first.kind).kind : "";
      if (kind === "(") {
        if (++this.depth > BRACKET_LIMIT) refuseAt("S5", first);
        factor.sum = this.sum();
        this.take(")");
        this.depth--;
      } else factor.name = this.take("name", kind ? "object" : "map").text;
      if (kind === "[") factor.name = `[${factor.name}${this.take("]").text}`;
      while (this.is("'", "^")) {
        const mark = this.take(this.next.kind);
        factor.marks.push({ mark, exponent: mark.kind === "^" ? this.take("literal", "exponent").value : 0n });
      }
      return factor;
    }
  }

  // ---- Statements: names and letters
  // The equations of abbreviations: a and x are the maps that are named, and a leads from S to T.
  const ABBREVIATIONS = {
    pinv: (a, x) => [`${a} ${x} ${a} = ${a}`, `${x} ${a} ${x} = ${x}`, `(${a} ${x})' = ${a} ${x}`, `(${x} ${a})' = ${x} ${a}`],
    inverse: (a, x, S, T) => [`${a} ${x} = [${T}]`, `${x} ${a} = [${S}]`],
    inner: (a, x) => [`${a} ${x} ${a} = ${a}`],
    projection: (p) => [`${p} ${p} = ${p}`, `${p}' = ${p}`],
  };
  // What a file may have only so many of: what a word begins, and how many.
  const COUNTS = {
    "new object": ["object", 1], "new map": ["map", 1], order: ["order", 1], eliminate: ["order", 1], claim: ["claim", 1],
    assume: ["assumption", 1], pinv: ["assumption", 4], inverse: ["assumption", 2], inner: ["assumption", 1], projection: ["assumption", 2],
    model: ["shape", 1],
  };
  const RANGES = { weight: 1000n, side: 6n, exponent: 500n };
  const LISTS = ["order", "eliminate", "solve", "model"]; // in which no name stands twice
  const checkRange = (role, token) => {
    if (role === "modulus" ? !MODULI.includes(token.value) : token.value < 1n || token.value > RANGES[role]) refuseAt("S16", token);
  };

  // Throws the first fault of names, literals and counts, token by token and each by its codes.
  function checkNames(lines, language) {
    const limits = limitsOf(language), counts = {}, first = new Map(); // the declarations of names
    for (const { token, role } of lines.flatMap((line) => line.roles))
      if (role.startsWith("new ") && !first.has(token.text)) first.set(token.text, { token, kind: role.slice(4) });
    const is = (token, kind) => first.has(token.text) && first.get(token.text).kind === kind;
    for (const line of lines) {
      const [source, target] = line.withRole("object"), listed = new Set();
      const isBetween = line.withRole("self").length && is(source, "object") && is(target, "object") && source.text !== target.text;
      for (const { token, role } of line.roles) {
        const isNew = role.startsWith("new "), isUsed = role === "object" || role === "map";
        const [kind, more] = COUNTS[role === "word" ? token.text : role] || [""];
        if (isUsed && !is(token, role)) refuseAt("S6", token);
        if (isNew ? first.get(token.text).token !== token : isUsed && listed.has(token.text)) refuseAt("S7", token);
        if (isUsed && LISTS.includes(line.word.text)) listed.add(token.text);
        if (kind && (counts[kind] = (counts[kind] || 0) + more) > limits[kind])
          refuseAt(...(kind === "order" ? ["S7", token] : ["S8", token, ` limit ${limits[kind]}`]));
        if (role === "new map" && isBetween) refuseAt("S9", token);
        if (token.kind === "literal") checkRange(role, token);
      }
    }
  }

  const isSame = (one, other) => one[0] === other[0] && one[1] === other[1];
  const letterCode = (letter) => String.fromCharCode(letter + 1);
  const numberOf = (code) => code.charCodeAt(0) - 1;

  // What a statement says: `names`, `stars` and `ends` (source and target) of each letter by its number, and `assumptions`, `claims`
  // and `generators` as polynomials.
  class Problem {
    constructor(bytes) {
      const lines = [];
      Object.assign(this, { language: 1, marked: new Set(), assumptions: [], claims: [] });
      linesOf(bytes, (valid) => `# refused S1 byte ${valid}`).forEach((text, number) => {
        const tokens = tokensOf(text, number + 1, this.language), [word, literal] = tokens;
        if (!lines.length && tokens.length === 3 && word.text === "language" && literal.value === 2n) this.language = 2;
        if (tokens.length) lines.push(tokens);
      });
      this.lines = lines.slice(this.language - 1).map((tokens) => new Line(tokens).read(this.language));
      checkNames(this.lines, this.language);
      this.declareAll();
      const equations = this.lines.flatMap((line) => this.sidesOf(line).map((sides) => ({ first: line.word, sides })));
      for (const { sides } of equations) this.checkEquation(sides);
      for (const { first, sides } of equations) {
        const fault = ({ kind }) => refuseAt(kind === "overflow" ? "S13" : "S14", first), [left, right] = sides;
        const poly = within(() => combine(this.sum(left), this.sum(right), -1n), fault);
        (first.text === "claim" ? this.claims : this.assumptions).push(poly);
      }
      if (!this.claims.length) refuse("# refused S15");
      this.generators = this.closed();
    }
    // Numbers the letters: objects first, and then maps, each with its adjoint behind it, unless it is its own one.
    declareAll() {
      Object.assign(this, { names: [], stars: [], ends: [], numbers: new Map() });
      const has = (line, role) => line.withRole(role).length > 0, first = () => this.names.length;
      for (const { text } of this.lines.flatMap((line) => line.withRole("new object"))) this.declare(`[${text}]`, [first(), first()], true);
      this.objectCount = first();
      for (const line of this.lines) {
        const ends = has(line, "new map") ? line.withRole("object").map(({ text }) => this.numbers.get(`[${text}]`)) : [];
        for (const { text } of line.withRole("new map")) this.declare(text, ends, has(line, "self"));
      }
      const isStarred = (line) => ["pinv", "projection"].includes(line.word.text) || line.tokens.some(({ kind }) => kind === "'");
      this.isStarred = this.lines.some((line) => isStarred(line) || has(line, "self"));
    }
    declare(name, ends, isSelf) {
      const first = this.names.length, star = isSelf ? first : first + 1;
      this.names.push(...(isSelf ? [name] : [name, `${name}'`]));
      this.stars.push(...(isSelf ? [first] : [star, first]));
      this.ends.push(...(isSelf ? [ends] : [ends, [ends[1], ends[0]]]));
      this.numbers.set(name, first).set(`${name}'`, star);
    }
    // The pairs of sides of the equations that a line stands for. Those of an abbreviation have the place of its first word.
    sidesOf(line) {
      const { text, source, at } = line.word, write = ABBREVIATIONS[text], maps = line.withRole("map").map((token) => token.text);
      if (!write) return line.sides.length ? [line.sides] : [];
      const ends = this.ends[this.numbers.get(maps[0])].map((end) => this.names[end].slice(1, -1));
      return write(maps[0], maps[maps.length - 1], ...ends).map((written) => {
        const read = new Line(tokensOf(written, line.word.line, 1).map((token) => ({ ...token, source, at })));
        read.equation();
        return read.sides;
      });
    }
    // Signatures are a source and a target each, or null where the expression is open.
    arrows(left, right) {
      const shown = (ends) => ends.map((end) => this.names[end].slice(1, -1)).join(" -> ");
      return ` left ${shown(left)} right ${shown(right)}`;
    }
    checkEquation([left, right]) {
      const one = this.sumSignature(left), other = this.sumSignature(right);
      if (!one && !other) refuseAt("S12", left.first);
      if (one && other && !isSame(one, other)) refuseAt("S11", right.first, this.arrows(one, other));
    }
    sumSignature({ terms }) {
      return terms.map((term) => this.termSignature(term)).reduce((found, signature, number) => {
        if (found && signature && !isSame(found, signature)) refuseAt("S11", terms[number].first, this.arrows(found, signature));
        return found || signature;
      }, null);
    }
    termSignature({ factors }) {
      return factors.map((factor) => this.factorSignature(factor)).reduce((found, signature, number) => {
        if (!signature && factors.length > 1) refuseAt("S12", factors[number].first);
        if (number && found[0] !== signature[1]) refuseAt("S10", factors[number].first, this.arrows(found, signature));
        return number ? [signature[0], found[1]] : signature;
      }, null);
    }
    factorSignature(factor) {
      let found = factor.sum ? this.sumSignature(factor.sum) : this.ends[this.numbers.get(factor.name)];
      for (const { mark, exponent } of factor.marks) {
        if (exponent > 1n && !found) refuseAt("S12", factor.first);
        if (exponent > 1n && found[0] !== found[1]) refuseAt("S10", mark, this.arrows(found, found));
        if (!exponent && found) found = [found[1], found[0]];
      }
      return found;
    }
    sum({ terms }) {
      const polys = terms.map((term) => this.term(term));
      return polys.reduce((total, poly, number) => combine(total, poly, terms[number].isNegative ? -1n : 1n), new Map());
    }
    term({ literal, factors }) {
      const polys = factors.map((factor) => this.factor(factor));
      const poly = polys.length ? polys.reduce((left, right) => product(left, right)) : new Map();
      return new Map(literal ? [...poly].map(([word, value]) => [word, times(literal, value)]) : []);
    }
    factor({ sum, name, marks }) {
      if (!sum && name[0] === "[") this.marked.add(this.numbers.get(name));
      const start = sum ? this.sum(sum) : new Map([[letterCode(this.numbers.get(name)), 1n]]);
      return marks.reduce((poly, { exponent }) => (exponent ? power(poly, Number(exponent)) : this.adjoint(poly)), start);
    }
    adjoint(poly) {
      const star = (word) => [...word].reverse().map((code) => letterCode(this.stars[numberOf(code)])).join("");
      return new Map([...poly].map(([word, value]) => [star(word), value]));
    }
    // The generators: assumptions, their adjoints, and relations of identities.
    closed() {
      const found = [...this.assumptions], isNew = (poly, star) => !isEqual(poly, star, 1n) && !isEqual(poly, star, -1n);
      for (const poly of this.isStarred ? this.assumptions : []) if (isNew(poly, this.adjoint(poly))) found.push(this.adjoint(poly));
      const relate = (left, right) => found.push(new Map([[left, 1n], [right, -1n]]));
      for (const unit of [...this.marked].sort((one, other) => one - other)) {
        const code = letterCode(unit);
        relate(code + code, code);
        this.ends.forEach(([source, target], letter) => {
          if (letter < this.objectCount || (!this.isStarred && this.stars[letter] < letter)) return;
          if (target === unit) relate(code + letterCode(letter), letterCode(letter));
          if (source === unit) relate(letterCode(letter) + code, letterCode(letter));
        });
      }
      return found;
    }
    text(word) { return [...word].map((code) => this.names[numberOf(code)]).join(" "); }
    // A polynomial as it is written, the greatest word first.
    polyText(poly) {
      const texts = descending(poly).map(([word, value]) => {
        const size = value < 0n ? -value : value;
        return `${value < 0n ? "-" : "+"} ${size === 1n ? "" : `${size} `}${this.text(word)}`;
      });
      return texts.join(" ").replace(/^\+ /, "") || "0";
    }
    // Source and target of a path, or null.
    signature(word) {
      const ends = [...word].map((code) => this.ends[numberOf(code)]);
      return ends.every((end, number) => !number || ends[number - 1][0] === end[1]) ? [ends[ends.length - 1][0], ends[0][1]] : null;
    }
    // Whether all words are paths with the same ends.
    isTyped(poly) {
      const signatures = [...poly.keys()].map((word) => this.signature(word));
      return signatures.every((signature) => signature && isSame(signature, signatures[0]));
    }
  }

  // ---- Evidence text
  const isLetter = (token) => {
    const bare = token.endsWith("'") ? token.slice(0, -1) : token;
    return isName(bare.length > 1 && bare[0] === "[" && bare.endsWith("]") ? bare.slice(1, -1) : bare);
  };
  const isWritten = (token) => (token[0] === "[" ? token.endsWith("]") && isName(token.slice(1, -1)) : isName(token.replace(/'$/, "")));

  // The blocks of a kind in an evidence text; a kind reads what stands between the head of a block and its end.
  class Reader {
    constructor(problem, bytes, kind, formats, others) {
      Object.assign(this, { problem, kind, formats, others, lines: linesOf(bytes, () => "# refused K1"), number: 0, letters: new Map() });
      this.advance();
    }
    // Goes to the next line that isn't skipped, with one blank between its tokens; at the end it is empty.
    advance() {
      this.line = "";
      while (!this.line && this.number < this.lines.length) {
        const tokens = this.lines[this.number++].match(/[();=]|[^ \t();=]+/g);
        if (tokens && tokens[0][0] !== "#") this.line = tokens.join(" ");
      }
    }
    begins(...words) { return words.includes(this.line.split(" ", 1)[0]); }
    need(isMet, code, more = "") {
      if (!isMet) refuse(this.line ? `# refused ${code} line ${this.number}${more}` : "# refused K6");
    }
    limit(count, most) { this.need(count <= most, "K5", ` limit ${most}`); }
    // What the line has in the groups of a pattern that it has to fit.
    match(pattern) {
      const found = pattern.exec(this.line);
      this.need(found, "K2");
      return found.slice(1);
    }
    blocks() {
      const found = [];
      while (this.line) {
        const [word, format, more] = this.line.split(" "), isOwn = word === this.kind;
        this.need(isOwn ? this.formats.includes(format) && more === undefined : this.others.includes(word), "K2");
        if (isOwn) this.limit(found.length + 1, BLOCK_LIMIT);
        this.advance();
        if (isOwn) found.push(this.read(format));
        while (!isOwn && this.line !== "end") {
          this.need(this.line, "K6");
          this.advance();
        }
        this.match(/^end$/);
        this.advance();
      }
      return found.length ? found : refuse("# refused K7");
    }
    // The number behind words.
    takeNumber(words, limit, leastValue = 0n) {
      const [before, digits] = this.match(/^(.*) ([0-9]+)$/), value = valueOf(digits);
      this.need(before === words && value >= leastValue, "K2");
      this.need(value <= limit, "K4");
      this.advance();
      return value;
    }
    // The code of a letter; empty where it isn't declared, and null where the token has no letter's form.
    formOf(token) {
      if (!this.letters.has(token)) {
        const letter = isLetter(token) ? this.problem.numbers.get(token) : null;
        this.letters.set(token, letter === null ? null : letter === undefined ? "" : letterCode(letter));
      }
      return this.letters.get(token);
    }
  }

  class Certificates extends Reader {
    read(format) {
      const block = this.head();
      while (format === "2" && this.begins("lemma")) block.items.push(this.lemma(block.items.length + 1));
      block.items.push(format === "2" ? this.goal() : { scale: block.denominator, rows: this.rows(false) });
      return block;
    }
    head() {
      Object.assign(this, { rowCount: 0, letterCount: 0 });
      const claim = this.takeNumber("claim", NUMBER_LIMIT), denominator = this.takeNumber("denominator", INTEGER_LIMIT);
      return { claim, denominator, items: [], monic: [], epic: [] };
    }
    lemma(wanted) {
      const [number, scale] = this.match(/^lemma ([0-9]+) scale ([0-9]+)$/).map(valueOf);
      this.need(number === BigInt(wanted), "K2");
      this.need(scale <= INTEGER_LIMIT, "K4");
      this.limit(wanted, ROW_LIMIT);
      this.advance();
      return { scale, rows: this.rows(true) };
    }
    goal() { return { scale: this.takeNumber("goal scale", INTEGER_LIMIT), rows: this.rows(true) }; }
    rows(hasLemmas) {
      const rows = [];
      while (this.begins("row")) rows.push(this.row(hasLemmas));
      return rows;
    }
    row(hasLemmas) {
      const [sign, digits, front, lemma, at, behind] = this.match(/^row (-?)([0-9]+) \( ([^)]*)\) (lemma )?([0-9]+) \( ([^)]*)\)$/);
      const words = [front, behind].map((text) => text.split(" ").slice(0, -1).map((token) => this.formOf(token)));
      this.need((hasLemmas || !lemma) && !words.some((word) => word.includes(null)), "K2");
      this.need(!words.some((word) => word.includes("")), "K3");
      const [left, right] = words, size = valueOf(digits), number = valueOf(at), coefficient = sign ? -size : size;
      this.need(size <= INTEGER_LIMIT && number <= NUMBER_LIMIT, "K4");
      this.limit(Math.max(left.length, right.length), WORD_LIMIT);
      this.limit(++this.rowCount, ROW_LIMIT);
      this.limit((this.letterCount += left.length + right.length), LETTER_LIMIT);
      this.advance();
      return { coefficient, left: left.join(""), isLemma: Boolean(lemma), number: Number(number), right: right.join("") };
    }
  }

  class Cancellations extends Certificates {
    read() {
      const block = this.head();
      while (this.begins("monic", "epic")) {
        const [word, name] = this.match(/^(monic|epic) ([^ ]+)$/);
        block[word].push(this.mapLetter(name, block[word]));
        this.advance();
      }
      while (this.begins("lemma", "cancel")) {
        const number = block.items.length + 1;
        block.items.push(this.begins("lemma") ? this.lemma(number) : this.cancel(number));
      }
      block.items.push(this.goal());
      return block;
    }
    cancel(wanted) {
      const [number, name, side, item] = this.match(/^cancel ([0-9]+) ([^ ]+) (left|right) ([0-9]+)$/);
      this.need(valueOf(number) === BigInt(wanted), "K2");
      const letter = this.mapLetter(name, []);
      this.need(valueOf(item) <= NUMBER_LIMIT, "K4");
      this.limit(wanted, ROW_LIMIT);
      this.advance();
      return { letter, isLeft: side === "left", item: Number(valueOf(item)) };
    }
    // That of a map or of its adjoint, which is none of these.
    mapLetter(name, others) {
      const letter = this.formOf(name);
      this.need(letter !== null && name[0] !== "[" && !others.includes(letter), "K2");
      this.need(letter !== "", "K3");
      return letter;
    }
  }

  class Models extends Reader {
    read() {
      const claim = this.takeNumber("claim", NUMBER_LIMIT), modulus = this.takeNumber("modulus", MODULUS_LIMIT, 2n), names = new Set();
      const model = { claim, modulus, sides: new Array(this.problem.objectCount).fill(1), maps: new Map() };
      for (; this.begins("side", "map"); this.advance()) {
        const isSide = this.begins("side");
        const [name, text] = this.match(isSide ? /^side ([^ ]+) (0*[1-9][0-9]*)$/ : /^map ([^ ]+) = ([0-9]+(?: (?:; )?[0-9]+)*)$/);
        const rows = text.split(" ; ").map((row) => row.split(" "));
        this.need(isName(name) && !names.has(name) && rows.every((row) => row.length === rows[0].length), "K2");
        const letter = this.problem.numbers.get(isSide ? `[${name}]` : name);
        this.need(letter !== undefined, "K3");
        this.need(isSide || rows.every((row) => row.every((entry) => valueOf(entry) < modulus)), "K4");
        this.limit(isSide ? valueOf(text) : Math.max(rows.length, rows[0].length), SIDE_LIMIT);
        if (isSide) model.sides[letter] = Number(text);
        else model.maps.set(letter, rows.map((row) => row.map(Number)));
        names.add(name);
      }
      return model;
    }
  }

  class Bases extends Reader {
    read() {
      const claim = this.takeNumber("claim", NUMBER_LIMIT), rules = [];
      while (this.begins("rule")) rules.push(this.polynomial(/^rule (.+)$/, rules.length + 1));
      return { claim, rules, rest: this.polynomial(/^rest (.+)$/, 0) };
    }
    // That of a line behind its word: first its form counts, then names, how they are written, numbers, and sizes.
    polynomial(pattern, number) {
      const [text] = this.match(pattern), terms = /^0+$/.test(text) ? [] : this.terms(text.split(" "));
      const letters = terms.flatMap((term) => term.letters), { names, numbers } = this.problem;
      this.need(letters.every((letter) => numbers.has(letter)), "K3");
      const words = terms.map((term) => term.letters.map((letter) => letterCode(numbers.get(letter))).join(""));
      const isDescending = words.every((one, at) => !at || compare(one, words[at - 1]) < 0);
      this.need(letters.every((letter) => names[numbers.get(letter)] === letter) && isDescending, "K2");
      this.need(terms.every((term) => isWithin(term.coefficient, INTEGER_LIMIT)), "K4");
      this.limit(words.length, TERM_LIMIT);
      this.limit(longestOf(words), WORD_LIMIT);
      this.limit(number, RULE_LIMIT);
      this.advance();
      return new Map(words.map((one, at) => [one, terms[at].coefficient]));
    }
    terms(tokens) {
      const pieces = tokens[0] === "-" ? [] : [{ sign: 1n, letters: [] }];
      for (const token of tokens) {
        if (token === "+" || token === "-") pieces.push({ sign: token === "-" ? -1n : 1n, letters: [] });
        else pieces[pieces.length - 1].letters.push(token);
      }
      return pieces.map(({ sign, letters }) => {
        const size = /^[0-9]+$/.test(letters[0]) ? valueOf(letters.shift()) : null;
        this.need(letters.length && letters.every(isWritten) && (size === null || size > 1n), "K2");
        return { coefficient: sign * (size || 1n), letters };
      });
    }
  }

  // ---- What is said of certificates, and of proofs that cancel
  const hasClaim = (problem, { claim }) => claim >= 1n && claim <= BigInt(problem.claims.length);

  // Throws the first test of the items and of the goal that fails.
  function judgeRows(problem, block, refused) {
    const { denominator, items } = block, goal = items[items.length - 1], sums = new Sums(problem, block, refused), want = new Map();
    if (!hasClaim(problem, block)) refuse(`${refused} C1`);
    if (!denominator || items.some((item) => item.scale === 0n)) refuse(`${refused} C3`);
    const uneven = items.findIndex((item) => item.scale && denominator % item.scale);
    if (uneven >= 0) refuse(`${refused} C10 lemma ${(uneven + 1) % items.length}`);
    sums.addTo(want, goal.scale, "", problem.claims[Number(block.claim) - 1], "");
    for (const item of items.slice(0, -1)) sums.keep(item.rows ? sums.divided(item) : sums.stripped(item));
    const got = sums.sum(goal), words = [...want.keys(), ...got.keys()].filter((word) => want.get(word) !== got.get(word));
    const granted = ["monic", "epic"].filter((kind) => block[kind].length).map((kind) => ` ${kind} ${problem.text(block[kind].join(""))}`);
    if (!words.length) return `accepted claim ${block.claim} denominator ${denominator}${granted.join("")}`;
    const word = least(words);
    return refuse(`${refused} C6 word ${problem.text(word)} want ${want.get(word) || 0n} got ${got.get(word) || 0n}`);
  }

  // The polynomials of items, one after another.
  class Sums {
    constructor(problem, block, refused) {
      Object.assign(this, { problem, block, refused, row: 0, kept: 0, polys: [], ordered: new Map() });
    }
    keep(poly) {
      this.polys.push(poly);
      if ((this.kept += poly.size) > KEPT_LIMIT) refuse(`${this.refused} C11 row ${this.row} limit ${KEPT_LIMIT}`);
    }
    addTo(total, factor, left, poly, right) {
      if (!this.ordered.has(poly)) this.ordered.set(poly, descending(poly));
      const work = () => addRow(total, factor, left, this.ordered.get(poly), right);
      within(work, ({ text }) => refuse(`${this.refused} C4 row ${this.row} ${text}`));
    }
    sum({ rows }) {
      const total = new Map();
      for (const { coefficient, left, isLemma, number, right } of rows) {
        const polys = isLemma ? this.polys : this.problem.generators;
        this.row++;
        if (number < 1 || number > polys.length) refuse(`${this.refused} ${isLemma ? "C7" : "C2"} row ${this.row}`);
        this.addTo(total, coefficient, left, polys[number - 1], right);
        if (total.size > SUM_LIMIT) refuse(`${this.refused} C5 row ${this.row} limit ${SUM_LIMIT}`);
      }
      return total;
    }
    // The polynomial of a lemma.
    divided(item) {
      const total = this.sum(item), { scale } = item, at = `lemma ${this.polys.length + 1}`;
      const rests = [...total.keys()].filter((word) => total.get(word) % scale);
      if (rests.length) refuse(`${this.refused} C8 ${at} word ${this.problem.text(least(rests))} got ${total.get(least(rests))}`);
      if (total.size > TERM_LIMIT || longestOf(total.keys()) > WORD_LIMIT) refuse(`${this.refused} C9 ${at}`);
      return new Map([...total].map(([word, value]) => [word, value / scale]));
    }
    // The polynomial of an earlier item, with the letter off each word.
    stripped({ letter, isLeft, item }) {
      const at = `item ${this.polys.length + 1}`, poly = this.polys[item - 1];
      const isWhole = (word) => word.length === 1 || word[isLeft ? 0 : word.length - 1] !== letter;
      if (!poly) refuse(`${this.refused} X1 ${at}`);
      if (!this.block[isLeft ? "monic" : "epic"].includes(letter)) refuse(`${this.refused} X2 ${at}`);
      if (!this.problem.isTyped(poly)) refuse(`${this.refused} X3 ${at}`);
      if ([...poly.keys()].some(isWhole)) refuse(`${this.refused} X4 ${at}`);
      return new Map([...poly].map(([word, value]) => [isLeft ? word.slice(1) : word.slice(0, -1), value]));
    }
  }

  // ---- What is said of models

  function judgeModel(problem, model, refused) {
    if (!hasClaim(problem, model)) refuse(`${refused} M1`);
    problem.names.forEach((name, letter) => {
      const matrix = model.maps.get(letter), [source, target] = problem.ends[letter], star = problem.stars[letter];
      if (letter < problem.objectCount || star < letter) return;
      if (!matrix) refuse(`${refused} M2 map ${name}`);
      if (matrix.length !== model.sides[target] || matrix[0].length !== model.sides[source]) refuse(`${refused} M3 map ${name}`);
      const isSymmetric = () => matrix.every((row, i) => row.every((entry, j) => entry === matrix[j][i]));
      if (star === letter && !isSymmetric()) refuse(`${refused} M6 map ${name}`);
    });
    const matrices = new Matrices(problem, model), wrong = problem.assumptions.findIndex((poly) => !matrices.isZero(poly));
    if (wrong >= 0) refuse(`${refused} M4 assumption ${wrong + 1}`);
    if (matrices.isZero(problem.claims[Number(model.claim) - 1])) refuse(`${refused} M5`);
    return `confirmed claim ${model.claim}`;
  }

  const transpose = (matrix) => matrix[0].map((_, column) => matrix.map((row) => row[column]));
  const identity = (side) => Array.from({ length: side }, (_, i) => Array.from({ length: side }, (__, j) => Number(i === j)));

  // The matrices of all letters in a model that has one of the right sides for each declared map. Entries are numbers below the modulus.
  class Matrices {
    constructor(problem, { modulus, sides, maps }) {
      this.modulus = Number(modulus);
      // Products below 2^53 are exact.
      this.times = this.modulus <= 2 ** 26 ? (x, y) => (x * y) % this.modulus : (x, y) => Number((BigInt(x) * BigInt(y)) % modulus);
      const matrix = (letter, star) => (letter < sides.length ? identity(sides[letter]) : maps.get(letter) || transpose(maps.get(star)));
      this.letters = problem.stars.map((star, letter) => matrix(letter, star));
    }
    product(left, right) {
      const columns = transpose(right), entry = (row, column) => row.reduce((sum, one, at) => sum + this.times(one, column[at]), 0);
      return left.map((row) => columns.map((column) => entry(row, column) % this.modulus));
    }
    isZero(poly) {
      const total = [];
      for (const [word, coefficient] of poly) {
        const modulus = BigInt(this.modulus), factor = Number(((coefficient % modulus) + modulus) % modulus);
        const matrix = [...word].map((code) => this.letters[numberOf(code)]).reduce((left, right) => this.product(left, right));
        matrix.flat().forEach((entry, at) => { total[at] = ((total[at] || 0) + this.times(factor, entry)) % this.modulus; });
      }
      return total.every((entry) => entry === 0);
    }
  }

  // ---- What is said of bases
  const divisor = (one, other) => (other ? divisor(other, one % other) : one < 0n ? -one : one);

  // The order of words of a file: by what letters count for, and then canonically.
  function orderOf(problem) {
    const line = problem.lines.find((found) => found.word.text === "eliminate" || found.withRole("weight").length);
    if (!line) return compare;
    const weights = line.withRole("weight"), measures = problem.names.map(() => Number(weights.length > 0));
    line.withRole("map").forEach(({ text }, at) => {
      const letter = problem.numbers.get(text);
      measures[letter] = measures[problem.stars[letter]] = weights.length ? Number(weights[at].value) : 1;
    });
    const measure = (word) => [...word].reduce((sum, code) => sum + measures[numberOf(code)], 0);
    return (left, right) => measure(left) - measure(right) || compare(left, right);
  }

  // Puts a word to its place among words that ascend.
  function insert(words, word, order) {
    let [low, high] = [0, words.length];
    while (low < high) {
      const middle = (low + high) >> 1;
      if (order(words[middle], word) < 0) low = middle + 1;
      else high = middle;
    }
    words.splice(low, 0, word);
  }

  // Rules by which words are replaced.
  class Rules {
    constructor(order, polys) {
      this.order = order;
      this.rules = polys.map((poly) => {
        const words = [...poly.keys()], lead = greatest(words, order);
        return { lead, leading: poly.get(lead), terms: descending(poly), longest: longestOf(words) };
      });
      this.numbers = new Map(); // of each leading word, the least number of a rule
      this.rules.forEach(({ lead }, number) => this.numbers.has(lead) || this.numbers.set(lead, number));
      this.lengths = [...new Set(this.rules.map(({ lead }) => lead.length))];
    }
    // The rule of the least number whose leading word occurs in the word, with its leftmost place, or null.
    match(word) {
      let found = null;
      for (const length of this.lengths)
        for (let at = 0; at + length <= word.length; at++) {
          const number = this.numbers.get(word.slice(at, at + length));
          if (number !== undefined && (!found || number < found.number)) found = { number, at };
        }
      return found;
    }
    // The normal form of a polynomial; each step, which is a rule, a word and a place, is told before it is made.
    normalForm(poly, tell = () => {}) {
      let total = new Map(poly), multiplier = 1n, shares = [];
      const waiting = [...total.keys()].sort(this.order); // words that may be replaced, among some that are gone
      while (waiting.length) {
        const word = waiting.pop(), found = total.has(word) && this.match(word);
        if (!found) continue;
        if (shares.length === STEP_LIMIT) stop("steps", String(STEP_LIMIT));
        tell({ ...found, word, total });
        const { lead, leading, terms, longest } = this.rules[found.number];
        const left = word.slice(0, found.at), right = word.slice(found.at + lead.length);
        const common = divisor(total.get(word), leading), by = leading / common, share = total.get(word) / common;
        if (by !== 1n) {
          multiplier = times(multiplier, by);
          total = new Map(descending(total).map(([other, value]) => [other, times(value, by)]));
          shares = shares.map((before) => times(before, by));
        }
        for (const [other, value] of terms.map(([middle, factor]) => [left + middle + right, -times(share, factor)])) {
          if (!total.has(other)) insert(waiting, other, this.order);
          addTerm(total, other, value);
        }
        checkSize(left.length + longest + right.length, total.size);
        shares.push(share);
      }
      return total;
    }
    // All ambiguities in their order: the least overlap word first.
    ambiguities() {
      const found = [], beginnings = new Map(), wholes = new Map(), KEYS = ["first", "second", "isInclusion", "at"];
      const put = (map, key, number) => (map.has(key) ? map.get(key).push(number) : map.set(key, [number]));
      this.rules.forEach(({ lead }, number) => {
        put(wholes, lead, number);
        for (let length = 1; length < lead.length; length++) put(beginnings, lead.slice(0, length), number);
      });
      this.rules.forEach(({ lead }, first) => {
        for (let at = 1; at < lead.length; at++)
          for (const second of beginnings.get(lead.slice(at)) || [])
            found.push({ word: lead.slice(0, at) + this.rules[second].lead, first, second, isInclusion: 0, at });
        for (const length of this.lengths)
          for (let at = 0; at + length <= lead.length; at++)
            for (const second of wholes.get(lead.slice(at, at + length)) || [])
              if (second !== first) found.push({ word: lead, first, second, isInclusion: 1, at });
      });
      return found.sort((one, other) => this.order(one.word, other.word) || KEYS.reduce((sum, key) => sum || one[key] - other[key], 0));
    }
    sPolynomial({ word, first, second, at }) {
      const pair = [this.rules[first], this.rules[second]], [one, other] = pair, common = divisor(one.leading, other.leading);
      const sides = [["", word.slice(one.lead.length)], [word.slice(0, at), word.slice(at + other.lead.length)]];
      const factors = [other.leading / common, -(one.leading / common)];
      pair.forEach(({ longest }, number) => checkSize(sides[number].join("").length + longest, 0));
      const parts = pair.map(({ terms }, number) => {
        const [left, right] = sides[number];
        return terms.map(([middle, value]) => [left + middle + right, times(factors[number], value)]);
      });
      return combine(new Map(parts[0]), parts[1], 1n);
    }
  }

  function judgeBasis(problem, basis, refused) {
    const order = orderOf(problem), content = (poly) => [...poly.values()].reduce(divisor, 0n);
    const isRule = (poly) => content(poly) === 1n && poly.get(greatest([...poly.keys()], order)) > 0n;
    if (!hasClaim(problem, basis)) refuse(`${refused} B1`);
    const bad = basis.rules.findIndex((poly) => !isRule(poly));
    if (bad >= 0) refuse(`${refused} B2 rule ${bad + 1}`);
    const rules = new Rules(order, basis.rules);
    const stopped = (part) => ({ kind, text }) => refuse(`${refused} B7 ${part} ${kind} ${text}`);
    const restOf = (part, poly) => within(() => rules.normalForm(poly()), stopped(part));
    const needZero = (code, part, poly) => {
      const rest = restOf(part, poly);
      if (rest.size) refuse(`${refused} ${code} ${part} rest ${problem.polyText(rest)}`);
    };
    problem.generators.forEach((poly, number) => needZero("B3", `generator ${number + 1}`, () => poly));
    for (const found of rules.ambiguities()) {
      const part = `${found.isInclusion ? "inclusion" : "overlap"} ${found.first + 1} ${found.second + 1} ${found.at}`;
      needZero("B4", part, () => rules.sPolynomial(found));
    }
    const rest = restOf("claim", () => problem.claims[Number(basis.claim) - 1]);
    if (!isEqual(rest, basis.rest, 1n)) refuse(`${refused} B5 got ${problem.polyText(rest)}`);
    return rest.size ? `closed claim ${basis.claim}${isSharp(problem, basis) ? " sharp" : ""}` : refuse(`${refused} B6`);
  }

  // Whether the words of each rule are paths with the same ends, and their letters in play.
  function isSharp(problem, basis) {
    const { objectCount, marked, isStarred, stars } = problem;
    const isInPlay = (letter) => (letter < objectCount ? marked.has(letter) : isStarred || stars[letter] >= letter);
    return basis.rules.every((poly) => problem.isTyped(poly) && [...[...poly.keys()].join("")].every((code) => isInPlay(numberOf(code))));
  }

  // ---- Reports
  // Of each command: what reads its blocks and judges them, their word and formats, and the words of blocks that are skipped.
  const COMMANDS = {
    check: [Certificates, judgeRows, "certificate", ["1", "2"], ["model", "basis"]],
    model: [Models, judgeModel, "model", ["1"], ["certificate", "basis"]],
    confirm: [Bases, judgeBasis, "basis", ["1"], ["certificate", "model", "cancellation"]],
    cancel: [Cancellations, judgeRows, "cancellation", ["1"], ["certificate", "model", "basis"]],
  };

  // The blocks of a command in an evidence text, in turn up to the first that is refused: each with its line and status, what was read,
  // and the milliseconds that its test took. A fault of either text stands alone, without a block.
  function* judged(command, statement, evidence) {
    const [Kind, judge, ...words] = COMMANDS[command];
    let start = performance.now(), block = null, number = 0;
    const told = (line, status, problem) => ({ line, status, problem, block, milliseconds: performance.now() - start });
    try {
      const problem = new Problem(statement);
      for (block of new Kind(problem, evidence, ...words).blocks()) {
        const head = `# block ${++number}`;
        start = performance.now();
        yield told(`${head} ${judge(problem, block, `${head} refused`)}`, 0, problem);
      }
    } catch (refusal) {
      if (!(refusal instanceof Refusal)) throw refusal;
      yield told(refusal.line, refusal.line.startsWith("# refused S") ? 3 : 7);
    }
  }

  // The lines of the report, and its status.
  function report(command, statement, evidence) {
    const found = [...judged(command, statement, evidence)];
    return { lines: found.map(({ line }) => line), status: found[found.length - 1].status };
  }
  return { Problem, Rules, COMMANDS, FILE_LIMITS, judged, report, orderOf };
})();

if (typeof module === "object") module.exports = Opprove;
if (typeof require === "function" && require.main === module) {
  const [command, ...paths] = process.argv.slice(2), commands = Object.keys(Opprove.COMMANDS);
  const load = (path) => {
    try { return require("fs").readFileSync(path); } catch (error) { return null; }
  };
  const files = paths.map(load), isLong = (bytes, number) => bytes !== null && bytes.length > Opprove.FILE_LIMITS[number];
  const missing = files.indexOf(null), long = files.findIndex(isLong);
  let answer = { status: 2, lines: [`# usage: check.js ${commands.join("|")} STATEMENT EVIDENCE`] };
  if (commands.includes(command) && paths.length === 2) {
    if (missing >= 0) answer = { status: 4, lines: [`# load failed ${paths[missing]}`] };
    else if (long >= 0) answer = { status: 4, lines: [`# too long ${paths[long]} limit ${Opprove.FILE_LIMITS[long]}`] };
    else answer = Opprove.report(command, ...files);
  }
  process.exitCode = answer.status;
  process.stdout.on("error", () => { process.exitCode = 5; }).write(answer.lines.map((line) => `${line}\n`).join(""));
}
