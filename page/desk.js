// What the desk is asked, and what it answers.

export const STATES = ['open', 'assigned', 'submitted', 'adjudicated', 'released', 'withdrawn'];

/** The events that each state takes. Who may ask for them is for the desk to say; `mayAsk` only hints at it. */
export const EVENTS = {
  open: ['assign', 'withdraw'],
  assigned: ['submit', 'unassign', 'withdraw'],
  submitted: ['adjudicate', 'send-back', 'withdraw'],
  adjudicated: ['release', 'withdraw'],
  released: ['withdraw'],
  withdrawn: ['reopen'],
};

const ONLY_THE_WORKER = ['submit', 'unassign'];
const NEVER_THE_WORKER = ['adjudicate', 'send-back'];

/** Why the desk is likely to refuse this event to this user, or the empty text. */
export function mayAsk(event, worker, user) {
  if (ONLY_THE_WORKER.includes(event) && user !== worker) return `only ${worker} may: whoever assigned the batch`;
  if (NEVER_THE_WORKER.includes(event) && user === worker) return 'not you: you worked on it';
  return '';
}

/** Why the desk is likely to refuse a correction to this user, or the empty text. */
export function mayCorrect(state, worker, user) {
  if (state === 'assigned') return user === worker ? '' : `while the batch is assigned, only ${worker} may correct it`;
  if (state === 'submitted') return user === worker ? 'it is submitted: others correct it now' : '';
  return `nobody may correct what is ${state}`;
}

export const COLUMNS = ['ID', 'FORM', 'LEMMA', 'UPOS', 'XPOS', 'FEATS', 'HEAD', 'DEPREL', 'DEPS', 'MISC'];
export const TAGS = 'ADJ ADP ADV AUX CCONJ DET INTJ NOUN NUM PART PRON PROPN PUNCT SCONJ SYM VERB X'.split(' ');
export const RELATIONS = ('acl advcl advmod amod appos aux case cc ccomp clf compound conj cop csubj dep det discourse '
  + 'dislocated expl fixed flat goeswith iobj list mark nmod nsubj nummod obj obl orphan parataxis punct reparandum '
  + 'root vocative xcomp').split(' ');
export const LONGEST_BODY = 4194304;

// ---- refusals in words
//
// The words are those of the guide, and so of the program at a terminal. What names a command there, after a
// semicolon, is left out. tools/page compares each of them with docs/guide: one text on a line.

/** By what comes after `refused` (docs/guide/HTTP.md). */
const WORDS = {
  '1 BadName': 'the name of a batch or a user is 1 to 32 letters, digits, dots, underscores and hyphens',
  '2 NoSuchBatch': 'no batch has this name',
  '3 NoSuchSentence': 'no sentence has this number; they are counted from 1, in the order in which they were imported',
  '5 NotYours': 'only the user who works on the batch may do this, its worker',
  '6 OwnWork': 'the user who works on the batch may not do this, but anyone else',
  '7 Stale': 'it was corrected since',
  '10 Empty': 'the input has no sentence',
  '11 NotOne': 'a correction is one sentence; the input has more',
  '12 SentIdChanged': 'a correction keeps the sent_id',
  '13 TextChanged': 'a correction keeps the text',
  '14 NothingChanged': 'this is the sentence as it is',
  '15 NameTaken': 'another batch has this name, with other sentences; choose another name',
  '16 SentIdTaken': 'a sentence of the desk has its sent_id; give it another one, or correct that sentence',
  '17 Full': 'the desk is full',
  '18 NoSuchRevision': 'the sentence has no revision with this number',
  '20 Pulled': 'the sentence is pulled already',
  '21 NotPulled': 'the sentence is not pulled',
  '22 TooManyHits': 'the query has more hits by `every` than are answered; ask by longest or shortest',
  long: 'the input has more than 4,194,304 bytes: cut it at blank lines',
  device: "the desk's file could not be read or written; see whether its disk is full, and ask again",
  memory: 'there is not enough memory; end other programs and try again',
  desk: 'a row of the desk does not have its form; another program changed the file, so restore a backup',
};
const NO_SUCH_SENT_ID = 'no sentence has this sent_id; copy it from the comment of the sentence, or from the start of a keyword line';

/** Of `4 WrongState` for a correction, and for a sentence that is pulled or restored (docs/guide/HTTP.md). */
const WRONG_STATE = {
  correct: 'a sentence is corrected while it is assigned, by its worker, or submitted, by anyone else',
  pull: 'sentences of a withdrawn batch are not pulled or restored',
};

/** What may follow in a state, after an event that was done or refused (docs/guide/HTTP.md). */
const NEXT = {
  open: 'next: assign, by whoever will work on it; or withdraw, by anyone',
  assigned: 'next: corrections, then submit, or unassign, by its worker; or withdraw, by anyone',
  submitted: 'next: corrections, then adjudicate, or send-back, by anyone but its worker; or withdraw, by anyone',
  adjudicated: 'next: release or withdraw, by anyone',
  released: 'its sentences are searched, counted and exported; next: withdraw, by anyone',
  withdrawn: 'next: reopen, by anyone',
};

/** What no answer at a terminal has (docs/guide/PAGE.md). */
const OF_A_REQUEST = {
  host: 'the page was asked for under a name that is not this computer',
  origin: 'a page from elsewhere has sent this',
  head: 'the request is none, or its head is too long',
  length: 'the request does not have the length of its body',
  path: 'the desk has no such path',
  method: 'this path takes another method',
  body: 'the body broke off, or its query is not UTF-8',
};

/** Of `8 Read`, by its code: the line has it where .. (docs/guide/FORMAT.md). */
const CODES = [
  'its bytes are not UTF-8',
  'its text is not in normalization form C',
  'it holds U+0000 to U+001F other than tab',
  'a word line has not ten fields, or an empty one; one tab separates fields',
  'its first field is not `n`, `n-m` or `i.k` with n, m and k at least 1',
  'a field other than FORM, LEMMA and MISC holds white space',
  'HEAD is not `_` or a number',
  'it is a comment, and a word line of its sentence came before',
  'it is blank, and no word line of its sentence came before',
  'bytes follow the last line feed, or the last sentence lacks its blank line',
];

/** Of `9 Rule`, by its number: what a sentence has to keep (docs/guide/FORMAT.md). */
const RULES = [
  'exactly one comment has the key `sent_id`; its value is not empty and holds no white space',
  'exactly one comment has the key `text`',
  'there are 1 to 1000 words, numbered 1 to n in order; empty nodes `i.1`, `i.2`, .. come after word i, those of 0 before the first word',
  'UPOS is one of the 17; HEAD is given, at most n and not the word itself; DEPREL is one of the 37 universal relations, alone or followed by `:` and a subtype; it is `root` exactly where HEAD is 0',
  'a range `a-b` comes just before word a (empty nodes between them or before it), a <= b <= n, and a is above the end of every range before it; LEMMA, UPOS, XPOS, HEAD, DEPREL and DEPS are `_`',
  'HEAD and DEPREL of an empty node are `_`; UPOS is `_` or one of the 17',
  'FEATS of each row is `_`, or features `Name=Value` joined by bars, in the order of their names (letters without regard to case), no name twice',
  'DEPS of words and empty nodes is `_`, or pairs `head:relation` joined by bars, in the order of their heads; a head is `0` or the ID of a word or an empty node of the sentence',
  'exactly one word has HEAD 0',
  'from each word, steps along HEAD come to 0',
  'the rows spell the text: the forms of ranges and of words in no range, each followed by a space but where MISC has `SpaceAfter=No`; runs of white space count as one space, and none at the ends',
  'no earlier sentence of the file has this `sent_id`',
];

/** Of `19 Query`, by its code: the query .. (docs/guide/QUERIES.md). */
const QUERIES = [
  'has more than 2,000 bytes',
  'is outside the grammar. The byte is where the first part begins that no query can have there',
  'has more than 32 token expressions',
  'has more than 16 round parentheses open at one place',
  'has a repetition with a number above 32, an upper number of 0, or one below the lower',
  'has a literal that is no pattern; all literals count, but those with `%l` are never at fault',
];

/** The parts of a refusal: its number or word, its name, and the numbers after it. Of another line null. */
export function refusal(line) {
  const [first, what, name = '', ...values] = line.split(' ');
  return first === 'refused' ? { what, name, values } : null;
}

/** Of a query: the literal or the byte that is at fault, where one is told. */
function placeInQuery(code, number) {
  if (code === '2') return `byte ${number}: `;
  return code === '6' ? `literal ${number}: ` : '';
}

/** What a state does not take, in words: it depends on what was asked. */
function wrongState(state, path) {
  if (path.startsWith('/batches/')) return `the batch is ${state}; ${NEXT[state]}`;
  return path.startsWith('/sentences/') ? WRONG_STATE.correct : WRONG_STATE.pull;
}

/** What a line of the desk means, in words. The path is the one that was asked. */
export function meaning(line, path = '') {
  const state = /^moved .* state=(\w+)/.exec(line)?.[1];
  if (state) return NEXT[state];
  const told = refusal(line);
  if (!told) return '';
  const [first, second, third] = told.values;
  switch (told.what) {
    case '2': return path.startsWith('/page/batches/') ? 'no batch has this number' : WORDS['2 NoSuchBatch'];
    case '3': return path.startsWith('/page/sent-id/') ? NO_SUCH_SENT_ID : WORDS['3 NoSuchSentence'];
    case '4': return wrongState(first, path);
    case '7': return `${WORDS['7 Stale']}; revision ${first} is the current one`;
    case '8': return `line ${first}: ${CODES[second - 1]}`;
    case '9': return `sentence ${first}${third === '0' ? '' : `, row ${third}`}: ${RULES[second - 1]}`;
    case '16': return `sentence ${first} of the file: ${WORDS['16 SentIdTaken']}`;
    case '19': return `${placeInQuery(first, second)}the query ${QUERIES[first - 1]}`;
    default: return WORDS[`${told.what} ${told.name}`] ?? WORDS[told.what] ?? OF_A_REQUEST[told.what] ?? '';
  }
}

/** How a row is named, by its ID. */
function rowName(id) {
  if (id.includes('-')) return `range ${id}`;
  return id.includes('.') ? `empty node ${id}` : `word ${id}`;
}

/** A row of a check as at a terminal: its place, what is there, and what is wrong. The last row may say that there are more. */
export function faultOf({ line, id, column, value, message }) {
  if (!line) return { place: '', value: '', words: message.split(';')[0] };
  return { place: [`line ${line}`, id && rowName(id), column].filter(Boolean).join(', '), value, words: message };
}

// ---- requests

/** A decoder of UTF-8 that keeps a byte order mark, since a `sent_id` may begin with one. */
export const decoder = () => new TextDecoder('utf-8', { ignoreBOM: true });

export const isName = text => /^[A-Za-z0-9._-]{1,32}$/.test(text);

/** Names that the desk takes and a browser cannot send, since it reads them as steps of a path. */
export const isStep = text => text === '.' || text === '..';

const NO_ANSWER = 'the desk did not answer. Does `deskview page` still run? What was asked may be done or not: '
  + 'an import or a correction can be sent again, and the board shows what an event did';

const unanswered = (line, words) => ({ ok: false, broken: false, status: 0, line, text: '', words, revision: 0 });

/**
 * Reads a response as it comes. Gives its text, and whether it broke off. Firefox takes one for whole that has fewer bytes
 * than its head says.
 */
async function read(response, onPart) {
  const decode = decoder(), length = Number(response.headers.get('Content-Length'));
  let text = '', bytes = 0;
  const take = piece => {
    text += piece;
    if (response.ok) onPart?.(piece);
  };
  try {
    const reader = response.body.getReader();
    for (let part = await reader.read(); !part.done; part = await reader.read()) {
      bytes += part.value.length;
      take(decode.decode(part.value, { stream: true }));
    }
    take(decode.decode());
    return { text, broken: bytes < length };
  } catch {
    return { text, broken: true };
  }
}

/**
 * One request. The answer has `ok`, its `text` and first `line`, what it means in `words`, and the `revision` where the
 * desk tells one. `onPart` is given the text as it comes, `signal` stops the request.
 */
export async function ask(method, path, { body, user, onPart, signal } = {}) {
  // A header of a request may not hold what is no Latin-1, so such a name is refused here.
  if (user !== undefined && !isName(user)) return unanswered('refused 1 BadName', WORDS['1 BadName']);
  let response;
  try {
    response = await fetch(path, {
      method, body, signal, headers: user === undefined ? {} : { 'Desk-User': user },
      cache: 'no-store', credentials: 'omit', redirect: 'error',
    });
  } catch {
    return unanswered('no answer', NO_ANSWER);
  }
  const { text, broken } = await read(response, onPart);
  const line = text.split('\n', 1)[0];
  return {
    ok: response.ok && !broken, broken, status: response.status, line, text,
    words: broken ? 'the answer broke off' : meaning(line, path),
    revision: Number(response.headers.get('Desk-Revision') ?? 0),
  };
}

/** The lines of a CSV text, as lists of fields. Where nothing is quoted, as in a list of batches, to split it is faster. */
function csvLines(text) {
  if (!text.includes('"')) return text.split('\n').slice(0, -1).map(line => line.split(','));
  const lines = [[]];
  for (const [, quoted, bare, end] of text.matchAll(/(?:"([^"]*(?:""[^"]*)*)"|([^,\n]*))([,\n])/gy)) {
    lines.at(-1).push(bare ?? quoted.replaceAll('""', '"'));
    if (end === '\n') lines.push([]);
  }
  return lines.slice(0, -1);
}

/** The rows of a CSV text, as objects by its head line. */
export function csv(text) {
  const [head, ...rest] = csvLines(text);
  return rest.map(fields => {
    const row = {};
    head.forEach((name, i) => { row[name] = fields[i] ?? ''; });
    return row;
  });
}

/** The answer to a request for CSV, with its `rows`. */
export async function table(path, method = 'GET', given = {}) {
  const answer = await ask(method, path, given);
  return { ...answer, rows: answer.ok ? csv(answer.text) : [] };
}

/** What is wrong with a text, which is not saved: `rows` are those of `deskview check`. */
export const check = text => table('/page/check', 'POST', { body: text });

/** The number of the last move, or null where the desk does not answer. */
export async function lastMove() {
  const { ok, rows } = await table('/page/now');
  return ok ? Number(rows[0].moves) : null;
}

// ---- elements

/**
 * An element with attributes and children. Attributes named `on..` are listeners, and one that is false or null is left
 * out. A child that is a string is text, whatever is in it: nothing of this page reads HTML.
 */
export function el(name, attributes = {}, ...children) {
  const node = document.createElement(name);
  for (const [key, value] of Object.entries(attributes)) {
    if (key.startsWith('on')) node.addEventListener(key.slice(2), value);
    else if (value === true) node.setAttribute(key, '');
    else if (value !== false && value !== null && value !== undefined) node.setAttribute(key, value);
  }
  node.append(...children.flat().filter(child => child !== null && child !== undefined && child !== false));
  return node;
}

export const button = (attributes, ...children) => el('button', { type: 'button', ...attributes }, ...children);

/** A heading of a table: its columns. */
export const heads = names => el('thead', {}, el('tr', {}, names.map(name => el('th', { scope: 'col' }, name))));

/** A table that scrolls sideways in a narrow window. */
export const wide = node => el('div', { class: 'wide' }, node);

/** A cell with a number. */
export const number = content => el('td', { class: 'number' }, content);

/** Text of the desk in its own direction, so that it cannot reorder what is round it. */
export const own = text => el('bdi', {}, text);

/** Words with names between backticks, as the guide has them. */
export const prose = words => words.split('`').map((part, i) => (i % 2 ? el('code', {}, part) : part));

// (to make a format takes longer than to use it, and a board has hundreds of numbers)
const format = new Intl.NumberFormat('en-US');
export const plain = count => format.format(Number(count));

export const plural = (count, word) => `${plain(count)} ${word}${Number(count) === 1 ? '' : 's'}`;

/** Appends the first `size` of the items, and a button for the next ones. `columns` is for rows of a table. */
export function pages(list, items, size, make, columns = 0) {
  const [next, rest] = [items.slice(0, size), items.slice(size)];
  list.append(...next.map(make));
  if (!rest.length) return;
  const more = button({ onclick: () => { place.remove(); pages(list, rest, size, make, columns); } },
    `${plain(Math.min(size, rest.length))} more of ${plain(rest.length)}`);
  const place = columns ? el('tr', {}, el('td', { colspan: columns }, more)) : el('p', {}, more);
  list.append(place);
}
