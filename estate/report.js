"use strict";
// All text is put in as text: no name from outside is ever markup.
const data = JSON.parse(document.getElementById("data").textContent);
const { sids, lists, nodes, accesses, changes } = data;
// A node is [depth, name, isContainer, owner, group, list, files, access, differs], where `differs` says why the source
// has another list, or nothing. A list is [kind, entries, findings], whose kind is 0 for one that inherits, 1 for a
// protected one, 2 for a null one. An entry is [isDeny, rights, applies, isInherited, sid], and a finding [kind, text],
// whose kind is "null", "risk", "doubtful" or "tidy". An access has who can read, write and change permissions: each is
// a list of [subject, isOwner, unless], and a subject is a SID's number or a word. A change is [node, differences], and
// a difference is [isGain, rights, by], where `by` is a token: a list of [subject, state].
const [DEPTH, NAME, CONTAINER, OWNER, GROUP, LIST, FILES, ACCESS, DIFFERS] = [0, 1, 2, 3, 4, 5, 6, 7, 8];
const STATES = { deny: "for denies alone", restrict: "as a restricting SID" };
const AT_ONCE = 200;
const FOUND_AT_ONCE = 500;

const parents = [];
{
  const above = [];
  nodes.forEach((node, index) => {
    above.length = node[DEPTH];
    parents.push(above.length ? above[above.length - 1] : -1);
    above.push(index);
  });
}

const make = (tag, attributes = {}, ...children) => {
  const made = document.createElement(tag);
  for (const [name, value] of Object.entries(attributes)) made.setAttribute(name, value);
  made.append(...children);
  return made;
};

const childrenOf = (index) => {
  const found = [];
  const depth = nodes[index][DEPTH] + 1;
  for (let at = index + 1; at < nodes.length && nodes[at][DEPTH] >= depth; at++) {
    if (nodes[at][DEPTH] === depth) found.push(at);
  }
  return found;
};

const hasChildren = (index) => index + 1 < nodes.length && nodes[index + 1][DEPTH] > nodes[index][DEPTH];
const pathOf = (index) => {
  const names = [];
  for (let at = index; parents[at] >= 0; at = parents[at]) names.unshift(nodes[at][NAME]);
  return "/" + names.join("/");
};
const nameOf = (sid) => sids[sid][1] || sids[sid][0];
const hasOwn = (list) => list[1].some((entry) => !entry[3]);

const counted = (count, what) => `${count.toLocaleString("en")} ${what}${count === 1 ? "" : "s"}`;

// What a node may be: what the summary calls such nodes, how grave that is, and what stands beside its name, or nothing
// if it isn't so. Nothing is said by colour alone.
const findingsOf = (index, kind) => lists[nodes[index][LIST]][2].filter((finding) => finding[0] === kind);
const kindOf = (index) => lists[nodes[index][LIST]][0];
const isUnknown = sids.map(([sid, name]) => data.named && sid.startsWith("S-1-5-21-") && name === "");
const hasUnknown = lists.map((list) => list[1].some((entry) => !entry[3] && isUnknown[entry[4]]));
const countedAs = (index, kind, what) => {
  const { length } = findingsOf(index, kind);
  return length ? what(length) : "";
};
const KINDS = {
  null: ["without a DACL", "grave", (index) => (kindOf(index) === 2 ? "no DACL: everything is granted" : "")],
  risk: ["open to many", "grave", (index) => countedAs(index, "risk", (count) => counted(count, "risk"))],
  differs: ["with another list in the source", "warn",
    (index) => (nodes[index][DIFFERS] ? "another list in the source" : "")],
  doubtful: ["with doubtful entries", "warn",
    (index) => countedAs(index, "doubtful", (count) => counted(count, "finding"))],
  unknown: ["with accounts that have no name", "warn",
    (index) => (isUnknown[nodes[index][OWNER]] || hasUnknown[nodes[index][LIST]] ? "unknown account" : "")],
  blocked: ["with blocked inheritance", "", (index) => (kindOf(index) === 1 ? "inheritance blocked" : "")],
  own: ["with entries of their own", "", (index) => (
    parents[index] >= 0 && kindOf(index) === 0 && hasOwn(lists[nodes[index][LIST]]) ? "own entries" : "")],
  tidy: ["to tidy up", "", (index) => countedAs(index, "tidy", (count) => `${count} to tidy up`)],
};

// How many nodes below each one are grave.
const isGrave = (index) => Object.values(KINDS).some(([, grave, mark]) => grave === "grave" && mark(index));
const below = nodes.map(() => 0);
for (let index = nodes.length - 1; index > 0; index--) below[parents[index]] += below[index] + Number(isGrave(index));

const marksOf = (index) => {
  const marks = Object.values(KINDS).map(([, grave, mark]) => [grave, mark(index)]).filter(([, mark]) => mark);
  if (below[index]) marks.push(["grave", `${counted(below[index], "node")} at risk below`]);
  return marks;
};

// The tree, in which one item is in the order of the Tab key.
const tree = document.getElementById("tree");
const items = new Map();
let current = null;

const itemOf = (index, position, size) => {
  const node = nodes[index];
  const name = parents[index] < 0 ? "/" : node[NAME];
  const marks = marksOf(index);
  if (node[FILES]) marks.push(["files", counted(node[FILES], "file")]);
  const row = make("div", { class: "row" }, make("span", { class: "name" }, name));
  for (const [kind, text] of marks) row.append(make("span", { class: `mark ${kind}` }, text));
  const item = make("li", {
    role: "treeitem", tabindex: "-1", "aria-level": node[DEPTH] + 1, "aria-posinset": position, "aria-setsize": size,
    "aria-selected": "false", "aria-label": [name, ...marks.map((mark) => mark[1])].join(", "),
  }, row);
  if (hasChildren(index)) item.setAttribute("aria-expanded", "false");
  item.dataset.index = index;
  items.set(index, item);
  return item;
};

const addChildren = (index, group, children, from) => {
  const until = Math.min(from + AT_ONCE, children.length);
  for (let at = from; at < until; at++) group.append(itemOf(children[at], at + 1, children.length));
  if (until < children.length) {
    const left = children.length - until;
    const more = make("button", { type: "button" }, `show ${Math.min(AT_ONCE, left)} of ${left} more`);
    const line = make("li", { role: "none" }, more);
    more.addEventListener("click", () => {
      line.remove();
      addChildren(index, group, children, until);
      focus(items.get(children[until]));
    });
    group.append(line);
  }
};

const setOpen = (item, isOpen) => {
  if (!item.hasAttribute("aria-expanded")) return;
  item.setAttribute("aria-expanded", String(isOpen));
  let group = item.querySelector(":scope > [role=group]");
  if (isOpen && !group) {
    group = make("ul", { role: "group" });
    const index = Number(item.dataset.index);
    addChildren(index, group, childrenOf(index), 0);
    item.append(group);
  }
  if (group) group.hidden = !isOpen;
};

const focus = (item) => {
  if (current) current.tabIndex = -1;
  current = item;
  item.tabIndex = 0;
  item.focus();
};

const choose = (item) => {
  for (const chosen of tree.querySelectorAll("[aria-selected=true]")) chosen.setAttribute("aria-selected", "false");
  item.setAttribute("aria-selected", "true");
  showNode(Number(item.dataset.index));
};

// Opens the folders above a node, and puts it into the tree if it is beyond the first children.
const reveal = (index) => {
  if (parents[index] >= 0 && !items.has(index)) {
    const above = reveal(parents[index]);
    setOpen(above, true);
    if (!items.has(index)) {
      const children = childrenOf(parents[index]);
      above.querySelector(":scope > [role=group]").prepend(itemOf(index, children.indexOf(index) + 1, children.length));
    }
  }
  for (let at = parents[index]; at >= 0; at = parents[at]) setOpen(items.get(at), true);
  return items.get(index);
};

const isShown = (item) => !item.parentElement.closest("[hidden]");
const shown = () => [...tree.querySelectorAll("[role=treeitem]")].filter(isShown);

const keys = {
  ArrowDown: (item) => { const all = shown(); focus(all[all.indexOf(item) + 1] || item); },
  ArrowUp: (item) => { const all = shown(); focus(all[all.indexOf(item) - 1] || item); },
  Home: () => focus(shown()[0]),
  End: () => focus(shown().at(-1)),
  ArrowRight: (item) => {
    if (item.getAttribute("aria-expanded") === "false") setOpen(item, true);
    else focus(item.querySelector(":scope > [role=group] > [role=treeitem]") || item);
  },
  ArrowLeft: (item) => {
    if (item.getAttribute("aria-expanded") === "true") setOpen(item, false);
    else focus(item.parentElement.closest("[role=treeitem]") || item);
  },
  Enter: choose,
  " ": choose,
};

tree.addEventListener("keydown", (event) => {
  const item = event.target.closest("[role=treeitem]");
  if (event.target !== item || !keys[event.key] || event.ctrlKey || event.altKey || event.metaKey) return;
  event.preventDefault();
  keys[event.key](item);
});

tree.addEventListener("click", (event) => {
  const row = event.target.closest(".row");
  if (!row) return;
  const item = row.parentElement;
  setOpen(item, item.getAttribute("aria-expanded") !== "true");
  focus(item);
  choose(item);
});

// One node.
const whoOf = (sid) => {
  const cell = make("td", {}, nameOf(sid));
  if (sids[sid][1]) cell.append(make("div", { class: "sid" }, sids[sid][0]));
  return cell;
};

const tableOf = (list) => {
  const table = make("table", {}, make("caption", {}, "Entries, in the order in which they are checked"));
  const heads = ["Kind", "Who", "Rights", "Applies to", "From"];
  table.append(make("tr", {}, ...heads.map((text) => make("th", { scope: "col" }, text))));
  for (const [isDeny, rights, applies, isInherited, sid] of list[1]) {
    const kind = make("td", { class: isDeny ? "deny word" : "word" }, isDeny ? "Deny" : "Allow");
    const from = make("td", { class: isInherited ? "word" : "own word" }, isInherited ? "inherited" : "own");
    table.append(make("tr", {}, kind, whoOf(sid), make("td", {}, rights), make("td", {}, applies), from));
  }
  return table;
};

const subjectOf = (subject) => (typeof subject === "number" ? nameOf(subject) : subject);

// Who can do something: a line for each group or user that suffices.
const grantsOf = (grants) => make("ul", {}, ...grants.map(([subject, isOwner, unless]) => {
  const line = make("li", {}, subjectOf(subject), isOwner ? " as the owner" : "");
  if (unless.length) line.append(make("span", { class: "deny" }, ` unless in ${unless.map(subjectOf).join(" or ")}`));
  return line;
}));

const accessOf = (access) => {
  const table = make("table", {}, make("caption", {}, "Who can, by themselves or by a group"));
  ["Read", "Write", "Change permissions"].forEach((text, at) => {
    table.append(make("tr", {}, make("th", { scope: "row" }, text), make("td", {}, grantsOf(access[at]))));
  });
  return table;
};

const findingsIn = (title, findings) => (findings.length ? [
  make("h3", {}, title), make("ul", {}, ...findings.map(([, text]) => make("li", {}, text))),
] : []);

const showNode = (index) => {
  const node = nodes[index];
  const list = lists[node[LIST]];
  document.getElementById("node-title").textContent = pathOf(index);
  const kinds = ["inherits from its folder", "blocked", "no DACL: everything is granted to everyone"];
  const facts = [
    ["Kind", node[CONTAINER] ? "folder" : "file"],
    ["Owner", nameOf(node[OWNER])],
    ["Group", nameOf(node[GROUP])],
    ["Inheritance", parents[index] < 0 && list[0] === 0 ? "the root" : kinds[list[0]]],
  ];
  if (node[FILES]) facts.push(["Files", `${node[FILES].toLocaleString("en")} inherit all of it, and have no line`]);
  if (node[DIFFERS]) facts.push(["The source", `another list: ${node[DIFFERS]}. What is here is the tree's.`]);
  const details = make("dl");
  for (const [name, value] of facts) details.append(make("dt", {}, name), make("dd", {}, value));
  const parts = [details];
  parts.push(...findingsIn("Findings", list[2].filter(([kind]) => kind !== "tidy")));
  if (changesAt.has(index)) parts.push(changesOf(changesAt.get(index)));
  parts.push(accessOf(accesses[node[ACCESS]]));
  if (list[1].length) parts.push(tableOf(list));
  else if (list[0] !== 2) parts.push(make("p", {}, "The list is empty: nothing is granted, but to the owner."));
  parts.push(...findingsIn("Tidy up", list[2].filter(([kind]) => kind === "tidy")));
  document.getElementById("details").replaceChildren(...parts);
};

// What leads from another page to a node of the first one.
const linkTo = (index, text = pathOf(index)) => {
  const link = make("button", { type: "button" }, text);
  link.addEventListener("click", () => {
    openPage(false);
    const item = reveal(index);
    choose(item);
    focus(item);
  });
  return link;
};

// Puts the first items into an element, and a button for more.
const addSome = (element, items, itemOf, from) => {
  const until = Math.min(from + AT_ONCE, items.length);
  element.append(...items.slice(from, until).map(itemOf));
  if (until < items.length) {
    const more = make("button", { type: "button" }, `show ${Math.min(AT_ONCE, items.length - until)} more`);
    more.addEventListener("click", () => { more.remove(); addSome(element, items, itemOf, until); });
    element.append(more);
  }
};

// Search: a node is found by its path, its owner, and the entries that it has itself; or by whom it grants a right.
const texts = sids.map(([sid, name]) => `${sid} ${name}`.toLowerCase());
const find = (words, right, kind) => {
  const known = texts.map((text) => words !== "" && text.includes(words));
  const isSubject = (subject) => (typeof subject === "number" ? known[subject] : subject.includes(words));
  const inList = lists.map((list) => list[1].some((entry) => !entry[3] && known[entry[4]]));
  const inAccess = accesses.map((access) => right !== "" && access[right].some(([subject]) => isSubject(subject)));
  const isFound = (node, index) => {
    if (words === "") return true;
    if (right !== "") return inAccess[node[ACCESS]];
    return known[node[OWNER]] || inList[node[LIST]] || pathOf(index).toLowerCase().includes(words);
  };
  const found = [];
  nodes.forEach((node, index) => {
    if ((kind === null || KINDS[kind][2](index)) && isFound(node, index)) found.push(index);
  });
  return found;
};

const search = () => {
  const words = document.getElementById("words").value.trim().toLowerCase();
  const pressed = document.querySelector("#kinds [aria-pressed=true]");
  const results = document.getElementById("results");
  results.hidden = words === "" && pressed === null;
  if (results.hidden) return;
  const found = find(words, document.getElementById("right").value, pressed && pressed.dataset.kind);
  const some = found.length > FOUND_AT_ONCE ? `, of which ${FOUND_AT_ONCE} are listed` : "";
  document.getElementById("results-title").textContent = `${found.length.toLocaleString("en")} found${some}`;
  const items = found.slice(0, FOUND_AT_ONCE).map((index) => make("li", {}, linkTo(index)));
  document.getElementById("found").replaceChildren(...items);
  document.getElementById("direct").hidden = document.getElementById("right").value === "";
};

let waiting = 0;
const soon = () => { clearTimeout(waiting); waiting = setTimeout(search, 150); };
document.getElementById("words").addEventListener("input", soon);
document.getElementById("right").addEventListener("change", search);
document.getElementById("search").addEventListener("submit", (event) => { event.preventDefault(); search(); });

// The summary: how many nodes are of each kind, and a press lists them.
const kindButton = (kind) => {
  const [text, grave, mark] = KINDS[kind];
  const count = nodes.filter((_, index) => mark(index)).length;
  const button = make("button", { type: "button", class: count ? grave : "", "aria-pressed": "false" },
    make("strong", {}, count.toLocaleString("en")), ` ${text}`);
  button.disabled = count === 0;
  button.dataset.kind = kind;
  button.addEventListener("click", () => {
    const isPressed = button.getAttribute("aria-pressed") === "true";
    for (const other of document.querySelectorAll("#kinds button")) other.setAttribute("aria-pressed", "false");
    button.setAttribute("aria-pressed", String(!isPressed));
    search();
  });
  return make("li", {}, button);
};

document.getElementById("made").textContent = data.made;
document.getElementById("sum").textContent = data.sum;
const kinds = Object.keys(KINDS).filter((kind) => kind !== "unknown" || data.named);
document.getElementById("kinds").append(...kinds.map(kindButton));

// What the source has otherwise, above both pages: a gap is [node or -1, path, why].
const gapOf = ([index, path, why]) => {
  if (index < 0) return make("p", {}, `${path}: ${why}`);
  return make("p", {}, linkTo(index, path), `: ${why}`);
};

if (data.gaps.length) {
  const part = document.getElementById("left-out");
  part.hidden = false;
  addSome(part.querySelector("div"), data.gaps, gapOf, 0);
}


