// What the changes of the script grant and take away: of a node, and on a page of its own, where nodes with the same
// change stand together.
const tokenOf = (by) => by.map(([subject, state]) => (
  subjectOf(subject) + (state ? ` (${STATES[state]})` : "")
)).join(" and ");

const changesAt = new Map(changes);

const changesOf = (differences) => {
  const heads = ["Change", "Rights", "For example a user who is"];
  const table = make("table", {}, make("caption", {}, "What the changes grant and take away here"));
  table.append(make("tr", {}, ...heads.map((text) => make("th", { scope: "col" }, text))));
  for (const [isGain, rights, by] of differences) {
    const kind = make("td", { class: isGain ? "own word" : "lost word" }, isGain ? "Gained" : "Lost");
    table.append(make("tr", {}, kind, make("td", {}, rights), make("td", {}, tokenOf(by))));
  }
  return table;
};

// Each difference, and the nodes that have it, the one of most nodes first.
const alike = () => {
  const found = new Map();
  for (const [index, differences] of changes) {
    for (const difference of differences) {
      const key = JSON.stringify(difference);
      if (!found.has(key)) found.set(key, [difference, []]);
      found.get(key)[1].push(index);
    }
  }
  return [...found.values()].sort((one, other) => other[1].length - one[1].length);
};

const changeOf = ([[isGain, rights, by], at]) => {
  const kind = make("span", { class: isGain ? "own" : "lost" }, isGain ? "gains" : "loses");
  const title = make("summary", {}, `A user who is ${tokenOf(by)} `, kind, ` ${rights} on ${counted(at.length, "node")}`);
  const list = make("ul");
  addSome(list, at, (index) => make("li", {}, linkTo(index)), 0);
  return make("details", at.length === 1 ? { open: "" } : {}, title, list);
};

const openPage = (isOfChanges) => {
  for (const part of document.querySelectorAll("main > *")) part.hidden = isOfChanges === (part.id !== "changes-page");
  document.getElementById("search").hidden = isOfChanges;
  const [current, other] = isOfChanges ? ["to-changes", "to-folders"] : ["to-folders", "to-changes"];
  document.getElementById(current).setAttribute("aria-current", "page");
  document.getElementById(other).removeAttribute("aria-current");
};

if (data.changed) {
  const [changed, count] = [data.changed, changes.length].map((number) => number.toLocaleString("en"));
  document.getElementById("pages").hidden = false;
  document.getElementById("changes-sum").textContent =
    `${changed} nodes have another descriptor; on ${count} of them somebody gains or loses rights.`;
  document.getElementById("to-folders").addEventListener("click", () => openPage(false));
  document.getElementById("to-changes").addEventListener("click", () => openPage(true));
  addSome(document.getElementById("changes"), alike(), changeOf, 0);
}

