// Who may do what: a row for each node where somebody has other rights than in the folder above, and a column for each
// group of users who have the same rights at each node. A list has, for runs of columns, a word's number and a count.
{
  const { users, without, groups, words: rights, lists: runs, rows, leftOut } = data.people;
  const COLUMNS_AT_ONCE = 12;
  const NAMES_AT_ONCE = 3;

  const known = new Map();
  const wordsOf = (list) => {
    if (!known.has(list)) {
      const found = [];
      for (let at = 0; at < runs[list].length; at += 2) {
        for (let left = runs[list][at + 1]; left > 0; left--) found.push(rights[runs[list][at]]);
      }
      known.set(list, found);
    }
    return known.get(list);
  };

  // The list of the folder above: a node without a row has the same as its folder.
  const listOf = new Map(rows);
  const aboveOf = (node) => {
    let at = parents[node];
    while (at >= 0 && !listOf.has(at)) at = parents[at];
    return at < 0 ? null : listOf.get(at);
  };

  const texts = users.map(([name, sid]) => `${name} ${sid}`.toLowerCase());

  // A column's head names the users who were searched for first, and the others on request.
  const headOf = (column, words) => {
    const isFound = (user) => words !== "" && texts[user].includes(words);
    const members = [...groups[column].filter(isFound), ...groups[column].filter((user) => !isFound(user))];
    const head = make("th", { scope: "col" });
    const add = (from, until) => head.append(...members.slice(from, until).map((user) => (
      make("div", { title: users[user][1] }, users[user][0])
    )));
    add(0, NAMES_AT_ONCE);
    if (members.length > NAMES_AT_ONCE) {
      const left = (members.length - NAMES_AT_ONCE).toLocaleString("en");
      const more = make("button", { type: "button" }, `and ${left} more`);
      more.addEventListener("click", () => { more.remove(); add(NAMES_AT_ONCE, members.length); });
      head.append(more);
    }
    return head;
  };

  const cellOf = (now, before) => {
    if (before === null || now === before) return make("td", { class: before === null ? "" : "same" }, now);
    return make("td", { class: "differs" }, now, make("div", { class: "sid" }, `above: ${before}`));
  };

  const rowOf = ([node, list], columns) => {
    const [now, above] = [wordsOf(list), aboveOf(node)];
    const before = above === null ? columns.map(() => null) : columns.map((column) => wordsOf(above)[column]);
    const cells = columns.map((column, at) => cellOf(now[column], before[at]));
    return make("tr", {}, make("th", { scope: "row" }, linkTo(node)), ...cells);
  };

  const table = make("table", { "aria-labelledby": "people-title" });
  const under = make("p");
  let [words, columnCount, rowCount] = ["", COLUMNS_AT_ONCE, AT_ONCE];

  const moreButton = (text, more) => {
    const button = make("button", { type: "button" }, text);
    button.addEventListener("click", () => { more(); draw(); });
    return button;
  };

  const columnsFound = () => groups.map((_, column) => column)
    .filter((column) => words === "" || groups[column].some((user) => texts[user].includes(words)));

  const draw = () => {
    const found = columnsFound();
    const columns = found.slice(0, columnCount);
    const heads = columns.map((column) => headOf(column, words));
    const lines = rows.slice(0, rowCount).map((row) => rowOf(row, columns));
    const head = make("tr", {}, make("th", { scope: "col" }, "Node"), ...heads);
    table.replaceChildren(make("thead", {}, head), make("tbody", {}, ...lines));
    under.replaceChildren(words === "" || found.length ? "" : "No user of the file has such a name or SID. ");
    const [columnsLeft, rowsLeft] = [found.length - columns.length, Math.max(0, rows.length - rowCount)];
    if (columnsLeft > 0) {
      const text = `show ${Math.min(COLUMNS_AT_ONCE, columnsLeft)} of ${counted(columnsLeft, "column")} more`;
      under.append(moreButton(text, () => { columnCount += COLUMNS_AT_ONCE; }));
    }
    if (rowsLeft > 0) {
      const text = `show ${Math.min(AT_ONCE, rowsLeft)} of ${counted(rowsLeft, "node")} more`;
      under.append(moreButton(text, () => { rowCount += AT_ONCE; }));
    }
  };

  const field = make("input", { id: "people-words", type: "search", autocomplete: "off", spellcheck: "false" });
  field.addEventListener("input", () => {
    [words, columnCount] = [field.value.trim().toLowerCase(), COLUMNS_AT_ONCE];
    draw();
  });

  const title = make("h2", { id: "people-title" }, "Who may do what");
  const part = make("details", { id: "people", open: "" }, make("summary", {}, title));
  const [all, nodeCount] = [counted(users.length, "user"), counted(rows.length, "node")];
  part.append(make("p", {}, `${all} that may log on, of which ${without.toLocaleString("en")} may do nothing. `
    + `${nodeCount} where somebody has other rights than in the folder above; others have those of their folder.`));
  for (const [path, count] of leftOut) {
    const missing = `From ${path} on there is no room here for ${counted(count, "such node")}`;
    part.append(make("p", { class: "lint" }, `${missing}: what estate report --matrix writes has all of them.`));
  }
  part.append(
    make("p", {}, make("label", { for: "people-words" }, "Search users "), field),
    make("div", { class: "wide", tabindex: "0", role: "region", "aria-labelledby": "people-title" }, table),
    under,
  );
  document.getElementById("folders-page").before(part);
  draw();
  document.documentElement.dataset.ready = String(Math.round(performance.now()));
}
