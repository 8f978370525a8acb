// What of a page somebody can't use by keyboard, by a screen reader or with a small screen: a text for each fault, with
// the number of the rule of WCAG 2.2 that it breaks. Colours, and names that the browser works out, aren't looked at.
(() => {
  const faults = [];
  const all = (selector) => [...document.querySelectorAll(selector)];
  const isShown = (one) => one.checkVisibility({ visibilityProperty: true });
  const told = (one) => one.outerHTML.slice(0, 120);
  const require = (rule, what, selector, holds) => {
    for (const one of all(selector)) if (isShown(one) && !holds(one)) faults.push(`${rule} ${what}: ${told(one)}`);
  };

  if (!document.documentElement.lang) faults.push("3.1.1 no language");
  if (!document.title.trim()) faults.push("2.4.2 no title");
  for (const one of all("meta[name=viewport]")) {
    if (/user-scalable|maximum-scale/.test(one.content)) faults.push("1.4.4 no zoom");
  }

  const ids = all("[id]").map((one) => one.id);
  for (const id of ids.filter((id, at) => ids.indexOf(id) !== at)) faults.push(`4.1.2 twice the id ${id}`);
  for (const name of ["aria-labelledby", "aria-describedby", "aria-controls", "for"]) {
    require("1.3.1", `${name} of nothing`, `[${name}]`, (one) => (
      one.getAttribute(name).split(" ").every((id) => document.getElementById(id))
    ));
  }

  // By keyboard: what scrolls can be reached, and the order is that of the page.
  require("2.4.3", "an order of its own", "[tabindex]", (one) => one.tabIndex <= 0);
  require("2.1.1", "no key scrolls it", "body *", (one) => {
    const style = getComputedStyle(one);
    const scrolls = (way, size, inside) => /auto|scroll/.test(way) && inside > size + 1;
    return !(scrolls(style.overflowY, one.clientHeight, one.scrollHeight)
      || scrolls(style.overflowX, one.clientWidth, one.scrollWidth))
      || one.tabIndex === 0 || one.querySelector("button, input, select, summary, [tabindex='0']");
  });
  require("2.5.8", "a target of less than 24 pixels", "button, input, select, summary", (one) => {
    const { width, height } = one.getBoundingClientRect();
    return (width >= 24 || one.textContent.length < 3) && height >= 24;
  });

  // By a screen reader: landmarks, headings, lists and tables.
  require("1.3.1", "outside of landmarks", "body > *", (one) => (
    one.matches("header, main, nav, footer, script, noscript")
    || (one.matches("section, details") && (one.ariaLabel || one.getAttribute("aria-labelledby")))
  ));
  if (all("main").filter(isShown).length !== 1) faults.push("1.3.1 not just one main part");
  const levels = all("h1, h2, h3, h4").filter(isShown).map((one) => Number(one.tagName[1]));
  if (levels.filter((level) => level === 1).length !== 1) faults.push("1.3.1 not just one title");
  for (const [at, level] of levels.entries()) {
    if (at && level > levels[at - 1] + 1) faults.push(`1.3.1 no heading above ${level}`);
  }
  require("1.3.1", "no item of a list", "ul > *, ol > *", (one) => one.tagName === "LI");
  require("1.3.1", "a list without items", "ul, ol", (one) => one.children.length > 0);
  require("1.3.1", "a table without a name", "table", (one) => (
    one.caption?.textContent || one.ariaLabel || one.getAttribute("aria-labelledby")
  ));
  require("1.3.1", "a head of nothing", "th", (one) => ["col", "row", "colgroup"].includes(one.scope));
  require("1.3.1", "a head without a text", "th", (one) => one.textContent.trim() !== "");
  require("4.1.2", "no tree above it", "[role=treeitem]", (one) => one.closest("[role=tree]"));
  require("4.1.2", "no state", "[role=treeitem]", (one) => one.hasAttribute("aria-selected") && one.ariaLevel);

  // On a small screen.
  const wide = document.documentElement.scrollWidth;
  if (wide > innerWidth) faults.push(`1.4.10 ${wide} pixels wide`);
  return faults;
})()
