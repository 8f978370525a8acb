// What is shown first.
tree.append(itemOf(0, 1, 1));
setOpen(items.get(0), true);
current = items.get(0);
current.tabIndex = 0;
choose(current);
document.documentElement.dataset.ready = String(Math.round(performance.now()));
