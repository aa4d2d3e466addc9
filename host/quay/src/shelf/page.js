// Makes every table sortable by a click or Enter on a head: numbers by value, the rest by letters.
for (const table of document.querySelectorAll("table")) {
  const body = table.tBodies[0];
  const heads = [...table.tHead.rows[0].cells];
  heads.forEach((head, column) => {
    const text = (row) => row.cells[column].textContent;
    const value = (row) => Number(text(row).replaceAll(",", ""));
    const byValue = (a, b) => value(a) - value(b);
    const byLetters = (a, b) => text(a).localeCompare(text(b), "en", { numeric: true });
    const compare = head.classList.contains("number") ? byValue : byLetters;
    const sort = () => {
      const descending = head.getAttribute("aria-sort") === "ascending";
      heads.forEach((other) => other.removeAttribute("aria-sort"));
      head.setAttribute("aria-sort", descending ? "descending" : "ascending");
      const rows = [...body.rows].sort(compare);
      body.append(...(descending ? rows.reverse() : rows));
    };
    head.tabIndex = 0;
    head.addEventListener("click", sort);
    head.addEventListener("keydown", (event) => event.key === "Enter" && sort());
  });
}
