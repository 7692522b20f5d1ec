// The index of a batch: its rows sorted and filtered. What is asked stands in the page's address.
"use strict";

/** What a cell is sorted by: its number where it has one, else its words; what has neither comes last. */
function valueOf(row, column) {
  const text = row.cells[column].dataset.value ?? row.cells[column].textContent.trim();
  const number = text === "" ? NaN : Number(text);
  return Number.isNaN(number) ? text.toLowerCase() : number;
}

function compare(one, other) {
  if (one === "" || other === "") return (one === "") - (other === "");
  if (typeof one === typeof other) return one < other ? -1 : +(one > other);
  return typeof one === "number" ? -1 : 1;
}

class Index {
  constructor() {
    this.body = document.querySelector("#files tbody");
    this.heads = [...document.querySelectorAll("#files thead th")];
    this.form = document.getElementById("asked");
    this.form.hidden = false;
    // As it was written: refusals come first, and then the files in the order in which they ended.
    this.rows = [...this.body.rows];
    this.heads.forEach((head, column) => head.querySelector("button")?.addEventListener("click", () =>
      this.ask({ sort: `${column}`, down: this.asked.sort === `${column}` && !this.asked.down ? "1" : "" })));
    this.form.addEventListener("input", () => this.ask({ filter: this.form.filter.value, show: this.form.show.value }));
    this.form.addEventListener("submit", (event) => event.preventDefault());
    window.addEventListener("hashchange", () => this.read());
    this.read();
  }

  read() {
    const said = new URLSearchParams(location.hash.slice(1));
    this.asked = Object.fromEntries(["filter", "show", "sort", "down"].map((it) => [it, said.get(it) || ""]));
    this.form.filter.value = this.asked.filter;
    this.form.show.value = this.asked.show;
    this.show();
  }

  ask(more) {
    this.asked = { ...this.asked, ...more };
    const said = Object.entries(this.asked).filter(([, value]) => value);
    history.replaceState(null, "", `#${new URLSearchParams(said)}`);
    this.show();
  }

  show() {
    const words = this.asked.filter.toLowerCase().split(/\s+/).filter(Boolean);
    const column = Number(this.asked.sort || NaN);
    const isRefused = (row) => row.dataset.kind === "refused";
    const rows = this.rows.filter((row) => {
      const text = row.textContent.toLowerCase();
      return (!this.asked.show || row.dataset.kind === this.asked.show) && words.every((it) => text.includes(it));
    });
    if (this.heads[column]) {
      rows.sort((one, other) => compare(valueOf(one, column), valueOf(other, column)) * (this.asked.down ? -1 : 1));
    } else {
      rows.sort((one, other) => isRefused(other) - isRefused(one));
    }
    this.body.replaceChildren(...rows);
    this.heads.forEach((head, at) => {
      if (at === column) head.setAttribute("aria-sort", this.asked.down ? "descending" : "ascending");
      else head.removeAttribute("aria-sort");
    });
    const all = this.rows.length;
    document.getElementById("count").textContent = `${rows.length === all ? "" : `${rows.length} of `}${all} files`;
  }
}

document.addEventListener("DOMContentLoaded", () => { window.index = new Index(); });
