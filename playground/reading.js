"use strict";

// Shows the documents that the page holds, above the page: a link to `#docs/..` or to another of them opens it.

const HERE = "http://here"; // what their addresses are relative to

class Reader {
  constructor() {
    this.texts = null;
    this.address = null;
    this.before = [];
    this.dialog = document.createElement("dialog");
    this.dialog.id = "reader";
    this.dialog.setAttribute("aria-label", "A document");
    this.article = document.createElement("article");
    const nav = document.createElement("nav");
    this.back = this.button("Back", () => this.show(...this.before.pop()));
    nav.append(this.button("Close", () => this.dialog.close()), " ", this.back);
    this.dialog.append(nav, this.article);
    document.body.append(this.dialog);
    document.addEventListener("click", (event) => this.click(event));
  }

  button(text, clicked) {
    return Object.assign(document.createElement("button"), { type: "button", textContent: text, onclick: clicked });
  }

  async all() {
    this.texts = this.texts || JSON.parse(new TextDecoder().decode(await unpacked(given.texts)));
    return this.texts;
  }

  // What a link leads to: within a document it is relative to that.
  click(event) {
    const link = event.target instanceof Element ? event.target.closest("a[href]") : null;
    const href = link === null ? "" : link.getAttribute("href");
    const isInside = link !== null && this.article.contains(link);
    if (/^[a-z]+:/.test(href) || !(isInside || /^#(docs|gallery|examples|schema)\/.*\.\w+/.test(href))) {
      return;
    }
    event.preventDefault();
    this.open(isInside ? new URL(href, HERE + this.address) : new URL(HERE + "/" + href.slice(1)));
  }

  async open({ pathname, hash }) {
    if (this.address !== null && this.dialog.open) {
      this.before.push([this.address, ""]);
    }
    await this.show(pathname, decodeURIComponent(hash.slice(1)));
  }

  // The HTML was made with the page, and all that the document says is text in it.
  async show(address, anchor) {
    const text = (await this.all())[address];
    this.address = address;
    this.article.innerHTML = text === undefined ? "<p>This document is not in the page.</p>" : text;
    this.article.querySelectorAll("a[href^='http']").forEach((link) => Object.assign(link, { target: "_blank",
      rel: "noopener" }));
    this.back.disabled = this.before.length === 0;
    if (!this.dialog.open) {
      this.dialog.showModal();
    }
    const place = anchor === "" ? null : this.article.querySelector("#" + CSS.escape(anchor));
    (place || this.article).scrollIntoView();
  }
}

const reader = new Reader();
reader.dialog.onclose = () => { reader.before = []; };
