// Keeps the page up to date by the board's events. It writes texts alone, never markup.
"use strict";

const SILENT_AFTER = 20000;
const LOST = "The board isn't reached. What stands here is of before; this page tries again by itself.";
const element = (name) => document.getElementById(name);
let watch = 0;

function setText(name, text) {
  const at = element(name);
  if (at === null || at.textContent === text) return;
  at.textContent = text;
  at.classList.remove("fresh");
  void at.offsetWidth;
  at.classList.add("fresh");
}

function setList(name, texts) {
  const items = texts.map((text) => {
    const item = document.createElement("li");
    item.textContent = text;
    return item;
  });
  element(name).replaceChildren(...items);
}

function setPicture(mark) {
  const image = element("picture-image");
  const source = `tree.svg?${mark}`;
  if (image.getAttribute("src") !== source) image.setAttribute("src", source);
}

function lost() {
  if (element("contact").textContent === LOST) return;
  setText("contact", LOST);
  element("said").textContent = LOST;
  element("contact").dataset.mark = "lost";
}

function heard() {
  clearTimeout(watch);
  watch = setTimeout(lost, SILENT_AFTER);
}

function change(told) {
  if (told.page !== document.documentElement.dataset.page) {
    location.reload();
    return;
  }
  for (const [name, text] of Object.entries(told.texts)) setText(name, text);
  for (const [name, mark] of Object.entries(told.marks)) element(name).dataset.mark = mark;
  for (const [name, texts] of Object.entries(told.lists)) setList(name, texts);
  setPicture(told.picture);
  if (told.said !== "") element("said").textContent = told.said;
  document.title = `Round ${element("round").textContent}, ${element("status").textContent} \u2013 Auction`;
}

const events = new EventSource("events");
events.addEventListener("change", (event) => { heard(); change(JSON.parse(event.data)); });
events.addEventListener("beat", (event) => { heard(); element("clock").textContent = event.data; });
events.addEventListener("error", () => {
  lost();
  // A refused page of events isn't asked for again by itself.
  if (events.readyState === EventSource.CLOSED) setTimeout(() => location.reload(), SILENT_AFTER);
});
