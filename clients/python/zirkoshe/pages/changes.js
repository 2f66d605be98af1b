"use strict";
const state = document.getElementById("state");
const changes = document.getElementById("changes");

function show(news) {
  document.getElementById("picture").innerHTML = news.svg;
  state.textContent = news.has_ended ? "the server has ended"
    : "live, " + news.journal + " steps";
  changes.replaceChildren(...news.changes.map(change => {
    const item = document.createElement("li"), number = document.createElement("b");
    number.textContent = change.journal;
    item.append(number, change.text);
    return item;
  }));
}

if (first.is_new) { show(first); }
const live = new EventSource("live");
live.onmessage = event => {
  const news = JSON.parse(event.data);
  if (news.is_new) { show(news); }
  if (news.has_ended) {
    state.textContent = "the server has ended";
    live.close();
  }
};
live.onerror = () => { state.textContent = "the watch has ended"; };
