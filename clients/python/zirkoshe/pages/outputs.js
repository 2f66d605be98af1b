// The outputs: a picture of each, at most ten times a second, and only while the page is seen.
const OUTPUT_PAUSE = 100;
const figures = new Map();

function set(element, text) {
  if (element.textContent !== text) { element.textContent = text; }
}

function figureOf(crtc) {
  const figure = document.createElement("figure"), image = document.createElement("img");
  const dark = document.createElement("div"), caption = document.createElement("figcaption");
  const text = document.createElement("span"), rate = document.createElement("span");
  const planes = document.createElement("ul");
  dark.className = "dark";
  rate.className = "rate";
  image.hidden = true;
  caption.append(text, " ", rate);
  figure.append(image, dark, caption, planes);
  figure.setAttribute("data-crtc", crtc);
  document.getElementById("outputs").append(figure);
  return {figure, image, dark, text, rate, planes, picture: 0};
}

function showPlanes(list, planes) {
  if (list.textContent === planes.join("")) { return; }
  list.replaceChildren(...planes.map(plane => {
    const item = document.createElement("li");
    item.textContent = plane;
    return item;
  }));
}

function showOutput(output) {
  if (!figures.has(output.crtc)) { figures.set(output.crtc, figureOf(output.crtc)); }
  const shown = figures.get(output.crtc);
  set(shown.text, output.text);
  set(shown.rate, output.rate);
  showPlanes(shown.planes, output.planes);
  shown.image.hidden = output.picture === 0;
  shown.dark.hidden = output.picture !== 0;
  if (output.picture !== 0 && output.picture !== shown.picture) {
    shown.image.width = output.width;
    shown.image.height = output.height;
    shown.image.src = "output?crtc=" + output.crtc + "&picture=" + output.picture;
  }
  if (shown.image.alt !== output.text) { shown.image.alt = output.text; }
  shown.picture = output.picture;
}

async function showOutputs() {
  const begun = Date.now();
  let pause = OUTPUT_PAUSE;
  try {
    const answer = document.hidden ? null : await (await fetch("outputs", {cache: "no-store"})).json();
    if (answer) {
      const problem = document.getElementById("outputsproblem");
      set(problem, answer.problem || "");
      problem.hidden = !answer.problem;
      answer.outputs.forEach(showOutput);
      pause = answer.problem ? 1000 : OUTPUT_PAUSE;
    }
  } catch {
    pause = 1000; // the watch has ended
  }
  setTimeout(showOutputs, Math.max(0, pause - (Date.now() - begun)));
}

if (first.has_outputs) {
  document.getElementById("outputshead").hidden = false;
  showOutputs();
}
