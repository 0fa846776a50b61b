// The picture: what Graphviz drew, as large as its letters are on the page, no wider than its box where it is shown whole, and dragged in
// its box by d3 where that is there.
import { make } from "./views.js";

// `askRun(job, onEvents)` runs a job. Returns what draws histories, and what marks the states that are shown.
export function makePicture(places, askRun) {
  let scale = 1;
  let width = 0; // in the letters of the page
  let asked = 0; // pictures; what comes when a later one was asked for is left

  const resize = () => {
    const svg = places.drawing.querySelector("svg");
    if (svg) svg.style.width = `calc(min(${width}rem, 100%) * ${scale})`;
  };

  // Makes the picture larger or smaller by a factor; 0 shows it whole.
  const scaled = (factor) => {
    scale = factor === 0 ? 1 : Math.min(8, Math.max(0.2, scale * factor));
    resize();
  };

  const drag = (svg) => {
    const { d3 } = window;
    if (!d3) return;
    d3.select(svg).call(d3.behavior.drag().on("drag", () => {
      places.drawing.scrollLeft -= d3.event.dx;
      places.drawing.scrollTop -= d3.event.dy;
    }));
  };

  const show = (text) => {
    const found = new DOMParser().parseFromString(text, "image/svg+xml").documentElement;
    const svg = document.importNode(found, true);
    svg.setAttribute("role", "img");
    svg.setAttribute("aria-hidden", "true");
    places.drawing.replaceChildren(svg);
    width = svg.viewBox.baseVal.width / 12; // it counts points, and the page's letters have 12
    scaled(0);
    drag(svg);
  };

  // Draws histories, each a list of rows, as `histories` or as `transitions`.
  const draw = async (histories, shape) => {
    if (!histories.length) return;
    const mine = (asked += 1);
    places.section.hidden = false;
    places.drawn.textContent = "drawing ..";
    let picture = null;
    const sent = histories.slice(0, 300);
    const end = await askRun({ kind: "picture", shape, histories: sent }, (events) => {
      picture = events.find((event) => event.kind === "picture") || picture;
    });
    if (mine !== asked) return;
    if (picture) {
      show(picture.svg);
      const left = histories.length - sent.length;
      places.drawn.textContent = `${sent.length} ${sent.length === 1 ? "history" : "histories"}${left ? `; ${left} are left out` : ""}`;
      places.drawing.setAttribute("aria-label", `Picture of ${sent.length} histories as ${shape}; the table of each says the same`);
    } else {
      places.drawing.replaceChildren(make("p", {}, end.text || "there is no picture"));
      places.drawn.textContent = "";
    }
  };

  // Marks the states of a history: nodes with its words, with or without their step.
  const markStates = (rows) => {
    const wanted = new Set();
    rows.forEach((row, index) => {
      if (index % 2) return;
      wanted.add([`${index / 2}:`, ...row].join("\n"));
      wanted.add(row.length ? row.join("\n") : "nothing");
    });
    for (const node of places.drawing.querySelectorAll("g.node")) {
      const words = [...node.querySelectorAll("text")].map((text) => text.textContent).join("\n");
      node.classList.toggle("now", wanted.has(words));
    }
  };

  return { draw, scaled, markStates };
}
