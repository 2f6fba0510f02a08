"use strict";
// Shows the journeys to the stop on which one clicks. What stands in the page comes as text only.
const said = JSON.parse(document.getElementById("said").textContent);
const panel = document.getElementById("journeys");
const route = document.querySelector(".route");
const finder = document.getElementById("find");
const [NAME, AT] = [1, 2];

function clock(time) {
  const whole = Math.abs(time);
  const parts = [Math.floor(whole / 3600), Math.floor(whole / 60) % 60, whole % 60];
  return (time < 0 ? "-" : "") + parts.map((part) => String(part).padStart(2, "0")).join(":");
}

function add(parent, tag, text = "") {
  const element = parent.appendChild(document.createElement(tag));
  element.textContent = text;
  return element;
}

// The stops that a leg goes from and to; a ride has five parts, a walk three.
const ends = (leg) => (leg.length === 5 ? [leg[1], leg[3]] : [leg[0], leg[1]]);

function legText(leg) {
  const [from, to] = ends(leg).map((stop) => said.stops[stop][NAME]);
  return leg.length === 5
    ? `${clock(leg[2])} ${from} – ${clock(leg[4])} ${to}`
    : `walk ${leg[2]} s from ${from} to ${to}`;
}

function draw(legs) {
  const points = legs.flatMap(ends).map((stop) => said.stops[stop][AT]).filter((at) => at);
  route.setAttribute("points", points.map((at) => at.join(",")).join(" "));
}

function addJourney(choice) {
  const [arrival, rides, legs] = choice;
  const details = panel.appendChild(document.createElement("details"));
  details.name = "journey";
  add(details, "summary", `${clock(arrival)}, ${rides} ${rides === 1 ? "ride" : "rides"}`);
  const list = add(details, "ol");
  for (const leg of legs) {
    const item = add(list, "li", legText(leg));
    if (leg.length === 5) {
      add(item, "span", ` on ${leg[0]}`).className = "note";
    }
  }
  if (legs.length === 0) {
    add(list, "li", "one is there");
  }
  details.addEventListener("toggle", () => details.open && draw(legs));
  return details;
}

function show(place) {
  panel.replaceChildren();
  draw([]);
  add(panel, "h2", said.stops[place][NAME]);
  const shown = said.journeys[place].map(addJourney);
  if (shown.length === 0) {
    add(panel, "p", "no journey");
  } else {
    shown.at(-1).open = true;
  }
}

document.querySelector("figure svg").addEventListener("click", (event) => {
  const place = event.target.dataset.at;
  if (place !== undefined) {
    show(Number(place));
  }
});

finder.addEventListener("change", () => {
  const place = said.journeys.findIndex((_, at) => {
    const [id, name] = said.stops[at];
    return finder.value === `${name} [${id}]` || finder.value === id || finder.value === name;
  });
  if (place >= 0) {
    show(place);
  }
});
