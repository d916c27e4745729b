/* SPDX-License-Identifier: Apache-2.0 */
// The proof sheet's sliders. Nothing is fetched: all pictures stand in the page.
"use strict";

// Before on the left of the line, after on the right of it.
for (const pair of document.querySelectorAll(".slider")) {
  const [after, line, range] = [".after", ".line", "input"].map(name => pair.querySelector(name));
  range.oninput = () => {
    after.style.clipPath = `inset(0 0 0 ${range.value}%)`;
    line.style.left = range.value + "%";
  };
}

// A plate's part as a picture of its ink on paper, from one in gray in which black is full ink.
async function inkOf(source, light) {
  const image = new Image();
  image.src = source;
  await image.decode();
  const canvas = document.createElement("canvas");
  [canvas.width, canvas.height] = [image.width, image.height];
  const context = canvas.getContext("2d");
  context.drawImage(image, 0, 0);
  const data = context.getImageData(0, 0, canvas.width, canvas.height);
  for (let at = 0; at < data.data.length; at += 4) {
    const ink = 1 - data.data[at] / 255;
    for (let channel = 0; channel < 3; channel++) data.data[at + channel] = Math.round(255 - ink * (255 - light[channel]));
  }
  context.putImageData(data, 0, 0);
  return canvas;
}

// How far plate k is off: by itself, or each its own way, so that no two of them part by more than the sliders say.
function shiftOf(k, which, across, down) {
  if (which !== "each") return +which === k ? [across, down] : [0, 0];
  const far = part => Math.sign(part) * Math.ceil(Math.abs(part) / 2), near = part => Math.sign(part) * Math.floor(Math.abs(part) / 2);
  return [[far(across), far(down)], [-near(across), -near(down)], [-near(down), near(across)], [near(down), -near(across)]][k % 4];
}

// The plates reach over the canvas by a margin on all sides.
function draw(canvas, inks, margin, which, across, down) {
  const context = canvas.getContext("2d");
  context.globalCompositeOperation = "source-over";
  context.fillStyle = "#fff";
  context.fillRect(0, 0, canvas.width, canvas.height);
  context.globalCompositeOperation = "multiply";
  inks.forEach((ink, k) => { if (ink) context.drawImage(ink, ...shiftOf(k, which, across, down).map(part => part - margin)); });
}

for (const page of document.querySelectorAll("section.page")) {
  const text = page.querySelector("script[type='application/json']");
  if (!text) continue;
  const told = JSON.parse(text.textContent), controls = page.querySelector(".controls");
  const [which, across, down] = ["select", ".across", ".down"].map(name => controls.querySelector(name));
  const parts = [...page.querySelectorAll(".details figure")];
  Promise.all(told.parts.map(part => Promise.all(["before", "after"].map(side =>
    Promise.all(part[side].map((source, k) => source ? inkOf(source, told.lights[k]) : null)))))).then(all => {
    const redraw = () => {
      controls.querySelector("output").textContent = `${across.value} across, ${down.value} down, in samples`;
      all.forEach((sides, at) => parts[at].querySelectorAll("canvas").forEach((canvas, side) =>
        draw(canvas, sides[side], told.margin, which.value, +across.value, +down.value)));
    };
    which.onchange = across.oninput = down.oninput = redraw;
    redraw();
    page.dataset.drawn = "yes";
  });
}
