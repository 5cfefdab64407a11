"use strict";
// Draws the map, the path and the side views of a page. Lengths are in the job's units until they are written.
const errors = document.getElementById("errors");
window.onerror = (message, source, line) => {
  errors.hidden = false;
  errors.textContent += `error: ${message} (line ${line}) `;
};
const data = JSON.parse(document.getElementById("data").textContent);
if (data) start();
document.body.dataset.ready = "yes";

function bytesOf(text) {
  return Uint8Array.from(atob(text), (it) => it.charCodeAt(0));
}

function numbersOf(text) {
  const bytes = new DataView(bytesOf(text).buffer);
  return Int32Array.from({ length: bytes.byteLength / 4 }, (_, at) => bytes.getInt32(4 * at, true));
}

function start() {
  const unit = 10 ** data.places;
  const mm = (units) => (units / unit).toFixed(data.places);
  const round = (millimetres) => String(Number(millimetres.toFixed(3)));
  const byId = (name) => document.getElementById(name);
  const canvas = byId("map"), slider = byId("slider"), output = byId("at");
  const context = canvas.getContext("2d");
  const margin = { left: 46, right: 14, top: 12, bottom: 30 };
  const job = data.job, columns = data.columns, boxes = job.keep_out || [];
  const part = numbersOf(columns.part);
  const tops = columns.tops ? numbersOf(columns.tops) : part;
  const kinds = columns.kinds ? bytesOf(columns.kinds) : new Uint8Array(part.length);
  const path = readPath();
  let chosen = null, isClose = false, view = null, shownTo = path.count;
  let width = 0, height = 0;
  const surface = surfaceOf();
  const heights = heightsOf();

  // ---- what there is

  function readPath() {
    const it = { rapid: bytesOf(data.path.rapid), step: bytesOf(data.path.step) };
    for (const name of ["x", "y", "z", "first", "last"]) it[name] = numbersOf(data.path[name]);
    it.count = it.x.length;
    return it;
  }

  function startOf(at) {
    // (a program that starts from anywhere has its first move where that ends)
    const first = job.start && job.start !== "home" ? [path.x[at], path.y[at], path.z[at]] : [job.home[0], job.home[1], job.clear];
    if (at === 0 || path.step[at] !== path.step[at - 1]) return first;
    return [path.x[at - 1], path.y[at - 1], path.z[at - 1]];
  }

  function heightsOf() {
    let low = Infinity, high = -Infinity;
    for (let at = 0; at < path.count; at++) {
      if (path.rapid[at]) continue;
      low = Math.min(low, path.z[at]);
      high = Math.max(high, path.z[at]);
    }
    if (low > high) [low, high] = [job.floor, job.top];
    return { low, high: Math.min(Math.max(high, low + 1), Math.max(job.top, low + 1)) };
  }

  // ---- the surface, a pixel for each column

  function colorOf(kind, top, over, low, high) {
    const part = high > low ? Math.min(Math.max((top - low) / (high - low), 0), 1) : 0;
    if (kind === 1) return [240, 213, 132];
    if (kind === 3) return [210, 31, 43];
    if (kind === 4) return [138, 47, 176];
    if (kind === 2) {
      const much = Math.min(over / Math.max(job.top - job.floor, 1) * 2, 1);
      return [249 - 21 * much, 173 - 77 * much, 76 - 61 * much];
    }
    const grey = 216 - 72 * part;
    return [grey - 2, grey, grey + 5];
  }

  function surfaceOf() {
    const image = document.createElement("canvas");
    image.width = columns.along;
    image.height = columns.rows;
    const pixels = new ImageData(columns.along, columns.rows);
    const low = tops.reduce((a, b) => Math.min(a, b)), high = tops.reduce((a, b) => Math.max(a, b));
    const topAt = (row, column) => tops[Math.min(Math.max(row, 0), columns.rows - 1) * columns.along + Math.min(Math.max(column, 0), columns.along - 1)];
    for (let row = 0; row < columns.rows; row++) {
      for (let column = 0; column < columns.along; column++) {
        const at = row * columns.along + column;
        const slope = (topAt(row, column + 1) - topAt(row, column - 1) - topAt(row + 1, column) + topAt(row - 1, column)) / columns.pitch;
        const light = 16 * Math.max(Math.min(slope / 2, 1), -1);
        const color = colorOf(kinds[at], tops[at], tops[at] - part[at], low, high);
        const pixel = 4 * ((columns.rows - 1 - row) * columns.along + column);
        for (let channel = 0; channel < 3; channel++) pixels.data[pixel + channel] = color[channel] + light;
        pixels.data[pixel + 3] = 255;
      }
    }
    image.getContext("2d").putImageData(pixels, 0, 0);
    return image;
  }

  // ---- where things are drawn

  function wholeBox() {
    const box = { x0: job.area[0], y0: job.area[1], x1: job.area[2], y1: job.area[3] };
    const reach = Math.max(...data.tools.map((it) => it.radius));
    for (let at = 0; at < path.count; at++) {
      box.x0 = Math.min(box.x0, path.x[at]);
      box.x1 = Math.max(box.x1, path.x[at]);
      box.y0 = Math.min(box.y0, path.y[at]);
      box.y1 = Math.max(box.y1, path.y[at]);
    }
    const edge = Math.max(columns.pitch, reach / 3), far = { x: (box.x1 - box.x0) / 3, y: (box.y1 - box.y0) / 3 }, own = { ...box };
    for (const [x0, y0, x1, y1] of boxes) {
      box.x0 = Math.max(Math.min(box.x0, x0), own.x0 - far.x);
      box.x1 = Math.min(Math.max(box.x1, x1), own.x1 + far.x);
      box.y0 = Math.max(Math.min(box.y0, y0), own.y0 - far.y);
      box.y1 = Math.min(Math.max(box.y1, y1), own.y1 + far.y);
    }
    return { x0: box.x0 - edge, y0: box.y0 - edge, x1: box.x1 + edge, y1: box.y1 + edge };
  }

  function fit(box) {
    const wide = width - margin.left - margin.right, high = height - margin.top - margin.bottom;
    const scale = Math.min(wide / (box.x1 - box.x0), high / (box.y1 - box.y0));
    view = { scale, x: (box.x0 + box.x1) / 2 - wide / 2 / scale, y: (box.y0 + box.y1) / 2 - high / 2 / scale };
  }

  const toX = (x) => margin.left + (x - view.x) * view.scale;
  const toY = (y) => height - margin.bottom - (y - view.y) * view.scale;
  const fromX = (x) => view.x + (x - margin.left) / view.scale;
  const fromY = (y) => view.y + (height - margin.bottom - y) / view.scale;

  function resize() {
    const ratio = window.devicePixelRatio || 1, box = wholeBox();
    width = canvas.parentElement.clientWidth - 32;
    const wanted = (width - margin.left - margin.right) * (box.y1 - box.y0) / (box.x1 - box.x0) + margin.top + margin.bottom;
    height = Math.max(Math.min(wanted, 620), 260);
    canvas.style.height = `${height}px`;
    canvas.width = Math.round(width * ratio);
    canvas.height = Math.round(height * ratio);
    context.setTransform(ratio, 0, 0, ratio, 0, 0);
    fit(box);
    if (isClose) showPlace(chosen);
    draw();
  }

  // ---- the map

  function draw() {
    context.fillStyle = "#fff";
    context.fillRect(0, 0, width, height);
    context.save();
    context.beginPath();
    context.rect(margin.left, margin.top, width - margin.left - margin.right, height - margin.top - margin.bottom);
    context.clip();
    context.fillStyle = "#eceef1";
    context.fillRect(0, 0, width, height);
    if (byId("show-left").checked) drawSurface();
    drawGrid();
    drawArea();
    drawBoxes();
    drawPath();
    drawFailing();
    drawChosen();
    drawZero();
    context.restore();
    drawAxes();
    drawScale();
  }

  function drawSurface() {
    const half = columns.pitch / 2;
    context.imageSmoothingEnabled = false;
    context.drawImage(surface, toX(columns.x0 - half), toY(columns.y0 + (columns.rows - 0.5) * columns.pitch), columns.along * columns.pitch * view.scale, columns.rows * columns.pitch * view.scale);
  }

  function drawBoxes() {
    context.fillStyle = "rgba(185, 147, 90, .55)";
    context.strokeStyle = "#6b4a1f";
    context.lineWidth = 1.4;
    for (const [x0, y0, x1, y1] of boxes) {
      context.fillRect(toX(x0), toY(y1), (x1 - x0) * view.scale, (y1 - y0) * view.scale);
      context.strokeRect(toX(x0), toY(y1), (x1 - x0) * view.scale, (y1 - y0) * view.scale);
    }
  }

  function drawArea() {
    const [x0, y0, x1, y1] = job.area;
    context.strokeStyle = "#8b929b";
    context.lineWidth = 1;
    context.strokeRect(toX(x0), toY(y1), (x1 - x0) * view.scale, (y1 - y0) * view.scale);
  }

  function stepFor(pixels) {
    const least = pixels / view.scale / unit;
    const power = 10 ** Math.floor(Math.log10(least));
    return [1, 2, 5, 10].find((it) => it * power >= least) * power * unit;
  }

  function ticks(from, to, step) {
    const found = [];
    for (let at = Math.ceil(from / step - 1e-9); at * step <= to + 1e-9; at++) found.push(at * step);
    return found;
  }

  function drawGrid() {
    const step = stepFor(62);
    context.strokeStyle = "rgba(20, 30, 40, .09)";
    context.lineWidth = 1;
    context.beginPath();
    for (const x of ticks(fromX(margin.left), fromX(width - margin.right), step)) line(toX(x), margin.top, toX(x), height - margin.bottom);
    for (const y of ticks(fromY(height - margin.bottom), fromY(margin.top), step)) line(margin.left, toY(y), width - margin.right, toY(y));
    context.stroke();
  }

  function line(x0, y0, x1, y1) {
    context.moveTo(x0, y0);
    context.lineTo(x1, y1);
  }

  function drawAxes() {
    const step = stepFor(62), left = margin.left, low = height - margin.bottom;
    context.strokeStyle = "#8b929b";
    context.lineWidth = 1;
    context.strokeRect(left + 0.5, margin.top + 0.5, width - left - margin.right - 1, low - margin.top - 1);
    context.fillStyle = "#3c434b";
    context.font = "12px system-ui, sans-serif";
    context.textAlign = "center";
    context.textBaseline = "top";
    for (const x of ticks(fromX(left + 8), fromX(width - margin.right - 8), step)) context.fillText(`X${round(x / unit)}`, toX(x), low + 6);
    context.textAlign = "right";
    context.textBaseline = "middle";
    for (const y of ticks(fromY(low - 4), fromY(margin.top + 4), step)) context.fillText(`Y${round(y / unit)}`, left - 6, toY(y));
  }

  function drawScale() {
    const long = stepFor(80), x1 = width - margin.right - 12, y = height - margin.bottom - 14, x0 = x1 - long * view.scale;
    context.fillStyle = "rgba(255, 255, 255, .85)";
    context.fillRect(x0 - 8, y - 18, x1 - x0 + 16, 26);
    context.strokeStyle = context.fillStyle = "#1f2328";
    context.lineWidth = 1.5;
    context.beginPath();
    line(x0, y, x1, y);
    line(x0, y - 4, x0, y + 4);
    line(x1, y - 4, x1, y + 4);
    context.stroke();
    context.textAlign = "center";
    context.textBaseline = "bottom";
    context.fillText(`${round(long / unit)} mm`, (x0 + x1) / 2, y - 2);
  }

  function drawZero() {
    const x = toX(0), y = toY(0);
    context.strokeStyle = "#0b57c2";
    context.lineWidth = 1.8;
    context.beginPath();
    context.arc(x, y, 6, 0, 7);
    context.stroke();
    context.lineWidth = 1;
    context.beginPath();
    line(x - 11, y, x + 11, y);
    line(x, y - 11, x, y + 11);
    context.stroke();
  }

  const ramp = [[35, 34, 107], [34, 96, 174], [47, 156, 196], [125, 211, 192]];

  function shade(part) {
    const at = Math.min(Math.max(part, 0), 1) * (ramp.length - 1), low = Math.min(Math.floor(at), ramp.length - 2);
    return `rgb(${ramp[low].map((it, channel) => Math.round(it + (ramp[low + 1][channel] - it) * (at - low))).join(",")})`;
  }

  // The ways of one colour are drawn together.
  function drawPath() {
    const bins = Array.from({ length: 24 }, () => []), rapids = [];
    for (let at = 0; at < shownTo; at++) {
      if (path.rapid[at]) rapids.push(at);
      else bins[Math.min(Math.max(Math.floor((path.z[at] - heights.low) / (heights.high - heights.low) * 23), 0), 23)].push(at);
    }
    if (byId("show-rapids").checked) strokeWays(rapids, "rgba(70, 76, 84, .6)", 1.1, [5, 4]);
    if (!byId("show-cuts").checked) return;
    const thick = path.count > 20000 ? 0.8 : 1.5;
    for (let bin = 23; bin >= 0; bin--) strokeWays(bins[bin], shade(bin / 23), thick, []);
  }

  function strokeWays(ways, color, thick, dashes) {
    context.strokeStyle = color;
    context.lineWidth = thick;
    context.setLineDash(dashes);
    context.beginPath();
    for (const at of ways) {
      const from = startOf(at);
      line(toX(from[0]), toY(from[1]), toX(path.x[at]), toY(path.y[at]));
    }
    context.stroke();
    context.setLineDash([]);
  }

  function drawFailing() {
    context.strokeStyle = "#c5161d";
    context.lineWidth = 2;
    context.lineCap = "round";
    context.beginPath();
    for (const finding of data.findings) {
      for (const [, , , , from, to, tip] of finding.moves) {
        line(toX(from[0]), toY(from[1]), toX(to[0]), toY(to[1]));
        context.moveTo(toX(tip[0]) + 2.5, toY(tip[1]));
        context.arc(toX(tip[0]), toY(tip[1]), 2.5, 0, 7);
      }
    }
    context.stroke();
    context.lineCap = "butt";
  }

  function drawChosen() {
    if (!chosen) return drawTool();
    if (chosen.move) {
      const [step, , , , from, to, tip, place] = chosen.move;
      context.strokeStyle = "#c5161d";
      context.lineWidth = 4;
      context.beginPath();
      line(toX(from[0]), toY(from[1]), toX(to[0]), toY(to[1]));
      context.stroke();
      drawDisc(tip, data.tools[step].radius, "#c5161d");
      if (job.holder_radius) drawDisc(tip, job.holder_radius, "#c5161d", [5, 4]);
      drawCross(place);
    } else if (chosen.columns) {
      outlineOf(chosen.columns);
    }
  }

  function drawDisc(place, radius, color, dashes = []) {
    context.strokeStyle = color;
    context.lineWidth = 1.5;
    context.setLineDash(dashes);
    context.beginPath();
    context.arc(toX(place[0]), toY(place[1]), radius * view.scale, 0, 7);
    context.stroke();
    context.setLineDash([]);
    context.globalAlpha = 0.12;
    context.fillStyle = color;
    context.fill();
    context.globalAlpha = 1;
  }

  function drawCross(place) {
    const x = toX(place[0]), y = toY(place[1]);
    context.strokeStyle = "#000";
    context.lineWidth = 2;
    context.beginPath();
    line(x - 5, y - 5, x + 5, y + 5);
    line(x - 5, y + 5, x + 5, y - 5);
    context.stroke();
  }

  function outlineOf(places) {
    const half = columns.pitch / 2, box = boxOf(places);
    context.strokeStyle = "#000";
    context.lineWidth = 1.6;
    context.setLineDash([6, 3]);
    context.strokeRect(toX(box.x0 - half) - 3, toY(box.y1 + half) - 3, (box.x1 - box.x0 + 2 * half) * view.scale + 6, (box.y1 - box.y0 + 2 * half) * view.scale + 6);
    context.setLineDash([]);
  }

  function boxOf(places) {
    const xs = places.map((it) => it[0]), ys = places.map((it) => it[1]);
    return { x0: Math.min(...xs), y0: Math.min(...ys), x1: Math.max(...xs), y1: Math.max(...ys) };
  }

  // Where the path has come to, the tool is drawn.
  function drawTool() {
    if (shownTo === 0 || shownTo === path.count) return;
    const at = shownTo - 1;
    drawDisc([path.x[at], path.y[at]], data.tools[path.step[at]].radius, "#2260ae");
  }

  // ---- the side view

  const svg = (name, attributes, inside = "") => `<${name} ${Object.entries(attributes).map(([key, value]) => `${key}="${value}"`).join(" ")}>${inside}</${name}>`;

  function heightsShown(it) {
    const least = Math.min(...it.part, job.floor), most = Math.max(...it.stock, ...it.part);
    if (it.step !== null) return [it.middle[2] - 0.45 * it.wide, it.middle[2] + 0.95 * it.wide];
    const tall = Math.max(most - least, 0.5 * it.wide), middle = (most + least) / 2;
    return [middle - 0.62 * tall, middle + 0.62 * tall];
  }

  function sideView(it) {
    const wide = 440, left = 46, low = 30, scale = (wide - left - 8) / (2 * it.wide), [bottom, top] = heightsShown(it);
    const high = (top - bottom) * scale, x = (beside) => left + (beside + it.wide) * scale, y = (z) => 8 + (top - z) * scale;
    const text = (values) => values.map(([a, b]) => `${x(a).toFixed(1)} ${y(b).toFixed(1)}`).join("L");
    const along = (number) => it.wide * (2 * number / (it.part.length - 1) - 1);
    const shape = (values) => `M${text([[-it.wide, bottom - it.wide], ...values.map((z, number) => [along(number), z]), [it.wide, bottom - it.wide]])}Z`;
    const partShape = shape(it.part), stock = shape(it.stock.map((z, number) => Math.max(z, it.part[number])));
    const clip = svg("clipPath", { id: "frame" }, svg("rect", { x: left, y: 8, width: wide - left - 8, height: high })) + svg("clipPath", { id: "inside" }, svg("path", { d: partShape }));
    let inner = svg("path", { d: stock, fill: "#eed9a0", stroke: "#bfa45a" }) + svg("path", { d: partShape, fill: "#a4a9b1", stroke: "#565c64", "stroke-width": 1.4 });
    inner += svg("path", { d: `M${text([[-it.wide, job.floor], [it.wide, job.floor]])}`, stroke: "#565c64", "stroke-dasharray": "2 3" });
    for (const [from, to, high] of it.boxes) inner += svg("rect", { x: x(from).toFixed(1), y: y(high).toFixed(1), width: Math.max(x(to) - x(from), 1).toFixed(1), height: 4000, fill: "#b9935a", "fill-opacity": 0.7, stroke: "#6b4a1f" });
    if (it.column) inner += columnBar(it, x, y);
    if (it.step !== null) inner += toolOf(it, x, y, text, partShape);
    const frame = svg("rect", { x: left, y: 8, width: wide - left - 8, height: high, fill: "none", stroke: "#8b929b" });
    return svg("svg", { viewBox: `0 0 ${wide} ${(high + low + 8).toFixed(0)}`, role: "img", "aria-label": "side view", "font-size": 12, "font-family": "system-ui, sans-serif" },
      clip + svg("g", { "clip-path": "url(#frame)" }, svg("rect", { x: left, y: 8, width: wide, height: high, fill: "#f4f6f8" }) + inner) + frame + sideAxes(it, scale, x, y, bottom, top, high));
  }

  function columnBar(it, x, y) {
    const [beside, top] = it.column, half = Math.max(columns.pitch / 2, it.wide / 120);
    return svg("rect", { x: x(beside - half).toFixed(1), y: y(top).toFixed(1), width: (x(half) - x(-half)).toFixed(1), height: 2000, fill: "#e4600f", "fill-opacity": 0.75 });
  }

  function toolOf(it, x, y, text, partShape) {
    const tool = data.tools[it.step], tip = it.middle[2], high = tip + 6 * it.wide;
    const right = tool.outline.map(([beside, up]) => [beside, tip + up]);
    const both = [...right, [tool.radius, high], [-tool.radius, high], ...right.map(([beside, z]) => [-beside, z]).reverse()];
    const shape = `M${text(both)}Z`;
    let said = svg("path", { d: shape, fill: "#2260ae", "fill-opacity": 0.16, stroke: "#1d4f8f", "stroke-width": 1.4 });
    said += svg("path", { d: shape, fill: "#c5161d", "fill-opacity": 0.85, "clip-path": "url(#inside)" });
    if (job.stickout) {
      const holder = text([[-job.holder_radius, tip + job.stickout], [job.holder_radius, tip + job.stickout], [job.holder_radius, high], [-job.holder_radius, high]]);
      said += svg("path", { d: `M${holder}Z`, fill: "#59636e", "fill-opacity": 0.3, stroke: "#3c434b" }) + svg("path", { d: `M${holder}Z`, fill: "#c5161d", "fill-opacity": 0.85, "clip-path": "url(#inside)" });
    }
    said += svg("path", { d: `M${text([[0, tip], [0, high]])}`, stroke: "#1d4f8f", "stroke-dasharray": "8 3 2 3" });
    return said + svg("circle", { cx: x(it.hit[0]).toFixed(1), cy: y(it.hit[1]).toFixed(1), r: 4, fill: "none", stroke: "#000", "stroke-width": 1.6 });
  }

  function sideAxes(it, scale, x, y, bottom, top, high) {
    const least = 52 / scale / unit, power = 10 ** Math.floor(Math.log10(least));
    const step = [1, 2, 5, 10].find((one) => one * power >= least) * power * unit;
    let said = "";
    for (const at of ticks(-it.wide, it.wide, step)) {
      said += svg("text", { x: x(at).toFixed(1), y: high + 24, "text-anchor": "middle", fill: "#3c434b" }, round(at / unit)) + svg("path", { d: `M${x(at).toFixed(1)} ${high + 8}v4`, stroke: "#565c64" });
    }
    for (const at of ticks(bottom, top, step)) {
      const weight = at === 0 ? 700 : 400;
      said += svg("text", { x: 40, y: (y(at) + 4).toFixed(1), "text-anchor": "end", fill: "#3c434b", "font-weight": weight }, `Z${round(at / unit)}`) + svg("path", { d: `M46 ${y(at).toFixed(1)}h-4`, stroke: "#565c64" });
    }
    return said;
  }

  function facing(along) {
    const angle = Math.round(Math.atan2(along[1], along[0]) * 180 / Math.PI);
    const named = { 0: "along X", 180: "along X, backward", "-180": "along X, backward", 90: "along Y", "-90": "along Y, backward" };
    return named[angle] || `at ${angle}\u00b0 to X`;
  }

  // ---- choosing a place

  function showPlace(place) {
    const near = place.move ? placesOf(place.move) : place.columns;
    if (!near || !near.length) return;
    const box = boxOf(near), edge = place.move ? 2.2 * data.tools[place.move[0]].radius : 2 * Math.max(...data.tools.map((it) => it.radius));
    fit({ x0: box.x0 - edge, y0: box.y0 - edge, x1: box.x1 + edge, y1: box.y1 + edge });
  }

  function placesOf(move) {
    return [move[6], move[7]];
  }

  function choose(number, move, closer) {
    const finding = data.findings[number];
    chosen = { finding, move: move || finding.moves[0] || null, columns: finding.columns.length ? finding.columns : null };
    for (const it of document.querySelectorAll(".chosen")) it.classList.remove("chosen");
    const item = byId(`finding-${number}`);
    item.classList.add("chosen");
    if (chosen.move) markLine(item, chosen.move);
    isClose = closer;
    if (closer) showPlace(chosen);
    showSide();
    draw();
    document.body.dataset.shown = chosen.move ? `line ${chosen.move[1]} X${mm(chosen.move[6][0])} Y${mm(chosen.move[6][1])} Z${mm(chosen.move[6][2])}` : `finding ${number}`;
  }

  function markLine(item, move) {
    const button = item.querySelector(`[data-step="${move[0]}"][data-move="${move[2]}"]`);
    if (button) button.classList.add("chosen");
  }

  function showSide() {
    const number = !chosen ? 0 : chosen.move ? chosen.move[8] : chosen.finding.view, it = data.views[number ?? -1];
    const move = chosen && chosen.move;
    byId("side").hidden = false;
    byId("side-title").textContent = move ? `Line ${move[1]} from the side` : "From the side";
    if (!it) {
      byId("view").innerHTML = "";
      byId("side-told").textContent = "Of this line the page has no side view; those of the first lines stand for it.";
      return;
    }
    byId("view").innerHTML = sideView(it);
    const where = move ? `The tip at X${mm(it.middle[0])} Y${mm(it.middle[1])} Z${mm(it.middle[2])}` : `Through X${mm(it.middle[0])} Y${mm(it.middle[1])}`;
    byId("side-told").textContent = `${where}, cut ${facing(it.along)}. Grey: the part; sand: the stock after all moves${it.boxes.length ? "; brown: a box of keep_out" : ""}${move ? "; red: the tool inside the part" : ""}. In mm.`;
  }

  function chooseLine(step, number, isMove, closer) {
    for (const [at, finding] of data.findings.entries()) {
      const move = finding.moves.find((it) => it[0] === step && it[isMove ? 2 : 1] === number);
      if (move) {
        choose(at, move, closer);
        return true;
      }
    }
    return false;
  }

  function chooseByHash() {
    const asked = new URLSearchParams(location.hash.slice(1));
    if (asked.has("finding") && data.findings[Number(asked.get("finding"))]) choose(Number(asked.get("finding")), null, !asked.has("whole"));
    if (!asked.has("line")) return;
    const step = Number(asked.get("program") || 0), number = Number(asked.get("line"));
    if (!chooseLine(step, number, false, true)) slideTo(step, number);
  }

  function slideTo(step, number) {
    for (let at = 0; at < path.count; at++) {
      if (path.step[at] === step && path.last[at] >= number) {
        slider.value = at + 1;
        slide();
        return;
      }
    }
  }

  // ---- what is touched

  function slide() {
    shownTo = Number(slider.value);
    if (shownTo < path.count) [chosen, isClose] = [null, false];
    tellSlider();
    draw();
  }

  function tellSlider() {
    if (shownTo === 0) {
      output.textContent = "the start";
      return;
    }
    const at = shownTo - 1, lines = path.first[at] === path.last[at] ? `line ${path.last[at]}` : `lines ${path.first[at]} to ${path.last[at]}`;
    const program = data.programs.length > 1 ? `${data.programs[path.step[at]]} ` : "";
    output.textContent = `${program}${lines}: ${path.rapid[at] ? "rapid" : "feed"} to X${mm(path.x[at])} Y${mm(path.y[at])} Z${mm(path.z[at])}`;
  }

  function tellUnder(event) {
    const x = fromX(event.offsetX), y = fromY(event.offsetY);
    const column = Math.round((x - columns.x0) / columns.pitch), row = Math.round((y - columns.y0) / columns.pitch);
    let said = `X${mm(x)} Y${mm(y)}`;
    if (column >= 0 && row >= 0 && column < columns.along && row < columns.rows) {
      const at = row * columns.along + column, over = tops[at] - part[at];
      const than = over > 0 ? `, ${mm(over)} over the part` : over < 0 ? `, ${mm(-over)} under the part's highest there` : "";
      said += `: stands at Z${mm(tops[at])}; the part at Z${mm(part[at])}${than}`;
    }
    byId("under").textContent = said;
  }

  function zoom(by, x, y) {
    const [wx, wy] = [fromX(x), fromY(y)];
    view.scale *= by;
    view.x = wx - (x - margin.left) / view.scale;
    view.y = wy - (height - margin.bottom - y) / view.scale;
    draw();
  }

  function listen() {
    let held = null;
    canvas.addEventListener("wheel", (event) => {
      event.preventDefault();
      zoom(event.deltaY < 0 ? 1.2 : 1 / 1.2, event.offsetX, event.offsetY);
    }, { passive: false });
    canvas.addEventListener("pointerdown", (event) => {
      held = { x: event.offsetX, y: event.offsetY, at: { ...view } };
      canvas.setPointerCapture(event.pointerId);
    });
    canvas.addEventListener("pointerup", () => { held = null; });
    canvas.addEventListener("pointermove", (event) => {
      if (held) {
        view.x = held.at.x - (event.offsetX - held.x) / view.scale;
        view.y = held.at.y + (event.offsetY - held.y) / view.scale;
        draw();
      }
      tellUnder(event);
    });
    canvas.addEventListener("dblclick", whole);
    byId("closer").onclick = () => zoom(1.5, width / 2, height / 2);
    byId("farther").onclick = () => zoom(1 / 1.5, width / 2, height / 2);
    byId("whole").onclick = whole;
    slider.oninput = slide;
    for (const name of ["show-left", "show-cuts", "show-rapids"]) byId(name).onchange = draw;
    for (const button of document.querySelectorAll("[data-finding]")) button.onclick = () => choose(Number(button.dataset.finding), null, true);
    for (const button of document.querySelectorAll("[data-move]")) button.onclick = () => chooseLine(Number(button.dataset.step), Number(button.dataset.move), true, true);
    window.addEventListener("resize", resize);
    window.addEventListener("hashchange", chooseByHash);
  }

  function whole() {
    isClose = false;
    fit(wholeBox());
    draw();
  }

  byId("low").textContent = `Z${mm(heights.low)}`;
  byId("high").textContent = `Z${mm(heights.high)}`;
  if (!columns.tops) byId("show-left").parentElement.lastChild.textContent = " the part";
  if (!kinds.some((it) => it > 1)) for (const it of document.querySelectorAll(".legend .bad")) it.hidden = true;
  slider.max = path.count;
  slider.value = path.count;
  byId("boxes").hidden = !boxes.length;
  listen();
  resize();
  tellSlider();
  if (data.findings.length) choose(0, null, false);
  else showSide();
  chooseByHash();
}
