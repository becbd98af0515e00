"use strict";
(function () {
  const figures = JSON.parse(document.getElementById("pictures").textContent);
  const off = new Set();
  const root = document.documentElement;
  const config = {
    displaylogo: false,
    displayModeBar: true,
    responsive: true,
    modeBarButtonsToRemove: ["select2d", "lasso2d", "autoScale2d"],
  };
  const steps = [1, 2, 5, 10, 15, 30, 60, 120, 180, 360, 720, 1440, 10080, 100800];

  function clock(minute) {
    const two = (number) => String(number).padStart(2, "0");
    return two(Math.floor(minute / 60)) + ":" + two(minute % 60);
  }

  function escaped(fact) {
    const signs = { "&": "&amp;", "<": "&lt;", ">": "&gt;" };
    return String(fact).replace(/[&<>]/g, (sign) => signs[sign]);
  }

  // What pointing at a vertex tells: its facts, of which the first is the id.
  function told(facts, names, minute) {
    if (facts === null) return "";
    const lines = names.map((name, place) => [name, escaped(facts[place])]);
    if (minute !== null) lines.splice(1, 0, ["time", clock(minute)]);
    return lines
      .filter((line) => line[1] !== "")
      .map((line, place) => (place ? line[0] + ": " + line[1] : "<b>" + line.join(" ") + "</b>"))
      .join("<br>");
  }

  // Marks of an axis of times for what is seen of it and as much on both sides.
  function timeTicks(ends, width) {
    const span = Math.max(ends[1] - ends[0], 1);
    const step = steps.find((it) => span / it <= Math.max(width / 75, 2)) || span;
    const ticks = { tickmode: "array", tickvals: [], ticktext: [] };
    for (let at = Math.floor((ends[0] - span) / step) * step; at <= ends[1] + span; at += step) {
      if (at >= 0) {
        ticks.tickvals.push(at);
        ticks.ticktext.push(clock(at));
      }
    }
    return ticks;
  }

  function colours() {
    const style = getComputedStyle(root);
    const [text, line] = ["--text", "--line"].map((it) => style.getPropertyValue(it).trim());
    return {
      "font.color": text,
      "xaxis.gridcolor": line,
      "yaxis.gridcolor": line,
      "modebar.color": text,
      "modebar.bgcolor": "rgba(0,0,0,0)",
      "modebar.activecolor": "#e67300",
    };
  }

  function isShown(trace) {
    return !trace.meta.lines.some((line) => off.has(line));
  }

  async function draw(place) {
    if (place.dataset.state) return;
    place.dataset.state = "drawing";
    const figure = figures[place.dataset.picture];
    for (const trace of figure.data) {
      trace.visible = isShown(trace);
      if (trace.hoverinfo === "text") {
        const hasTime = figure.time && trace.meta.facts[0] === "event";
        trace.hovertext = trace.customdata.map((facts, at) =>
          told(facts, trace.meta.facts, hasTime ? trace.x[at] : null)
        );
      }
    }
    const layout = figure.layout;
    if (figure.time) Object.assign(layout.xaxis, timeTicks(layout.xaxis.range, place.clientWidth));
    await Plotly.newPlot(place, figure.data, layout, config);
    await Plotly.relayout(place, colours());
    if (figure.time) {
      place.on("plotly_relayout", (change) => {
        if (!("xaxis.range[0]" in change || "xaxis.range" in change)) return;
        const ticks = timeTicks(place.layout.xaxis.range, place.clientWidth);
        Plotly.relayout(place, {
          "xaxis.tickvals": ticks.tickvals,
          "xaxis.ticktext": ticks.ticktext,
        });
      });
    }
    place.dataset.state = "drawn";
  }

  const places = [...document.querySelectorAll(".picture")];
  const drawn = () => places.filter((place) => place.dataset.state === "drawn");
  const watch = new IntersectionObserver(
    (seen) => seen.filter((it) => it.isIntersecting).forEach((it) => draw(it.target)),
    { rootMargin: "300px" }
  );
  places.forEach((place) => watch.observe(place));
  window.addEventListener("beforeprint", () => places.forEach((it) => it.clientWidth && draw(it)));

  for (const chip of document.querySelectorAll(".chip")) {
    chip.addEventListener("click", () => {
      const line = Number(chip.dataset.line);
      const isOn = !off.delete(line);
      if (isOn) off.add(line);
      chip.setAttribute("aria-pressed", String(!isOn));
      for (const place of drawn()) {
        const traces = place.data.map((_, at) => at);
        const mine = traces.filter((at) => place.data[at].meta.lines.includes(line));
        if (mine.length) {
          Plotly.restyle(place, { visible: mine.map((at) => isShown(place.data[at])) }, mine);
        }
      }
    });
  }

  for (const select of document.querySelectorAll("select")) {
    select.addEventListener("change", () => {
      for (const figure of select.closest("section").querySelectorAll("figure")) {
        figure.hidden = figure.dataset.key !== select.value;
      }
    });
  }

  function theme(name) {
    root.dataset.theme = name;
    drawn().forEach((place) => Plotly.relayout(place, colours()));
  }
  theme(window.matchMedia("(prefers-color-scheme: dark)").matches ? "dark" : "light");
  document.getElementById("theme").addEventListener("click", () => {
    theme(root.dataset.theme === "dark" ? "light" : "dark");
  });
})();
