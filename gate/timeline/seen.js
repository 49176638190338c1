// Looks at the page as somebody who opens it, and presses and clicks what is there; what came is left for test_timeline.py.

(() => {
  const swatches = [...document.querySelectorAll("#legend .swatch")];

  // How many coherent areas of each color of the legend are seen on the canvas, and a place in each of a failed test's.
  function areas() {
    const { width, height } = canvas;
    const found = {};
    for (const swatch of swatches) {
      const [red, green, blue] = getComputedStyle(swatch).backgroundColor.match(/\d+/g).map(Number);
      const color = (0xff000000 | (blue << 16) | (green << 8) | red) >>> 0;
      const pixels = new Uint32Array(context.getImageData(0, 0, width, height).data.buffer);
      found[swatch.classList[1]] = [];
      for (let seed = 0; seed < pixels.length; seed += 1) {
        if (pixels[seed] !== color) continue;
        let lowest = seed;
        const waiting = [seed];
        pixels[seed] = 0;
        while (waiting.length) {
          const at = waiting.pop();
          lowest = Math.max(lowest, at);
          for (const next of [at - 1, at + 1, at - width, at + width]) {
            if (pixels[next] === color) { pixels[next] = 0; waiting.push(next); }
          }
        }
        if (lowest - seed >= 2 * width) found[swatch.classList[1]].push([seed % width, Math.floor(seed / width) + 3]);
      }
    }
    return found;
  }

  const terms = (id) => Object.fromEntries([...document.querySelectorAll(`#${id} dt`)].map((it) => [it.textContent, it.nextSibling.textContent]));
  const listed = (id) => [...document.querySelectorAll(`#${id} li`)].map((it) => [...it.querySelectorAll("span")].map((part) => part.textContent).join(" "));
  const press = (key) => { canvas.dispatchEvent(new KeyboardEvent("keydown", { key })); return terms("details"); };

  function point(type, x, y) {
    const box = canvas.getBoundingClientRect();
    canvas.dispatchEvent(new PointerEvent(type, { clientX: box.left + x, clientY: box.top + y, pointerId: 1 }));
  }

  const saw = { legend: document.getElementById("legend").innerText, summary: element("summary").textContent };
  const bars = areas();
  saw.bars = Object.fromEntries(Object.entries(bars).map(([ending, found]) => [ending, found.length]));
  saw.slowest = listed("slowest");
  const ids = ["[class:a.B]/[nested-class:C]/[test-template:d(int)]/[test-template-invocation:#2]", "[class:a.B]", "[t:1]"];
  saw.sources = ids.map((id) => sourceText(`[engine:e]/${id}`));
  saw.gaps = listed("gaps");
  if (bars.failed.length) {
    canvas.setPointerCapture = () => {};
    point("pointermove", ...bars.failed[0]);
    saw.tip = terms("tip");
    point("pointerdown", ...bars.failed[0]);
    point("pointerup", ...bars.failed[0]);
    saw.selected = terms("details");
    saw.sharers = state.sharers.map((it) => idOf(descriptors[it]));
    press("Escape");
    point("pointerdown", ...bars.failed[0]);
    point("pointermove", bars.failed[0][0] + 40, bars.failed[0][1]);
    point("pointerup", ...bars.failed[0]);
    saw.dragged = state.selected;
  }
  function found(text) {
    element("search").value = text;
    element("search").dispatchEvent(new Event("input"));
    return element("found").textContent;
  }
  saw.holders = found("DB");
  saw.nobody = found("w db");
  found("");
  canvas.focus();
  saw.isFocused = document.activeElement === canvas;
  press("Escape");
  saw.keys = ["ArrowRight", "ArrowDown", "ArrowRight", "ArrowRight", "ArrowLeft", "ArrowUp"].map((key) => press(key).id);
  press("+");
  saw.closer = state.right - state.left < data.end;
  saw.ends = [[press("End"), state.right][1], [press("Home"), state.left][1], state.right < data.end];
  press("-");
  saw.farther = [state.left, state.right];
  press("+");
  press("0");
  saw.whole = [state.left, state.right];
  document.querySelector("#slowest button").click();
  saw.longest = terms("details");
  document.querySelectorAll("#gaps button")[1].click();
  saw.late = terms("details");
  saw.visible = visible("a\u2065\u2066\u2067\u2068\u2069\u206a\u001b\r\tb");
  show(data.end - 5, data.end);
  document.querySelector("#gaps button").click();
  const { it, length } = state.gap;
  saw.gapIsSeen = [state.left <= begins[it] - Number(length), begins[it] < state.right];
  const panel = document.querySelector("aside");
  const [name, source] = ["name", "source"].map((part) => document.querySelector(`#slowest .${part}`));
  [name.textContent, source.textContent] = ["n".repeat(300), "s".repeat(300)];
  saw.panel = [panel.scrollWidth <= panel.clientWidth, name.clientWidth > 100, source.clientHeight > name.clientHeight];
  const [one, other] = numbers.filter(isTest);
  const isBeside = () => besideText(one).includes(idOf(descriptors[other]));
  begins[other] = ends[one] - 0.5;
  saw.touches = [isBeside()];
  begins[other] = ends[one];
  saw.touches.push(isBeside());
  numbers.filter = () => Array(25).fill(other);
  saw.beside = besideText(one).split("\n").slice(20);
  delete numbers.filter;
  saw.counted = [counted(1n, "stamp"), counted(2n, "stamp"), counted(1, "event"), counted(1234, "event")];
  document.body.dataset.saw = JSON.stringify(saw);
})();
