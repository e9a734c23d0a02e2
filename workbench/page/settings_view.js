// The row at the top: machine, program or microprogram, and what else a run has; and the buttons.
import { kindOf } from "../mic/refusal.js";
import { byId, element, fill } from "./dom.js";
import { runProof, whyNoProof } from "./proof_view.js";

const numberIn = id => Number(byId(id).value.replace(/[ ,_']/g, ""));

export function buildSettings(bench) {
  for (const name of ["machine", "map", "program", "micro"]) byId(name).addEventListener("change", event => bench.set(name, event.target.value));
  byId("window").addEventListener("change", event => bench.set("window", +event.target.value));
  for (const name of ["bound", "from"]) {
    byId(name).addEventListener("change", () => {
      const value = numberIn(name), most = name === "bound" ? 1_000_000_000 : 10_000_000;
      if (Number.isInteger(value) && value >= (name === "bound" ? 0 : 1) && value <= most) bench.set(name, value);
      else bench.say(`${name === "bound" ? "The bound" : "The first cycle"} is a number up to ${most.toLocaleString("en-US")}.`);
      renderSettings(bench);
    });
  }
  byId("run").addEventListener("click", () => bench.run(false));
  byId("step").addEventListener("click", () => bench.run(true));
  byId("prove").addEventListener("click", () => runProof(bench));
  byId("stop").addEventListener("click", () => bench.stop());
}

const option = (value, text = value) => element("option", { value }, text);

export function renderSettings(bench) {
  const { settings, current } = bench, isMicro = current !== null && current.kind === "mal";
  byId("program-label").hidden = !isMicro;
  byId("micro-label").hidden = isMicro;
  const programs = [...bench.exercisePrograms().map(one => one.name), ...bench.allNames(["jas", "tiny"])];
  fill(byId("program"), option("", "choose one"), ...programs.map(name => option(name)));
  fill(byId("micro"), option("", "as it ships"), ...bench.allNames(["mal"]).map(name => option(name)));
  if (settings.micro && kindOf(settings.micro) !== "mal") settings.micro = "";
  for (const name of ["machine", "map", "program", "micro", "window", "from"]) byId(name).value = settings[name];
  byId("bound").value = settings.bound.toLocaleString("en-US");
  renderProve(bench);
}

// Where nothing can be proved the button says why
function renderProve(bench) {
  const why = whyNoProof(bench), button = byId("prove");
  button.hidden = bench.ownMicro === "";
  button.setAttribute("aria-disabled", String(why !== ""));
  button.title = why || "prove that it interprets IJVM (Alt+Enter)";
}

export function renderBusy(bench) {
  const { busy, took } = bench, seconds = time => (time < 9950 ? `${(time / 1000).toFixed(1)} s` : `${Math.round(time / 1000)} s`);
  byId("stop").disabled = busy === null;
  for (const id of ["run", "step", "prove"]) byId(id).disabled = busy !== null;
  document.body.classList.toggle("busy", busy !== null);
  byId("busy").textContent = busy ? `${busy.text} … ${seconds(performance.now() - busy.since)}` : took ? `${Math.round(took)} ms` : "";
}
