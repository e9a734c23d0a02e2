// How often each instruction was completed, and in how many cycles: `mic profile` as bars.
import { machineName, thousands } from "../mic/report.js";
import { button, byId, cell, element, fill, headRow, tableRow } from "./dom.js";

export function buildProfile(bench, box) {
  fill(box, element("div", { className: "todo" }, button("Profile", () => runProfile(bench), { className: "go", id: "go-profile" }),
    element("span", { className: "soft", id: "profile-of" })), element("div", { id: "profiled" }));
}

function runProfile(bench) {
  return bench.during("profiling", async () => {
    const setting = bench.setting();
    if (setting.machine === "mic3") throw new Error("Mic-3 runs, but mic has no profile of it: choose Mic-1 or Mic-2.");
    bench.clear();
    const profile = await bench.mic.profile(setting);
    bench.result = { ...bench.result, profile };
    bench.view = "profile";
  });
}

export function renderProfile(bench) {
  const { profile } = bench.result, box = byId("profiled");
  byId("profile-of").textContent = profile ? `${profile.setting.program.name} on ${machineName(profile.setting.machine)}`
    : "counts the instructions of the whole run, and their cycles";
  if (!profile) return fill(box);
  const { report, rows, boot, stalls } = profile, most = Math.max(1, ...rows.map(row => row[2])), all = report.cycles || 1;
  const table = element("table", { className: "rows" }, headRow("instruction", "#times", "#cycles", "#of all", "#each", ""),
    ...rows.slice().sort((a, b) => b[2] - a[2]).map(([name, count, cycles]) => {
      const meter = element("span", { className: "meter" });
      meter.style.width = `${220 * cycles / most}px`;
      const numbers = [thousands(count), thousands(cycles), `${(100 * cycles / all).toFixed(1)} %`, (cycles / count).toFixed(1)];
      return tableRow("", cell(name, "name"), ...numbers.map(text => cell(text, "n")), element("td", {}, meter));
    }));
  const also = [`boot ${boot} cycles`, stalls ? `${thousands(stalls)} stalls among them all` : ""].filter(Boolean).join(", ");
  const title = `${thousands(report.cycles)} cycles, ${thousands(report.instructions)} instructions `;
  return fill(box, element("h2", {}, title, element("span", {}, also)), table,
    element("p", { className: "soft" }, "After Step, how often each line was reached is in the editor, beside its number."));
}
