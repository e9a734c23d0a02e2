// On a small window one part of the page is shown at a time: "files", "editor" or "run".
export function showPart(part) {
  document.body.dataset.part = part;
  for (const one of document.querySelectorAll("#switch button")) one.setAttribute("aria-selected", String(one.dataset.part === part));
  showChosenTab();
}

// There the tabs of the views are a row that scrolls
export function showChosenTab() {
  document.querySelector("#views [aria-selected=true]")?.scrollIntoView({ block: "nearest", inline: "nearest" });
}
