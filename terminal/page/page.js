// Opens and closes the parts of a section. Without this the page can be read too: the browser opens and closes parts.
function openAround(element) {
  for (let at = element; at; at = at.parentElement) {
    if (at.tagName === "DETAILS") { at.open = true; }
  }
}
document.addEventListener("click", function (event) {
  const does = event.target.dataset.does;
  if (!does) { return; }
  const section = event.target.closest("section");
  for (const part of section.querySelectorAll("details.part, details.deep")) { part.open = does === "open"; }
  if (does === "way") { section.querySelectorAll(".part.way").forEach(function (part) { openAround(part.parentElement); }); }
});
function openTarget() {
  const target = document.getElementById(location.hash.slice(1));
  if (target) { openAround(target); target.scrollIntoView({ block: "center" }); }
}
window.addEventListener("hashchange", openTarget);
openTarget();
