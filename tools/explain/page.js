// Choosing rows, and going to a record. Without it the page shows all rows.
const wanted = document.getElementById("wanted");
wanted.hidden = false;
for (const box of wanted.querySelectorAll("input[type=checkbox]")) {
  box.addEventListener("change", () => document.body.classList.toggle(box.value, box.checked));
}
wanted.querySelector("input[type=number]").addEventListener("change", event => {
  location.hash = "r" + event.target.value;
});
