const field = document.querySelector(".search input"), told = document.querySelector(".search output");
const lines = Array.from(document.querySelectorAll("main > table > tbody"), line =>
  [line, line.textContent.toLowerCase()]);
field.closest(".search").hidden = false;
field.oninput = () => {
  const words = field.value.toLowerCase().split(/\s+/);
  for (const [line, text] of lines) line.hidden = !words.every(word => text.includes(word));
  told.value = `${lines.filter(([line]) => !line.hidden).length} of ${lines.length} lines`;
};
