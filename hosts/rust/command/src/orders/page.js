// a button's order puts the same steps at other moments; only the numbers that say who came first differ
for (const outcome of document.querySelectorAll(".outcome")) {
  const picture = outcome.querySelector(".picture");
  const buttons = [...outcome.querySelectorAll("button")];
  const steps = [...outcome.querySelectorAll(".step")];

  const show = (button) => {
    const numbers = button.dataset.numbers.split(" ");
    const next = {};
    [...button.dataset.order].forEach((script, moment) => {
      next[script] ??= steps.filter((step) => step.dataset.script === script);
      const step = next[script].shift();
      step.style.gridRow = moment + 2;
      const number = step.querySelector(".number");
      if (number) number.textContent = numbers.shift();
      picture.append(step);
    });
    for (const other of buttons) other.setAttribute("aria-pressed", other === button);
  };

  for (const button of buttons) button.addEventListener("click", () => show(button));
}
