// Questions in a dialog. Fields are [label, text] or [label, options], options being [value, label]; the answer is their values,
// or null if the dialog was closed.

function make(tag, properties, ...inside) {
  const out = Object.assign(document.createElement(tag), properties);
  out.append(...inside);
  return out;
}

function input([, value]) {
  if (typeof value === "string") return make("input", { value, autocomplete: "off", spellcheck: false });
  return make("select", {}, ...value.map(([its, label]) => make("option", { value: its }, label)));
}

export function ask(title, yes, fields = [], why = "") {
  const inputs = fields.map(input);
  const labels = fields.map(([label], i) => make("label", {}, label, inputs[i]));
  const cancel = make("button", { type: "button", onclick: () => dialog.close("") }, "Cancel");
  const buttons = make("div", { className: "tools" }, make("button", { value: "yes", className: "first" }, yes), cancel);
  const form = make("form", { method: "dialog" }, make("h2", { id: "asked" }, title), make("p", {}, why), ...labels, buttons);
  const dialog = make("dialog", {}, form);
  dialog.setAttribute("aria-labelledby", "asked");
  document.body.append(dialog);
  dialog.showModal();
  inputs[0]?.select?.();
  return new Promise((answer) =>
    dialog.addEventListener("close", () => {
      dialog.remove();
      answer(dialog.returnValue ? inputs.map((it) => it.value) : null);
    }),
  );
}
