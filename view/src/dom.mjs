/* ======== Elements; text only ever becomes text ======== */
export const byId = id => document.getElementById(id);

export const html = (tag, properties = {}, ...children) => {
  const element = Object.assign(document.createElement(tag), properties);
  for (const [name, value] of Object.entries(properties))
    if (name.startsWith("aria-") || name === "role") element.setAttribute(name, value);
  element.append(...children);
  return element;
};

export const button = (textContent, action, properties = {}) => {
  const element = html("button", { textContent, type: "button", ...properties });
  element.addEventListener("click", action);
  return element;
};

export const link = (href, textContent, properties = {}) => html("a", { href, textContent, ...properties });

export const svg = (tag, attributes = {}, ...children) => {
  const element = document.createElementNS("http://www.w3.org/2000/svg", tag);
  for (const [name, value] of Object.entries(attributes)) element.setAttribute(name, value);
  element.append(...children);
  return element;
};
