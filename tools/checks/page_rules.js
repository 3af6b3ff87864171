// What a view must have for those who hear it, use keys alone, or see badly: rules of our own, for a script that
// runs this in the page. Returns a sentence for each departure.

const departures = [];
const seen = (element) => element.checkVisibility({ visibilityProperty: true, opacityProperty: true });
const say = (rule, element) => departures.push(`${rule}: ${element.outerHTML.slice(0, 140)}`);
const of = (selector) => [...document.querySelectorAll(selector)].filter(seen);

function textOfIds(ids) {
  return ids.split(/\s+/).map((id) => document.getElementById(id)?.textContent ?? "").join(" ").trim();
}

function nameOf(element) {
  const labelled = element.getAttribute("aria-labelledby");
  if (labelled) return textOfIds(labelled);
  const label = element.getAttribute("aria-label");
  if (label) return label;
  if (element.labels?.length > 0) return element.labels[0].textContent.trim();
  return (element.textContent || element.getAttribute("alt") || element.getAttribute("title") || "").trim();
}

// Names and roles.
for (const element of of("a[href], button, input, select, textarea, summary, [role=button], [tabindex='0']")) {
  if (nameOf(element) === "") say("it has no name", element);
}
for (const element of of("a:not([href])")) say("a link that leads nowhere", element);
for (const element of of("[tabindex]")) if (Number(element.getAttribute("tabindex")) > 0) say("an order of tabs of its own", element);
for (const element of of("img:not([alt])")) say("a picture without words", element);
for (const element of of("nav, section, aside")) if (nameOf(element) === "") say("a part without a name", element);
for (const element of of("[aria-labelledby], [aria-describedby], [aria-controls]")) {
  for (const key of ["aria-labelledby", "aria-describedby", "aria-controls"]) {
    for (const id of (element.getAttribute(key) ?? "").split(/\s+/).filter(Boolean)) {
      if (!document.getElementById(id)) say(`${key} names what is not there`, element);
    }
  }
}
const ids = [...document.querySelectorAll("[id]")].map(({ id }) => id);
for (const id of ids) if (ids.indexOf(id) !== ids.lastIndexOf(id)) departures.push(`the id ${id} stands twice`);
for (const element of of("ul > *, ol > *")) if (element.tagName !== "LI") say("no item of its list", element);
for (const element of of("button button, button a, a button, a a")) say("one control in another", element);

// The frame.
if (document.documentElement.lang === "") departures.push("the page has no language");
if (document.title.trim() === "") departures.push("the page has no title");
if (of("main").length !== 1) departures.push("there is not one main part");
if (of("h1").length !== 1) departures.push(`${of("h1").length} headings of the first level`);
let level = 0;
for (const element of of("main h1, main h2, main h3")) {
  const own = Number(element.tagName[1]);
  if (own > level + 1) say("a level of headings is left out", element);
  level = own;
}
if (document.activeElement === document.body) departures.push("the focus is lost");

// What is wider than the page is not seen on a telephone.
if (document.documentElement.scrollWidth > window.innerWidth) departures.push(`the page is ${document.documentElement.scrollWidth} wide`);

// What is touched has room.
if (window.innerWidth < 600) {
  for (const element of of("button, select, input:not([type=checkbox])")) {
    if (element.getBoundingClientRect().height < 32) say("too small for a finger", element);
  }
}

// Contrast of letters: 4.5 to 1, or 3 to 1 for large ones.
function colorOf(value) {
  const numbers = value.match(/[\d.]+/g).map(Number);
  return { rgb: numbers.slice(0, 3), alpha: numbers[3] ?? 1 };
}
function behind(element) {
  for (let each = element; each; each = each.parentElement) {
    const { rgb, alpha } = colorOf(getComputedStyle(each).backgroundColor);
    if (alpha === 1) return rgb;
    if (alpha > 0) return null;
  }
  return [255, 255, 255];
}
function luminance(rgb) {
  const [r, g, b] = rgb.map((each) => (each / 255 <= 0.03928 ? each / 255 / 12.92 : ((each / 255 + 0.055) / 1.055) ** 2.4));
  return 0.2126 * r + 0.7152 * g + 0.0722 * b;
}
let compared = 0;
for (const element of of("body *")) {
  const own = [...element.childNodes].some((node) => node.nodeType === 3 && node.data.trim() !== "");
  if (!own || element.closest("[disabled]")) continue;
  const style = getComputedStyle(element);
  const [ink, paper] = [colorOf(style.color).rgb, behind(element)];
  if (paper === null) continue;
  const [light, dark] = [luminance(ink), luminance(paper)].sort((one, other) => other - one);
  const size = parseFloat(style.fontSize);
  const wanted = size >= 24 || (size >= 18.6 && Number(style.fontWeight) >= 700) ? 3 : 4.5;
  compared += 1;
  if ((light + 0.05) / (dark + 0.05) < wanted) say(`a contrast of ${((light + 0.05) / (dark + 0.05)).toFixed(2)}`, element);
}
if (compared === 0) departures.push("no letters are seen");
return departures;
