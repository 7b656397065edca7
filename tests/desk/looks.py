"""Scripts that find what a page lacks for people who see little, use keys alone or listen."""

# Labels, names, landmarks, headings, addresses of parts.
STRUCTURE = """
const bad = [], all = (selector) => [...document.querySelectorAll(selector)];
const name = (it) => (it.getAttribute('aria-label') || it.textContent || it.title || '').trim();
for (const it of all('input:not([type=hidden]), select, textarea:not([hidden])'))
  if (!it.labels?.length && !it.ariaLabel) bad.push('no label: ' + it.outerHTML.slice(0, 80));
for (const it of all('label')) if (!it.textContent.trim()) bad.push('empty label');
for (const it of all('button, summary, a[href]')) if (!name(it)) bad.push('no name: ' + it.outerHTML.slice(0, 80));
for (const it of all('input[placeholder]')) if (!it.labels.length) bad.push('a placeholder for a label');
for (const tag of ['main', 'h1', 'body > header', 'body > footer', 'title'])
  if (all(tag).length !== 1) bad.push(all(tag).length + ' ' + tag);
if (!document.documentElement.lang) bad.push('no lang');
const navs = all('nav').map((it) => it.getAttribute('aria-label'));
if (navs.some((it) => !it) || new Set(navs).size !== navs.length) bad.push('navs: ' + navs);
const skip = document.querySelector('body > a');
if (!skip || !document.querySelector(skip.getAttribute('href'))) bad.push('no skip link');
const ids = all('[id]').map((it) => it.id), twice = ids.filter((it, at) => ids.indexOf(it) !== at);
if (twice.length) bad.push('ids twice: ' + twice);
for (const part of ['aria-describedby', 'aria-controls', 'aria-labelledby', 'for', 'list'])
  for (const it of all(`[${part}]`))
    if (!document.getElementById(it.getAttribute(part))) bad.push(part + ': ' + it.getAttribute(part));
for (const it of all('a[href^="#"]'))
  if (!document.querySelector(it.getAttribute('href'))) bad.push('nowhere: ' + it.outerHTML);
let depth = 0;
for (const it of all('h1, h2, h3, h4')) {
  const own = +it.tagName[1];
  if (own > depth + 1) bad.push('a heading too deep: ' + it.textContent);
  depth = own;
}
for (const it of all('th')) if (!it.scope) bad.push('th without scope');
for (const it of all('img')) if (!it.hasAttribute('alt')) bad.push('img without alt');
for (const it of all('ul, ol'))
  if ([...it.children].some((child) => child.tagName !== 'LI')) bad.push('a list with ' + it.innerHTML.slice(0, 60));
for (const it of all('[tabindex]')) if (it.tabIndex > 0) bad.push('a tabindex above 0');
return bad;"""

# Text against what is behind it: 4.5 to 1, large text 3 to 1; edges of fields 3 to 1.
CONTRAST = """
const paint = document.createElement('canvas').getContext('2d', { willReadFrequently: true });
const rgb = (text) => {
  paint.clearRect(0, 0, 1, 1); paint.fillStyle = text; paint.fillRect(0, 0, 1, 1);
  return [...paint.getImageData(0, 0, 1, 1).data];
};
const light = (c) => {
  const part = (v) => v <= .03928 ? v / 12.92 : ((v + .055) / 1.055) ** 2.4;
  const [r, g, b] = c.slice(0, 3).map((v) => part(v / 255));
  return .2126 * r + .7152 * g + .0722 * b;
};
const behind = (it) => {
  for (; it; it = it.parentElement) {
    const c = rgb(getComputedStyle(it).backgroundColor);
    if (c[3] === 255) return c;
  }
  return [255, 255, 255, 255];
};
const ratio = (one, other) => {
  const a = light(one), b = light(other);
  return (Math.max(a, b) + .05) / (Math.min(a, b) + .05);
};
const bad = new Set();
for (const it of document.querySelectorAll('body *')) {
  if (!it.checkVisibility() || it.tagName === 'OPTION' || it.closest('.hidden, .skip')) continue;
  const style = getComputedStyle(it);
  if ([...it.childNodes].some((n) => n.nodeType === 3 && n.data.trim())) {
    const size = parseFloat(style.fontSize), isLarge = size >= 24 || size >= 18.66 && +style.fontWeight >= 700;
    const found = ratio(rgb(style.color), behind(it));
    const what = `${it.tagName} ${it.className} ${it.textContent.trim().slice(0, 20)}`;
    if (found < (isLarge ? 3 : 4.5)) bad.add(`${found.toFixed(1)} ${what}`);
  }
  if (it.matches('input:not([type=hidden], [type=checkbox], [type=radio], [type=file]), select, textarea')) {
    const found = ratio(rgb(style.borderTopColor), behind(it.parentElement));
    if (found < 3) bad.add(`${found.toFixed(1)} edge of ${it.name}`);
  }
}
return [...bad];"""

# What sticks out at the side, and text that is cut off.
WIDTH = """
const bad = [], wide = document.documentElement.clientWidth;
if (document.documentElement.scrollWidth > wide) {
  for (const it of document.querySelectorAll('body *')) {
    const box = it.getBoundingClientRect();
    const isOut = box.right > wide + 1 && box.width && !it.closest('.wide, .skip, .hidden');
    if (isOut) bad.push(it.tagName + '.' + it.className + ' ' + Math.round(box.right));
  }
  bad.push('the page is ' + document.documentElement.scrollWidth + ' wide');
}
return bad.slice(0, 8);"""

# What a finger can't hit: less than 24 by 24 pixels, unless it is in a line of text.
TARGETS = """
const bad = [];
for (const it of document.querySelectorAll('a.act, button, summary, input:not([type=hidden]), select')) {
  if (!it.checkVisibility() || it.closest('.hidden')) continue;
  const isBox = it.type === 'checkbox' || it.type === 'radio';
  const box = (isBox ? it.closest('label') || it : it).getBoundingClientRect();
  const isInline = getComputedStyle(it).display === 'inline' || it.matches('button.plain');
  if (isInline || box.width > 23.5 && box.height > 23.5) continue;
  bad.push(`${it.outerHTML.slice(0, 60)} ${box.width}x${box.height}`);
}
return bad;"""
