// Looks at a page as laid out, in a window of 1,280 pixels: what is wrong stands in the page's title.
const wrong = [];
const box = e => e.getBoundingClientRect();
const near = 0.5;

function words_in_boxes(section) {
  for (const g of section.querySelectorAll('g')) {
    const [rect, text] = [g.querySelector('rect'), g.querySelector('text')].map(box);
    const inside = text.left >= rect.left && text.right <= rect.right && text.top >= rect.top - 1 && text.bottom <= rect.bottom + 1;
    if (!inside) wrong.push('words outside their box: ' + g.textContent);
  }
}

function rows_beside_boxes(section) {
  const rows = [...section.querySelectorAll('tr')].slice(1).map(box);
  const boxes = [...section.querySelectorAll('g rect')].map(box);
  if (rows.length !== boxes.length) wrong.push('rows and boxes differ in number');
  rows.forEach((row, k) => {
    const off = Math.abs((row.top + row.bottom - boxes[k].top - boxes[k].bottom) / 2);
    if (off > 4) wrong.push('row ' + k + ' is ' + off + ' off its box');
  });
}

// every other pixel of every arrow: none lies inside a box, and the drawing holds all of them
function arrows_around_boxes(section) {
  const svg = section.querySelector('svg.graph');
  const boxes = [...svg.querySelectorAll('g rect')].map(rect => rect.getBBox());
  for (const path of svg.querySelectorAll(':scope > path')) {
    const name = path.textContent || 'program order';
    for (let at = 0; at <= path.getTotalLength(); at += 2) {
      const { x, y } = path.getPointAtLength(at);
      const inside = b => x > b.x + near && x < b.x + b.width - near && y > b.y + near && y < b.y + b.height - near;
      if (boxes.some(inside)) { wrong.push('an arrow behind a box: ' + name); break; }
      if (x < 0 || y < 0 || x > svg.width.baseVal.value || y > svg.height.baseVal.value) { wrong.push('an arrow outside: ' + name); break; }
    }
  }
}

function fits(section) {
  const both = section.querySelector('.both');
  if (both.scrollWidth > both.clientWidth) wrong.push(section.id + ' is ' + both.scrollWidth + ' wide, and there is room for ' + both.clientWidth);
}

const sections = document.querySelectorAll('section');
if (innerWidth !== 1280) wrong.push('the window is ' + innerWidth + ' wide');
if (document.documentElement.scrollWidth > innerWidth) wrong.push('the page is wider than the window');
for (const section of sections) for (const look of [words_in_boxes, rows_beside_boxes, arrows_around_boxes, fits]) look(section);
document.title = 'LOOKED AT ' + sections.length + ': ' + (wrong.join('; ') || 'well');
