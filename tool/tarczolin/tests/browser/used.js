// Uses a page of six executions, three of them failing, as a reader does: what is wrong stands in the page's title.
const wrong = [];
const hold = (what, is, wanted) => { if (String(is) !== String(wanted)) wrong.push(what + ' is ' + is + ', not ' + wanted); };
const all = [...document.querySelectorAll('section')];
const at_top = () => all.find(section => Math.abs(section.getBoundingClientRect().top) < 8)?.id;
const press = key => document.body.dispatchEvent(new KeyboardEvent('keydown', { key, bubbles: true }));
const choose = (id, value) => {
  const control = document.getElementById(id);
  if (control.type === 'checkbox') control.checked = value; else control.value = value;
  control.dispatchEvent(new Event('change'));
};
const dimmed = () => all[0].querySelectorAll('g.dim').length + ' ' + all[0].querySelectorAll('tr.dim').length;

// keys: next, next failing, the one before; failing ones stand first on the page
['n', 'n', 'p', 'f'].map(key => { press(key); return at_top(); }).forEach((id, k) => hold('key ' + k, id, ['e2', 'e4', 'e2', 'e4'][k]));
// a filter by failing, by thread, by location
choose('failing', true);
hold('failing ones', all.filter(section => !section.hidden).length, 3);
choose('failing', false);
choose('thread', '2');
hold('other threads', dimmed(), '4 4');
choose('thread', '');
choose('place', '0');
hold('other locations', dimmed(), '4 4');
choose('place', '');
hold('no filter', dimmed(), '0 0');
// the table stays in view while the graph scrolls
document.body.style.width = '600px';
const both = all[0].querySelector('.both');
const left = () => Math.round(all[0].querySelector('table').getBoundingClientRect().left);
const [before, drawing] = [left(), all[0].querySelector('svg.graph').getBoundingClientRect().left];
both.scrollLeft = 150;
hold('how far the graph went', Math.round(drawing - all[0].querySelector('svg.graph').getBoundingClientRect().left), 150);
hold('the left of the table', left(), before);
// dark and light by the reader's setting
const paper = matchMedia('(prefers-color-scheme: dark)').matches ? 'rgb(13, 17, 23)' : 'rgb(255, 255, 255)';
hold('the paper', getComputedStyle(document.body).backgroundColor, paper);
document.title = 'USED ' + (matchMedia('(prefers-color-scheme: dark)').matches ? 'dark' : 'light') + ': ' + (wrong.join('; ') || 'well');
