const sections = [...document.querySelectorAll('section')];
const [thread, place, failing] = ['thread', 'place', 'failing'].map(id => document.getElementById(id));
const top_of = section => section.getBoundingClientRect().top;
const open = wanted => sections.filter(section => !section.hidden && wanted(section));
const behind = wanted => open(wanted).find(section => top_of(section) > 8);
const before = wanted => open(wanted).reverse().find(section => 0 > top_of(section) + 8);
const any = () => true;
const fails = section => section.classList.contains('fails');
const keys = { n: () => behind(any), p: () => before(any), f: () => behind(fails) };
addEventListener('keydown', event => {
  const go = event.target.matches('input, select') || event.ctrlKey || event.metaKey ? null : keys[event.key];
  const section = go && go();
  if (section) section.scrollIntoView();
});
function filter() {
  sections.forEach(section => { section.hidden = failing.checked && !fails(section); });
  document.querySelectorAll('[data-t]').forEach(one => {
    const other_thread = thread.value !== '' && one.dataset.t !== thread.value;
    const other_place = place.value !== '' && one.dataset.l !== undefined && one.dataset.l !== place.value;
    one.classList.toggle('dim', other_thread || other_place);
  });
}
[thread, place, failing].forEach(one => one.addEventListener('change', filter));
