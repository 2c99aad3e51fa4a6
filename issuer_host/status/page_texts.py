"""The texts of the status page: its frame, the part that is drawn anew each second, its style and its script."""

FRAME = """\
<!DOCTYPE html>
<html lang="en">
<head>
<meta charset="utf-8">
<meta name="viewport" content="width=device-width, initial-scale=1">
<title>issuer</title>
<link rel="stylesheet" href="style.css">
<script src="script.js" defer></script>
</head>
<body>
<div id="old" role="alert" hidden></div>
<main id="part">{{ part|safe }}</main>
</body>
</html>
"""

PART = """\
<div id="view" data-look="{{ look }}" data-title="{{ view.title }}">
<h1 class="{{ '' if view.is_well else 'red' }}">{{ view.sentence }}</h1>
{% for todo in view.todos %}
<section class="todo"><p><b>{{ 'NOW' if todo.is_now else 'SOON' }}</b> {{ todo.what }}</p>\
<pre tabindex="0" title="click to copy">{{ todo.command }}</pre></section>
{% endfor %}
{% for table in view.tables %}
<h2>{{ table.title }}</h2>
<div class="wide"><table>
<thead><tr>{% for head in table.heads %}
<th class="{{ kind(table, loop.index0) }}">{{ head }}</th>{% endfor %}</tr></thead>
<tbody>{% for row in table.rows %}
<tr class="{{ 'red' if row.is_red else '' }}">{% for cell in row.cells %}\
<td class="{{ kind(table, loop.index0) }}">{{ cell }}</td>{% endfor %}</tr>{% endfor %}
</tbody></table></div>
{% endfor %}
<h2>Last changes</h2>
{% if view.changes %}<dl>{% for at, what in view.changes %}
<div><dt>{{ at }}</dt><dd>{{ what }}</dd></div>{% endfor %}</dl>
{% else %}<p class="pale">none since this page began</p>{% endif %}
<div class="plots">
{% for plot in plots %}
<figure><figcaption>{{ plot.title }}: <b>{{ plot.value }}</b>, at most {{ plot.most }}</figcaption>
<svg viewBox="0 0 600 80" preserveAspectRatio="none" role="img" aria-label="{{ plot.title }}">
<path class="area" d="{{ plot.area }}"/><path class="line" d="{{ plot.line }}"/></svg>
<p class="pale"><span>{{ plot.since }} ago</span><span>now</span></p></figure>
{% endfor %}
</div>
<p class="pale">{{ view.at }} &middot; read only &middot; no account number is on this page</p>
</div>
"""

STYLE = """\
:root { color-scheme: light dark; --ink: #1a1a1a; --pale: #666; --line: #d8d8d8; --red: #a8001c; --tint: #fdeaec;
  --ground: #fff; --plot: #35607f; }
@media (prefers-color-scheme: dark) { :root { --ink: #e8e8e8; --pale: #a0a0a0; --line: #444; --red: #ff8d97;
  --tint: #4a1119; --ground: #161616; --plot: #8fbfe0; } }
body { margin: 1rem auto; padding: 0 1rem; max-width: 78rem; font: 15px/1.4 system-ui, sans-serif; color: var(--ink);
  background: var(--ground); }
h1 { font-size: 1.6rem; margin: 0 0 1rem; border-left: 6px solid var(--line); padding: .4rem .8rem; }
h1.red { color: var(--red); border-color: var(--red); }
h2 { font-size: 1rem; margin: 1.4rem 0 .3rem; }
.todo { background: var(--tint); border-left: 6px solid var(--red); margin: .5rem 0; padding: .5rem .8rem; }
.todo p { margin: 0 0 .4rem; } .todo b { color: var(--red); margin-right: .5rem; }
pre { margin: 0; padding: .4rem; background: var(--ground); border: 1px solid var(--line); overflow-x: auto;
  cursor: copy; white-space: pre-wrap; overflow-wrap: anywhere; }
.wide { overflow-x: auto; }
table { border-collapse: collapse; width: 100%; font-variant-numeric: tabular-nums; }
th { font-weight: normal; font-size: .85rem; color: var(--pale); }
th, td { padding: .3rem .6rem .3rem 0; border-bottom: 1px solid var(--line); white-space: nowrap; }
.word { text-align: left; } .number { text-align: right; }
tr.red td { color: var(--red); background: var(--tint); font-weight: bold; }
dl { margin: 0; } dl div { display: flex; gap: 1rem; } dd { margin: 0; }
dt { color: var(--pale); font-family: monospace; }
.plots { display: flex; flex-wrap: wrap; gap: 1rem; margin-top: 1.4rem; } figure { flex: 1 1 20rem; margin: 0; }
svg { width: 100%; height: 5rem; border-bottom: 1px solid var(--line); display: block; }
.line { fill: none; stroke: var(--plot); stroke-width: 1.5; vector-effect: non-scaling-stroke; }
.area { fill: var(--plot); opacity: .15; }
.pale { color: var(--pale); font-size: .85rem; }
figure .pale { display: flex; justify-content: space-between; margin: 0; }
#old { background: var(--red); color: var(--ground); font-weight: bold; padding: .6rem .8rem; margin-bottom: 1rem; }
.is-old main { filter: grayscale(1); opacity: .45; }
@media (max-width: 40rem) {
  h1 { font-size: 1.25rem; }
  thead { display: none; } tr { display: block; border-bottom: 1px solid var(--line); padding: .3rem 0; }
  td { display: inline-block; border: 0; padding: 0 .7rem 0 0; white-space: normal; }
  td::before { content: attr(data-head) " "; color: var(--pale); font-size: .8rem; font-weight: normal; }
}
"""

SCRIPT = """\
"use strict";
const OLD_SECONDS = 5;
const part = document.getElementById("part"), old = document.getElementById("old");
let look = "", changed = performance.now();
function dressed() {
  const view = document.getElementById("view");
  for (const table of document.querySelectorAll("table")) {
    const heads = [...table.querySelectorAll("th")].map(head => head.textContent);
    for (const row of table.querySelectorAll("tbody tr"))
      [...row.cells].forEach((cell, at) => { cell.dataset.head = heads[at]; });
  }
  document.title = view.dataset.title;
}
function seen(text) {
  const found = /data-look="(\\d+)"/.exec(text);
  if (found && found[1] !== look) { look = found[1]; changed = performance.now(); }
  // (what somebody marks stays as it is)
  if (String(document.getSelection())) return;
  part.innerHTML = text;
  dressed();
}
function age() {
  const seconds = Math.floor((performance.now() - changed) / 1000), isOld = seconds >= OLD_SECONDS;
  document.body.classList.toggle("is-old", isOld);
  old.hidden = !isOld;
  if (isOld) {
    old.textContent = `This page is ${seconds} s old: the status server doesn't answer. Nothing below is sure.`;
    document.title = "(old) issuer";
  }
}
async function draw() {
  const gone = new AbortController(), limit = setTimeout(() => gone.abort(), 2000);
  try {
    const answer = await fetch("part", { cache: "no-store", signal: gone.signal });
    if (answer.ok) seen(await answer.text());
  } catch (fault) { /* it is old then */ }
  clearTimeout(limit);
  age();
  setTimeout(draw, 1000);
}
document.addEventListener("click", event => {
  const command = event.target.closest("pre");
  if (command && navigator.clipboard) navigator.clipboard.writeText(command.textContent);
});
dressed();
draw();
"""
