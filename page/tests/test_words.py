"""Every tab, round and set of three examples and of the random reports, without a word or a fault that no text means."""

from cases import written_cases
from pages import ARRAY, GAUGE, PUMP, RELAY

# Collects what stands on the page, in titles and for those who do not see it, whenever `look` is called.
LOOKING = r"""
const wrong = /undefined|NaN|\[object|\bnull\b|Infinity/, found = [];
const words = () => {
  const beside = [...document.querySelectorAll("[title], [aria-label]")].map(one => (one.getAttribute("title") || "") + " " + one.ariaLabel);
  const drawn = [...document.querySelectorAll("svg title")].map(one => one.textContent);
  return [document.body.innerText, ...beside.map(said => said.replace(/ null$/, "")), ...drawn].join("\n");
};
const look = what => {
  const said = words(), at = said.search(wrong);
  if (at >= 0) found.push(what + ": " + said.slice(Math.max(0, at - 60), at + 40));
};
"""
TABS = """
for (const tab of [...document.querySelectorAll("[role=tab]")].map(one => one.dataset.tab)) {
  Page.show(tab);
  look(where + ", tab " + tab);
}
"""
EACH_ROUND = f"""
{LOOKING}
Page.state.report.rounds.forEach((round, index) => {{
  Page.goTo(index);
  const where = "round " + round.number;
  {TABS}
}});
return found;
"""
EACH_SET = f"""
{LOOKING}
Page.state.table.forEach((_, number) => {{
  Page.choose(number, "why");
  const all = document.querySelector("#open-all");
  if (all) all.click();
  look("set " + number);
  Page.show("ranking");
  look("set " + number + " in the ranking");
}});
return found;
"""
EACH_NODE_AND_EDGE = f"""
{LOOKING}
for (const group of document.querySelectorAll("g.node, g.edge")) {{
  for (const kind of ["mousemove", "click"]) group.dispatchEvent(new MouseEvent(kind, {{bubbles: true}}));
  Page.show("node");
  look(group.dataset.node || group.dataset.edge);
}}
return found;
"""
MOST_CASES = 8
EACH_TAB = f"const where = 'the page'; {LOOKING} {TABS} return found;"


def every_tab_of_every_round(view):
    for files in (PUMP, RELAY, ARRAY):
        view.show(*files)
        view.same(view.run(EACH_ROUND), [], f"words of {files[2].name} that nobody means")
        view.quiet()


def every_set_with_all_that_is_said_of_it(view):
    for files in (PUMP, RELAY, ARRAY, GAUGE):
        view.show(*files)
        view.same(view.run(EACH_SET), [], f"words of {files[2].name} that nobody means")
        view.quiet()


def all_of_some_random_reports(view):
    for files in list(written_cases(view.maker))[:MOST_CASES]:
        view.show(*files)
        for script in (EACH_ROUND, EACH_SET):
            view.same(view.run(script), [], f"words of {files[2].name} that nobody means")
        view.quiet()


def every_node_and_edge(view):
    for files in (PUMP, RELAY):
        view.show(*files)
        view.same(view.run(EACH_NODE_AND_EDGE), [], f"words of {files[2].name} that nobody means")
        view.quiet()


def a_graph_alone_and_a_log_alone(view):
    for words in ((PUMP[0],), PUMP[:2], (RELAY[0],), RELAY[:2]):
        view.show(*words)
        view.same(view.run(EACH_TAB), [], f"words of {words[-1].name} that nobody means")
        view.quiet()
