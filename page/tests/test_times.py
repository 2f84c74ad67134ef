"""One way to say a time: the sentences of the page, and the package for Python, by which the maker says the durations of the drawing."""

import random
import sys

from pages import PUMP, TOP

sys.path.insert(0, str(TOP / "python"))
from tfpg.saying.times import duration_words, time_words  # noqa: E402

# Durations that were said in two ways, and others at the edges of units.
CHOSEN = [0, 1, 999, 1000, 1001, 1500, 59999, 60000, 60001, 90000, 3599999, 3600000, 3600001, 5400000, 86400000, 123456700, 10**12]
SAID = "return arguments[0].map(time => [Tfpg.durationWords(time, {unit: 'clock'}), Tfpg.timeWords(time, {unit: 'clock', start: arguments[1]})])"


def durations():
    draws = random.Random("durations")
    return CHOSEN + [draws.randrange(10 ** draws.randint(1, 12)) for _ in range(500)]


def a_duration_is_said_in_one_way(view):
    wanted = {90000: "1 min 30 s", 123456700: "34 h 17 min 36.7 s", 10**12: "277777 h 46 min 40 s", 1500: "1.5 s", 999: "999 ms"}
    view.same({time: duration_words(time) for time in wanted}, wanted, "durations, worked out by hand")
    view.show(PUMP[0])
    for time, (duration, _) in zip(durations(), view.run(SAID, durations(), 0), strict=True):
        view.same(duration, duration_words(time), f"the duration {time} on the page, and by the package")


def a_time_is_said_in_one_way(view):
    view.show(PUMP[0])
    for start in (0, 21600000, 86399999):
        for time, (_, said) in zip(durations(), view.run(SAID, durations(), start), strict=True):
            view.same(said, time_words(time, start), f"the time {time} on the page from {start}, and by the package")


def the_drawing_says_long_delays_whole(view):
    graph = b"tfpg 1\nmode N\nfailure F 1\nor A watch 90000\nor B watch 1000000000000\nedge F A 90000 123456700 *\nedge A B 0 1000000000000 *\nend\n"
    view.show(view.maker.write("long.tfpg", graph))
    said = view.text("#drawing")
    view.has(said, ["1 min 30 s – 34 h 17 min 36.7 s", "OR, lag 1 min 30 s", "OR, lag 277777 h 46 min 40 s"], "the words of the drawing")
    view.lacks(said, "e+", "the words of the drawing")
