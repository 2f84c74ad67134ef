"""Spans and windows by hand: a change of mode at T holds from T + 1 on."""

import unittest

from tfpg.reading.spans import Span, modes_between, number_at, spans_at, window_of


class Spans(unittest.TestCase):
    def test_spans(self):
        self.assertEqual(spans_at([], 20), [Span(0, 20, 0)])
        self.assertEqual(spans_at([(10, 1)], 20), [Span(0, 10, 0), Span(11, 20, 1)])
        self.assertEqual(spans_at([(10, 1)], 10), [Span(0, 10, 0)])
        self.assertEqual(spans_at([(10, 1)], 11), [Span(0, 10, 0), Span(11, 11, 1)])

    def test_two_changes_at_one_time(self):
        """The later one counts. A change to the mode that holds ends no span."""
        self.assertEqual(spans_at([(10, 1), (10, 2)], 20), [Span(0, 10, 0), Span(11, 20, 2)])
        self.assertEqual(spans_at([(10, 0), (15, 1)], 20), [Span(0, 15, 0), Span(16, 20, 1)])

    def test_the_span_of_an_instant(self):
        spans = spans_at([(10, 1)], 20)
        self.assertEqual([number_at(spans, instant) for instant in (0, 10, 11, 20)], [0, 0, 1, 1])
        self.assertEqual((modes_between(spans, 0, 10), modes_between(spans, 10, 11)), ([0], [0, 1]))

    def test_windows(self):
        spans = spans_at([(10, 1), (20, 2), (30, 1)], 40)
        window = window_of(spans, 2, lambda mode: mode in (1, 2))
        self.assertEqual((window.first, window.lo, window.hi), (1, 11, 40))
        self.assertIsNone(window_of(spans, 0, lambda mode: mode in (1, 2)))


if __name__ == "__main__":
    unittest.main()
