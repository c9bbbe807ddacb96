"""Tests of tools/graph: the links that the picture is drawn from are those of the definition, and the picture is drawn from them."""
import unittest
import xml.dom.minidom

from loading import load, text_of

graph = load("graph")


def touched(task):
    """What a task writes, and all that it reads or writes: ("tile" or "list", I, J), and of a diagonal tile ("lower" or "rest", I)."""
    kind, k = task[0], task[1]
    tile, rows = (lambda i, j: {("tile", i, j)} if i != j else {("lower", i), ("rest", i)}), (lambda i, j: {("list", i, j)})
    if kind == 1:
        writes, reads = tile(k, k) | rows(k, k), set()
    elif kind == 2:
        writes, reads = tile(k, task[2]), {("lower", k)} | rows(k, k)
    elif kind == 3:
        writes, reads = {("rest", k)} | tile(task[2], k) | rows(task[2], k), set()
    else:
        writes, reads = tile(k, task[3]) | tile(task[2], task[3]), tile(task[2], k) | rows(task[2], k)
    return writes, writes | reads


def links_by_definition(tiles):
    tasks = [touched(task) for task in graph.tasks(tiles)]
    clash = [[bool(a & d or b & c) for c, d in tasks] for a, b in tasks]
    return [(p, q) for q in range(len(tasks)) for p in range(q)
            if clash[p][q] and not any(clash[p][m] and clash[m][q] for m in range(p + 1, q))]


class Links(unittest.TestCase):
    def test_counts(self):
        self.assertEqual([len(graph.tasks(n)) for n in (1, 2, 3, 16)], [1, 5, 14, 1496])
        self.assertEqual([len(links_by_definition(n)) for n in (1, 2, 3)], [0, 5, 21])

    def test_listed_links_are_the_definitions(self):
        self.assertEqual(sorted(graph.read_links(text_of("docs", "graph.links"), 14)), sorted(links_by_definition(3)))

    def test_bad_links(self):
        for text in ("1\n", "1 2 3\n", "2 1\n", "3 14\n", "a b\n"):
            with self.assertRaises(graph.Bad):
                graph.read_links(text, 14)


class Picture(unittest.TestCase):
    def test_is_drawn_from_the_listed_links(self):
        self.assertEqual(graph.picture(3, graph.read_links(text_of("docs", "graph.links"), 14)), text_of("docs", "graph.svg"))

    def test_shows_every_task_and_link(self):
        for tiles in (1, 2, 3, 4):
            links = links_by_definition(tiles)
            svg = xml.dom.minidom.parseString(graph.picture(tiles, links))
            words = [text.firstChild.data for text in svg.getElementsByTagName("text")]
            for number, task in enumerate(graph.tasks(tiles)):
                self.assertIn(graph.name(task), words)
                self.assertIn(str(number), words)
            arrows = [path for path in svg.getElementsByTagName("path") if path.hasAttribute("marker-end")]
            self.assertEqual(len(arrows), len(links))


if __name__ == "__main__":
    unittest.main()
