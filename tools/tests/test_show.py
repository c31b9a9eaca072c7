"""tools/show: the graph that it reads of a text, and the picture that it draws of it."""
import glob
import json
import os
import re
import subprocess
import unittest
import xml.etree.ElementTree as tree

from support import PROGRAM, TOP, ToolCase, example, run_tool
from lib.nets import Net
from lib.pictures import SIGN, box_of, edges_of, give_lanes
from lib.steps import Graph

SVG = '{http://www.w3.org/2000/svg}'
LOOPS = """decl C: ubit<32>[64]; decl A: ubit<32>[64]; decl B: ubit<32>{2}[64]; let s: ubit<32> = 0; let i: ubit<32> = 0 ---
""" + ''.join(f"""if (C[{k}] < 3) {{ s := s + {k} --- s := s + A[i] --- }} else {{ B[{k}] := s --- }} ---
while (i < {k + 1}) {{ i := i + 1 --- s := s + B[B[0]]; }} ---
""" for k in range(3))


def answer(*words):
    return subprocess.run([PROGRAM, *words], stdout=subprocess.PIPE).stdout.decode()


def unnumbered(text):
    """A text without the numbers of registers, which another compiler may give otherwise."""
    return re.sub(r'\br\d+', 'r', text)


def graph_of(path, most=200):
    return Graph(Net(answer('lower', path)), most)


class Graphs(ToolCase):
    def graph(self, text):
        return graph_of(self.write('p.fuse', text))

    def test_what_a_state_does(self):
        graph = graph_of(example('first.fuse'))
        one = graph.steps[1]
        self.assertEqual([(access.clock, access.writes, access.place, access.data) for access in one.accesses],
                         [(0, False, 'A[0]', ''), (1, True, 'B[0]', 'A[0] + 1')])
        self.assertEqual((one.clocks, one.ways, graph.done), (2, [('', 2)], {2}))

    def test_straight_programs_take_the_clocks_of_their_runs(self):
        tried = 0
        for path in sorted(glob.glob(os.path.join(TOP, 'examples', '*.fuse'))):
            report = answer('simulate', path, path[:-4] + 'json')
            if not report.startswith('{'):
                continue
            report, graph = json.loads(report), graph_of(path)
            if all(len(step.ways) == 1 for step in graph.steps.values()) and report['outcome'] == 'done':
                tried += 1
                self.assertEqual((len(graph.steps), sum(step.clocks for step in graph.steps.values())),
                                 (report['steps'], report['clocks']), path)
        self.assertGreater(tried, 5)

    def test_a_loop_and_its_fault(self):
        graph = graph_of(example('dot_product.fuse'))
        self.assertEqual([(unnumbered(test or 'else'), state) for test, state in graph.steps[1].ways], [('r == 3', 2), ('else', 1)])
        self.assertEqual(graph.steps[1].faults, ['fault OutOfRange 11:17'])
        self.assertEqual([unnumbered(access.place) for access in graph.steps[1].accesses], ['a{0}[r]', 'a{1}[r]', 'b{0}[r]', 'b{1}[r]'])

    def test_a_choice_a_while_and_a_read_in_an_index(self):
        graph = self.graph('decl A: ubit<8>[4]; decl B: ubit<8>{2}[4]; let x: ubit<8> = 0; '
                           '--- if (A[0] < 3) { x := 1 --- x := 2 } else { x := 3 --- x := 4 } --- while (x < 9) { x := x + B[B[1]]; }')
        self.assertEqual(graph.steps[1].ways, [('A[0] < 3', 2), (None, 4)])
        self.assertEqual([graph.steps[state].ways[0][1] for state in (2, 3, 4, 5)], [3, 6, 5, 6])
        self.assertEqual(graph.steps[6].ways[0][0][-3:], '< 9')
        self.assertEqual([(access.clock, access.place) for access in graph.steps[7].accesses], [(0, 'B[1]'), (1, 'B[B[1]]')])
        self.assertEqual(graph.steps[7].ways, [('', 6)])

    def test_a_write_that_waits_for_a_test(self):
        graph = self.graph('decl A: ubit<8>[4]; let c: ubit<8> = 3 --- if (c < 2) { A[1] := 7; }')
        access, = graph.steps[1].accesses
        self.assertEqual((access.place, access.data, unnumbered(access.test)), ('A[1]', '7', 'r < 2'))

    def test_elements_of_several_dimensions_and_banks(self):
        graph = self.graph('decl A: ubit<8>[4 bank 2][3]; A[3][1] := 7;')
        self.assertEqual(graph.steps[0].accesses[0].place, 'A[3][1]')

    def test_an_endless_loop_and_no_step_at_all(self):
        graph = self.graph('let x = 0; while (true) { x := 1; } --- x := 2;')
        self.assertEqual(graph.done, set())
        self.assertEqual(self.graph('').steps, {})
        for text in ('let x = 0; while (true) { x := 1; }', ''):
            self.assertEqual(run_tool('show', self.write('p.fuse', text))[0], 0)


class Pictures(ToolCase):
    def test_boxes_stand_apart_and_hold_their_lines(self):
        status, out, _ = run_tool('show', self.write('p.fuse', LOOPS))
        self.assertEqual(status, 0)
        root = tree.fromstring(out)
        boxes = [(float(it.get('x')), float(it.get('y')), float(it.get('width')), float(it.get('height')))
                 for it in root.iter(SVG + 'rect') if it.get('class') == 'box']
        self.assertGreaterEqual(len(boxes), 18)
        for one, other in zip(boxes, boxes[1:]):
            self.assertLess(one[1] + one[3], other[1])
        width, height = float(root.get('width')), float(root.get('height'))
        for text in root.iter(SVG + 'text'):
            x, y, long = float(text.get('x')), float(text.get('y')), len(text.text) * SIGN
            self.assertLessEqual(0 if text.get('text-anchor') else x + long, width)
            self.assertLess(y, height)
            if text.get('class') in ('read', 'write', 'setting', 'way', 'fault'):
                self.assertTrue(any(top < y < top + high and left <= x and x + long <= left + wide
                                    for left, top, wide, high in boxes), text.text)

    def test_ways_of_one_lane_stand_apart(self):
        graph = graph_of(self.write('p.fuse', LOOPS))
        order = graph.order
        boxes = [box_of(graph, number, order[at + 1] if at + 1 < len(order) else None) for at, number in enumerate(order)]
        for at, box in enumerate(boxes):
            box.top = at * 300.0
        edges = edges_of(boxes)
        for side in ('left', 'right'):
            ours = [edge for edge in edges if edge.side == side]
            self.assertGreater(give_lanes(ours), 0)
            for one in ours:
                for other in ours:
                    if one is not other and one.lane == other.lane:
                        (low, high), (from_, to) = one.span(), other.span()
                        self.assertTrue(high < from_ or to < low)

    def test_names_are_escaped(self):
        path = self.write('a<&>b.fuse', 'let x = 1;')
        self.assertEqual(tree.fromstring(run_tool('show', path)[1]).find(SVG + 'title').text, path)

    def test_many_accesses_of_a_state_are_counted(self):
        path = self.write('p.fuse', 'decl A: ubit<8>[32 bank 32]; for (let i = 0..32) unroll 32 { A[i] := 1; }')
        self.assertIn('… and 17 more writes', run_tool('show', path)[1])

    def test_more_states_than_are_drawn(self):
        path = self.write('p.fuse', 'let x = 0;' + '--- x := 1;' * 30)
        self.refused('show', path, '--most', '20', says='has 31 states')
        self.refused('show', path, '--most', 'x', says='--most wants a number')
        self.assertEqual(run_tool('show', path)[0], 0)

    def test_a_text_that_is_no_net(self):
        text = '// dahlia netlist 1\nmodule kernel(\n  wire [0:0] w0 = w1 ~^ w2;\n'
        for more in ('', text[20:]):
            program = self.stand_in(f"cat <<'EOF'\n{text[:20]}{more}EOF")
            self.refused('show', example('first.fuse'), says='the text has', program=program)


if __name__ == '__main__':
    unittest.main()
