"""Outlines out of SVG drawings."""
import unittest

from lizardwire import svg


def read(inside, attributes=""):
    return svg.read(f'<svg xmlns="http://www.w3.org/2000/svg" {attributes}>{inside}</svg>'.encode())


class Elements(unittest.TestCase):
    def rings(self, inside):
        shapes, unread = read(inside)
        self.assertEqual(unread, [])
        self.assertEqual(len(shapes), 1)
        return shapes[0].rings

    def why(self, inside):
        shapes, unread = read(inside)
        self.assertEqual((shapes, len(unread)), ([], 1))
        return str(unread[0])

    def test_polygon_and_polyline(self):
        for tag in ("polygon", "polyline"):
            self.assertEqual(self.rings(f'<{tag} points="0,0 4,0  4 4,-1.5e1-.5"/>'), [[(0, 0), (4, 0), (4, 4), (-15, -0.5)]])

    def test_rect(self):
        self.assertEqual(self.rings('<rect x="1" y="2" width="3" height="4"/>'), [[(1, 2), (4, 2), (4, 6), (1, 6)]])

    def test_path(self):
        square = [(1, 1), (5, 1), (5, 5), (1, 5)]
        for d in ("M1 1L5 1L5 5L1 5Z", "M1,1 5,1 5,5 1,5z", "m1 1 4 0 0 4-4 0z", "M1 1H5V5H1Z", "m1 1h4v4h-4z", "M1 1h2 2v4h-4",
                  "M1 1 M1 1H5V5H1ZM9 9"):
            ring = self.rings(f'<path d="{d}"/>')[0]
            self.assertEqual([point for point in ring if point != (3, 1)], square)

    def test_parts_of_a_path(self):
        # After Z the next part starts where the last one did; the largest goes first.
        rings = self.rings('<path d="M4 4h2v2h-2z m-4-4h10v10h-10z"/>')
        self.assertEqual(rings, [[(0, 0), (10, 0), (10, 10), (0, 10)], [(4, 4), (6, 4), (6, 6), (4, 6)]])

    def test_not_read(self):
        for inside, words in (
                ('<circle id="eye" r="2"/>', "circle 'eye' is not read: it is round"),
                ('<ellipse rx="2" ry="1"/>', "ellipse 1 is not read: it is round"),
                ('<line x2="3"/>', "line 1 is not read: it encloses nothing"),
                ('<use href="#a"/>', "use 1 is not read: it is a copy of another element"),
                ('<svg/>', "svg 1 is not read: it is a drawing inside the drawing"),
                ('<rect width="3" height="3" rx="1"/>', "rect 1 is not read: it has round corners"),
                ('<rect width="3mm" height="3"/>', "rect 1 is not read: its place or size is not a plain number"),
                ('<polygon points="0 0 1 0 1"/>', "polygon 1 is not read: it has an odd count of coordinates"),
                ('<path id="curl" d="M0 0q1 1 2 2z"/>',
                 "path 'curl' is not read: it has a curve (q); turn curves into straight edges first"),
                ('<path d="M0 0A1 1 0 0 0 2 2z"/>', "path 1 is not read: it has an arc (A); turn curves into straight edges first"),
                ('<path d="M0 0L1"/>', "path 1 is not read: L lacks a number"),
                ('<path d="0 0L1 1"/>', "path 1 is not read: a number stands where a command should"),
                ('<path d="M0 0X1 1"/>', "path 1 is not read: X is not a path command"),
                ('<path d="M1e999 0"/>', "path 1 is not read: 1e999 is too large a number"),
                ('<rect width="1" height="1" style="fill:red;transform:scale(2)"/>',
                 "rect 1 is not read: it has a transform in its style; put it into the attribute")):
            self.assertEqual(self.why(inside), words)

    def test_passed_over(self):
        for inside in ("<text>words</text>", '<defs><path d="M0 0C1 1 2 2 3 3"/></defs>', "<!-- a note -->", '<path d=""/>',
                       '<circle display="none" r="2"/>', '<g style="display: none"><circle r="2"/></g>', "<title>a</title>",
                       '<other xmlns="urn:other"><circle/></other>'):
            self.assertEqual(read(inside), ([], []))

    def test_names(self):
        label = 'xmlns:i="http://www.inkscape.org/namespaces/inkscape" i:label="left  arm"'
        box = 'width="1" height="1"'
        for inside, name in ((f"<rect {box}/>", "rect 1"), (f'<rect id="a" {box}/>', "a"), (f'<rect id="a" {label} {box}/>', "left arm"),
                             (f'<rect id="a" {label} {box}><title>tail</title></rect>', "tail")):
            self.assertEqual(read(inside)[0][0].name, name)

    def test_too_deep(self):
        with self.assertRaisesRegex(ValueError, "nested too deeply"):
            read("<g>" * 5000 + "</g>" * 5000)

    def test_no_svg(self):
        for data in (b"<html/>", b"<svg", b"inset,1", b""):
            with self.assertRaises(ValueError):
                svg.read(data)
        for encoding in (b"none", b"shift_jis"):
            with self.assertRaisesRegex(ValueError, "this is not an SVG file: .*encoding"):
                svg.read(b'<?xml version="1.0" encoding="' + encoding + b'"?><svg/>')
        self.assertTrue(svg.is_svg(b"\xef\xbb\xbf\n<svg/>"))
        self.assertFalse(svg.is_svg(b"inset,3ff"))


class Transforms(unittest.TestCase):
    def point(self, transform, around=""):
        shapes, unread = read(f'<g transform="{around}"><polygon points="1,2 9,9 0,9" transform="{transform}"/></g>')
        self.assertEqual(unread, [])
        return tuple(round(c, 9) for c in shapes[0].rings[0][0])

    def test_each(self):
        for transform, point in (("", (1, 2)), ("translate(10)", (11, 2)), ("translate(10, 20)", (11, 22)), ("scale(2)", (2, 4)),
                                 ("scale(2 3)", (2, 6)), ("matrix(1 2 3 4 5 6)", (12, 16)), ("rotate(90)", (-2, 1)),
                                 ("rotate(90 1 1)", (0, 1)), ("skewX(45)", (3, 2)), ("skewY(45)", (1, 3)),
                                 ("translate(10) scale(2)", (12, 4)), ("scale(2),translate(10)", (22, 4))):
            self.assertEqual(self.point(transform), point)

    def test_groups(self):
        self.assertEqual(self.point("scale(2)", "translate(10 20)"), (12, 24))

    def test_not_understood(self):
        for transform in ("turn(3)", "scale()", "rotate(1 2)", "scale(2", "scale(a)"):
            self.assertEqual(len(read(f'<polygon points="0,0 1,0 1,1" transform="{transform}"/>')[1]), 1)


if __name__ == "__main__":
    unittest.main()
