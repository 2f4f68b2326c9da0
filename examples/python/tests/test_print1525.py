"""The package over the library: python3 -m unittest, in examples/python."""

import pickle
import unittest

import print1525
from print1525 import Decoder, Device, Fault, Mark, Printer, Receiver, Refused, Region, Timing

HELLO = 'OPEN 4,4\nPRINT#4,"HI"\n'
PAGE = b"printer 4\nrow 0\n 0 cell 72\n 6 cell 73\nprinter 5\nstatus 0 0\nscreen\n"


class Texts(unittest.TestCase):
    def refused(self, words, call, *given, **settings):
        with self.assertRaises(Refused) as found:
            call(*given, **settings)
        self.assertEqual(str(found.exception), words)
        return found.exception

    def test_pages(self):
        self.assertEqual(print1525.pages(HELLO), (PAGE, 0, None, 0, 0))
        self.assertEqual(print1525.pages(HELLO.encode()).text, PAGE)
        self.assertEqual(print1525.pages(bytearray(HELLO, "ascii")).text, PAGE)
        self.assertTrue(print1525.pages(HELLO, as_="png").text.startswith(b"\x89PNG"))
        self.assertTrue(print1525.pages(HELLO, as_="pdf", paper="a4").text.startswith(b"%PDF"))

    def test_stops(self):
        stopped = print1525.pages("REM\nPRINT#4\n")
        self.assertEqual((stopped.status, stopped.fault, stopped.place), (1, Fault.STOP_FILE_NOT_OPEN, 2))
        self.assertEqual(stopped.stop, "?FILE NOT OPEN  ERROR (statement 2)")
        explained = print1525.pages("REM\nPRINT#4\n", explain=True)
        self.assertIn(b"FILE NOT OPEN", explained.text)

    def test_refusals(self):
        why = self.refused("line 2: unknown word", print1525.pages, "REM\nPRONT\n")
        self.assertEqual((why.fault, why.place, why.column, why.text), (Fault.UNKNOWN_WORD, 2, 0, b""))
        again = pickle.loads(pickle.dumps(why))
        self.assertEqual((str(again), again.fault, again.place), (str(why), why.fault, why.place))
        why = self.refused("line 2: unknown word", print1525.pages, "REM\nPRONT\n", explain=True)
        self.assertIn(b"PRONT", why.text)
        self.refused("setting as: bad setting", print1525.pages, HELLO, as_="jpeg")
        self.refused("setting as: bad setting", print1525.pages, HELLO, as_="vcd")
        self.refused("setting scale: bad setting", print1525.pages, HELLO, as_="svg", scale=2)
        self.refused("setting top: bad setting", print1525.pages, HELLO, as_="svg", top=66)
        why = self.refused("no such sheet: the paper has one sheet", print1525.pages, HELLO, as_="svg", sheet=2)
        self.assertEqual((why.fault, why.place), (Fault.NO_SUCH_SHEET, 1))

    def test_values_without_room(self):
        for kind, call in (
            (OverflowError, lambda: print1525.pages(HELLO, sheet=-1)),
            (OverflowError, lambda: print1525.pages(HELLO, device=260)),
            (OverflowError, lambda: print1525.pages(HELLO, as_="svg", top=255)),
            (OverflowError, lambda: print1525.print_inputs([65601])),
            (OverflowError, lambda: Device(260)),
            (OverflowError, lambda: Device().step(-1, 1, 1, 1)),
            (OverflowError, lambda: print1525.changed([Mark(-1, 0, print1525.CELL, 65)])),
            (OverflowError, lambda: print1525.picture([Mark(0, 65536, print1525.CELL, 65)])),
            (OverflowError, lambda: print1525.Characters().dots([Mark(0, 0, print1525.DOTS, 256)])),
            (ValueError, lambda: print1525.answer(["pages\0"])),
            (ValueError, lambda: Device(state=b"short")),
            (TypeError, lambda: print1525.pages(HELLO, form="svg")),
            (TypeError, lambda: print1525.pages(HELLO, **{"as": "svg"})),
            (TypeError, lambda: print1525.raw("a text is no bytes")),
        ):
            self.assertRaises(kind, call)

    def test_words(self):
        self.assertEqual(print1525.answer(["pages"], HELLO).text, PAGE)
        self.assertEqual(print1525.answer(["pages", "--present", "none"], HELLO).fault, Fault.STOP_DEVICE_NOT_PRESENT)
        self.assertEqual(self.refused("words that ask for nothing", print1525.answer, []).fault, Fault.BAD_WORDS)

    def test_traces(self):
        trace = print1525.bus(HELLO).text
        self.assertTrue(trace.startswith(b"0 111\n"))
        self.assertTrue(print1525.check(trace).text.endswith(b"lawful\n"))
        dump = print1525.bus(HELLO, as_="vcd", delays="7,9/1").text
        edges = print1525.edges(dump)
        self.assertEqual(print1525.bus(HELLO, delays="7,9/1").text, b"".join(b"%d %d%d%d\n" % it for it in edges))
        self.assertEqual(print1525.decode(trace, as_="text").text, b"Printer 4\nHI\n")
        self.assertTrue(print1525.decode(trace, as_="svg", device=4, top=0).text.startswith(b"<"))
        broken = b"".join(trace.splitlines(keepends=True)[:50]) + b"x\n"
        why = self.refused("line 51: bad trace line", print1525.edges, broken)
        self.assertEqual(len(why.edges), 50)
        text = self.refused("line 51: bad trace line", print1525.decode, broken).text
        self.assertTrue(text and print1525.decode(trace).text.startswith(text), text)
        renamed = dump.replace(b"CLOCK", b"C")
        self.refused("line 7: no signal CLOCK", print1525.edges, renamed)
        self.assertEqual(print1525.edges(renamed, names="ATN,C,DATA"), edges)

    def test_bytes_and_inputs(self):
        data = b"HI\r"
        self.assertEqual(print1525.raw(data).text, print1525.print_inputs(list(data)).text)
        lower = print1525.print_inputs([print1525.SELECT_LOWER, *data], as_="text").text
        self.assertEqual(print1525.raw(data, set="lower", as_="text").text, lower)
        why = self.refused("input 1: no such input", print1525.print_inputs, [65, 258])
        self.assertEqual(why.place, 1)
        self.assertEqual(print1525.listing('10 open4,4\n20 print#4,"aA"\n', from_="petcat").text.count(b"\n"), 2)


class Bus(unittest.TestCase):
    def test_device(self):
        device = Device(4)
        self.assertEqual(device.step(1000, 0, 0, 1), (False, 1100, None))
        saved = Device(state=device.state)
        self.assertTrue(saved.step(1100, 0, 0, 1).pulls_data and device.step(1100, 0, 0, 1).pulls_data)
        self.assertEqual(saved.state, device.state)
        saved.busy(9000)
        self.assertEqual((saved.step(2000, 0, 1, 0).wake, device.step(2000, 0, 1, 0).wake), (9000, 2050))
        device.step(2050, 0, 1, 0)
        device.step(2050, 0, 1, 1)
        for bit in range(8):  # LISTEN to device 4, the lowest bit first
            self.assertIsNone(device.step(2090 + 90 * bit, 0, 0, 36 >> bit & 1).heard)
            made = device.step(2160 + 90 * bit, 0, 1, 36 >> bit & 1)
        self.assertIsNone(made.heard)
        self.assertEqual(device.step(2810, 0, 0, 1), (False, 2830, ("listen", 0, False)))
        with self.assertRaisesRegex(Refused, "^time goes back$"):
            device.step(2809, 0, 0, 1)

    def test_timing(self):
        self.assertEqual(Device(5, Timing(attention=1)).step(9, 0, 1, 1).wake, 10)
        with self.assertRaisesRegex(Refused, "^no such device$"):
            Device(31)
        with self.assertRaisesRegex(Refused, "^no such timing$"):
            Device(4, Timing(hold=10001))

    def test_printing_time(self):
        self.assertEqual(print1525.printing_time(480), 2_866_667)
        self.assertEqual(print1525.printing_time(6, 0), 33_334)
        self.assertEqual(print1525.printing_time(6, 2, print1525.Speed(60, 5)), 100_010)
        with self.assertRaises(OverflowError):
            print1525.printing_time(6, 65_536)

    def test_edges(self):
        edges = print1525.edges(print1525.bus(HELLO).text)
        heard = [(it.kind, it.byte, it.is_last) for it in print1525.received(edges, 4)]
        bytes_heard = [("byte", 72, False), ("byte", 73, False), ("byte", 13, True)]
        self.assertEqual(heard, [("listen", 0, False), *bytes_heard, ("unlisten", 0, False)])
        self.assertEqual(list(print1525.received(edges, 5)), [])
        readings = list(print1525.readings(edges))
        self.assertEqual([it.byte for it in readings], [36, 72, 73, 13, 63])
        self.assertEqual([it.command for it in readings], [True, False, False, False, True])
        self.assertEqual({it.kind for it in readings}, {"acknowledged"})
        last = readings[3]
        self.assertTrue(last.eoi and last.look < last.ready < last.answered < last.pull < last.last_pull < last.end)
        # A decoder and a receiver go on from their states.
        for kind in (Decoder, Receiver):
            one = kind()
            half = [one.edge(*it) for it in edges[:60]]
            other = kind(state=one.state)
            self.assertEqual([one.edge(*it) for it in edges[60:]], [other.edge(*it) for it in edges[60:]])
            self.assertTrue(any(half))
        with self.assertRaisesRegex(Refused, "^time goes back$"):
            list(print1525.readings([(100, 1, 1, 1), (90, 1, 1, 0)]))
        with self.assertRaisesRegex(Refused, "^no such device$"):
            Receiver(3)


class Paper(unittest.TestCase):
    def test_marks(self):
        printer = Printer()
        printer.select("lower")
        marks = printer.print(b"A\x08\x1a\xff\x81\r")
        self.assertEqual((len(marks), marks[255].x, printer.x, printer.y), (256, 260, 0, 14))
        self.assertEqual(marks[0], Mark(0, 0, print1525.CELL, 65, 1))
        self.assertEqual({it.kind for it in marks[1:]}, {print1525.DOTS})
        dots = bytes([255, 255, 0, 0, 255, 255, 0, 0, 255, 255, 255, 255])
        self.assertEqual(print1525.pixels_of(marks, Region(10, 0, 4, 3)), dots)
        saved = Printer(state=printer.state)
        self.assertEqual(saved.print(b"B\r"), printer.print(b"B\r"))
        # 80 cells to a row, in several calls.
        long = Printer().print(b"A" * 3000)
        self.assertEqual((len(long), long[-1].x, len({it.y for it in long})), (3000, 6 * (3000 % 80 - 1), 38))
        with self.assertRaisesRegex(Refused, "^no such character set$"):
            printer.select("both")

    def test_drawing(self):
        marks = Printer().print(b"AB\r")
        changed = print1525.changed(marks)
        self.assertEqual(changed[:4], (0, 0, 24, 14))
        self.assertEqual(print1525.changed([])[2:4], (0, 0))
        gray = print1525.pixels_of(marks, changed)
        self.assertEqual(set(gray), {0, 255})
        rgba = print1525.pixels_of(marks, changed._replace(pixels="rgba"))
        self.assertEqual((rgba[0::4], rgba[1::4], rgba[2::4], set(rgba[3::4])), (gray, gray, gray, {255}))
        bits = print1525.pixels_of(marks, changed._replace(pixels="bits"))
        self.assertEqual([bits[at // 8] >> (7 - at % 8) & 1 for at in range(24 * 14)], [it == 0 for it in gray])
        # Over a window that is wider than the region, and that has marks already.
        window = bytearray(b"\xff" * 100 * 14)
        print1525.draw(marks[:1], Region(0, 0, 24, 14, 100), window)
        print1525.draw(marks[1:], Region(0, 0, 24, 14, 100), window)
        self.assertEqual(b"".join(window[100 * it : 100 * it + 24] for it in range(14)), gray)
        self.assertEqual(window.count(0), gray.count(0))
        with self.assertRaisesRegex(Refused, "^buffer too small$"):
            print1525.draw(marks, changed, bytearray(100))
        with self.assertRaises(TypeError):
            print1525.draw(marks, changed, bytes(1000))

    def test_pictures(self):
        marks = Printer().print(b"AB\r\x12C\r")
        for form in ("svg", "png", "pdf"):
            true = print1525.raw(b"AB\r\x12C\r", as_=form, top=0).text
            self.assertEqual(print1525.picture(marks, as_=form, top=0), true)
        self.assertEqual(print1525.picture(marks), print1525.picture(marks, as_="svg"))
        large: list[bytes] = []
        many = [Mark(21 * y, 6 * x, print1525.CELL, 65) for y in range(200) for x in range(60)]
        print1525.write_picture(many, large.append, as_="svg")
        self.assertEqual({len(it) for it in large[:-1]}, {65536})
        self.assertEqual(b"".join(large), print1525.picture(many))
        with self.assertRaises(ZeroDivisionError):
            print1525.write_picture(marks, lambda part: 1 // 0)
        why = self.refused(print1525.picture, marks[::-1])
        self.assertEqual((str(why), why.fault), ("mark 1: above the one before it", Fault.MARK_ABOVE))
        self.assertEqual(str(self.refused(print1525.picture, marks, as_="list")), "setting as: bad setting")
        self.assertEqual(str(self.refused(print1525.picture, marks, sheet=9)), "no such sheet: the paper has one sheet")

    def refused(self, call, *given, **settings):
        with self.assertRaises(Refused) as found:
            call(*given, **settings)
        return found.exception

    def test_characters(self):
        marks = Printer().print(b"\x0eA\x0f\x12B\x08\x81\r")
        region = print1525.changed(marks)
        own = print1525.Characters()
        dots = own.dots(marks)
        self.assertEqual((len(dots), {it.kind for it in dots}), (19, {print1525.DOTS}))
        self.assertEqual(print1525.pixels_of(dots, region), print1525.pixels_of(marks, region))
        self.assertEqual(own.dots(dots), dots)
        self.assertEqual(str(self.refused(print1525.Characters, "upper 65\n")), "line 1: bad character line")

    def test_sheets(self):
        printer = Printer()
        printer.print(b"A\r")
        printer.form_feed()
        self.assertEqual((printer.y, printer.tear_off(), printer.y, printer.tear_off()), (print1525.SHEET, 1, 0, 0))


if __name__ == "__main__":
    unittest.main()
