"""The package against modules that are written out by hand. Run: LIBOMF=build/libomf.so python3 -m unittest discover -s python/tests"""
import os
import subprocess
import sys
import unittest

sys.path.insert(0, os.path.join(os.path.dirname(__file__), ".."))
import omf  # noqa: E402

# A header, a name T, a segment of 4 bytes, its data, a fixup of an offset to the segment, and the end.
HEADER = "80 03 00 01 41 3B"
NAMES = "96 04 00 00 01 54 11"
SEGMENT = "98 07 00 28 04 00 02 01 01 31"
DATA = "A0 08 00 01 00 00 B8 00 00 90 0F"
FIXUP = "9C 06 00 C4 01 04 01 01 93"
END = "8A 02 00 00 74"
FIRST = bytes.fromhex(" ".join([HEADER, NAMES, SEGMENT, DATA, FIXUP, END]))
PLACED = "S 10020 10000 1000"


def record(kind: int, contents: str) -> bytes:
    """A record with its length and a checksum byte of 0, which is not checked."""
    body = bytes.fromhex(contents)
    return bytes([kind, (len(body) + 1) % 256, (len(body) + 1) // 256]) + body + b"\0"


# Names 2 T, 3 CODE and 4 G; a public segment T of class CODE, 16-bit, 4 bytes; a group G of it; an EXTDEF X, a LEXTDEF y, COMDEFs N (near, 6
# bytes) and F (far, 3 elements of 2); a public P at 2 and a local one q at 3; data at 0; a thread for the group's frame, and a
# self-relative fixup by it of the external X with displacement 5.
TABLES = b"".join([
    record(0x80, "01 41"),
    record(0x96, "00 01 54 04 43 4F 44 45 01 47"),
    record(0x98, "68 04 00 02 03 01"),
    record(0x9A, "04 FF 01"),
    record(0x8C, "01 58 07"),
    record(0xB4, "01 79 00"),
    record(0xB0, "01 4E 00 62 06 01 46 00 61 03 02"),
    record(0x90, "01 01 01 50 02 00 09"),
    record(0xB6, "00 01 01 71 03 00 00"),
    record(0xA0, "01 00 00 E8 00 00 90"),
    record(0x9C, "45 01 84 01 92 01 05 00"),
    record(0x8A, "00"),
])

# Two names; a main module B with a comment that is not purged, the segment T of 16 bytes, an LIDATA of three repeats of AA BB at 8, an LEDATA with
# 32-bit fields, and a start 7 bytes after the external X, whose frame is that of the segment.
PARTS = b"".join([
    record(0x80, "01 42"),
    record(0x88, "80 9F 63 6C 69 62"),
    record(0x96, "00 01 54"),
    record(0x98, "28 10 00 02 01 01"),
    record(0x8C, "01 58 00"),
    record(0xA2, "01 08 00 03 00 00 00 02 AA BB"),
    record(0xA1, "01 04 00 00 00 11 22 33"),
    record(0x8A, "C1 02 01 01 07 00"),
])


class Loading(unittest.TestCase):
    """A process without a library: the import succeeds, and the first call says what is missing."""

    def test_the_first_call_loads(self):
        code = "import omf; print(omf.find_library()); omf.reason_name(1)"
        words = {**os.environ, "LIBOMF": "/nowhere/libomf.so", "PYTHONPATH": os.path.join(os.path.dirname(__file__), "..")}
        made = subprocess.run([sys.executable, "-c", code], env=words, capture_output=True, text=True, check=False)
        self.assertEqual(made.stdout, "/nowhere/libomf.so\n")
        self.assertIn("ImportError: /nowhere/libomf.so is not loaded", made.stderr)
        self.assertIn("make library", made.stderr)


class Tables(unittest.TestCase):
    def setUp(self):
        self.module = omf.Module(TABLES + b"anything")

    def test_the_size_is_that_of_all_records(self):
        self.assertEqual((self.module.size, self.module.record_count), (len(TABLES), 12))

    def test_segments_have_names_and_lengths(self):
        self.assertEqual(self.module.segments, (omf.Segment("T", "CODE", "", 4, 3, 2, 16, None),))

    def test_an_absolute_segment_has_its_frame(self):
        module = omf.Module(record(0x80, "01 41") + record(0x96, "00") + record(0x98, "08 00 B8 10 04 00 00 01 01") + record(0x8A, "00"))
        self.assertEqual(module.segments, (omf.Segment(None, "", "", 4, 0, 2, 16, (0xB800, 0x10)),))

    def test_groups_have_their_segments(self):
        self.assertEqual(self.module.groups, (omf.Group("G", (1,)),))

    def test_externals_have_their_kinds(self):
        self.assertEqual(self.module.externals, (
            omf.External("X", 7, False, None), omf.External("y", 0, True, None),
            omf.External("N", 0, False, omf.Communal(False, 1, 6)), omf.External("F", 0, False, omf.Communal(True, 3, 2))))

    def test_publics_have_their_base(self):
        self.assertEqual(self.module.publics, (omf.Public("P", 2, 1, 1, None, 9, False), omf.Public("q", 3, 1, 0, None, 0, True)))

    def test_a_public_without_a_segment_has_its_frame(self):
        module = omf.Module(record(0x80, "01 41") + record(0x90, "00 00 00 B8 01 58 02 00 00") + record(0x8A, "00"))
        self.assertEqual(module.publics, (omf.Public("X", 2, 0, 0, 0xB800, 0, False),))

    def test_fixups_have_their_threads_resolved(self):
        fixup, = self.module.fixups
        self.assertEqual(fixup, omf.Fixup(1, 1, 2, 1, True, omf.Method.GROUP, 1, omf.Method.EXTERNAL, 1, 5, 16, 10, 5))
        self.assertEqual((self.module.frame_name(fixup), self.module.target_name(fixup), omf.LOCATIONS[fixup.location]), ("G", "X", "offset16"))

    def test_a_frame_of_the_target_has_no_name(self):
        module = omf.Module(bytes.fromhex(" ".join([HEADER, NAMES, SEGMENT, DATA])) + record(0x9C, "C4 01 54 01") + bytes.fromhex(END))
        self.assertEqual((module.fixups[0].frame, module.fixups[0].frame_index, module.frame_name(module.fixups[0])), (omf.Method.TARGET, 0, None))

    def test_a_name_may_have_any_byte(self):
        odd = record(0x80, "01 41") + record(0x8C, "06 22 5C 00 FF 20 7E 00") + record(0x8A, "00")
        self.assertEqual([external.name for external in omf.Module(odd).externals], ['"\\\0\xff ~'])

    def test_an_empty_table_is_empty(self):
        self.assertEqual((omf.Module(FIRST).groups, omf.Module(FIRST).publics, omf.Module(FIRST).externals), ((), (), ()))


class Parts(unittest.TestCase):
    def setUp(self):
        self.module = omf.Module(PARTS)

    def test_a_module_has_its_name(self):
        self.assertEqual(self.module.name, "B")

    def test_records_follow_one_another(self):
        ends = [each.offset + each.size for each in self.module.records]
        self.assertEqual([each.offset for each in self.module.records], [0, *ends[:-1]])
        self.assertEqual((ends[-1], [each.type for each in self.module.records]), (len(PARTS), [0x80, 0x88, 0x96, 0x98, 0x8C, 0xA2, 0xA1, 0x8A]))

    def test_comments_have_their_text(self):
        self.assertEqual(self.module.comments, (omf.Comment(0x9F, b"clib", True, False, 1),))

    def test_data_are_as_in_the_records(self):
        iterated, plain = self.module.data
        self.assertEqual(iterated, omf.DataRecord(1, 8, 6, True, bytes.fromhex("03 00 00 00 02 AA BB"), 5))
        self.assertEqual(plain, omf.DataRecord(1, 4, 3, False, bytes.fromhex("11 22 33"), 6))
        self.assertEqual([self.module.data_of(each) for each in self.module.data], [bytes.fromhex("AABBAABBAABB"), bytes.fromhex("112233")])

    def test_a_start_has_its_reference(self):
        is_ = self.module.start_reference
        self.assertEqual(is_, omf.StartReference(omf.Method.SEGMENT, 1, omf.Method.EXTERNAL, 1, 7, 16, 7, 4))
        self.assertEqual((self.module.is_main, self.module.frame_name(is_), self.module.target_name(is_)), (True, "T", "X"))
        self.assertEqual((omf.Module(FIRST).is_main, omf.Module(FIRST).start_reference), (False, None))

    def test_a_placement_may_be_arrays(self):
        frame = omf.Frame(0x10000, 0x1000)
        placement = omf.Placement([omf.Place(0x10020, frame)])
        self.assertEqual(omf.Module(FIRST).relocate(placement), omf.Module(FIRST).relocate(PLACED))
        placement = omf.Placement([omf.Place(0x10020, frame)], [], [omf.Place(0x10100, frame)])
        self.assertEqual(self.module.relocate(placement), self.module.relocate(PLACED + "\nE 10100 10000 1000"))
        with self.assertRaises(omf.Unreachable) as caught:
            self.module.relocate(omf.Placement([omf.Place(0x10020, frame)]))
        self.assertEqual((caught.exception.reason, caught.exception.index), (1, 1))


class Texts(unittest.TestCase):
    def test_an_image_has_its_runs(self):
        self.assertEqual(omf.Module(FIRST).relocate(PLACED), omf.Image((omf.Run(1, 0, bytes.fromhex("B8 20 00 90")),), None))

    def test_an_image_has_its_start(self):
        module = omf.Module(bytes.fromhex(" ".join([HEADER, NAMES, SEGMENT, DATA, FIXUP])) + record(0x8A, "C1 00 01 01 02 00"))
        self.assertEqual(module.relocate(PLACED), omf.Image((omf.Run(1, 0, bytes.fromhex("B8 20 00 90")),), (0x1000, 0x22)))

    def test_a_module_without_data_has_no_runs(self):
        self.assertEqual(omf.Module(bytes.fromhex(HEADER + END)).relocate(""), omf.Image((), None))

    def test_canonical_bytes_are_their_own(self):
        self.assertEqual(omf.Module(FIRST).canonical(), FIRST)

    def test_a_listing_has_a_line_for_each_record_and_segment(self):
        self.assertEqual(len(omf.Module(FIRST).listing().splitlines()), 7)

    def test_a_reason_has_its_name_and_its_sentence(self):
        self.assertEqual((omf.reason_name(2), omf.reason_sentence(2)), ("Cut", "the input ends inside a record"))
        self.assertEqual((omf.reason_name(0), omf.reason_name(34), omf.reason_sentence(34)), ("", "", ""))

    def test_the_versions_agree(self):
        with open(os.path.join(os.path.dirname(__file__), "..", "..", "VERSION"), encoding="ascii") as file:
            self.assertEqual(omf.__version__, file.read().strip())


class Faults(unittest.TestCase):
    def test_a_refusal_has_its_reason_and_its_place(self):
        with self.assertRaises(omf.Refused) as caught:
            omf.Module(FIRST[:36])
        is_ = caught.exception
        self.assertEqual((is_.reason, is_.name, is_.record, is_.start, is_.within, is_.offset), (2, "Cut", 4, 34, 2, 36))
        self.assertEqual(str(is_), "refused 2 Cut record 4 at 34 within 2")
        self.assertEqual(is_.sentence, "the input ends inside a record")

    def test_a_vendor_comment_is_refused_on_request(self):
        comment = bytes.fromhex(HEADER) + record(0x88, "00 E9") + bytes.fromhex(END)
        self.assertEqual(omf.Module(comment).record_count, 3)
        with self.assertRaises(omf.Refused) as caught:
            omf.Module(comment, refuse_vendor_comments=True)
        self.assertEqual((caught.exception.reason, caught.exception.offset), (32, 10))

    def test_a_line_that_is_no_entry_has_its_number(self):
        with self.assertRaises(omf.PlacementLine) as caught:
            omf.Module(FIRST).relocate("\nS 100000 real\n")
        self.assertEqual((caught.exception.line, str(caught.exception)), (2, "placement line 2"))

    def test_a_missing_entry_has_its_kind_and_its_index(self):
        with self.assertRaises(omf.Unreachable) as caught:
            omf.Module(FIRST).relocate("")
        is_ = caught.exception
        self.assertEqual((is_.reason, is_.kind, is_.index, str(is_)), (1, omf.Method.SEGMENT, 1, "reach 1 Missing segment 1"))

    def test_a_target_too_far_has_its_place(self):
        with self.assertRaises(omf.Unreachable) as caught:
            omf.Module(FIRST).relocate("S 20000 10000 1000")
        is_ = caught.exception
        self.assertEqual((is_.reason, is_.kind, is_.record, is_.within), (4, 1, 4, 3))

    def test_a_placement_may_be_too_long(self):
        with self.assertRaises(omf.PlacementTooLong):
            omf.Module(FIRST).relocate(b"\n" * 4194305)

    def test_each_fault_is_an_error(self):
        for fault in (omf.Refused, omf.PlacementLine, omf.PlacementTooLong, omf.Unreachable, omf.NoLibrary, omf.NotLinked):
            self.assertTrue(issubclass(fault, omf.Error))


# Pages of 16 bytes: a header with a dictionary of one block at 64, a member of 24 bytes at 16 with the public P, F1H. The dictionary has one entry, in
# bucket 3: P, page 1.
MEMBER = record(0x80, "01 41") + record(0x90, "00 00 00 00 01 50 00 00 00") + b"\x8A\x02\0\0\x74"
LIBRARY = (bytes.fromhex("F0 0D 00 40 00 00 00 01 00 01").ljust(16, b"\0") + MEMBER.ljust(32, b"\0") + b"\xF1\x0D\0".ljust(16, b"\0")
           + (b"\0\0\0\x13".ljust(37, b"\0") + b"\x15" + b"\x01P\x01\0").ljust(512, b"\0"))


class Libraries(unittest.TestCase):
    def test_members_are_modules(self):
        library = omf.Library(LIBRARY)
        self.assertEqual(library.members, (omf.Member(16, MEMBER),))
        self.assertEqual([public.name for public in library.members[0].module.publics], ["P"])

    def test_the_dictionary_leads_to_the_member(self):
        library = omf.Library(LIBRARY)
        self.assertEqual((library.find("P"), library.find("p")), (library.members[0], None))

    def test_bytes_that_are_no_library_have_a_reason(self):
        for data, reason, offset in ((FIRST, 1, None), (LIBRARY[:9], 2, None), (LIBRARY[:48], 4, 48)):
            with self.assertRaises(omf.NoLibrary) as caught:
                omf.Library(data)
            self.assertEqual((caught.exception.reason, caught.exception.offset), (reason, offset))

    def test_a_member_may_be_refused(self):
        with self.assertRaises(omf.NoLibrary) as caught:
            omf.Library(LIBRARY[:22] + b"\xFF" + LIBRARY[23:])
        is_ = caught.exception
        self.assertEqual((is_.reason, is_.offset, is_.refusal.name, is_.refusal.record, str(is_)),
                         (None, 16, "UnknownType", 1, "the member at 16 is refused: refused 3 UnknownType record 1 at 6 within 0"))


# A main module A: the segments T (mov ax, T; retf) and S (a stack of 16 bytes), a start at offset 0 of T. f is 0:1234H, in no segment; FRAMED refers to it
# in the frame of T.
ONE = bytes.fromhex("80030001413B 960600000154015300 98070028040002010100 98070074100003010100 A00800010000B80000CB00 9C0500C801540100 8A0700C1000101000000")
FRAMED = bytes.fromhex("80030001413B 96040000015400 98070028030002010100 8C040001660000 A00700010000BB000000 9C0600C40106010100 8A0700C1000101000000")
STARTS = bytes.fromhex("80030001413B 96040000015400 98070028010002010100 9008000001016600000000 A00500010000CB00 8A0700C1000101000000")
DEFINES = bytes.fromhex("800300014200 96040000015400 98070028010002010100 9008000001016600000000 A005000100009000 8A02000000")
ABSOLUTE = bytes.fromhex("80030001420096040000015400 900A0000000000016634120000 8A02000000")
TEXT = 'M "A"\nS "T" 7C00 real\nS "S" 7D00 real\n'


class Links(unittest.TestCase):
    def test_modules_have_one_memory(self):
        self.assertEqual(omf.link([ONE], TEXT, 0x7BFE, 8, 0x90), bytes.fromhex("9090 B8C007CB 9090"))

    def test_modules_make_a_program(self):
        wanted = "4D5A24000100010002000200FFFF010010000000000000001C00000001000000 B80000CB"
        self.assertEqual(omf.link_exe([ONE]), bytes.fromhex(wanted))

    def fault_of(self, call, *arguments):
        with self.assertRaises(omf.NotLinked) as caught:
            call(*arguments)
        return caught.exception

    def test_a_fault_has_its_reason_and_its_module(self):
        is_ = self.fault_of(omf.link, [ONE], TEXT, 0x7C01, 8)
        self.assertEqual((is_.reason, is_.module, str(is_)), (9, 0, "a byte at 00007C00 is outside"))

    def test_no_program_has_the_lines_of_the_linker(self):
        is_ = self.fault_of(omf.link_exe, [("b.obj", FRAMED)])
        self.assertEqual((is_.reason, is_.module), (11, None))
        self.assertIn('undefined "f"', str(is_))
        self.assertIn('"b.obj"', str(is_))
        self.assertIn('twice "f"', str(self.fault_of(omf.link_exe, [STARTS, DEFINES])))
        self.assertIn("Cut", str(self.fault_of(omf.link_exe, [ABSOLUTE, ONE[:-1]])))

    def test_what_is_allowed_is_a_warning(self):
        with self.assertWarnsRegex(UserWarning, 'twice "f"'):
            self.assertEqual(omf.link_exe([STARTS, DEFINES], allow=["twice"])[:2], b"MZ")
        wide = DEFINES.replace(bytes.fromhex("98070028010002010100 9008000001016600000000"), bytes.fromhex("98070029010002010100"))
        self.assertIn("mixed: ", str(self.fault_of(omf.link_exe, [STARTS, wide])))
        with self.assertWarnsRegex(UserWarning, "mixed: "):
            self.assertEqual(omf.link_exe([STARTS, wide], allow=["mixed"])[-2:], bytes.fromhex("CB90"))
        with self.assertWarnsRegex(UserWarning, "no stack"):
            omf.link_exe([STARTS])

    def test_a_member_of_a_library_takes_part(self):
        library = LIBRARY[:16] + DEFINES.ljust(48, b"\0") + LIBRARY[48:64]
        needs = STARTS.replace(bytes.fromhex("9008000001016600000000"), bytes.fromhex("8C040001660000"))
        with self.assertWarns(UserWarning):
            self.assertIn(b"\xCB", omf.link_exe([needs, library]))

    def test_a_line_has_its_number(self):
        is_ = self.fault_of(omf.link, [ONE], TEXT.replace("T", "U"), 0x7C00, 8)
        self.assertEqual((is_.reason, is_.line, str(is_)), (None, 2, "text line 2: names nothing"))

    def test_a_module_has_its_fault(self):
        is_ = self.fault_of(omf.link, [ONE], 'M "A"\nS "T" 7C00 real\n', 0x7C00, 8)
        self.assertEqual((is_.module, str(is_)), (0, "module 0 reach 1 Missing segment 2"))


if __name__ == "__main__":
    unittest.main()
