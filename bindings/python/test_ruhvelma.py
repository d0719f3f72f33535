"""Tests of the binding: RUHVELMA_LIBRARY=out/libxt.so python3 bindings/python/test_ruhvelma.py"""

import concurrent.futures
import ctypes
import gc
import hashlib
import os
import pathlib
import pickle
import struct
import subprocess
import sys
import tempfile
import unittest
from unittest import mock

import ruhvelma
from ruhvelma import Policy, Rep, Types

ONE = "module geo { @appendable struct Pose { @key string<32> vehicle; long east; long north; }; };"
TWO = "module geo { @appendable struct Pose { @key string<32> vehicle; long east; long north; @optional long heading; }; };"
THREE = "module geo { @appendable struct Pose { @key string<32> vehicle; long long east; long long north; }; };"
ONE_PRINTED = "module geo { @appendable struct Pose { @id(0) @key string<32> vehicle; @id(1) long east; @id(2) long north; }; };\n"
VALUE = {"vehicle": "rover-7", "east": 12500, "north": -300}
SAMPLE = bytes.fromhex("000900001400000008000000726f7665722d3700d4300000d4feffff")
IN_XCDR1 = bytes.fromhex("0001000008000000726f7665722d3700d4300000d4feffff")
COMPLETE_ID, MINIMAL_ID = "f2ee51fe8eaf794131137bbb7266ca", "f153cd5b445b09b409ba4b45228e6e"
MINIMAL = bytes.fromhex(
    "43000000f1510200010000000000000033000000030000000c00000000000000210070205a76e8130b00000001000000010004320381db000b0000000200000001"
    "00048d8d1437"
)
COMPLETE = bytes.fromhex(
    "70000000f251020012000000000000000a00000067656f3a3a506f736500000050000000030000001600000000000000210070200800000076656869636c650000"
    "000000130000000100000001000400050000006561737400000000140000000200000001000400060000006e6f727468000000"
)


class TypesCase(unittest.TestCase):
    def setUp(self):
        self.types = Types(ONE, TWO, THREE)
        self.addCleanup(self.types.close)

    def reader(self, *words, **how):
        reader = self.types.reader(*words, **how)
        self.addCleanup(reader.close)
        return reader

    def is_refused(self, kind, status, text, call, *arguments, **how):
        with self.assertRaises(kind) as caught:
            call(*arguments, **how)
        self.assertEqual((type(caught.exception), caught.exception.status, caught.exception.text), (kind, status, text))


class OfTypes(TypesCase):
    def test_identifiers(self):
        self.assertEqual(self.types.type_id("0/geo::Pose"), COMPLETE_ID)
        self.assertEqual(self.types.minimal_id("geo::Pose"), MINIMAL_ID)
        self.assertNotEqual(self.types.type_id("1/geo::Pose"), COMPLETE_ID)

    def test_text_of_one(self):
        self.assertEqual(self.types.idl("0/geo::Pose"), ONE_PRINTED)

    def test_text_of_all(self):
        lines = self.types.idl().splitlines(keepends=True)
        self.assertEqual((len(lines), lines[0]), (3, ONE_PRINTED))
        self.assertEqual(lines[1], self.types.idl("1/geo::Pose"))

    def test_text_that_is_printed_declares_the_same(self):
        with Types(self.types.idl("1/geo::Pose")) as again:
            self.assertEqual(again.type_id("geo::Pose"), self.types.type_id("1/geo::Pose"))

    def test_verdicts(self):
        yes = self.types.judge("1/geo::Pose", "0/geo::Pose")
        no = self.types.judge("2/geo::Pose", "0/geo::Pose")
        self.assertEqual((bool(yes), yes), (True, (True, "", "")))
        self.assertEqual((bool(no), no), (False, (False, "KIND", "/1")))

    def test_verdict_under_a_policy(self):
        self.assertEqual(self.types.judge("1/geo::Pose", "0/geo::Pose", policy=Policy.DISALLOW).rule, "COERCION")
        self.assertTrue(self.types.judge("0/geo::Pose", "0/geo::Pose", Rep.XCDR1, Policy.DISALLOW | Policy.STRING_BOUNDS))

    def test_bounds_of_strings(self):
        with Types("@final struct W { string<8> s; }; @final struct R { string<3> s; };") as types:
            self.assertTrue(types.judge("R", "W"))
            self.assertEqual(types.judge("R", "W", policy=Policy.STRING_BOUNDS), (False, "BOUND", "/0"))
            self.is_refused(ruhvelma.Discarded, 16, "discarded", types.reader("R", "W").read, bytes.fromhex("00070001070000006162636465660000"))

    def test_names_and_words(self):
        self.is_refused(ruhvelma.NoSuchName, 8, "name geo::Plan", self.types.type_id, "geo::Plan")
        self.is_refused(ruhvelma.NoSuchName, 8, "name 7/geo::Pose", self.types.judge, "7/geo::Pose", "geo::Pose")
        self.is_refused(ruhvelma.Words, 2, "words", self.types.type_id, "geo Plan")
        self.is_refused(ruhvelma.Words, 2, "words", self.types.judge, "", "")
        self.is_refused(ruhvelma.Words, 2, "words", self.types.judge, "geo::Pose", "geo::Pose", 3)
        self.is_refused(ruhvelma.Words, 2, "words", self.types.judge, "geo::Pose", "geo::Pose", Rep.XCDR2, 16)

    def test_type_that_is_no_top(self):
        with Types("typedef long Number; @final struct A { Number x; };") as types:
            self.is_refused(ruhvelma.BadTypes, 7, "top Number", types.type_id, "Number")

    def test_long_text(self):
        text = "@final struct Long { %s };" % " ".join(f"long member{k};" for k in range(500))
        with Types(text) as types:
            self.assertEqual(types.idl("Long").count("member"), 500)

    def test_no_types(self):
        with Types() as none:
            self.assertEqual(none.idl(), "")
            self.is_refused(ruhvelma.NoSuchName, 8, "name A", none.type_id, "A")


class OfBundles(TypesCase):
    def test_objects(self):
        with Types(objects=[MINIMAL, COMPLETE]) as types:
            self.assertEqual(types.type_id("#" + COMPLETE_ID), COMPLETE_ID)
            self.assertEqual(types.type_id("#" + MINIMAL_ID), MINIMAL_ID)
            self.assertEqual(types.idl("#" + COMPLETE_ID), ONE_PRINTED)
            self.assertEqual(types.type_id("1/geo::Pose"), COMPLETE_ID)
            self.assertEqual(types.idl(), "")
            self.assertEqual(types.reader("#" + COMPLETE_ID).read(SAMPLE), VALUE)

    def test_object_without_a_name(self):
        with Types(objects=[MINIMAL]) as types:
            self.is_refused(ruhvelma.NoSuchName, 8, "name #" + MINIMAL_ID, types.idl, "#" + MINIMAL_ID)

    def test_bundle(self):
        bundle = ruhvelma.record(3, ONE) + ruhvelma.record(5, "a note")
        with Types(bundle=bundle) as types:
            self.assertEqual(types.type_id("0/geo::Pose"), COMPLETE_ID)
        with Types(TWO, objects=[COMPLETE], bundle=bundle) as types:
            self.assertEqual(types.type_id("1/geo::Pose"), COMPLETE_ID)
            self.assertEqual(types.type_id("2/geo::Pose"), COMPLETE_ID)

    def test_records(self):
        self.assertEqual(ruhvelma.record(3, "ab"), b"\3\0\0\0\2ab")
        self.assertEqual(ruhvelma.record(1, bytes(0x10203)), b"\1\0\1\2\3" + bytes(0x10203))

    def test_refused_bundles(self):
        self.is_refused(ruhvelma.BadBundle, 3, "bundle 0 kind", Types, bundle=b"\x09")
        self.is_refused(ruhvelma.BadBundle, 3, "bundle 0 truncated", Types, bundle=b"\3\0\0\0\5ab")
        self.is_refused(ruhvelma.BadTypes, 7, "idl 1 0 syntax", Types, ONE, "nothing")
        sample = ruhvelma.record(2, SAMPLE)
        self.is_refused(ruhvelma.BadBundle, 3, f"bundle {5 + len(ONE)} misplaced", Types, ONE, bundle=sample)


class OfSamples(TypesCase):
    def test_value_is_written_and_read(self):
        reader = self.reader("geo::Pose")
        self.assertEqual(reader.write(VALUE), SAMPLE)
        self.assertEqual(reader.read(SAMPLE), VALUE)
        self.assertEqual(reader.read_text(SAMPLE), '{"east":12500,"north":-300,"vehicle":"rover-7"}')
        self.assertEqual(reader.write_text('{"north":-300, "east":12500, "vehicle":"rover-7"}'), SAMPLE)

    def test_older_and_newer(self):
        older, newer = self.reader("0/geo::Pose", "1/geo::Pose"), self.reader("1/geo::Pose", "0/geo::Pose")
        self.assertEqual(newer.read(SAMPLE), VALUE)
        sample = newer.write({**VALUE, "heading": 90})
        self.assertEqual(sample.hex(), "000900001c00000008000000726f7665722d3700d4300000d4feffff010000005a000000")
        self.assertEqual(older.read(sample), VALUE)

    def test_representations(self):
        reader = self.reader("geo::Pose")
        self.assertEqual(reader.convert(SAMPLE, Rep.XCDR1), IN_XCDR1)
        self.assertEqual(reader.write(VALUE, Rep.XCDR1), IN_XCDR1)
        self.assertEqual(self.reader("geo::Pose", rep=Rep.XCDR1).convert(IN_XCDR1, Rep.XCDR2), SAMPLE)
        for call in (lambda: reader.convert(SAMPLE, 3), lambda: reader.write(VALUE, 0)):
            with self.assertRaises(ruhvelma.Words):
                call()

    def test_key_hash(self):
        key = b"\0\0\0\10rover-7\0"
        self.assertEqual(self.reader("geo::Pose").key_hash(SAMPLE), hashlib.md5(key).digest())
        with Types("@final struct F { @key string<8> k; long v; };") as types:
            hash = types.reader("F").key_hash(bytes.fromhex("00060000000000036162000000000005"))
            self.assertEqual(hash.hex(), "00000003616200000000000000000000")

    def test_reader_is_refused(self):
        self.is_refused(ruhvelma.NotAssignable, 1, "no KIND /1", self.types.reader, "2/geo::Pose", "0/geo::Pose")
        self.is_refused(ruhvelma.NoSuchName, 8, "name geo::Plan", self.types.reader, "geo::Pose", "geo::Plan")

    def test_refused_samples(self):
        reader = self.reader("geo::Pose")
        self.is_refused(ruhvelma.Malformed, 18, "malformed 4 DHEADER", reader.read, SAMPLE[:-3])
        self.is_refused(ruhvelma.Malformed, 18, "malformed 4 DHEADER", reader.convert, SAMPLE[:-3], Rep.XCDR1)
        for call in (reader.read, reader.key_hash):
            with self.assertRaises(ruhvelma.Malformed):
                call(b"")
        self.assertEqual(reader.read(SAMPLE), VALUE)

    def test_refused_values(self):
        reader = self.reader("geo::Pose")
        self.is_refused(ruhvelma.BadJson, 10, "syntax", reader.write_text, "{")
        self.is_refused(ruhvelma.BadJson, 10, "syntax", reader.write_text, b"")
        self.is_refused(ruhvelma.BadJson, 10, "KIND /1", reader.write, {**VALUE, "east": "far"})
        self.is_refused(ruhvelma.BadJson, 10, "MISSING /", reader.write, {"vehicle": "rover-7", "east": 1})
        self.is_refused(ruhvelma.BadJson, 10, "BOUND /0", reader.write, {**VALUE, "vehicle": 33 * "x"})
        self.is_refused(ruhvelma.BadJson, 10, "RANGE /1", reader.write, {**VALUE, "east": 2**31})

    def test_must_understand(self):
        text = "@mutable struct W { @id(1) long a; @id(2) @must_understand long b; }; @mutable struct R { @id(1) long a; @id(3) @optional long c; };"
        with Types(text) as types:
            sample = types.reader("W").write({"a": 1, "b": 2})
            self.is_refused(ruhvelma.MustUnderstand, 17, "must-understand", types.reader("R").read, sample)

    def test_texts_of_any_octets(self):
        with Types("@final struct A { string s; };") as types:
            reader = types.reader("A")
            for value in ({"s": "Grüße"}, {"s": "\U0001f600\n\""}, {"s": {"hex": "ff01"}}, {"s": ""}):
                self.assertEqual(reader.read(reader.write(value)), value)

    def test_floats(self):
        with Types("@final struct A { float f; double g; };") as types:
            reader = types.reader("A")
            sample = reader.write({"f": 0.1, "g": -0.0})
            self.assertEqual(sample.hex(), "00070000cdcccc3d0000000000000080")
            self.assertEqual(reader.read_text(sample), '{"f":0.1,"g":-0.0}')
            self.assertEqual(reader.read(sample), {"f": 0.1, "g": -0.0})
            self.assertEqual(reader.read(sample, numbers=False), {"f": "3dcccccd", "g": "8000000000000000"})
            self.assertEqual(reader.write({"f": "3dcccccd", "g": "8000000000000000"}), sample)
            self.assertEqual(reader.write({"f": "3dcccccd", "g": "8000000000000000"}, numbers=False), sample)
            self.is_refused(ruhvelma.BadJson, 10, "KIND /0", reader.write, {"f": 0.1, "g": -0.0}, numbers=False)

    def test_wide_structures_with_floats(self):
        names = [f"m{n}" for n in range(100)]
        with Types("@final struct A { " + "".join(f"double {name}; " for name in names) + "};") as types:
            reader = types.reader("A")
            value = {name: n / 3 for n, name in enumerate(names)}
            self.assertEqual(reader.read(reader.write(value)), value)

    def test_numbers_of_types_without_floats(self):
        with Types("@final struct A { long x; string s; };") as types:
            reader = types.reader("A")
            sample = reader.write({"x": 1, "s": "7ff80000"})
            self.assertEqual(reader.read_text(sample), reader.read_text(sample, numbers=False))
            self.is_refused(ruhvelma.BadJson, 10, "RANGE /0", reader.write, {"x": 1.5, "s": ""})

    def test_floats_that_are_not_finite(self):
        with Types("@final struct A { float f; double g; };") as types:
            reader = types.reader("A")
            value = {"f": "7f800000", "g": "7ff8000000000001"}
            self.assertEqual(reader.read(reader.write(value)), value)
            self.is_refused(ruhvelma.BadJson, 10, "syntax", reader.write, {"f": float("nan"), "g": 0})
            self.is_refused(ruhvelma.BadJson, 10, "RANGE /0", reader.write, {"f": 1e39, "g": 0})
            self.is_refused(ruhvelma.BadJson, 10, "RANGE /1", reader.write_text, '{"f":0,"g":1e999}')
            self.is_refused(ruhvelma.BadJson, 10, "TEXT /0", reader.write, {"f": "", "g": 0})

    def test_nearest_floats(self):
        with Types("@final struct A { sequence<float> f; sequence<double> g; };") as types:
            reader = types.reader("A")
            floats = [0.0, 1.0, 16777217.0, 1e-45, 3.4028235e38, 1 / 3]
            nearest = [struct.unpack("<f", struct.pack("<f", x))[0] for x in floats]
            value = reader.read(reader.write({"f": floats, "g": floats}))
            self.assertEqual([struct.pack("<f", x) for x in value["f"]], [struct.pack("<f", x) for x in nearest])
            self.assertEqual(value["g"], floats)

    def test_large_samples(self):
        with Types("@final struct A { sequence<octet> o; };") as types:
            reader = types.reader("A")
            value = {"o": [k % 256 for k in range(100000)]}
            sample = reader.write(value)
            self.assertEqual((len(sample), reader.read(sample)), (100008, value))
            large = b"\0\7\0\0" + (2**20).to_bytes(4, "little") + bytes(2**20)
            self.is_refused(ruhvelma.TooLarge, 19, "too-large", reader.convert, large, Rep.XCDR1)
            self.is_refused(ruhvelma.TooLarge, 19, "too-large", reader.key_hash, large)
            self.is_refused(ruhvelma.BadJson, 10, "LARGE /", reader.write, {"o": [0] * 2**20})

    def test_other_kinds_of_octets(self):
        reader = self.reader("geo::Pose")
        for octets in (bytearray(SAMPLE), memoryview(SAMPLE)):
            self.assertEqual(reader.read(octets), VALUE)

    def test_loads_and_dumps_of_ones_own(self):
        reader = self.reader("geo::Pose")
        self.assertEqual(reader.read(SAMPLE, loads=len), 47)
        self.assertEqual(reader.write(None, dumps=lambda _: reader.read_text(SAMPLE)), SAMPLE)


class OfHandles(TypesCase):
    def test_closed(self):
        types = Types(ONE)
        reader = types.reader("geo::Pose")
        types.close()
        types.close()
        self.assertEqual((types.closed, reader.closed), (True, False))
        self.assertEqual(reader.read(SAMPLE), VALUE)
        reader.close()
        for call in (types.idl, lambda: types.judge("A", "A"), lambda: types.reader("A"), lambda: types.type_id("A"), lambda: types.minimal_id("A")):
            self.is_refused(ruhvelma.Closed, 13, "", call)
        for call in (lambda: reader.read(SAMPLE), lambda: reader.write({}), lambda: reader.convert(SAMPLE, 1), lambda: reader.key_hash(SAMPLE)):
            self.is_refused(ruhvelma.Closed, 13, "", call)

    def test_with(self):
        with Types(ONE) as types, types.reader("geo::Pose") as reader:
            self.assertEqual(reader.read(SAMPLE), VALUE)
        self.assertTrue(types.closed and reader.closed)

    def test_closed_behind_an_exception(self):
        with self.assertRaises(ZeroDivisionError):
            with Types(ONE) as types:
                raise ZeroDivisionError
        self.assertTrue(types.closed)

    def test_dropped(self):
        closed = []
        for make, name in ((lambda: Types(ONE), "xt_types_close"), (lambda: self.types.reader("geo::Pose"), "xt_reader_close")):
            close = getattr(ruhvelma.library(), name)
            with mock.patch.object(ruhvelma.library(), name, side_effect=lambda handle, close=close: closed.append(close(handle))):
                made = make()
                del made
                gc.collect()
        self.assertEqual(len(closed), 2)

    def test_types_on_other_threads(self):
        types = Types(ONE)
        with concurrent.futures.ThreadPoolExecutor(4) as pool:
            self.assertTrue(all(text == types.idl() for text in pool.map(lambda _: types.idl(), range(200))))
            self.assertTrue(all(value == VALUE for value in pool.map(lambda _: types.reader("geo::Pose").read(SAMPLE), range(200))))
            self.assertEqual(pool.submit(lambda: Types(ONE).reader("geo::Pose").read(SAMPLE)).result(), VALUE)
            pool.submit(types.close).result()
        self.assertTrue(types.closed)

    def test_a_reader_on_other_threads(self):
        reader = self.reader("geo::Pose")
        with concurrent.futures.ThreadPoolExecutor(4) as pool:
            self.assertTrue(all(value == VALUE for value in pool.map(reader.read, [SAMPLE] * 2000)))
            pool.submit(reader.close).result()
        self.assertTrue(reader.closed)

    def test_threads_with_readers_of_their_own(self):
        def reads(_):
            with Types(ONE) as types, types.reader("geo::Pose") as reader:
                return all(reader.read(SAMPLE) == VALUE for _ in range(500))

        with concurrent.futures.ThreadPoolExecutor(4) as pool:
            self.assertTrue(all(pool.map(reads, range(8))))


class OfRefusals(unittest.TestCase):
    def test_each_status_has_its_class(self):
        kinds = [kind for kind in vars(ruhvelma).values() if isinstance(kind, type) and issubclass(kind, ruhvelma.Refused)]
        self.assertEqual({*kinds}, {ruhvelma.Refused, *ruhvelma.BY_STATUS.values()})
        for status, kind in ruhvelma.BY_STATUS.items():
            self.assertTrue(kind.__doc__.startswith(f"{status}: "))

    def test_message(self):
        self.assertEqual(str(ruhvelma.refusal(8, b"name A")), "name A (status 8)")
        self.assertEqual(str(ruhvelma.refusal(13, b"")), "status 13")

    def test_pickled(self):
        again = pickle.loads(pickle.dumps(ruhvelma.refusal(8, b"name A")))
        self.assertEqual((type(again), again.status, again.text), (ruhvelma.NoSuchName, 8, "name A"))

    def test_status_without_a_class(self):
        self.assertIs(type(ruhvelma.refusal(99, b"")), ruhvelma.Refused)


class OfTheLibrary(unittest.TestCase):
    """Each in a process of its own, as the library is loaded once."""

    def run_python(self, code, library=None, folder=None):
        env = {name: value for name, value in os.environ.items() if name != "RUHVELMA_LIBRARY"}
        if library is not None:
            env["RUHVELMA_LIBRARY"] = library
        env["PYTHONPATH"] = folder or os.path.dirname(os.path.abspath(ruhvelma.__file__))
        ran = subprocess.run([sys.executable, "-c", code], env=env, capture_output=True, text=True, timeout=60)
        return ran.stdout, ran.stderr

    def test_nothing_is_loaded_before_a_call(self):
        out, _ = self.run_python("import ruhvelma; print(ruhvelma.Rep.XCDR2.name)", "/nowhere/libxt.so")
        self.assertEqual(out, "XCDR2\n")

    def test_missing(self):
        _, said = self.run_python("import ruhvelma; ruhvelma.Types()", "/nowhere/libxt.so")
        self.assertIn("ruhvelma.LibraryMissing: /nowhere/libxt.so can't be loaded as libxt", said)

    def test_another_library(self):
        found = ctypes.util.find_library("c")
        _, said = self.run_python("import ruhvelma; ruhvelma.Types()", found)
        self.assertIn("can't be loaded as libxt", said)

    def test_found_nowhere(self):
        code = "import ctypes.util; ctypes.util.find_library = lambda name: None; import ruhvelma; ruhvelma.Types()"
        _, said = self.run_python(code)
        self.assertIn("LibraryMissing: libxt.so is missing: RUHVELMA_LIBRARY doesn't name it", said)

    def test_beside_the_file(self):
        with tempfile.TemporaryDirectory() as folder:
            pathlib.Path(folder, "ruhvelma.py").write_bytes(pathlib.Path(ruhvelma.__file__).read_bytes())
            pathlib.Path(folder, "libxt.so").symlink_to(os.path.abspath(ruhvelma.library_path()))
            out, said = self.run_python("import ruhvelma; print(ruhvelma.Types().idl() == '')", folder=folder)
        self.assertEqual((out, said), ("True\n", ""))


if __name__ == "__main__":
    unittest.main()
