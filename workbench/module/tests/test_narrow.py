"""Tests of narrow.py: what each form becomes, and that other forms are refused."""
import sys
import unittest
from pathlib import Path

sys.path.insert(0, str(Path(__file__).resolve().parent.parent))

from narrow import UnknownForm, narrowed, places_of  # noqa: E402


class Narrowed(unittest.TestCase):
    def becomes(self, line, *lines):
        self.assertEqual(narrowed(line).split("\n"), list(lines))

    def test_places_are_those_of_eight_byte_pointers(self):
        self.assertEqual(places_of(["i8", "ptr", "i16", "i64"]), [0, 8, 16, 24])
        self.assertEqual(places_of(["i64", "i8", "i8", "i32"]), [0, 8, 9, 12])

    def test_a_constant_with_pointers_has_zeros_after_each(self):
        self.becomes(
            '@c = private constant <{ ptr, [8 x i8] }> <{ ptr @"a, b", [8 x i8] c"\\04, }\\00\\00\\00\\00" }>, align 8',
            '@c = private constant <{ ptr, [4 x i8], [8 x i8] }> <{ ptr @"a, b", [4 x i8] zeroinitializer, '
            '[8 x i8] c"\\04, }\\00\\00\\00\\00" }>, align 8',
        )

    def test_a_stored_pointer_has_zeros_after_it(self):
        self.becomes(
            "  store ptr %a, ptr %b, align 8",
            "  store ptr %a, ptr %b, align 8",
            "  %narrow.1.zeros = getelementptr i8, ptr %b, i64 4",
            "  store i32 0, ptr %narrow.1.zeros, align 4",
        )

    def test_values_that_are_loaded_at_once_keep_their_places(self):
        self.becomes(
            "  %r = load { i8, ptr }, ptr %a, align 8, !noundef !1",
            "  %narrow.1.0.at = getelementptr i8, ptr %a, i64 0",
            "  %narrow.1.0 = load i8, ptr %narrow.1.0.at, align 1",
            "  %narrow.1.0.all = insertvalue { i8, ptr } poison, i8 %narrow.1.0, 0",
            "  %narrow.1.1.at = getelementptr i8, ptr %a, i64 8",
            "  %narrow.1.1 = load ptr, ptr %narrow.1.1.at, align 8",
            "  %r = insertvalue { i8, ptr } %narrow.1.0.all, ptr %narrow.1.1, 1",
        )

    def test_values_that_are_stored_at_once_keep_their_places(self):
        self.becomes(
            "  store { ptr, i64 } %v, ptr %a, align 8",
            "  %narrow.1.0.at = getelementptr i8, ptr %a, i64 0",
            "  %narrow.1.0 = extractvalue { ptr, i64 } %v, 0",
            "  store ptr %narrow.1.0, ptr %narrow.1.0.at, align 8",
            "  %narrow.1.0.zeros = getelementptr i8, ptr %narrow.1.0.at, i64 4",
            "  store i32 0, ptr %narrow.1.0.zeros, align 4",
            "  %narrow.1.1.at = getelementptr i8, ptr %a, i64 8",
            "  %narrow.1.1 = extractvalue { ptr, i64 } %v, 1",
            "  store i64 %narrow.1.1, ptr %narrow.1.1.at, align 8",
        )

    def test_room_for_a_pointer_is_eight_bytes(self):
        self.becomes("  %r = alloca ptr, align 8", "  %r = alloca [8 x i8], align 8")

    def test_the_target_is_another(self):
        self.assertIn("p:32:32", narrowed('target datalayout = "e-m:e-i64:64"'))
        self.becomes('attributes #0 = { nounwind "target-cpu"="x86-64" }', "attributes #0 = { nounwind }")

    def test_what_passes_values_on_stays(self):
        for line in ('@c = constant [7 x i8] c"a ptr b", align 1', "  %r = icmp eq ptr %a, null", "  %r = getelementptr inbounds nuw i8, ptr %a, i64 %n", "  ret void", "}"):
            self.becomes(line, line)

    def test_other_forms_are_refused(self):
        for line in (
            "  %r = getelementptr { ptr, i64 }, ptr %a, i64 1",
            "  %r = getelementptr ptr, ptr %a, i64 1",
            "  %r = load [2 x ptr], ptr %a, align 8",
            "  %r = load <2 x ptr>, ptr %a, align 16",
            "  %r = load { ptr, { i64, i64 } }, ptr %a, align 8",
            "  %r = alloca { ptr, i64 }, align 8",
            "  %r = alloca [4 x ptr], align 8",
            "  store <2 x ptr> %v, ptr %a, align 16",
            "  %r = cmpxchg ptr %a, ptr %b, ptr %c seq_cst seq_cst",
            "  %r = va_arg ptr %a, ptr",
            "  call void @f(ptr byval({ ptr, i64 }) %a)",
            "@c = constant [2 x ptr] [ptr @a, ptr @b], align 8",
            "@c = constant <{ { ptr, i64 } }> <{ { ptr, i64 } { ptr @a, i64 1 } }>, align 8",
            "@v = global ptr @a, align 8",
            "  %r = somethingnew ptr %a",
        ):
            with self.subTest(line), self.assertRaises(UnknownForm):
                narrowed(line)


if __name__ == "__main__":
    unittest.main()
