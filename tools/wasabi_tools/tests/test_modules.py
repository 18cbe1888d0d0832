"""Readers of modules. What stands at which byte was read with wasm-objdump of wabt."""
import unittest

from wasabi_tools.binary import Reader, leb, signed, unsigned
from wasabi_tools.code import text_of
from wasabi_tools.faults import Fault
from wasabi_tools.module import Module, functions_with
from wasabi_tools.opcodes import FLOATS, LATER, NAMES, NUMBERS, OPCODES, Opcode, prefixed
from wasabi_tools.tests.making import EXAMPLES, MADE, functions


class Numbers(unittest.TestCase):
    def test_leb_goes_both_ways(self) -> None:
        for value in (0, 1, 63, 64, 127, 128, 255, 624485, 2**32 - 1, 2**64 - 1):
            self.assertEqual(leb(unsigned(value), 0), (value, len(unsigned(value))))
        for value in (0, -1, 63, 64, -64, -65, 123456, -123456, 2**63 - 1, -2**63):
            self.assertEqual(leb(signed(value), 0, True), (value, len(signed(value))))

    def test_numbers_of_the_standard(self) -> None:
        self.assertEqual(unsigned(624485).hex(), "e58e26")  # DWARF and Wikipedia
        self.assertEqual(signed(-123456).hex(), "c0bb78")

    def test_what_is_cut_off_is_said(self) -> None:
        for data in (b"", b"\x80", b"\xff\xff"):
            with self.assertRaisesRegex(Fault, "cut off or changed"):
                Reader(data).number()
        with self.assertRaisesRegex(Fault, "not UTF-8"):
            Reader(b"\1\xff").name()


class Opcodes(unittest.TestCase):
    def test_rows_of_the_standard(self) -> None:
        for number, name in ((0x00, "unreachable"), (0x1B, "select"), (0x35, "i64.load32_u"), (0x3E, "i64.store32"), (0x45, "i32.eqz"),
                             (0x50, "i64.eqz"), (0x66, "f64.ge"), (0x67, "i32.clz"), (0x79, "i64.clz"), (0x8A, "i64.rotr"),
                             (0xA6, "f64.copysign"), (0xBF, "f64.reinterpret_i64"), (0xC4, "i64.extend32_s")):
            self.assertEqual(NAMES[number], name)

    def test_floats_and_later_features(self) -> None:
        self.assertEqual({OPCODES[it].feature for it in (0x2A, 0x43, 0x5B, 0xA8, 0xB2, 0xBC)}, {FLOATS})
        self.assertEqual({OPCODES[it].feature for it in (0x28, 0xA7, 0xAC, 0xC0)}, {None})
        self.assertEqual(prefixed(0xFC, 10), Opcode("memory.copy", feature="bulk memory"))
        self.assertEqual(LATER[0x12].name, "return_call")
        self.assertEqual(len(NUMBERS), len(NAMES))


class Modules(unittest.TestCase):
    def test_code_as_wasm_objdump_lists_it(self) -> None:
        module = Module.read(MADE / "copies4.wasm")
        self.assertEqual([(it.offset, text_of(it)) for it in module.body(6)], [
            (0x136, "local.get 0"), (0x138, "local.get 0"), (0x13A, "i32.mul"), (0x13B, "local.get 0"), (0x13D, "i32.mul"),
            (0x13E, "i32.const 5"), (0x140, "i32.add"), (0x141, "end")])
        self.assertEqual(module.names[5], "twice")

    def test_names_of_imports_and_exports(self) -> None:
        module = Module.read(EXAMPLES / "queens.wasm")
        self.assertEqual([module.name_of(func) for func in range(5)], ["env.size", "queens", "function 2", "asked", "twelve"])

    def test_every_cut_module_is_refused_with_a_sentence(self) -> None:
        data = (EXAMPLES / "weekday.wasm").read_bytes()
        for length in range(0, len(data), 7):
            module = None
            with self.subTest(length=length):
                try:
                    module = Module(data[:length])
                    found = [module.body(func) for func in module.defined_functions()] + [list(module.names)]
                except Fault:
                    continue
                self.assertTrue(found)  # it was cut between two sections

    def test_opcodes_that_wasabi_does_not_take(self) -> None:
        module = Module(functions([b"\x43\0\0\0\0\x1a"]), "f.wasm")
        with self.assertRaisesRegex(Fault, "f.wasm has the opcode 0x43 at byte"):
            module.body(0)

    def test_functions_with_hooks(self) -> None:
        # two functions, of which only the second calls the hook, and behind it the original's index is less by one
        output = Module(functions([b"\1", b"\x41\1\x41\x7f\x10\0"], [("__wasabi_hooks", "begin_function")]))
        self.assertEqual(functions_with(output, "begin_function"), {1})
        self.assertIsNone(functions_with(output, "end_function"))


if __name__ == "__main__":
    unittest.main()
