"""The exports of crates/probes, declared for Python as the sources declare them."""
import ctypes
import re

from . import ROOT
from .floats import bits
from .library import load

STRUCT = re.compile(r"^#\[repr\(C\)\]\n(?:#\[derive[^\n]*\]\n)?pub struct (\w+) \{\n(.*?)^\}", re.M | re.S)
FIELD = re.compile(r"^    pub (\w+): (\w+),$", re.M)
EXPORT = re.compile(r'^pub extern "C" fn (probe_\w+)\((.*?)\) -> (\w+)$', re.M | re.S)


class Types(dict):
    """A type by its name. A struct is made when it is first used."""

    def __init__(self):
        super().__init__(bool=ctypes.c_bool, u32=ctypes.c_uint32, i32=ctypes.c_int32, u64=ctypes.c_uint64, i64=ctypes.c_int64,
                         usize=ctypes.c_size_t, f64=ctypes.c_double)
        self.bodies = {name: body for file in ROOT.glob("crates/*/src/*.rt") for name, body in STRUCT.findall(file.read_text())}

    def __missing__(self, name):
        fields = [(field, self[kind]) for field, kind in FIELD.findall(self.bodies[name])]
        self[name] = type(name, (ctypes.Structure,), {"_fields_": fields})
        return self[name]


class Probes:
    """probes = Probes(); probes.probe_weekday(3); probes.types["Date"](2026, 6, 21). Bytes are two arguments, with their length."""

    def __init__(self):
        self.types, loaded = Types(), load("probes")
        for file in (ROOT / "crates/probes/src").glob("*.rt"):
            for name, arguments, answer in EXPORT.findall(file.read_text()):
                call = getattr(loaded, name)
                call.argtypes = [kind for argument in re.findall(r": ([^,]+)", arguments) for kind in self.kinds(argument.strip())]
                call.restype = self.types[answer]
                setattr(self, name, call)

    def kinds(self, argument):
        return [ctypes.c_char_p, ctypes.c_size_t] if argument.endswith("[u8]") else [self.types[argument]]


def flat(struct):
    """The values of a struct, and of the structs in it, in the order in which they are declared. A float is its bits."""
    for name, _ in struct._fields_:
        value = getattr(struct, name)
        if isinstance(value, ctypes.Structure):
            yield from flat(value)
        else:
            yield bits(value) if isinstance(value, float) else int(value)


def names(kind):
    """The names of those values."""
    for name, of in kind._fields_:
        yield from names(of) if issubclass(of, ctypes.Structure) else [name]
