"""The library's calls, declared for Python as include/katchidul.h declares them."""
import ctypes
import re

from . import ROOT
from .library import load

HEADER = (ROOT / "include" / "katchidul.h").read_text()
TYPES = {"uint32_t": ctypes.c_uint32, "int32_t": ctypes.c_int32, "int64_t": ctypes.c_int64, "double": ctypes.c_double,
         "size_t": ctypes.c_size_t, "uint8_t *": ctypes.c_char_p, "const uint8_t *": ctypes.c_char_p}
SIZES = {name: int(number) for name, number in re.findall(r"^#define (\w+) (\d+)\b", HEADER, re.M)}


def members(body):
    for kind, names in re.findall(r"(\w+) ([^;]+);", re.sub(r"/\*.*?\*/", "", body, flags=re.S)):
        for name, size in re.findall(r"(\w+)(?:\[(\w+)\])?", names):
            yield name, TYPES[kind] * SIZES[size] if size else TYPES[kind]


def structs():
    """A struct's type can be used in the structs after it."""
    for name, body in re.findall(r"typedef struct (\w+) \{(.*?)\} \1;", HEADER, re.S):
        TYPES[name] = type(name, (ctypes.Structure,), {"_fields_": list(members(body))})
        yield name, TYPES[name]


STRUCTS = dict(structs())


def declared(loaded):
    """A shared object of the library that is loaded, with its calls declared."""
    for answer, name, arguments in re.findall(r"^(\w+) (katchidul_\w+)\(([^)]*)\);", HEADER, re.M):
        call = getattr(loaded, name)
        call.restype = TYPES[answer]
        call.argtypes = [TYPES[re.sub(r"\w+$", "", argument).strip()] for argument in arguments.split(", ") if argument != "void"]
    return loaded


def library():
    return declared(load("katchidul"))
