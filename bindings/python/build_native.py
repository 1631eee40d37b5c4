"""Builds the extension module from mezdruk.h and libmezdruk.a, which are beside this file."""

import os
import re

from cffi import FFI

here = os.path.dirname(os.path.abspath(__file__))


def declarations():
    """Returns what cffi reads of the header: its types, its calls and its numbers."""
    with open(os.path.join(here, "mezdruk.h"), encoding="utf-8") as header:
        text = header.read()
    text = re.sub(r"/\*.*?\*/", "", text, flags=re.S)
    text = re.sub(r"^static inline .*?^}$", "", text, flags=re.S | re.M)
    text = re.sub(r"#ifdef __cplusplus\n.*?#e(lse|ndif)\n", "", text, flags=re.S)
    text = re.sub(r"^#.*$", "", text, flags=re.M)
    return text


builder = FFI()
builder.cdef(declarations())
builder.set_source(
    "mezdruk._native",
    '#include "mezdruk.h"',
    include_dirs=[here],
    extra_objects=[os.path.join(here, "libmezdruk.a")],
)

if __name__ == "__main__":
    builder.compile(verbose=True)
