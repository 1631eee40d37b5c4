from setuptools import Extension, setup

setup(
    cffi_modules=["build_native.py:builder"],
    ext_modules=[
        Extension(
            "mezdruk._reader",
            ["reader.c"],
            include_dirs=["."],
            extra_objects=["libmezdruk.a"],
            depends=["mezdruk.h"],
        )
    ],
)
