"""Runs the examples of a document: C and Rust programs, with what they print, and Python sessions."""

import doctest
import os
import re
import subprocess
import sys
import tempfile


def blocks(text, language):
    """Returns the blocks of a language, each with the block of output after it, or None."""
    pattern = rf"```{language}\n(.*?)```(?:\n\n```text\n(.*?)```)?"
    return re.findall(pattern, text, re.S)


def run_c(program, wanted, out, compiler):
    """Compiles and runs a program, and returns whether it prints what is wanted."""
    with tempfile.TemporaryDirectory() as room:
        source = os.path.join(room, "example.c")
        with open(source, "w", encoding="utf-8") as file:
            file.write(program)
        built = os.path.join(room, "example")
        library = os.path.join(out, "lib")
        subprocess.run(
            [compiler, "-std=c99", "-Wall", "-Wextra", "-Werror", "-I", os.path.join(out, "include"),
             source, "-o", built, "-L", library, "-lmezdruk", f"-Wl,-rpath,{library}"],
            check=True,
        )
        printed = subprocess.run([built], stdout=subprocess.PIPE, check=True, text=True).stdout
    return is_same(printed, wanted)


def run_rust(program, wanted, out, cargo, crate):
    """Runs a program of a new project, and returns whether it prints what is wanted."""
    with tempfile.TemporaryDirectory() as room:
        subprocess.run([cargo, "init", "-q", "--vcs", "none", "--name", "example", room], check=True)
        with open(os.path.join(room, "Cargo.toml"), "a", encoding="utf-8") as file:
            file.write(f'mezdruk = {{ path = "{crate}" }}\n')
        with open(os.path.join(room, "src/main.rs"), "w", encoding="utf-8") as file:
            file.write(program)
        printed = subprocess.run(
            [cargo, "run", "-q", "--offline"], cwd=room, stdout=subprocess.PIPE, check=True, text=True,
            env={**os.environ, "MEZDRUK_DIR": os.path.realpath(out)},
        ).stdout
    return is_same(printed, wanted)


def is_same(printed, wanted):
    """Returns whether a program printed what is wanted, and shows both if it did not."""
    if printed != wanted:
        print(f"wanted:\n{wanted}printed:\n{printed}", file=sys.stderr)
    return printed == wanted


def main():
    path, out, compiler, *rust = sys.argv[1:]
    with open(path, encoding="utf-8") as file:
        text = file.read()
    programs = blocks(text, "c")
    passed = [run_c(program, wanted, out, compiler) for program, wanted in programs]
    rust_programs = blocks(text, "rust") if rust and rust[0] else []
    passed += [run_rust(program, wanted, out, *rust) for program, wanted in rust_programs]
    sessions = blocks(text, "python")
    parser, runner = doctest.DocTestParser(), doctest.DocTestRunner(
        optionflags=doctest.IGNORE_EXCEPTION_DETAIL)
    for session, _ in sessions:
        runner.run(parser.get_doctest(session, {}, path, path, 0))
    print(f"{len(programs)} C programs, {len(rust_programs)} Rust programs, {runner.tries} Python lines")
    if not passed or not runner.tries or not all(passed) or runner.failures:
        sys.exit(1)


main()
