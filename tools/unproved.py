"""Compiles a program of this repository with no proof, at the optimisation of a proved one, for what only counts or times it.

    from unproved import compiled
    compiled(top, name, to)     crates/NAME of the repository at `top`, as the program `to`

The kit's `rt try` compiles a program with no proof, with checks and with little optimisation, and keeps nothing of it. While it runs, the
code before that lies in a folder of temporary files: a second name is given to it, and the kit's clang and linker make the program of it
as they make that of proved code. What `rt try` tests beside the code (an index, a sum) stays in; a proved program has no such test.
"""
import os
import subprocess
import tempfile
import time


def kit():
    """The folder of the kit."""
    return os.path.dirname(subprocess.run(["rt", "doc"], stdout=subprocess.PIPE, check=True, text=True).stdout.strip())


def code_in(folder):
    """The whole code of the program in a folder, where it is there."""
    for at, _, names in os.walk(folder):
        # (an object is begun behind the code)
        if "module.bc" in names and any(".o" in name for name in names):
            return f"{at}/module.bc"
    return None


def code_of(crate, room):
    """Gives the code that `rt try` makes of a crate a second name, and answers whether it did."""
    made = f"{room}/code.bc"
    how = {"stdin": subprocess.DEVNULL, "stdout": subprocess.DEVNULL, "stderr": subprocess.PIPE}
    tried = subprocess.Popen(["rt", "try", "--steps", "1", "--seconds", "1"], cwd=crate, env={**os.environ, "TMPDIR": room}, **how)
    while tried.poll() is None and not os.path.exists(made):
        time.sleep(0.05)
        try:
            if found := code_in(room):
                os.link(found, made)
        except OSError:
            # (it went)
            pass
    tried.terminate()
    said = tried.communicate()[1]
    if not os.path.exists(made):
        raise SystemExit(f"rt try does not compile {crate}: {said.decode(errors='replace')[-2000:]}")
    return made


def compiled(top, name, to):
    crate, at = f"{top}/crates/{name}", kit()
    os.makedirs(os.path.dirname(to), exist_ok=True)
    with tempfile.TemporaryDirectory(prefix="unproved-", dir=os.path.dirname(to)) as room:
        code = code_of(crate, room)
        subprocess.run([f"{at}/toolchain/bin/clang", "-O2", "-x", "ir", code, "-c", "-o", f"{room}/code.o"], check=True)
        words = ["--target", "x86_64-unknown-linux-gnu", "--toolchain", f"{at}/toolchain", "-o", f"{room}/program", f"{room}/code.o"]
        words += [f"{at}/c/libos_c.a", f"{at}/c/liblibc_c.a"]
        subprocess.run([f"{at}/bin/rattle-link", *words], check=True, stdout=subprocess.DEVNULL, stderr=subprocess.PIPE)
        os.replace(f"{room}/program", to)
