"""Runs the program over lines, also with calls of the C library that fail (tools/faults.c), and reads the stored sessions."""
import atexit
import json
import os
import resource
import shutil
import subprocess
import tempfile

TOP = os.path.dirname(os.path.dirname(os.path.realpath(__file__)))
ROWS = os.path.join(TOP, "crates", "hir_session_rows")
BUILT = [os.path.join(TOP, "crates", "hir_session_main", "out", "hir_session_main"), os.path.join(TOP, "unproved", "hir_session_main")]
MEMORY = b'{"error":"memory"}'


def program_of(given):
    """The program that is named, or else the one that is there."""
    return given or next((it for it in BUILT if os.path.exists(it)), BUILT[0])


def line(command):
    return command if isinstance(command, bytes) else json.dumps(command, separators=(",", ":"), ensure_ascii=False).encode()


def stored_sessions():
    """The sessions of hir_session_rows: the label of each, its lines and its replies."""
    parts = []
    for name in ("stdin", "stdout"):
        found = []
        with open(os.path.join(ROWS, name), "rb") as file:
            for it in file.read().removesuffix(b"\n").split(b"\n"):
                if it.startswith(b"# "):
                    found.append((it[2:].decode(), []))
                else:
                    found[-1][1].append(it)
        parts.append(found)
    return [(label, lines, replies) for (label, lines), (_, replies) in zip(*parts)]


# parts of the labels of the stored sessions in which each request for memory, each read and each write fails in turn
SESSIONS = [
    "recursion_limit_drops_deeper_calls",
    "globs: struct_by_glob",
    "module_files: absent_file_is_looked_for",
    "marks: edit_below_reaches_dependents, edit_above_spares_dependencies",
    "blocks: block_shadows_its_module, block_goes_with_its_module",
    "hostile: macros_attributes_expansions_and_two_blocks",
]


def sessions_of(labels):
    """The stored sessions whose labels contain one of these texts, each of which has to be in one."""
    found = stored_sessions()
    missing = [it for it in labels if not any(it in label for label, _, _ in found)]
    if missing:
        raise SystemExit(f"no stored session has {missing[0]} in its label")
    return [it for it in found if any(label in it[0] for label in labels)]


_library = []
# what doesn't end is ended after so many seconds of processor
MOST_SECONDS = 120


def started(program, **how):
    """The program, started; its limit is set from here, since a start with work to do in the new process takes longer."""
    child = subprocess.Popen([program], **how)
    resource.prlimit(child.pid, resource.RLIMIT_CPU, (MOST_SECONDS, MOST_SECONDS))
    return child


def library():
    """tools/faults.c, compiled once in a folder that goes when Python ends."""
    if not _library:
        folder = tempfile.mkdtemp()
        atexit.register(shutil.rmtree, folder)
        made = os.path.join(folder, "faults.so")
        subprocess.run(["cc", "-shared", "-fPIC", "-O1", "-o", made, os.path.join(TOP, "tools", "faults.c")], check=True)
        _library.append(made)
    return _library[0]


def answers(program, given, report=None, **faults):
    """What is written for the bytes of an input, the status, and the words on standard error; `faults` are variables of tools/faults.c."""
    settings = {**os.environ, "LD_PRELOAD": library()} if faults else dict(os.environ)
    settings.update({name.upper(): str(value) for name, value in faults.items()})
    if report is not None:
        settings["REPORT"] = str(report)
    # a file, since a read of a pipe may give less than there is
    with tempfile.TemporaryFile() as input_file:
        input_file.write(given)
        input_file.seek(0)
        pipes = {"stdin": input_file, "stdout": subprocess.PIPE, "stderr": subprocess.PIPE}
        with started(program, **pipes, env=settings, pass_fds=[] if report is None else [report]) as child:
            try:
                written, words = child.communicate()
            except BaseException:
                child.kill()
                raise
    return written, child.returncode, words.decode(errors="replace")


class Again:
    """A run over lines, each of which is sent again up to `again` times while it is answered by `memory`: the last reply to each line
    and how many came before it, the status, the words on standard error, and how many requests for memory there were and were refused."""

    def __init__(self, program, lines, again, **faults):
        inner, outer = os.pipe()
        given = b"".join(it + b"\n" for it in lines)
        written, self.status, self.words = answers(program, given, report=outer, again=again, **faults)
        os.close(outer)
        counts = os.read(inner, 100).split()
        os.close(inner)
        self.requests, self.refused = map(int, counts) if counts else (0, 0)
        found, self.replies = iter(written.split(b"\n")[:-1]), []
        for _ in lines:
            reply, tries = next(found, b""), 0
            while reply == MEMORY and tries < again:
                reply, tries = next(found, b""), tries + 1
            self.replies.append((reply, tries))
        self.words += b"\n".join(found).decode(errors="replace")


def is_as_ample(command, reply, ample, was_repeated):
    """Whether a reply is that of a session with ample memory: of a `refresh` that was sent again, the end of its list."""
    if reply == ample:
        return True
    if not was_repeated or b'"refresh"' not in line(command):
        return False
    places, whole = json.loads(reply).get("ok"), json.loads(ample).get("ok")
    return isinstance(places, list) and isinstance(whole, list) and whole[len(whole) - len(places):] == places
