"""Reads the files of the crates of a commit, or of the work tree, of the repository in which it is run."""
import pathlib
import subprocess

PARTS = ("src", "specs", "proofs")


def git(*words, given=None):
    """What git answers."""
    run = subprocess.run(["git", *words], input=given, capture_output=True, check=False)
    if run.returncode:
        raise SystemExit(f"git {words[0]}: {run.stderr.decode(errors='replace').strip()}")
    return run.stdout


def is_read(path):
    """Whether a path is of a file that holds definitions, promises or proofs."""
    parts = path.split("/")
    return len(parts) > 3 and parts[0] == "crates" and parts[2] in PARTS and path.endswith((".rt", ".antt"))


def committed(commit):
    """The texts of a commit's files, all of them from one run of git."""
    names = git("ls-tree", "-r", "-z", "--name-only", "--full-tree", commit).decode().split("\0")
    names = [name for name in names if is_read(name)]
    answer = git("cat-file", "--batch", given="".join(f"{commit}:{name}\n" for name in names).encode())
    place = 0
    for name in names:
        ends = answer.index(b"\n", place)
        size = int(answer[place:ends].split()[2])
        yield name, answer[ends + 1 : ends + 1 + size].decode()
        place = ends + size + 2


def in_work():
    """The texts of the work tree's files, new ones too."""
    top = pathlib.Path(git("rev-parse", "--show-toplevel").decode().strip())
    names = git("-C", str(top), "ls-files", "-z", "--cached", "--others", "--exclude-standard").decode().split("\0")
    for name in sorted({*names}):
        if is_read(name) and (top / name).is_file():
            yield name, (top / name).read_text()


def files_of(commit=None):
    """The path and the text of each file of src/, specs/ and proofs/."""
    return committed(commit) if commit else in_work()
