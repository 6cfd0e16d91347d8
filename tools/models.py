"""Copies of the repository with edits in them, and what the test programs and the proofs say of such a copy."""
import glob
import itertools
import os
import re
import shutil
import subprocess

ROOT = os.path.dirname(os.path.dirname(os.path.abspath(__file__)))


def read(path):
    with open(path) as file:
        return file.read()


def write(path, text):
    with open(path, "w") as file:
        file.write(text)


def copied(folder):
    """A copy of the crates, without what was made of them."""
    shutil.copy(os.path.join(ROOT, "crates.txt"), folder)
    shutil.copytree(os.path.join(ROOT, "crates"), os.path.join(folder, "crates"), ignore=shutil.ignore_patterns("out"))


def misfit(text, edit):
    """Why the edit cannot be made in this text; None where it can."""
    name, old, new, *times = edit
    if old is not None and [text.count(old)] != (times or [1]):
        return "%s has %d times: %s" % (name, text.count(old), old)
    return None


def edited(folder, edits):
    """Makes the edits, and hands back what the files held before. An edit is a file below crates, the old text and the
    new one, and how often the old text occurs, if not once. With None as old text the file gets the new one, or goes; with
    one it need not be there."""
    before = {}
    for edit in edits:
        name, old, new = edit[:3]
        path = os.path.join(folder, "crates", name)
        text = None if old is None and new is not None and not os.path.isfile(path) else read(path)
        before.setdefault(path, text)
        if misfit(text, edit):
            raise SystemExit(misfit(text, edit))
        if old is None and new is None:
            os.remove(path)
        else:
            os.makedirs(os.path.dirname(path), exist_ok=True)
            write(path, new if old is None else text.replace(old, new))
    return before


def misfits(edits):
    """Why edits, made one after the other, do not fit the crates as they are. Nothing is written."""
    texts = {}
    for edit in edits:
        name, old, new = edit[:3]
        path = os.path.join(ROOT, "crates", name)
        if not os.path.isfile(path) and (old is not None or new is None):
            yield "%s is not there" % name
            continue
        text = texts.setdefault(name, read(path) if os.path.isfile(path) else "")
        why = misfit(text, edit)
        if why:
            yield why
        else:
            texts[name] = (new or "") if old is None else text.replace(old, new)


def unlisted(document, names):
    """The names that start no row of a table of the document, where dashes and minus signs are set."""
    text = re.sub("[−–]", "-", read(os.path.join(ROOT, "docs", document)))
    return ["%s has no row: %s" % (document, name) for name in names if "\n| %s |" % name not in text]


def checked(rows, told=()):
    """Ends the script: it fails where the edits of a row, a pair of its name and its edits, do not fit the code."""
    told = list(told) + ["%s: %s" % (name, why) for name, edits in rows for why in misfits(edits)]
    print("\n".join(told) or "every row fits")
    raise SystemExit(1 if told else 0)


def restored(before):
    for path, text in before.items():
        if text is None:
            os.remove(path)
        else:
            write(path, text)


def run(folder, *words):
    """How a command ends, and what it says on standard output and on standard error."""
    done = subprocess.run(words, cwd=folder, capture_output=True, text=True)
    return done.returncode, done.stdout, done.stderr


def written(folder, program):
    """What the program writes, compiled and without a proof."""
    crate = os.path.join(folder, "crates", program)
    data = sorted(glob.glob(os.path.join(crate, "data", "*")))
    given = [word for path in data for word in ("--data", "%s=%s" % (os.path.basename(path), path))]
    # the compiled run is the one that counts: it has time, and the interpreter beside it none
    status, said, told = run(crate, "rt", "try", "--steps", "1", "--seconds", "600", *given)
    if status != 0:
        raise SystemExit("%s did not end:\n%s%s" % (program, said, told))
    return said


def numbers(said, words="differ"):
    """The numbers after `differ`, or other words, at the start of a line."""
    return [int(number) for number in re.findall(r"^(?:%s) (\d+)" % words, said, re.MULTILINE)]


def differences(folder, program, words="differ"):
    """The numbers after `differ`, or other words, in what the program writes."""
    return numbers(written(folder, program), words)


def lines_apart(said, stored):
    """In how many lines two texts differ."""
    return sum(a != b for a, b in itertools.zip_longest(said.splitlines(), stored.splitlines()))


def shorter_calls(folder, lists, machines):
    """Writes numbers of lists and of machines into check_calls, with whose own it takes minutes with checks, and hands back
    what the second opinion says that it prints then."""
    for name, number in (("LISTS", lists), ("MACHINES", machines)):
        path = os.path.join(folder, "crates", "check_calls", "src", "main.rt")
        text, times = re.subn(r"^const %s: u32 = \d+;$" % name, "const %s: u32 = %d;" % (name, number), read(path), flags=re.MULTILINE)
        if times != 1:
            raise SystemExit("check_calls has no number %s" % name)
        write(path, text)
    status, said, told = run(ROOT, os.path.join("harness", "stored_calls"), str(lists), str(machines))
    if status != 0:
        raise SystemExit("stored_calls did not end:\n" + told)
    return said


def edit(path, old, new, times=1):
    """An edit of a file below crates, and how often its old text occurs."""
    return path, old, new, times


def spec(name, old, new, times=1):
    """An edit of the definitions `crate/file`."""
    return edit("%s/specs/%s.antt" % tuple(name.split("/", 1)), old, new, times)


def code(name, old, new, times=1):
    """An edit of the code `crate/file`."""
    return edit("%s/src/%s.rt" % tuple(name.split("/", 1)), old, new, times)


def proof(name, old, new, times=1):
    """An edit of the proofs `crate/file`."""
    return edit("%s/proofs/%s.antt" % tuple(name.split("/", 1)), old, new, times)


def rows(table, wanted):
    """The rows of a table of mistakes as pairs of a name, `definition: mistake`, and its edits; with words, only those
    whose names hold one of them."""
    for definition, mistake, *edits in table:
        name = "%s: %s" % (definition, mistake)
        if not wanted or any(word in name for word in wanted):
            yield name, edits


def without(chosen, words):
    """The rows whose names hold none of these words."""
    return [(name, edits) for name, edits in chosen if not any(word in name for word in words)]


def together(chosen):
    """The edits of all these rows, one after the other."""
    return [edit for name, edits in chosen for edit in edits]


def proved(folder, crate):
    """The crate that is refused, of this one and those below it, and what is said of it; None where all are proved."""
    status, said, told = run(os.path.join(folder, "crates", crate), "rt", "lib")
    if status == 0:
        return None, ""
    found = re.search(r"^rt: the library (\w+) did not build", told, re.MULTILINE)
    return found[1] if found else crate, said


def verdict(crate, said):
    """In a few words, and where the first errors are."""
    if crate is None:
        return "proved"
    places = []
    for file, name in re.findall(r"^(?:\./)?(\S+?):\d+:\d+: error(?:: `([^`]*)`|\b)", said, re.MULTILINE):
        place = " ".join((file, name)).strip()
        if place not in places:
            places.append(place)
    return "refused in %s: %s" % (crate, ", ".join(places[:6]))


def prover(top, crate):
    """A function from edits to the crate that is refused, of this one and those below it, and what is said of it, over a
    copy that is proved without them. It takes another crate below, too."""
    whole, folder = os.path.join(top, "whole"), os.path.join(top, "proofs")
    os.mkdir(whole)
    copied(whole)
    if proved(whole, crate)[0]:
        raise SystemExit("the repository as it is is not proved")

    def judged(edits, upto=crate):
        shutil.rmtree(folder, ignore_errors=True)
        shutil.copytree(whole, folder)
        edited(folder, edits)
        return proved(folder, upto)

    return judged
