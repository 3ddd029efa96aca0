"""The part of wrong_bodies that is of crates: it lays wrong bodies into a copy of the repository, and asks the prover or a test about each.

wrong_bodies [CRATE [NAME..]] [--together]    tries those of a crate, or of all; a NAME may be the first part of one
wrong_bodies --list [CRATE..]                 looks whether each old text stands in its file once, in a second

A file wrong_bodies/CRATE/FUNCTION.what_it_does_wrong.edit has the lines of a must-fail edit (`file:`, and pairs of `old:` and `new:`). `rt must-fail`
has to refuse it at a goal: that it is refused at a name of its proof only, by a limit only, or not at all is BAD. If no clause can refuse it, a
line `test: CRATE NAME` names the test that has to fail. The status is 1 if one is BAD.

`rt must-fail` proves the crate first, and then tries one after another. With --together one check has the bodies of many functions: a function
is proved from the contracts of others alone, so none hides another, and the crate is proved once. One that is refused with no goal named, since
what it calls was refused too, is to be tried alone.
"""
import collections
import contextlib
import os
import re
import shutil
import subprocess
import sys
import tempfile

from shared import ROOT

FOLDER = "wrong_bodies"
Result = collections.namedtuple("Result", "is_well said")


class Body:
    """A wrong body: its crate, its name, the texts that it changes, and the test that is to fail by it, if no clause can refuse it."""

    def __init__(self, path):
        self.path, self.crate = path, os.path.basename(os.path.dirname(path))
        self.name = os.path.basename(path).removesuffix(".edit")
        self.pairs, self.test, file, old = [], None, None, None
        with open(path, encoding="utf-8") as it:
            for line in it.read().split("\n"):
                key, _, rest = line.partition(":")
                rest = rest.removeprefix(" ")
                if key == "file":
                    file = rest.strip()
                elif key == "old":
                    old = rest
                elif key == "new":
                    self.pairs.append((file, old, rest))
                elif key == "test":
                    self.test = rest.split()

    def changed(self, root, before=None):
        """Returns the texts of the files that it changes, by their paths. Each old text has to stand in its file once. Other changes may have been
        made before: their texts are not read again."""
        texts, before = {}, before or {}
        for file, old, new in self.pairs:
            path = f"{root}/crates/{self.crate}/{file}"
            text = texts.get(path) or before.get(path) or read_text(path)
            if text.count(old) != 1:
                raise ValueError(f"in {file} this stands {text.count(old)} times: {old.strip()}")
            texts[path] = text.replace(old, new)
        return texts

    def fault(self, root):
        """Says why it does not apply to the sources, or None."""
        try:
            self.changed(root)
        except (OSError, ValueError) as why:
            return str(why)
        if not self.pairs:
            return "it has no pair of lines old: and new:"
        return self.test and test_fault(root, *self.test)


def test_fault(root, crate, name):
    """Says why a test is not there, or None."""
    words = ["grep", "-rqE", f"fn {name.rpartition('::')[2]}\\(", f"{root}/crates/{crate}/src"]
    return f"{crate} has no test {name}" if subprocess.run(words, check=False).returncode else None


def crates():
    """The crates that have wrong bodies."""
    return sorted(os.listdir(f"{ROOT}/{FOLDER}"))


def bodies_of(crate, names=()):
    """The wrong bodies of a crate, or those of the given names. A name may be the first part of one."""
    folder = f"{ROOT}/{FOLDER}/{crate}"
    every = [Body(f"{folder}/{it}") for it in sorted(os.listdir(folder)) if it.endswith(".edit")]
    unknown = [name for name in names if not any(it.name.startswith(name) for it in every)]
    if unknown:
        raise SystemExit(f"wrong_bodies: {crate} has none of the name {unknown[0]}")
    return [it for it in every if not names or any(it.name.startswith(name) for name in names)]


def list_all(chosen):
    """Says of each wrong body of these crates whether it applies to the sources. Returns the status."""
    bodies = [it for crate in chosen for it in bodies_of(crate)]
    faults = [(it, it.fault(ROOT)) for it in bodies]
    for it, why in faults:
        if why:
            print(f"{it.crate}/{it.name}: does not apply: {why}")
    lost = sum(1 for _, why in faults if why)
    print(f"{len(bodies) - lost} of {len(bodies)} wrong bodies apply, {sum(1 for it in bodies if it.test)} of them are for tests")
    return 1 if lost else 0


def copy_tree(to):
    """Copies what the crates are proved from, as it stands in the checkout, and gives the copy what was proved on this machine."""
    listed = ["git", "ls-files", "-z", "-c", "-o", "--exclude-standard", "--", "crates", "crates.txt", "HANDLES", "launcher"]
    for name in subprocess.run(listed, cwd=ROOT, stdout=subprocess.PIPE, check=True).stdout.decode().split("\0"):
        if name and os.path.exists(f"{ROOT}/{name}") and "/must-fail/" not in name:
            os.makedirs(os.path.dirname(f"{to}/{name}"), exist_ok=True)
            shutil.copy2(f"{ROOT}/{name}", f"{to}/{name}")


def run(words, folder):
    """Runs a command, one proof at a time if it proves. Returns what it said."""
    how = {"stdin": subprocess.DEVNULL, "stdout": subprocess.PIPE, "stderr": subprocess.STDOUT, "errors": "replace"}
    return subprocess.run(words, cwd=folder, env={"RT_JOBS": "1", **os.environ}, check=False, **how).stdout


SAID = re.compile(r"must-fail \w+/(?P<name>[\w.-]+)\.edit: (?P<said>.*)")
GOAL = re.compile(r"`(?P<goal>[^`]+)`")
BY_NAME = "only because a proof file names what the edit took away"
BY_LIMIT = "only by a limit of the prover"


def verdict(said):
    """Reads what `rt must-fail` said of an edit."""
    why = said.partition("must be")[2].lstrip(": ")
    if not said.startswith("refused"):
        return Result(False, "let through: the crate is still proved" if said.startswith("NOT REFUSED") else said)
    if BY_NAME in said:
        return Result(False, f"refused at a name only: {why}")
    if BY_LIMIT in said:
        return Result(False, f"refused by a limit only: {why}")
    goal = GOAL.search(why)
    return Result(True, f"refused at the goal {goal['goal']}: {why}" if goal else f"refused: {why}")


def refused(tree, crate, bodies):
    """Tries bodies by the prover. Returns them with their results."""
    folder = f"{tree}/crates/{crate}/must-fail"
    os.makedirs(folder)
    for it in bodies:
        shutil.copy2(it.path, f"{folder}/{it.name}.edit")
    said = run(["rt", "must-fail", crate], tree)
    shutil.rmtree(folder)
    told = {it["name"]: it["said"] for it in map(SAID.search, said.splitlines()) if it}
    nothing = f"not tried: {said.strip()[-300:]}"
    return [(it, verdict(told[it.name]) if it.name in told else Result(False, nothing)) for it in bodies]


def function_at(lines, number):
    """The name of the function that a line of a file is in."""
    heads = [it for it in (re.match(r"\s*(?:pub(?:\(\w+\))? )?(?:const )?(?:extern \"C\" )?fn (\w+)", line) for line in lines[:number]) if it]
    return heads[-1][1] if heads else None


def function_of(tree, body, line):
    """The function that a line of the check speaks of, if it is in a file that a body changes or in the proof of a function."""
    at = re.match(r"(?:note: )?(?:\./)?(\S+?):(\d+):\d+: ", line)
    if not at:
        return None
    if at[1].startswith("proofs/"):
        return os.path.basename(os.path.dirname(at[1]))
    if at[1] in {file for file, _, _ in body.pairs}:
        return function_at(read_text(f"{tree}/crates/{body.crate}/{at[1]}").split("\n"), int(at[2]))
    return None


BY_PROOF_NAME = re.compile(r"(note: )?(\./)?proofs/.*(has no field|is not in scope|has no `|was not admitted)")


def verdict_of_function(tree, body, said):
    """Reads what a check in which several bodies were laid said of the function of one."""
    function = body.name.partition(".")[0]
    lines = said.splitlines()
    ends = [it for it in lines if re.match(rf"fn (\S*::)?{function}: ", it)]
    own = [it for it in lines if (": error" in it or it.startswith("note: ")) and function_of(tree, body, it) == function]
    goals = [it for it in own if not BY_PROOF_NAME.match(it)]
    if goals:
        return verdict(f"refused, as it must be: {goals[0]}")
    if own:
        return Result(False, f"refused at a name only: {own[0]}")
    if any(it.endswith("not proved") for it in ends):
        return Result(False, "refused, and no goal is named: try it alone")
    if any(it.endswith(": proved") for it in ends):
        return Result(False, "let through: the function is still proved")
    return Result(False, f"not tried: {said.strip()[-300:]}")


def modules_of(bodies):
    """The modules that bodies change, as a check names them."""
    files = {file for it in bodies for file, _, _ in it.pairs}
    return sorted(it.removeprefix("src/").removesuffix(".rt").removesuffix("/mod").replace("/", "::") for it in files)


def laid_together(tree, bodies):
    """Chooses bodies that change different functions. Returns them, and the texts of the files with all of them laid in."""
    taken, texts = {}, {}
    for it in bodies:
        function = it.name.partition(".")[0]
        if function not in taken:
            with contextlib.suppress(ValueError):
                texts.update(it.changed(tree, texts))
                taken[function] = it
    return list(taken.values()), texts


def check_together(tree, crate, bodies, texts):
    """Checks the modules that bodies change, with all of them laid in. Returns them with their results; or, if they can't be read, those that can't."""
    before = {path: read_text(path) for path in texts}
    write_texts(texts)
    only = [word for it in modules_of(bodies) for word in ("--only", it)]
    said = run(["rt", "check", "--jobs", "1", *only], f"{tree}/crates/{crate}")
    unread = [it for it in said.splitlines() if "error[" in it]
    if unread and "\nfn " not in said:
        spoken = {it: next((line for line in unread if function_of(tree, it, line) == it.name.partition(".")[0]), None) for it in bodies}
        results = [(it, Result(False, f"can't be read: {line}")) for it, line in spoken.items() if line]
        results = results or [(it, Result(False, f"not tried: {unread[0]}")) for it in bodies]
    else:
        results = [(it, verdict_of_function(tree, it, said)) for it in bodies]
    write_texts(before)
    return results


def refused_together(tree, crate, bodies):
    """Tries bodies by the prover, many in one check: those that change different functions. Gives them with their results."""
    left = bodies
    while left:
        results = check_together(tree, crate, *laid_together(tree, left))
        yield from results
        done = [it for it, _ in results]
        left = [it for it in left if it not in done]


def fails(tree, body):
    """Tries a body by its test. Returns the result."""
    crate, name = body.test
    texts = body.changed(tree)
    before = {path: read_text(path) for path in texts}
    write_texts(texts)
    try:
        said = run(["rt", "try", "--test"], f"{tree}/crates/{crate}")
    finally:
        write_texts(before)
    ended = re.search(rf"^test (?:\S+::)?{name.rpartition('::')[2]} \.\.\. (\w+)", said, re.MULTILINE)
    if not ended:
        return Result(False, f"not tried: {said.strip()[-300:]}")
    return Result(True, f"the test {name} fails") if ended[1] == "FAILED" else Result(False, f"let through: the test {name} passes")


def read_text(path):
    """Returns the text of a file."""
    with open(path, encoding="utf-8") as it:
        return it.read()


def write_texts(texts):
    """Writes texts to files."""
    for path, text in texts.items():
        with open(path, "w", encoding="utf-8") as it:
            it.write(text)


def tried(tree, crate, bodies, together):
    """Tries the wrong bodies of a crate, those for the prover first. Gives them with their results."""
    by_proof = [it for it in bodies if not it.test]
    if by_proof:
        print(run(["launcher/take_proved", crate], tree).strip(), file=sys.stderr, flush=True)
        yield from (refused_together if together else refused)(tree, crate, by_proof)
    for it in bodies:
        if it.test:
            yield it, fails(tree, it)


def try_crate(crate, names, together):
    """Tries the wrong bodies of a crate in a copy of the repository, and prints a line for each. Returns how many are not as they must be."""
    counts = collections.Counter()
    with tempfile.TemporaryDirectory(prefix="wrong-crates-") as tree:
        copy_tree(tree)
        for it, result in tried(tree, crate, bodies_of(crate, names), together):
            print(f"{'' if result.is_well else 'BAD '}{it.crate}/{it.name}: {result.said}", flush=True)
            counts["BAD" if not result.is_well else "test" if it.test else "goal"] += 1
    print(f"{crate}: {counts['goal']} refused at a goal, {counts['test']} by a test, {counts['BAD']} BAD", flush=True)
    return counts["BAD"]


def main(words):
    """Tries those of a crate, or of all; or says which apply to the sources. Returns the status."""
    if "--list" in words:
        return list_all([it for it in words if it != "--list"] or crates())
    together, words = "--together" in words, [it for it in words if it != "--together"]
    return 1 if sum([try_crate(it, words[1:], together) for it in words[:1] or crates()]) else 0


if __name__ == "__main__":
    sys.exit(main(sys.argv[1:]))
