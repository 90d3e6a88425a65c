#!/usr/bin/env python3
"""Plants wrong lines in the code, one at a time, and reports which of them the check lets through.

    python3 tools/plant.py                 every list of tools/plants
    python3 tools/plant.py count relay     the lists of those crates
    python3 tools/plant.py count:step      the plants of one function
    python3 tools/plant.py --page          plants nothing: writes docs/PLANTED.md from the lists
    python3 tools/plant.py --check         plants nothing: are lists whole, and is the page theirs?

A list is tools/plants/CRATE.txt. A plant is a block of lines, and an empty line ends it:

    function: step             where it stands; Rows::mark where other functions have the name
    what: two steps are made   what is wrong there, in plain words
    refused by: one is made    the promise that refuses it
    file: src/instants.rt
    old: a line's text         which stands once in that file
    new: another               what stands there instead

Other lines can stand for some of these:

    same: why                  for `refused by`, where the program means the same as before
    unbuilt: the error's name  for `refused by`, where it must not even build
    edit: NAME                 for `file`, `old`, `new`: those of crates/CRATE/must-fail/NAME.edit

Each crate is planted in a copy of the repository under the folder for temporary files, so nothing
here is altered. A plant is refused if `rt check` of the crate does not prove it; the report says by
which goal. Where a proof cites a name that the plant takes away, the check stops at that name and
shows nothing of the contract: this one cannot be planted. The exit status is 1 if one that is not
marked as the same is let through, or one cannot be planted, or a check of the lists fails.
"""
import argparse
import collections
import pathlib
import re
import shutil
import subprocess
import sys
import tempfile
import textwrap

TOP = pathlib.Path(__file__).resolve().parent.parent
LISTS = TOP / "tools" / "plants"
PAGE = TOP / "docs" / "PLANTED.md"
KEYS = {"function", "what", "refused by", "file", "old", "new", "same", "unbuilt", "edit"}

HEAD = """\
# Planted wrong lines

`python3 tools/plant.py --page` makes this page of the lists `tools/plants/CRATE.txt`, and
`python3 tools/plant.py --check` says whether it still is theirs. Change the lists, not the page.

How strong are the contracts? A line of the program was made wrong, and the check had to refuse the
function in which it stands. Most were planted alone; many of `count`, `record` and `handover`
together with others, one in each function, and judged by the goals of its own function.

```
python3 tools/plant.py count:step
```

plants again, each alone, what is listed for a function, and says which goal refuses each, or that
it is let through. With the name of a crate it does so for the crate, and without a name for all.

| crate | planted | refused | changed nothing | do not build | kept as edits |
|---|---|---|---|---|---|
{counts}

Those *kept as edits*, marked * below, are edits in the crate's `must-fail/` too, which the gate
tries. It tries others as well: under each crate stand those that are no plant.

Nothing was planted in what answers for want of memory where no contract speaks of it; in the `main`
of a program, which has no contract; or in the theorems of `rules` that compute nothing.

## What changed nothing

By these lines the program means the same as before, so the check rightly lets them through.

{same}

## What does not build

The compiler refuses these wrong uses before the prover looks, so they are no edits for the gate.

{unbuilt}
"""


class Wrong(Exception):
    """Something is wrong with a list or an edit."""


def blocks(path):
    """The blocks of a file: their lines `key: text`, with the number of the first line."""
    block = {}
    for number, line in enumerate(path.read_text().splitlines() + [""], 1):
        if line.startswith("#"):
            continue
        key, colon, text = line.partition(": ")
        if not line.strip():
            if block:
                yield block
            block = {}
        elif not colon or key not in KEYS or key in block:
            raise Wrong(f"{path.relative_to(TOP)}: line {number}: no line of a plant: {line}")
        else:
            block.setdefault("place", f"{path.relative_to(TOP)}: line {number}")
            block[key] = text


def edit(crate, name):
    """The file of an edit, and the pairs of its old and new texts."""
    path = TOP / "crates" / crate / "must-fail" / f"{name}.edit"
    if not path.exists():
        raise Wrong(f"there is no edit {path.relative_to(TOP)}")
    lines = [line.partition(": ") for line in path.read_text().splitlines()]
    texts = {key: [text for k, _, text in lines if k == key] for key in ("file", "old", "new")}
    return texts["file"][0], list(zip(texts["old"], texts["new"]))


def plants(crate):
    """The plants of a crate: each block, with its file and the changes in it."""
    for block in blocks(LISTS / f"{crate}.txt"):
        place = {"edit"} if "edit" in block else {"file", "old", "new"}
        reasons = {"refused by", "same", "unbuilt"} & set(block)
        if set(block) - reasons != {"place", "function", "what"} | place or len(reasons) != 1:
            raise Wrong(f"{block['place']}: a line of the plant is missing, or one too many")
        if "edit" in block:
            block["file"], block["changes"] = edit(crate, block["edit"])
        else:
            block["changes"] = [(block["old"], block["new"])]
        yield block


def changed(text, changes):
    """The text with the changes, or none if an old text does not stand once in it."""
    for old, new in changes:
        if text.count(old) != 1:
            return None
        text = text.replace(old, new)
    return text


def crates():
    return sorted(path.stem for path in LISTS.glob("*.txt"))


# planting


def reason(output):
    """The first thing that the check does not accept."""
    for line in output.splitlines():
        if re.search(r"it is not proved|found no proof|no proof:|: error", line):
            return re.sub(r"; the facts known there.*", "", line.replace("note: ", "", 1))
    return "not proved"


def check(folder):
    """Is the crate proved? And what the check printed."""
    run = subprocess.run(
        ["rt", "check"], cwd=folder, capture_output=True, text=True, errors="replace"
    )
    output = run.stdout + run.stderr
    return run.returncode == 0 and "logic=proved" in output, output


def verdict(plant, proved, output):
    """What the check made of a plant, and whether that is as the list says."""
    unbuilt = re.search(r"\.rt:\d+:\d+: error\[.*", output)
    if "unbuilt" in plant:
        error = unbuilt.group() if unbuilt else "no error"
        return f"does not build: {error[:160]}", f"[{plant['unbuilt']}]" in error
    if unbuilt:
        return f"cannot be planted: {unbuilt.group()[:160]}", False
    if proved:
        same = "same" in plant
        return f"the same: {plant['same']}" if same else "LET THROUGH", same
    why = reason(output)
    if re.search(r"(record|module) `\S*\.proofs\.\S*` has no ", why):
        return f"cannot be planted: {why[:300]}", False
    return f"refused: {why[:200]}", "same" not in plant


def try_plant(crate, plant, copy):
    path = copy / "crates" / crate / plant["file"]
    before = path.read_text()
    after = changed(before, plant["changes"])
    if after is None:
        return "cannot be planted: its old text does not stand once in the file", False
    path.write_text(after)
    try:
        proved, output = check(copy / "crates" / crate)
    finally:
        path.write_text(before)
    return verdict(plant, proved, output)


def asked_for(crate, function):
    """The plants of a crate, or those of a function, by its whole name or by its last part."""
    found = [
        plant
        for plant in plants(crate)
        if function in ("", plant["function"], plant["function"].split("::")[-1])
    ]
    if not found:
        raise Wrong(f"tools/plants/{crate}.txt has no plant in a function {function}")
    return found


def try_crate(crate, function):
    """Plants them one by one; is each refused that has to be?"""
    asked = asked_for(crate, function)
    good = True
    with tempfile.TemporaryDirectory() as folder:
        copy = pathlib.Path(folder)
        shutil.copy(TOP / "crates.txt", copy)
        shutil.copytree(TOP / "crates", copy / "crates")
        proved, output = check(copy / "crates" / crate)
        if not proved:
            print(f"{crate}: is not proved as it stands: {reason(output)[:200]}")
            return False
        for plant in asked:
            text, fine = try_plant(crate, plant, copy)
            good = good and fine
            print(f"{crate}::{plant['function']}: {plant['what']}")
            for old, new in plant["changes"]:
                print(f"    {old.strip()} => {new.strip()}")
            print(f"    {text}", flush=True)
    return good


# the page


def results(crate):
    """The file and its whole text that each edit of the gate makes, with the edit's name."""
    made = {}
    for path in sorted((TOP / "crates" / crate / "must-fail").glob("*.edit")):
        file, changes = edit(crate, path.stem)
        made[file, changed((TOP / "crates" / crate / file).read_text(), changes)] = path.stem
    return made


def with_edits(crate):
    """The plants of a crate, each with the name of the edit that it is kept as, if it is."""
    made = results(crate)
    for plant in plants(crate):
        text = changed((TOP / "crates" / crate / plant["file"]).read_text(), plant["changes"])
        if text is None:
            raise Wrong(f"{plant['place']}: its old text does not stand once in {plant['file']}")
        yield plant | {"kept": made.get((plant["file"], text))}


def row(*cells):
    return "| " + " | ".join(str(cell).replace("|", "\\|") for cell in cells) + " |"


def counts_row(name, listed):
    refused = sum("refused by" in plant for plant in listed)
    same = sum("same" in plant for plant in listed)
    unbuilt = sum("unbuilt" in plant for plant in listed)
    kept = sum(bool(plant["kept"]) for plant in listed)
    return row(name, len(listed), refused, same, unbuilt, kept)


def refused_table(listed):
    """A row for each function and each promise that refused something there."""
    rows = collections.defaultdict(dict)
    for plant in listed:
        if "refused by" in plant:
            text = ("* " if plant["kept"] else "") + plant["what"]
            rows[plant["function"]].setdefault(plant["refused by"], []).append(text)
    head = [row("function", "what was planted", "refused by"), "|---|---|---|"]
    return "\n".join(
        head
        + [
            row(f"`{function}`", "; ".join(texts), promise)
            for function, promises in rows.items()
            for promise, texts in promises.items()
        ]
    )


def others(crate, listed):
    """The edits of the gate that are no plant."""
    left = sorted(set(results(crate).values()) - {plant["kept"] for plant in listed})
    names = ", ".join(f"`{name}`" for name in left)
    text = textwrap.fill(f"Other edits that the gate tries: {names}.", 100)
    return f"\n{text}\n" if left else ""


def special(lists, key, words):
    """A line for each plant that has such a line, in place of a promise."""
    lines = [
        f"- `{plant['function']}` of `{crate}`: {plant['what']}. {words.format(plant[key])}"
        for crate, listed in lists.items()
        for plant in listed
        if key in plant
    ]
    return "\n".join(textwrap.fill(line, 100, subsequent_indent="  ") for line in lines)


def page():
    lists = {crate: list(with_edits(crate)) for crate in crates()}
    all_of_them = [plant for listed in lists.values() for plant in listed]
    counts = [counts_row(f"`{crate}`", listed) for crate, listed in lists.items()]
    text = HEAD.format(
        counts="\n".join(counts + [counts_row("in all", all_of_them)]),
        same=special(lists, "same", "The same, since {}."),
        unbuilt=special(lists, "unbuilt", "The error is `{}`."),
    )
    for crate, listed in lists.items():
        text += f"\n## crates/{crate}\n\n{refused_table(listed)}\n{others(crate, listed)}"
    return text


def check_page():
    if PAGE.exists() and PAGE.read_text() == page():
        return True
    print("docs/PLANTED.md is not what the lists make; python3 tools/plant.py --page mends that")
    return False


def main():
    parser = argparse.ArgumentParser(
        description=__doc__, formatter_class=argparse.RawDescriptionHelpFormatter
    )
    parser.add_argument("names", nargs="*", metavar="CRATE[:FUNCTION]", help="what to plant")
    modes = parser.add_mutually_exclusive_group()
    modes.add_argument("--page", action="store_true", help="write docs/PLANTED.md")
    modes.add_argument("--check", action="store_true", help="check the lists and the page")
    asked = parser.parse_args()
    names = [name.partition(":")[::2] for name in asked.names or crates()]
    if strange := [crate for crate, _ in names if crate not in crates()]:
        parser.error(f"there is no list for {', '.join(strange)}")
    if (asked.page or asked.check) and asked.names:
        parser.error("--page and --check are of all lists")
    if asked.page:
        PAGE.write_text(page())
    elif asked.check:
        sys.exit(0 if check_page() else 1)
    else:
        sys.exit(0 if all([try_crate(*name) for name in names]) else 1)


if __name__ == "__main__":
    try:
        main()
    except Wrong as wrong:
        sys.exit(f"plant.py: {wrong}")
