"""The recipes of docs/CLIENTS.md, run word for word as they stand there."""

import re
import subprocess
import sys

from crates import ROOT
from expectations import expect

PAGE = ROOT / "docs/CLIENTS.md"
MOST_SECONDS = 300


def blocks(language):
    """The recipes of the page in a language, in their order."""
    found = re.findall(rf"(?ms)^```{language}\n(.*?)^```$", PAGE.read_text(encoding="utf-8"))
    expect(f"whether the page has recipes in {language}", bool(found), True)
    return found


def run(what, command, folder, environment):
    """Runs a command to its end. Returns what it printed."""
    ran = subprocess.run(command, cwd=folder, env=environment, stdin=subprocess.DEVNULL, capture_output=True, text=True,
                         timeout=MOST_SECONDS, check=False)
    expect(f"the end of {what}", (ran.returncode, ran.stderr), (0, ""))
    return ran.stdout


def run_by_shell(folder, environment):
    """Runs the recipes by curl: each is a file that one shell reads. What sends missing segments is read until it says that none
    is missing. Returns what they print."""
    lines = []
    for number, recipe in enumerate(blocks("sh"), 1):
        (folder / f"{number}.sh").write_text(recipe, encoding="utf-8")
        again = recipe.rstrip().splitlines()[-1].startswith("grep -q '\"expecting\"")
        lines.append(f"set +e; until . ./{number}.sh; do tries=$((tries + 1)); [ $tries -lt 30 ] || exit 9; done; set -e"
                     if again else f". ./{number}.sh")
    (folder / "all.sh").write_text("\n".join(["set -e", *lines, ""]), encoding="utf-8")
    ran = subprocess.run(["sh", "all.sh"], cwd=folder, env=environment, capture_output=True, text=True, timeout=MOST_SECONDS,
                         check=False)
    if not expect("the recipes by curl", ran.returncode, 0):
        print(ran.stdout, ran.stderr)
    return re.sub(r"[0-9a-f]{64}", "DIGEST", ran.stdout).splitlines()


def run_by_python(folder, environment):
    """Runs the recipes by Python, which are one program. Returns what they print."""
    program = folder / "recipes.py"
    program.write_text("\n".join(blocks("python")), encoding="utf-8")
    return run("the recipes by Python", [sys.executable, program], folder, environment).splitlines()


def files_in(manifest_text):
    """The digests and names of an object's files, by the manifest of its bag."""
    return sorted(re.sub("  data/[0-9]*/", " ", line).replace("%25", "%") for line in manifest_text.split("\n")[:-1])


def names_in(manifest_text):
    return sorted(it.split(" ", 1)[1] for it in files_in(manifest_text))
