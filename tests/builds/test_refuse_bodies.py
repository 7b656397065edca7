"""Tests dev/refuse_bodies.py on a small crate: wrong bodies that are refused, an edit of each kind of fault, and
neutral edits."""
from __future__ import annotations

import subprocess
from pathlib import Path

import pytest

pytestmark = pytest.mark.needs("rt")
TOOL = Path(__file__).resolve().parents[2] / "dev" / "refuse_bodies.py"
Case = tuple[str, str, str | None]
FILES = {
    "crates.txt": "sums:\n",
    "HANDLES": "Handles allowed: none.\n",
    "crates/sums/src/lib.rt": """//! Sums with small contracts.
#![tactic(auto)]

ghost use Rattle.std.specs.Prelude.{◌≡◌, ◌+◌, ◌<◌};
ghost use Rattle.sums.specs.Above.{above};

/// Adds one.
pub fn next(count: u32) -> u32
    requires { count < 1000 }
    ensures { result ≡ count + 1 }
{
    count + 1
}

/// Adds two.
pub fn second(count: u32) -> u32
    requires { count < 900 }
    ensures { result ≡ count + 2 }
{
    next(next(count))
}

/// Adds a number to another one.
pub fn sum(count: u32, more: u32) -> u32
    requires { count + more < 1000 }
    ensures { result ≡ count + more }
{
    let mut sum = count;
    sum += more;
    sum
}

/// Sums that are known by name.
pub struct Named {}

impl Named {
    /// Adds three.
    pub fn third(count: u32) -> u32
        requires { count < 800 }
        ensures { result ≡ count + 3 }
    {
        next(second(count))
    }

    /// Returns the number two above another one. (What is open in it is reported at the line of its attribute.)
    #[tactic(auto, unfolding(crate::specs::Above::above))]
    pub fn two_above(number: u32) -> u32
        requires { number < 1000 }
        ensures { result ≡ above (number + 1) }
    {
        number + 2
    }
}

/// Returns the number above another one.
pub fn number_above(number: u32) -> u32
    requires { number < 1000 }
    ensures { result ≡ above number }
{
    next(number)
}
""",
    "crates/sums/specs/Lib.antt": "pub mod Above\n",
    "crates/sums/specs/Above.antt": """use Rattle.std.specs.Prelude.{ℕ, ◌+◌}

unfoldable pub above : ℕ → ℕ
above number = number + 1
""",
    "crates/sums/proofs/number_above/Answers.antt": """use Rattle.sums.specs.Above.{above}
use Rattle.sums.proofs.number_above.Goals as goal

pub returns : goal.returns
unfolding above
returns c = c.next.ensures
""",
}
# Each edit: the old and the new text, and what the tool must report of it (nothing of a refused body).
EDITS: dict[str, Case] = {
    "next_adds_two": ("    count + 1", "    count + 2", None),
    "second_is_the_same": ("next(next(count))", "count + 2", "NOT REFUSED"),
    "second_does_not_compile": ("next(next(count))", "nxet(count)", "it does not compile"),
    "lost_line": ("count - 1", "count - 2", "cannot be applied"),
    "outside_functions": ("#![tactic(auto)]", "#![tactic(auto)] ", "cannot be applied"),
    "contract_of_next": ("{ result ≡ count + 1 }", "{ result ≡ result }", "NOT REFUSED"),
    "proof_names_next": ("    next(number)", "    number + 1", "names what the edit took away"),
    "proof_answers_wrongly": ("    next(number)", "    next(number) + 1", None),
    "borrowed_twice": ("    sum += more;", "    let (a, b) = (&mut sum, &mut sum); *a += *b;", "it does not compile"),
    "sum_of_a_loop": ("    sum += more;", "    while sum < 1000 { sum += more; }", "no open goal is named"),
}
# A right body that calls a wrong one, above a wrong one with an attribute, at whose line its open goal is reported.
ABOVE: dict[str, Case] = {
    "next_adds_two": EDITS["next_adds_two"],
    "third_is_the_same": ("next(second(count))", "second(next(count))", "NOT REFUSED"),
    "two_above_is_three": ("    number + 2", "    number + 3", None),
}


REFUSED = {name: edit for name, edit in EDITS.items() if not edit[2]}
# The edits of a run, and the arguments.
RUNS: dict[str, tuple[dict[str, Case], list[str]]] = {
    "each kind of fault": (EDITS, []),
    "each kind of fault, the crate taken as proved": (EDITS, ["--proved"]),
    "a right body above a wrong one": (ABOVE, []),
    "refused ones with one that doesn't compile": ({**REFUSED, "borrowed_twice": EDITS["borrowed_twice"]}, []),
}


def write_repository(root: Path, edits: dict[str, Case]) -> None:
    """Writes the crate with its edits: the first one in a file of its own, the others in that of the source."""
    for path, text in FILES.items():
        (root / path).parent.mkdir(parents=True, exist_ok=True)
        (root / path).write_text(text, encoding="utf-8")
    folder = root / "crates/sums/wrong"
    folder.mkdir()
    (first, (old, new, _)), *others = edits.items()
    (folder / f"{first}.edit").write_text(
        f"# A first one.\nfile: src/lib.rt\nold: {old}\nnew: {new}\n", encoding="utf-8"
    )
    parts = [f"# {name}\nA sentence.\nold: {old}\nnew: {new}\n" for name, (old, new, _) in others]
    (folder / "lib.edits").write_text("\n".join(parts), encoding="utf-8")


def run_tool(room: Path, *words: str) -> subprocess.CompletedProcess[str]:
    return subprocess.run(
        [TOOL, "--root", room, *words], stdout=subprocess.PIPE, stderr=subprocess.STDOUT, text=True, check=False
    )


@pytest.mark.parametrize("run", RUNS)
def test_each_edit_is_reported_as_it_is(run: str, tmp_path: Path) -> None:
    edits, words = RUNS[run]
    write_repository(tmp_path, edits)
    ran = run_tool(tmp_path, *words)
    told = {it.split()[1].rstrip(":"): it for it in ran.stdout.splitlines() if it.startswith("refuse-bodies: sums/")}
    found = {name: told.get(f"sums/{name}", "") for name in edits}
    wrong = {
        name: (wanted or "that it is refused", found[name])
        for name, (*_, wanted) in edits.items()
        if bool(wanted) != bool(found[name]) or (wanted or "") not in found[name]
    }
    assert not wrong, ran.stdout
    assert ran.returncode == 1, ran.stdout


def test_refused_bodies_are_recorded(tmp_path: Path) -> None:
    """Refused bodies aren't tried again, unless after a change, or with --all."""
    write_repository(tmp_path, REFUSED)
    at_first, again, all_again = run_tool(tmp_path), run_tool(tmp_path), run_tool(tmp_path, "--all")
    for ran, is_tried in ((at_first, True), (again, False), (all_again, True)):
        assert (ran.returncode, "round 1" in ran.stdout, "seen refused" in ran.stdout) == (0, is_tried, not is_tried)
    file = tmp_path / "crates/sums/wrong/lib.edits"
    text = file.read_text(encoding="utf-8")
    file.write_text(text.replace("A sentence.", "Another one."), encoding="utf-8")
    assert "seen refused" in run_tool(tmp_path).stdout
    file.write_text(text.replace("next(number) + 1", "next(number) + 2"), encoding="utf-8")
    assert "round 1" in run_tool(tmp_path).stdout


def test_neutral_edits_show_what_rests_on_the_shape(tmp_path: Path) -> None:
    """Of a function whose proof file names its goals a neutral edit isn't proved, of another one it is; those with a
    body of another shape can be taken alone; and such bodies are listed where the neutral edit isn't proved."""
    by_cases = ("    next(number)", "    if number < 3 { next(number) } else { number }", None)
    names = ("next_adds_two", "proof_answers_wrongly", "sum_of_a_loop")
    write_repository(tmp_path, {**{it: EDITS[it] for it in names}, "above_by_cases": by_cases})
    bound = tmp_path / "tests/shape_bound.txt"
    bound.parent.mkdir()
    bound.write_text("sums/sum_of_a_loop\n", encoding="utf-8")
    ran, shaped = run_tool(tmp_path, "--control"), run_tool(tmp_path, "--control", "--shaped")
    assert "3 neutral edits, 2 still proved" in ran.stdout and not ran.returncode, ran.stdout
    assert "2 neutral edits, 1 still proved" in shaped.stdout and not shaped.returncode, shaped.stdout
    assert [it for it in bound.read_text(encoding="utf-8").splitlines() if it[0] != "#"] == ["sums/above_by_cases"]
    assert not (tmp_path / "tests/refused.txt").exists()


@pytest.mark.parametrize(
    "text",
    ["old: a\nnew: b\n", "# name\nold: a\n", "# name\nnew: b\nold: a\n", "# name\nA sentence.\n"],
    ids=["no heading", "no new text", "the new text first", "no pair"],
)
def test_files_out_of_form_are_reported(text: str, tmp_path: Path) -> None:
    write_repository(tmp_path, REFUSED)
    (tmp_path / "crates/sums/wrong/lib.edits").write_text(text, encoding="utf-8")
    ran = run_tool(tmp_path, "--dry")
    assert ran.returncode == 1 and "sums: cannot be read" in ran.stdout
