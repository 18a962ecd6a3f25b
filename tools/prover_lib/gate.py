"""What the gate asks of wrong edits, behind `rt ci`."""
from __future__ import annotations

import concurrent.futures
import subprocess
import time

from .crates import ROOT, Crate, crates
from .edits import BUNDLE, Trouble, edits_of_bodies, edits_of_definitions
from .page import page
from .passes import bundle_of, tried_anew
from .record import read_record, sources_of
from .report import edits_in, why_not
from .trial import is_ready, make_ready

MEND = "tools/refused --record tries them and writes their record"


def why_stale(crate: Crate) -> str:
    """What of a crate's record or bundle isn't of its edits, or nothing."""
    names = {edit.name for edit in [*edits_of_bodies(crate), *edits_of_definitions(crate)]}
    record, file = read_record(crate), crate.folder / "must-fail" / BUNDLE
    if names != set(record.edits):
        return f"{crate.name}: its record isn't of its edits; {MEND}"
    if (file.read_text(encoding="utf-8") if file.is_file() else None) != bundle_of(crate, record):
        return f"{crate.name}/must-fail/{BUNDLE} isn't what is made of its edits; {MEND}"
    return ""


def drawn() -> Crate:
    """One of the crates with edits of bodies, by the commit's name."""
    ran = subprocess.run(["git", "rev-parse", "HEAD"], cwd=ROOT, capture_output=True, text=True, check=True)
    found = [crate for crate in crates().values() if edits_of_bodies(crate)]
    return found[int(ran.stdout, 16) % len(found)]


def try_again(crate: Crate) -> tuple[Crate, list[str], float]:
    """What differs from a crate's record, and how long that took."""
    begun = time.monotonic()
    try:
        if not is_ready(crate):
            make_ready(crate)
        lost = tried_anew(crate, read_record(crate))
    except Trouble as trouble:
        lost = [str(trouble)]
    return crate, lost, time.monotonic() - begun


def tell(said: list[str]) -> bool:
    """Prints what is wrong, and says whether nothing is."""
    print("".join(f"{it}\n" for it in said), end="", flush=True)
    return not said


def held(report: str, is_anew: bool, jobs: int) -> int:
    """Prints what is wrong, and last how much was tried and how much of that failed."""
    with_edits = [it for it in crates().values() if edits_of_bodies(it) or edits_of_definitions(it)]
    said = edits_in(report)
    files = [(it.name, file.name) for it in with_edits for file in sorted((it.folder / "must-fail").glob("*.edit"))]
    results = [tell([it for it in [why_stale(crate)] if it]) for crate in with_edits]
    results += [tell([it for it in [why_not(crate, file, said.get((crate, file), ""))] if it]) for crate, file in files]
    results.append(tell([] if (ROOT / "docs/edits/REFUSED.md").read_text(encoding="utf-8") == page()
                        else ["docs/edits/REFUSED.md isn't what tools/refused --page makes"]))
    stale = [it for it in with_edits if edits_of_bodies(it) and (is_anew or read_record(it).sources != sources_of(it))]
    chosen = list(dict.fromkeys([drawn(), *stale]))
    print(f"tried anew: {' '.join(it.name for it in chosen)}; the records of the other crates are of these sources", flush=True)
    with concurrent.futures.ThreadPoolExecutor(jobs) as pool:
        for crate, lost, seconds in pool.map(try_again, chosen):
            print(f"{crate.name}: {seconds:.0f} s", flush=True)
            results.append(tell(lost))
    print(f"{results.count(True)} passed, {results.count(False)} failed")
    return 1 if False in results else 0
