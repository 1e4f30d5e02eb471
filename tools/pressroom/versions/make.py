"""Makes the plates of an edition: checks its plans, runs them, verifies every plate, and marks each site READY."""
import os
import shutil

from pressroom.base import disk, runs
from pressroom.base.ask import HERE
from pressroom.base.console import Console
from pressroom.intake.state import notes_of
from pressroom.plans.plan_reader import Plan, plans_of
from pressroom.plans.ring import ring_of
from pressroom.versions import version
from pressroom.versions.job import CANT_BEGIN, OTHER_WORKS, Job, Refused

# The folders of the scripts of the queues: in the repository, and in Debian's package.
QUEUES = os.path.join(HERE, "..", "..", "examples", "queue"), "/usr/share/doc/plateroom/examples/queue"
ENGINES = {"make": "make", "parallel": "parallel", "slurm": "sbatch"}


def make(
    work: str,
    out: str,
    console: Console,
    program: str,
    keys: int = 0,
    engine: str | None = None,
    resume: bool = False,
) -> tuple[int, version.Version | None]:
    """Makes a version of an edition in OUT. Returns the status, and the version where one was begun.

    With `resume` the sites that are READY in the last version of the same plans and files are taken from
    there.
    """
    if not plans_of(work):
        console.tell("fault", f'{work} has no plan: no file PRESS.json with the key "plan"')
        return CANT_BEGIN, None
    os.makedirs(out, exist_ok=True)
    try:
        with disk.Lock(os.path.join(out, version.LOCK)):
            return make_locked(work, out, console, program, keys, engine, resume)
    except disk.Busy:
        console.tell("fault", f"another make or late works in {out}")
        return OTHER_WORKS, None


def make_locked(
    work: str, out: str, console: Console, program: str, keys: int, engine: str | None, resume: bool
) -> tuple[int, version.Version]:
    """The same, under the lock of OUT."""
    before = version.versions(out)
    new = version.begin(out)
    new.take(work)
    job = Job(new, program, console)
    console.tell("begin", new.path, version=new.name)
    job.pass_on(notes_of(work))
    try:
        plans = job.check()
    except Refused as refused:
        return job.refuse(refused), new
    last = same_source(out, before, new) if resume else None
    job.begin_bar(plans)
    for plan in plans:
        job.press(plan, plan.sites(), lambda plan, sites: plates(job, plan, sites, keys, engine, last))
    return job.end(plans), new


def same_source(out: str, names: list[str], new: version.Version) -> version.Version | None:
    """The last of these versions that has the same plans and files and a site that is READY, or None."""
    for name in reversed(names):
        other = version.Version(out, name)
        if other.taken_sums() == new.taken_sums() and other.ready_sites():
            return other
    return None


def plates(
    job: Job, plan: Plan, sites: list[str], keys: int, engine: str | None, last: version.Version | None
) -> runs.Call:
    """Makes the plates of a press, but for those of sites that the last version has."""
    counted = last.keys_lines(plan) if last and keys else []
    carried = []
    for site in sites if last and bool(counted) == bool(keys) else []:
        if last and last.is_ready(site):
            job.version.carry(site, last)
            carried.append(site)
    missing = [site for site in sites if site not in carried]
    if not missing:
        answer = runs.Call(0, "", "")
    elif engine:
        answer = run_parts(job, plan, missing, engine)
    else:
        answer = job.run(plan, missing, 0 if counted else keys)
    answer.lines += [f"site {site} finished plates {len(plan.plates(site))} carried" for site in carried]
    answer.lines += counted
    return answer


def run_parts(job: Job, plan: Plan, sites: list[str], engine: str) -> runs.Call:
    """Runs a plan in parts under an engine of examples/queue; the report is the joined one."""
    queue = next(folder for folder in QUEUES if os.path.isdir(folder))
    words = [job.plan_file(plan, sites), job.version.files, job.version.path]
    environment = {
        "PLATEROOM": os.path.abspath(shutil.which(job.program) or job.program),
        "TOOLS": os.path.join(HERE, ".."),
        "PARTS": os.path.abspath(job.version.file(f"{plan.name}.parts")),
        "RING": str(ring_of(plan.shape(), len(sites))),
    }
    with job.seconds.of("run"):
        return runs.call([os.path.join(queue, f"{engine}.sh"), *words], job.done.look, environment)
