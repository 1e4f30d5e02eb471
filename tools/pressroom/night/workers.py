"""The jobs that are under way, and the tasks that they do: started up to a limit, heard when they answer, ended in time."""
import os
import selectors
from collections.abc import Callable, Iterator
from dataclasses import dataclass

from pressroom.night import answers, scheduler
from pressroom.night.records import Job, Runner
from pressroom.night.tasks import LookTask, PageTask, PlatesTask, Room, SendTask, Task, WholeTask


@dataclass
class Slots:
    """The most jobs of each kind at a time. Sites have one each."""

    pages: int = max(1, (os.cpu_count() or 1) - 1)
    plates: int = max(1, (os.cpu_count() or 1) // 2)


class Workers:
    """Jobs by the handle of their socket, each with its task."""

    def __init__(
        self, room: Room, runner: Runner, selector: selectors.BaseSelector, slots: Slots | None = None
    ):
        self.room, self.runner, self.selector = room, runner, selector
        self.slots = slots or Slots()
        self.running: dict[int, tuple[Job, Task]] = {}

    def busy(self, *kinds: type[object]) -> set[str]:
        """Returns the keys of the tasks under way of some kinds."""
        return {task.key for _, task in self.running.values() if isinstance(task, kinds)}

    def start_due(self, timeout: float) -> int:
        """Starts all that is due and has room. Returns how many jobs were started."""
        return sum(self.start(make()) for make in self.due(timeout))

    def due(self, timeout: float) -> Iterator[Callable[[], Task]]:
        """Yields what is due, in the order in which it is started."""
        book, room = self.room.book, self.room
        for send in scheduler.site_work(book, self.busy(SendTask, LookTask), room.looks, timeout):
            if isinstance(send, scheduler.SendWork):
                yield lambda work=send: SendTask(room, work)  # type: ignore[misc]
            else:
                yield lambda work=send: LookTask(room, work)  # type: ignore[misc]
        plates = self.busy(PlatesTask)
        for pair in scheduler.plates_work(book, plates, self.slots.plates):
            yield lambda work=pair: PlatesTask(room, work)  # type: ignore[misc]
        for whole in scheduler.whole_work(book, self.busy(WholeTask), 1):
            yield lambda work=whole: WholeTask(room, work)  # type: ignore[misc]
        for page in scheduler.page_work(book, self.busy(PageTask), self.slots.pages):
            yield lambda work=page: PageTask(room, work)  # type: ignore[misc]

    def start(self, task: Task) -> bool:
        """Starts a task. Returns whether it is under way."""
        job = None
        try:
            job = self.runner.start(task.kind)
            asked = task.begin(job)
        except OSError as error:
            if job is not None:
                job.stop()
            task.failed(f"can't begin: {fault_of(error)}", False)
            return False
        if not asked:
            job.stop()
            return False
        self.running[job.fileno()] = (job, task)
        self.selector.register(job.fileno(), selectors.EVENT_READ, self)
        return True

    def heard(self, handle: int) -> None:
        """Takes what a job says, or its end."""
        job, task = self.running[handle]
        try:
            answer = job.answer()
        except BlockingIOError:
            return
        if answer is None:
            self.forget(handle)
            job.stop()
            task.failed(job.why, "SIGXCPU" in job.why)
            return
        # A job that is stopped by its task closes the handle, which must not be watched then.
        self.forget(handle)
        try:
            done = task.answered(job, answer)
        except answers.Wrong as error:
            done = True
            task.failed(f"a job's answer has wrong {error}", False)
        except OSError as error:
            done = True
            task.failed(fault_of(error), False)
        if done:
            job.stop()
            return
        self.running[job.fileno()] = (job, task)
        self.selector.register(job.fileno(), selectors.EVENT_READ, self)

    def forget(self, handle: int) -> None:
        self.selector.unregister(handle)
        del self.running[handle]

    def end_late(self) -> None:
        """Ends the jobs whose time is over."""
        for handle, (job, task) in list(self.running.items()):
            if job.late():
                self.forget(handle)
                job.stop()
                task.failed("no answer in time", True)

    def stop(self) -> None:
        """Ends all jobs; the next service takes up their work."""
        for handle, (job, _) in list(self.running.items()):
            self.forget(handle)
            job.stop()


def fault_of(error: OSError) -> str:
    """Returns the text of an error of the machine, with its file."""
    name = error.filename2 or error.filename
    words = error.strerror or str(error)
    return answers.clean(f"{name}: {words}" if name else words)
