"""Random documents with each command: every text is compared with what the document means by the references."""

from support import flat, journal, reading, report
from support.assembly import goes_forward
from support.priority import deliver_text, order_text
from support.random_documents import made
from support.trials import Trial

DOCUMENTS, OF_ALL = 1000, 10_000
# How many documents are one trial.
TOGETHER = 20
# How many events of each tile a round adds at most.
ROUND_EVENTS = 17


def trials(options):
    number = OF_ALL if options.all else DOCUMENTS
    for first in range(0, number, TOGETHER):
        yield Trial(f"documents {first} to {first + TOGETHER - 1}", several, options.seed, range(first, first + TOGETHER))


def several(program, seed, numbers):
    for number in numbers:
        document = made(seed, number)
        try_document(program, document)


def try_document(program, document):
    """Tries each command: the texts are those that the references give, or each tells the first fault."""
    step = ["step", "--pace", str(document.pace), "--budget", str(document.budget)]
    run = ["run", "--budget", str(document.budget)]
    ends = {words[0]: program.run(words, document.data) for words in (["order"], ["deliver"], ["show"], step, run)}
    try:
        meant = reading.read(document.data)
    except reading.DocFault as fault:
        for end in ends.values():
            end.wants(2, b"", fault.line())
        return
    ends["order"].wants(0, order_text(meant))
    ends["deliver"].wants(0, deliver_text(meant))
    ends["show"].wants(0, meant.canonical_text())
    check_run(ends["step"], meant, document.budget, 0)
    check_run(ends["run"], meant, document.budget, ROUND_EVENTS * meant.tiles() - 1)


def check_run(end, document, budget, beyond):
    """That a run reported what every run of the document has to. Nothing of its schedule is asked, so any command that
    writes a report is checked by this. Its journal may have so many events more than the budget."""
    end.wants_one_of({0, 3})
    try:
        run = report.parse(end.text)
        wrong = next(_wrongs(run, document, budget, beyond, end.status), None)
    except (report.Malformed, flat.NoExecution, journal.NotEnabled) as cause:
        wrong = f"{type(cause).__name__}: {cause}"
    if wrong is not None:
        end.refuse(wrong)


def _wrongs(run, document, budget, beyond, status):
    """What is wrong with a report: the first is told."""
    yield from _wrong_end(run, document, budget, beyond, status)
    yield from _wrong_requests(run, document)
    yield from _wrong_accesses(run, document)


def _wrong_end(run, document, budget, beyond, status):
    if run.ended != {0: "finished", 3: "budget"}[status]:
        yield f"it ended {run.ended} with status {status}"
    if len(run.journal) > budget + beyond or (status == 3 and len(run.journal) < budget):
        yield f"{len(run.journal)} events, and a budget of {budget}"
    if all(map(goes_forward, document.programs.values())):
        bound = document.bound()
        if len(run.journal) > bound or (status == 3 and budget >= bound):
            yield f"{len(run.journal)} events, where there are at most {bound}"


def _wrong_requests(run, document):
    """The networks, done again from the journal: the order, what each tile has delivered, windows and hops."""
    again = journal.Replay(document)
    for at, event in enumerate(run.journal):
        try:
            again.do(event)
        except journal.NotEnabled as cause:
            yield f"event {at}, {' '.join(event)}: {cause}"
            return
    if again.order != [(source, number) for source, number, _, _ in run.requests]:
        yield "the requests are not those of the journal's windows by the rotating priority"
    if again.seen != run.seen:
        yield "the tiles have not seen as many requests as they delivered by the journal"
    if (len(again.ends) - 1, again.hops) != (run.windows, run.hops):
        yield "windows or hops are not those of the journal"
    if run.ended == "finished" and set(run.seen) != {len(run.requests)}:
        yield "finished, and a tile has not seen all requests"


def _wrong_accesses(run, document):
    """The accesses are a sequential execution that ends in the printed memory, in the order of times."""
    places = [(access.time, access.tile, access.number) for access in run.accesses]
    if places != sorted(set(places)):
        yield "the accesses are not in the order of times, tiles and numbers"
    if any(access.time > run.seen[access.tile] for access in run.accesses):
        yield "an access has a time past what its tile has seen"
    memory = flat.run(document, run)
    if run.memory != (memory if run.ended == "finished" else []):
        yield "the printed memory is not the one that the accesses leave"
