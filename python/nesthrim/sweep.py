"""One question to many variants of a netlist."""

from __future__ import annotations

import traceback
from concurrent.futures import BrokenExecutor, Executor, Future
from dataclasses import dataclass
from functools import partial
from typing import Any, Callable, Iterable, List, Optional, Sequence, Tuple, Union

from .errors import Fault
from .netlist import Netlist
from .variants import Variant, Workspace

Edits = Union[str, Sequence[str]]
Question = Union[str, Callable[[Variant], Any]]
Chunk = Sequence[Tuple[str, ...]]

# how many chunks an executor is given: more than it has workers, so that fast ones take more of them
_CHUNKS = 64

# how often a chunk is submitted before what the executor raises is raised
_TRIES = 4


def sweep(
    netlist: Netlist, edits: Iterable[Edits], question: Question, executor: Optional[Executor] = None, *, chunk: Optional[int] = None, keep_faults: bool = False
) -> List[Any]:
    """The answers to a question for variants of a netlist, in the order of `edits`: each has the edits of a variant, a line or several.

    `question` is a line as in a script, as "measure 0 100", whose answer is an object, or a function of a `Variant`. Without an executor all
    variants are asked in one session. Else chunks of `chunk` variants go through `executor`, any `concurrent.futures.Executor`, and each chunk
    is asked in a session of its own; a function has to be one that the executor can send to its workers. A chunk that the executor loses is
    submitted again, up to three times, unless the executor is broken.

    `Refused` or `Unread` for the first variant that isn't taken; with `keep_faults` the exception is in the list instead of its answer. A fault
    of the netlist itself is raised in any case.
    """
    if isinstance(edits, str):
        raise TypeError(f"edits are a list that has the edits of each variant, and not one line: [{edits!r}]")
    variants = [(each,) if isinstance(each, str) else tuple(each) for each in edits]
    if executor is None:
        return _answer_chunk(netlist, question, keep_faults, variants)
    size = max(1, -(-len(variants) // _CHUNKS)) if chunk is None else chunk
    if size < 1:
        raise ValueError(f"a chunk has 1 variant or more, and not {size}")
    chunks = [variants[at : at + size] for at in range(0, len(variants), size)]
    return _by_executor(executor, chunks, partial(_try_chunk, netlist, question, keep_faults))


def _by_executor(executor: Executor, chunks: Sequence[Chunk], call: Callable[[Chunk], _ChunkResult]) -> List[Any]:
    """The answers for all chunks, in their order."""
    tasks: List[Future[_ChunkResult]] = []

    def submit(chunk: Chunk) -> Future[_ChunkResult]:
        tasks.append(executor.submit(call, chunk))
        return tasks[-1]

    try:
        first = [submit(chunk) for chunk in chunks]
        return [answer for task, chunk in zip(first, chunks) for answer in _answers_of(task, partial(submit, chunk))]
    finally:
        for task in tasks:
            task.cancel()


class WorkerTraceback(Exception):
    """Where in a worker an exception was raised, as the cause of this exception."""

    def __str__(self) -> str:
        return f"in a worker:\n{self.args[0]}"


@dataclass(frozen=True)
class _ChunkResult:
    """What a worker gives back: answers, or what was raised for them. So what an executor raises is its own."""

    answers: List[Any]
    raised: Optional[Exception] = None
    trace: str = ""


def _try_chunk(netlist: Netlist, question: Question, keep_faults: bool, variants: Chunk) -> _ChunkResult:
    try:
        return _ChunkResult(_answer_chunk(netlist, question, keep_faults, variants))
    except Exception as error:
        return _ChunkResult([], error, traceback.format_exc())


def _answers_of(task: Future[_ChunkResult], again: Callable[[], Future[_ChunkResult]]) -> List[Any]:
    """The answers of a chunk. It is submitted again if the executor loses it, as when a worker ends while its answers are on their way."""
    for tries_left in reversed(range(_TRIES)):
        try:
            result = task.result()
        except BrokenExecutor:
            raise
        except Exception:
            if not tries_left:
                raise
            task = again()
            continue
        if result.raised is not None:
            raise result.raised from WorkerTraceback(result.trace)
        return result.answers
    raise AssertionError("the last try returns or raises")


def _answer_chunk(netlist: Netlist, question: Question, keep_faults: bool, variants: Chunk) -> List[Any]:
    """The answers for some variants, in one session."""
    workspace = Workspace(netlist)
    try:
        return [_answer(workspace, edits, question, keep_faults) for edits in variants]
    finally:
        workspace.close()


def _answer(workspace: Workspace, edits: Tuple[str, ...], question: Question, keep_faults: bool) -> Any:
    try:
        with workspace.variant(edits) as variant:
            return variant.answer(question) if isinstance(question, str) else question(variant)
    except Fault as fault:
        if fault.line is not None or not keep_faults:
            raise
        return fault
