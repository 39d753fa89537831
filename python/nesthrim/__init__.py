"""Netlists of micropipelines, made and asked by a program.

    from nesthrim import Netlist

    n = Netlist(horizon=200)
    r, ack = n.wire("r"), n.wire("ack")
    stages = n.pipeline("s", 4, req=r, ack=ack)
    n.events(r, 1, 4)
    n.buf("sink", stages[-1].q, out=ack, delay=3)
    print(n.show())

All answers are those of the program `mpwb`, which is found as `find_program` says.
"""

from .answers.causes import Event, PathPart, Step, Wait
from .answers.latency import Latency
from .answers.measure import BundleMeasure, Measure, WireMeasure
from .answers.picture import Page, Picture
from .answers.report import BriefCheck, BusyNote, Check, Deadlock, Finding, Group, Late, Note, Report
from .answers.steady import Cycle, Steady
from .answers.waves import Wave, Waves
from .answers.work import MadeEdit, Outcome, Work
from .builder import Part
from .circuits import FifoStage
from .errors import (
    AnswerError,
    BrokenPipe,
    Closed,
    Fault,
    NesthrimError,
    NoEdit,
    NoSeat,
    OutOfMemory,
    PackageMissing,
    ProgramFailed,
    ProgramMissing,
    Refused,
    SystemFailed,
    UnknownName,
    Unread,
)
from .modules import Module, Pin
from .netlist import Netlist
from .program import Program, find_program
from .questions import END
from .seat import Desk, Seat
from .session import Session
from .stress import BundleStress, Differs, Fit, Limit, Moved, OpenOrder, Race, Races, Stress, Worst
from .sweep import sweep
from .variants import Variant
from .wires import Bundle, Port, Stimulus, Wire

__version__ = "0.1.0"

__all__ = [
    "END", "AnswerError", "BriefCheck", "BrokenPipe", "Bundle", "BundleMeasure", "BundleStress", "BusyNote", "Check", "Closed", "Cycle", "Deadlock",
    "Desk", "Differs", "Event", "Fault", "FifoStage", "Finding", "Fit", "Group", "Late", "Latency", "Limit", "MadeEdit", "Measure", "Module", "Moved",
    "NesthrimError", "Netlist", "NoEdit", "NoSeat", "Note", "OpenOrder", "OutOfMemory", "Outcome", "PackageMissing", "Page", "Part", "PathPart",
    "Picture", "Pin", "Port", "Program", "ProgramFailed", "ProgramMissing", "Race", "Races", "Refused", "Report", "Seat", "Session", "Steady", "Step",
    "Stimulus", "Stress", "SystemFailed", "UnknownName", "Unread", "Variant", "Wait", "Wave", "Waves", "Wire", "WireMeasure", "Work", "Worst",
    "find_program", "sweep",
]  # fmt: skip
