"""A CANopen device (CiA 301) made from its electronic data sheet (CiA 306), over the library libbafokun.so.

    import bafokun

    node = bafokun.Node.from_sheet("examples/temperature-sensor.eds", 5)
    node.boot()                                 # [Frame(id=0x705, data=b"\\x00")]
    node["AI input PV 1"] = 215                 # what the application measures
    node.take((0x605, bytes.fromhex("4030710100000000")))
    node.tick(1000)                             # a second passes: the heartbeat

`run` and `running` put a node on a bus of python-can. docs/PYTHON.md has the rest.
"""

from .bus import run, running
from .entry import Entry
from .faults import BuildFault, Fault, Refused, SheetFault
from .frame import AnyFrame, Frame
from .node import BusChange, Events, Node, State
from .values import DataType, Value
from .version import __version__

__all__ = [
    "AnyFrame",
    "BuildFault",
    "BusChange",
    "DataType",
    "Entry",
    "Events",
    "Fault",
    "Frame",
    "Node",
    "Refused",
    "SheetFault",
    "State",
    "Value",
    "__version__",
    "run",
    "running",
]
