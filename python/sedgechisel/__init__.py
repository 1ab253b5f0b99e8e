"""Sedgechisel for Python: both ends of the CCSDS telecommand link with COP-1, over a library whose calls are proved.
(The package itself, and the portable C that `pip` compiles from the sources, are tested, not proved.)

- Codecs: the FECF of frames, telecommand frames (`TcFrame`), space packets (`Packet`), CLCWs (`Clcw`) and
  telemetry frames (`TmFrame`).
- Machines: the receiver FARM-1 (`Farm`), the sender FOP-1 (`Fop`), packets in segments (`Map`, `segments`), and packets
  in telemetry frames (`TmBuilder`, `TmExtractor`). `GapCheck` counts missing packets.
- Nodes: the ground (`Ground`) and the spacecraft (`Spacecraft`), with their queues, and the simulated link between them
  (`Link`).
- Commands over restarts: the board's part (`Executor`), the ground's (`Commander`), and for a ground of your own the
  status, commands and orders (`BoardStatus`, `command_packet`, `restart_order`, `rebuild_order`, `history_after`).
- Files: `read_frames` reads telemetry frames.
- Old names, which cause a DeprecationWarning and will be removed after 0.3: `Farm.report` (now `control_word`),
  `Fop.report` (now `clcw`), `Ground.report_in` (now `clcw_in`), `Spacecraft.report` (now `telemetry_frame`),
  `Report.NONE` and `Report.OTHER` (now `REFUSED` and `OTHER_CHANNEL`).

Octets that a call takes are `bytes`, `bytearray` or `memoryview` (`Octets`), and those that it returns are `bytes`. A
call that the library refuses raises a `Fault` of the class for its kind, with the number and the name in the C headers,
and the meaning. The number is a member of an enumeration: `fault.number is TcFault.Number.CHECK`. `take` and `take_all`
return named tuples. The fields of structs are those of the C headers; a number that does not fit its field raises an
OverflowError. The standards are CCSDS 133.0-B-2 (space packets), 132.0-B-3 (telemetry), 232.0-B-4 (telecommand) and
232.1-B-2 (COP-1)."""
from ._calls import (
    NO_START, ONLY_IDLE, Alert, Assembled, Clcw, Command, Control, Extracted, Farm, Flags, Fop, GapCheck, Kind, Map, Mode,
    Next, Packet, PacketKind, Segment, SequenceFlags, State, TakenFrame, TcFrame, TmBuilder, TmExtractor, TmFrame, Verdict,
    accepted_beyond, check, check_append, check_holds, segments, version)
from ._commanding import Commander, CommanderAction, CommanderActionKind, GroundReading, Mission, Progress
from ._faults import (
    CheckFault, ClcwFault, CopFault, Fault, LedgerFault, LinkFault, LogFault, MapFault, PacketFault, SimFault, TcFault,
    TelemetryFault, TmFault)
from ._files import read_frames
from ._library import Octets
from ._link import Begun, Link
from ._log import (
    Action, ActionKind, BoardStatus, Executor, StatusKind, command_packet, history_after, new_record, rebuild_order,
    restart_order)
from ._nodes import Arrived, Config, ConfigFault, Ground, Heard, KeptGround, Received, Report
from ._spacecraft import KeptNumbers, OnMap, Spacecraft

__version__ = version
__all__ = [
    "NO_START", "ONLY_IDLE", "Action", "ActionKind", "Alert", "Arrived", "Assembled", "Begun", "BoardStatus",
    "CheckFault", "Clcw", "ClcwFault", "Command", "Commander", "CommanderAction", "CommanderActionKind", "Config",
    "ConfigFault", "Control", "CopFault", "Executor", "Extracted", "Farm", "Fault", "Flags", "Fop", "GapCheck",
    "Ground", "GroundReading", "Heard", "KeptGround", "KeptNumbers", "Kind", "LedgerFault", "Link", "LinkFault",
    "LogFault", "Map", "MapFault", "Mission", "Mode", "Next", "Octets", "OnMap", "Packet", "PacketFault",
    "PacketKind", "Progress", "Received", "Report", "Segment", "SequenceFlags", "SimFault", "Spacecraft", "State",
    "StatusKind", "TakenFrame", "TcFault", "TcFrame", "TelemetryFault", "TmBuilder", "TmExtractor", "TmFault",
    "TmFrame", "Verdict", "accepted_beyond", "check", "check_append", "check_holds", "command_packet",
    "history_after", "new_record", "read_frames", "rebuild_order", "restart_order", "segments", "version"]
