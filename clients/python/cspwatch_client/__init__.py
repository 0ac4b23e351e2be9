"""A client of cspwatch: reports events and refusals of a running system, and reads the verdicts.

    from cspwatch_client import Client

    with Client("127.0.0.1:4050") as client:
        assert client.event("approach")
        assert client.event("gate.down")
        print(client.next())

`docs/PROTOCOL.md` of the project describes the lines that are sent and the replies to them.
"""
from .asynchronous import AsyncClient
from .client import Client
from .reconnecting import ReconnectingClient
from .replies import BadReply, CspwatchError, Fault, FaultCode, NoReply, OtherReports, Status, Verdict, VerdictLost
from .running import Checker, Outcome, Server, StartFailed
from .shown import BadLine

__version__ = "0.7.0.dev0"

__all__ = [
    "AsyncClient",
    "BadLine",
    "BadReply",
    "Checker",
    "Client",
    "CspwatchError",
    "Fault",
    "FaultCode",
    "NoReply",
    "OtherReports",
    "Outcome",
    "ReconnectingClient",
    "Server",
    "StartFailed",
    "Status",
    "Verdict",
    "VerdictLost",
]
