"""From logs to verdicts: the command `cspwatch-logs`, which maps the lines of a log to reports and has them judged.

    python3 -m cspwatch_client.logs broker.toml broker.log

A map (a file of TOML) says which lines are which events and refusals. The manual page `cspwatch-logs(1)` describes maps,
options and what is printed. It needs Python 3.11 or later, and the program `cspwatch` or a server.
"""
