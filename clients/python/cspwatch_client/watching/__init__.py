"""Watching a running monitor: the commands `cspwatch-metrics`, for Prometheus, and `cspwatch-web`, a live page.

    python3 -m cspwatch_client.watching.metrics shop.journal --log shop.log
    python3 -m cspwatch_client.watching.web shop.journal

Both follow a journal by `cspwatch show --follow --format json`, and write nothing. They need Python 3.11 or later, and of Debian
`python3-prometheus-client` or `python3-aiohttp`.
"""
