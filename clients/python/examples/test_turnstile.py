"""A system under test that reports what it does. Run by `pytest` in this folder, with the package `cspwatch_client` installed."""


class Turnstile:
    """The system under test: it reports each event at the moment when it happens."""

    def __init__(self, report):
        self.report = report
        self.unlocked = False

    def coin(self):
        self.report("coin")
        self.unlocked = True

    def push(self):
        if self.unlocked:
            self.report("push")
            self.unlocked = False


def reporter(client):
    def report(name):
        verdict = client.event(name)
        assert verdict, "%s may not happen here; next: %s" % (name, ", ".join(client.next()))

    return report


def test_a_coin_lets_one_person_in(monitor):
    turnstile = Turnstile(reporter(monitor))
    turnstile.push()
    turnstile.coin()
    turnstile.push()
    turnstile.push()
    assert monitor.status().events == 2


def test_a_locked_turnstile_refuses_a_push(monitor):
    assert monitor.refusal(["push"])
    assert monitor.event("coin")
    assert not monitor.refusal(["push"])


def test_two_components(server):
    with server.client() as slot, server.client() as arm:
        assert slot.event("coin")
        assert arm.event("push")
        assert not arm.event("push")
        assert arm.status().rejected == 1
