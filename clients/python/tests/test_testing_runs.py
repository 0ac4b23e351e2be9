"""Runs and campaigns in this process: what is reported and when, coroutines, what is tried, flaky systems, what is kept."""
import asyncio
import os
import resource
import sys
import time
import unittest

sys.path[:0] = [os.path.dirname(os.path.abspath(__file__))]

from testing_folder import NEEDS, NEEDS_HYPOTHESIS, NEEDS_PROGRAM, InFolder  # noqa: E402

SWITCH = "channel on, off\nP = on -> off -> P\n"
MOODY = "channel ask, yes\nP = ask -> P |~| yes -> P\n"

STEPS_A_SECOND = 500
"""How many steps are done in a second of the processor at least; a machine that does nothing else does several thousand."""

if sys.version_info >= (3, 11):
    from cspwatch_client.testing import AdapterFault, Failure, Refused, does
    from testing_systems import Small, TooMany, TwoClients, WrongState


def on():
    return does("on")(lambda self: None)


def off():
    return does("off")(lambda self: None)


def small(**members):
    """A system with these members beside those of `Small`."""
    return type("System", (Small,), members)(planted=False)


@NEEDS
@NEEDS_PROGRAM
class Runs(InFolder):
    def played(self, adapter, script, *inputs):
        """The run in which these inputs are done."""
        return self.system(adapter, script).play(lambda run: [run.do(event) for event in inputs])

    def failure(self, adapter, script, *inputs):
        """The failure to which these inputs lead: its kind, and the reports."""
        with self.assertRaises(Failure) as raised:
            self.played(adapter, script, *inputs)
        return raised.exception.kind, "/".join(raised.exception.reports)

    def test_what_is_reported(self):
        run = self.played(TooMany(planted=False), TooMany.script, "coin", "coin")
        self.assertEqual(run.lines, ["E coin", "E drink", "E coin", "E drink"])
        self.assertEqual((run.reports, run.outputs, run.refused, run.next), (7, 2, 0, ("coin",)))

    def test_the_kinds_of_failures(self):
        self.assertEqual(self.failure(WrongState(planted=True), WrongState.script, "open", "knock"), ("may", "E open/E knock/E bell"))
        silent = small(outputs=["bell"], open=does("open")(lambda self: None), knock=does("knock")(lambda self: None))
        self.assertEqual(self.failure(silent, WrongState.script, "knock"), ("must", "E knock/R bell"))
        self.assertEqual(self.failure(small(on=on(), off=off()), SWITCH, "off"), ("taken", "E off"))

        def refuse(self):
            raise Refused

        self.assertEqual(self.failure(small(on=does("on")(refuse), off=off()), SWITCH, "on"), ("refused", "R on"))

    def test_a_quiet_system_refuses_an_input_and_all_outputs_at_once(self):
        # MOODY may refuse the question, and it may say nothing, but not both in one state.
        def refuse(self):
            raise Refused

        sullen = small(outputs=["yes"], ask=does("ask")(refuse))
        self.assertEqual(self.failure(sullen, MOODY, "ask"), ("refused", "R ask yes"))

    def test_outputs_at_the_beginning_are_taken(self):
        class Eager(Small):
            outputs = ["on"]
            off = does("off")(lambda self: None)

            def begin(self):
                self.out.append("on")

        self.assertEqual(self.played(Eager(False), SWITCH).lines, ["E on"])

    def test_a_refused_input_is_tried_again_by_a_replay(self):
        from cspwatch_client.testing.adapters import Adapter
        from cspwatch_client.testing.replaying import ReplayFault, replay_of

        adapter = Adapter(WrongState(False), ["open", "close", "knock", "bell"], "a.py")
        path = self.file("run", "E open\nR close bell\nE knock\nE bell\n")
        self.assertEqual(list(replay_of(path, adapter).inputs), ["open", "close", "knock"])
        for text, wanted in (
            ("E open\nE rain\n", "run:2: 'rain' is neither an input nor an output of a.py"),
            ("E open\r\n", "run:1: 'open\\r' is neither"),
            ("on\n", "run:1: 'on' is no report"),
            ("E open close\n", "run:1: 'E open close' is no report"),
            (b"E \xff\n", "run:1: '\\\\xff' is neither"),
            ("R bell\n", "run: it has no input of a.py"),
            ("", "run: it has no input of a.py"),
        ):
            with self.assertRaises(ReplayFault) as raised:
                replay_of(self.file("run", text), adapter)
            self.assertIn(wanted, str(raised.exception).replace(self.folder + os.sep, ""))

    def test_coroutines(self):
        class Later(Small):
            """Its output comes by a task of the event loop."""

            outputs = ["off"]
            quiet = "50ms"

            async def reset(self):
                self.queue = asyncio.Queue()

            @does("on")
            async def on(self):
                asyncio.get_running_loop().call_later(0.005, self.queue.put_nowait, "off")

            async def observe(self, wait):
                try:
                    return [await asyncio.wait_for(self.queue.get(), wait)]
                except asyncio.TimeoutError:
                    return []

        self.assertEqual(self.played(Later(False), SWITCH, "on", "on").lines, ["E on", "E off", "E on", "E off"])

    def test_a_call_that_hangs_is_interrupted(self):
        from cspwatch_client.testing.calls import Hung

        for hang in (lambda self: time.sleep(60), lambda self: asyncio.sleep(60)):
            system = self.system(small(on=on(), off=does("off")(hang)), SWITCH, timeout=0.2)
            with self.assertRaises(Hung) as raised:
                system.play(lambda run: [run.do("on"), run.do("off")])
            self.assertEqual(str(raised.exception), "off: no answer within 0.2 s")
            self.assertEqual(system.run.lines, ["E on"])

    def test_what_observe_may_give(self):
        for seen, wanted in (("bell", "gives a list"), (5, "gives a list"), (["rain"], "'rain', which is no event"), (["open"], "'open', which")):
            system = small(outputs=["bell"], open=does("open")(lambda self: None), observe=lambda self, wait: seen)
            with self.assertRaisesRegex(AdapterFault, wanted):
                self.played(system, WrongState.script)
        system = small(outputs=["bell"], open=does("open")(lambda self: None), observe=lambda self, wait: None)
        with self.assertRaises(Failure):
            self.played(system, "channel open, bell\nP = bell -> P\n")

    def test_an_event_that_nobody_does(self):
        with self.assertRaisesRegex(AdapterFault, r"on may come, which is neither .* hide it in the process: \\ \{\| on \|\}"):
            self.played(small(off=off()), SWITCH)


@NEEDS
@NEEDS_PROGRAM
class Adapters(InFolder):
    def fault(self, **members):
        with self.assertRaises(AdapterFault) as raised:
            self.system(small(**members), "channel on, off\nchannel put : {0..2}\nP = on -> off -> P\n")
        return str(raised.exception)

    def test_what_is_wrong_with_an_adapter(self):
        def put(form):
            return does(form)(lambda self, x: None)

        for members, wanted in (
            ({}, "adapter: there is no input: does() marks no function"),
            ({"on": does("an")(lambda self: None)}, "adapter: the script has no channel 'an'"),
            ({"put": put("put.{x")}, "does('put.{x'): the brace at 5 belongs to no field"),
            ({"put": put("put.3")}, "does('put.3'): the script has no such event"),
            ({"put": put("put.{y}")}, "does('put.{y}'): the function doesn't take what it is called with"),
            ({"a": put("put.{x}"), "b": does("put.1")(lambda self: None)}, "two functions do put.1"),
            ({"on": on(), "outputs": ["on"]}, "the channel 'on' is an output, and an input by does()"),
            ({"on": on(), "outputs": ["of"]}, "the script has no channel 'of'"),
            ({"on": on(), "outputs": "off"}, "outputs is a list of channels, not 'off'"),
            ({"on": on(), "outputs": ["off"], "observe": None}, "the function observe() is missing"),
            ({"on": on(), "outputs": ["off"], "observe": lambda self: []}, "observe() doesn't take what it is called with"),
            ({"on": on(), "reset": 3}, "the function reset() is missing"),
            ({"on": on(), "quiet": "soon"}, "quiet: a time is a number with ms, s, m or h"),
        ):
            self.assertIn(wanted, self.fault(**members), members)

    def test_values_of_fields(self):
        from cspwatch_client.testing.adapters import Adapter

        given = []
        source = small(put=does("put.{n}.{f}")(lambda self, n, f: given.append((n, f))))
        adapter = Adapter(source, ["put.-1.a", "put.0.true", "off"], "a.py")
        for found in adapter.inputs.values():
            found.call()
        self.assertEqual(given, [(-1, "a"), (0, "true")])

    def test_times(self):
        from cspwatch_client.testing.durations import seconds_of

        self.assertEqual([seconds_of(text) for text in ("200ms", "1.5s", "2m", "1h", "3", 0, 0.25)], [0.2, 1.5, 120, 3600, 3, 0, 0.25])
        for text in ("", "s", "-1s", "1 d", "1e3", True):
            self.assertRaises(ValueError, seconds_of, text)


@NEEDS
class Choosing(unittest.TestCase):
    def test_of_two_inputs_the_one_is_done_that_was_done_less(self):
        from cspwatch_client.testing.choices import Choices

        inputs = ["a", "b", "c"]
        for done, wanted in (({"a": 5}, "b"), ({"b": 5}, "a"), ({}, "a")):
            # The number 1 + 0 + 3 * 2 names the first input and the second one.
            self.assertEqual(Choices(inputs, done, robust=False).input(7, set(inputs)), wanted)

    def test_only_what_is_allowed_is_done(self):
        from cspwatch_client.testing.choices import NUMBERS, Choices

        for number in range(1, NUMBERS, 97):
            self.assertIn(Choices(["a", "b", "c"], {}, robust=False).input(number, {"b"}), ("b", None))
            self.assertIsNone(Choices(["a", "b", "c"], {}, robust=False).input(number, set()))

    def test_robust_tries_all(self):
        from cspwatch_client.testing.choices import NUMBERS, Choices

        done = {Choices(["a", "b", "c"], {"b": 9}, robust=True).input(number, {"b"}) for number in range(1, NUMBERS, 97)}
        self.assertEqual(done, {"a", "b", "c"})

    def test_small_numbers_name_one_input_whatever_was_done(self):
        from cspwatch_client.testing.choices import Choices

        for done in ({}, {"a": 9}, {"b": 9}):
            self.assertEqual([Choices(["a", "b"], done, robust=False).input(number, {"a", "b"}) for number in (1, 2)], ["a", "b"])


@NEEDS
@NEEDS_PROGRAM
@NEEDS_HYPOTHESIS
class Campaigns(InFolder):
    def test_a_system_that_fails_once_is_called_flaky(self):
        class Once(TooMany):
            """Its fault is in no run but one."""

            runs = 0

            def begin(self):
                super().begin()
                type(self).runs += 1
                self.planted = self.runs == 20

        result = self.campaign(Once(False), Once.script, runs=100, seed=1)
        self.assertTrue(result.finding.flaky)
        self.assertEqual((result.finding.reports[-1], result.status()), ("E drink", 1))

    def test_a_state_that_reset_leaves_is_flaky(self):
        class Left(Small):
            """Its twentieth coin since the program began is refused, and `reset` doesn't begin anew."""

            coins = 0

            @does("coin")
            def coin(self):
                self.coins += 1
                if self.coins == 20:
                    raise Refused

        result = self.campaign(Left(False), "channel coin\nP = coin -> P\n", runs=100, seed=1)
        self.assertEqual((result.finding.kind, result.finding.flaky), ("refused", True))

    def test_a_system_that_may_choose_is_not_flaky(self):
        class Choosy(Small):
            """Its answers differ from run to run, as they may."""

            outputs = ["yes", "no"]
            asked = 0

            @does("ask")
            def ask(self):
                self.asked += 1
                self.out.append("yes" if self.asked % 3 == 0 else "no")

        script = "channel ask, yes, no, more\nP = ask -> (yes -> P |~| no -> STOP)\n"
        result = self.campaign(Choosy(False), script, runs=200, seed=1)
        self.assertEqual((result.finding, result.stopped, result.runs, result.status()), (None, None, 200, 0))

    def test_a_failing_run_is_kept_and_played_first(self):
        wishes = {"runs": 200, "database": self.path("kept")}
        first = self.campaign(TwoClients(True), TwoClients.script, seed=1, **wishes)
        second = self.campaign(TwoClients(True), TwoClients.script, seed=2, **wishes)
        # The first run of all is that without an input.
        self.assertEqual((second.runs, second.finding.reports), (2, first.finding.reports))
        repaired = self.campaign(TwoClients(False), TwoClients.script, seed=3, **wishes)
        self.assertEqual((repaired.finding, repaired.status()), (None, 0))

    def test_the_same_seed_makes_the_same_runs(self):
        played = [self.campaign(TwoClients(False), TwoClients.script, runs=60, steps=10, seed=seed) for seed in (1, 1, 2)]
        counts = [(one.steps, one.coverage.came) for one in played]
        self.assertEqual(counts[0], counts[1])
        self.assertNotEqual(counts[0], counts[2])

    def test_what_was_done_least_is_done_more_often(self):
        # `rare` may be done after `deep` alone, where 20 other inputs may be done too.
        script = "channel common : {0..19}\nchannel deep, rare\nP = deep -> Q [] common?x -> P\nQ = rare -> P [] common?x -> P\n"
        members = {"common": does("common.{x}")(lambda self, x: None), "deep": does("deep")(lambda self: None), "rare": does("rare")(lambda self: None)}
        came = self.campaign(small(**members), script, runs=150, seed=1).coverage.came
        evenly = came["deep"] / 21
        self.assertGreater(came["rare"], 1.5 * evenly)

    def test_robust(self):
        class Careless(WrongState):
            def set(self, is_open):
                self.is_open = is_open

        self.assertIsNone(self.campaign(Careless(False), Careless.script, runs=50, seed=1).finding)
        found = self.campaign(Careless(False), Careless.script, runs=50, seed=1, robust=True).finding
        self.assertEqual((found.kind, found.reports), ("taken", ("E close",)))
        self.assertIsNone(self.campaign(WrongState(False), WrongState.script, runs=50, seed=1, robust=True).finding)

    def test_a_campaign_that_tests_nothing_is_not_green(self):
        def refuse(self):
            raise Refused

        lazy = "channel on, off\nP = on -> P |~| STOP\n"
        for members, script, wanted in (
            ({"on": on()}, "channel on, off\nP = STOP\n", "nothing was tested: the specification offered no input of the adapter"),
            ({"on": does("on")(refuse)}, lazy, "nothing was tested: the system refused every input"),
            ({"on": on(), "outputs": ["off"]}, "channel on, off\nP = on -> (P |~| off -> P)\n", "no output was tested: observe() gave none"),
        ):
            result = self.campaign(small(**members), script, runs=5, seed=1)
            self.assertEqual((result.not_judged(), result.status(), result.finding), (wanted, 2, None))

    def test_a_limit_ends_it(self):
        result = self.campaign(small(on=on()), "channel on\nP = on -> (P ||| P)\n", runs=50, seed=1)
        self.assertEqual(result.status(), 6)
        self.assertRegex(result.stopped.text, "a limit was met: the next report was answered ERR 2[01]")

    def test_it_is_fast_and_takes_no_more_memory_as_it_goes_on(self):
        system = self.system(TooMany(False), TooMany.script)
        from cspwatch_client.testing.campaigns import Campaign, Wishes

        Campaign(system, Wishes(runs=25, seed=1)).play()
        before, began = resource.getrusage(resource.RUSAGE_SELF).ru_maxrss, time.process_time()
        result = Campaign(system, Wishes(runs=260, seed=1)).play()
        seconds = time.process_time() - began
        self.assertGreater(result.steps, 9000)
        self.assertLess(resource.getrusage(resource.RUSAGE_SELF).ru_maxrss - before, 4096, "kB")
        self.assertGreater(result.steps / seconds, STEPS_A_SECOND)


@NEEDS
@NEEDS_PROGRAM
@NEEDS_HYPOTHESIS
class Machines(InFolder):
    def test_a_machine_for_pytest(self):
        from hypothesis import settings
        from hypothesis.stateful import run_state_machine_as_test

        from cspwatch_client.testing.machines import machine
        from testing_folder import program

        script = self.file("p.csp", TwoClients.script)
        quick = settings(max_examples=20, database=None, deadline=None)
        run_state_machine_as_test(machine(script, "P", TwoClients(False), program()), settings=quick)
        with self.assertRaises(Failure) as raised:
            run_state_machine_as_test(machine(script, "P", TwoClients(True), program()), settings=quick)
        self.assertIn("/".join(raised.exception.reports), TwoClients.shortest)
        self.assertIn("expected", str(raised.exception).splitlines()[0])


if __name__ == "__main__":
    unittest.main()
