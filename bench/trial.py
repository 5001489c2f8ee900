"""A rule played on a router: its verdict, what came, and the frames."""

import time
from dataclasses import asdict, dataclass, field

import pcapng
from space import Broken
from stage import LINKS, Stage, rest
from verdicts import AS_RFC, BROKEN, DIFFERS, OPEN, Differs


@dataclass
class Result:
    """What became of a rule."""

    name: str
    section: str
    says: str
    verdict: str = BROKEN
    came: str = ""
    step: str = ""
    """The step at which the router differs."""
    seconds: float = 0
    frames: list = field(default_factory=list)

    def record(self):
        """It as a record of JSON, without frames."""
        self.seconds = round(self.seconds, 1)
        return {key: value for key, value in asdict(self).items() if key != "frames"}


def steps_of(rule, stage, result):
    """Plays the steps, and leaves the verdict. What the last step saw counts, and whatever was open before it."""
    open_text = ""
    for step in rule.steps:
        result.step = str(step)
        rest(0)
        try:
            seen = step.run(stage)
        except Differs as other:
            result.verdict, result.came = DIFFERS, str(other)
            return
        if seen:
            result.came = seen.text
            open_text = seen.text if seen.is_open else open_text
    result.verdict, result.step = (OPEN if open_text else AS_RFC), ""
    result.came = open_text or result.came


def play(rule, router, folder):
    """Plays a rule on a router of its own."""
    result, begun, stage = Result(rule.name, rule.section, rule.says), time.monotonic(), None
    try:
        rest(0)
        stage = Stage(router, folder, rule.mtu)
        stage.ready()
        steps_of(rule, stage, result)
    except (Broken, OSError) as fault:
        result.verdict, result.came = BROKEN, str(fault)
    finally:
        if stage:
            result.frames = list(stage.tap.frames) if stage.tap else []
            stage.close()
    result.seconds = time.monotonic() - begun
    return result


def kept(result, folder, version):
    """Writes what was on the links while a rule was played."""
    comment = f"{result.name}, RFC 2080, section {result.section}: {result.says} {version}: {result.verdict}: {result.came}"
    path = folder / f"{result.name}.pcapng"
    path.write_bytes(pcapng.capture(result.frames, list(LINKS), comment))
    return path
