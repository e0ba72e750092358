"""Probes: they show a counter of the controller through driven levels alone.

The kind of an error flag, active or passive, and suspend transmission show whether a counter has reached its limit. A
probe causes the number of errors that takes the reference's counter to the limit, so a controller with another value
before the probe differs.
"""

from __future__ import annotations

from kit.frames import Frame

from generator.scene import Scene

PASSIVE_LIMIT = 128
# dominant bits after a flag: every eighth of them counts
RUN = 8
PROBE_FRAME = "S 555 R 0"
LONGEST_RUN = 14


def raise_rec(scene: Scene, goal: int) -> None:
    """Receive errors of an idle controller, until the reference's REC is the goal."""
    while scene.rec < goal:
        missing = goal - scene.rec
        runs = min((missing - 1 - RUN) // RUN, LONGEST_RUN) if missing > RUN else -1
        scene.stuff_error()
        scene.after_flag(RUN * runs if runs > 0 else 0)
    if scene.rec != goal:
        raise ValueError(f"{scene.case.name}: the reference did not reach a REC of {goal}")


def probe_rec(scene: Scene) -> None:
    """Shows REC of an idle controller whose TEC is below 128: at 127 one flag is active, the next one passive."""
    scene.rest(1, "probe of REC")
    raise_rec(scene, PASSIVE_LIMIT - 1)
    scene.stuff_error()
    scene.recover("an active error flag, delimiter, intermission")
    scene.stuff_error()
    scene.recover("a passive flag, delimiter, intermission")
    scene.rest(2)


def break_delimiter(scene: Scene, frame: str, dominant: int) -> None:
    """The controller sends the frame. Its CRC delimiter is dominant, and so is this number of bits after its flag."""
    stuffed = Frame.parse(frame).wire().stuffed
    scene.sending(frame, stuffed)
    scene.play("0", "the CRC delimiter dominant")
    scene.after_flag(dominant)


def raise_tec(scene: Scene, goal: int, frame: str = PROBE_FRAME) -> None:
    """Errors in a frame that the controller is about to send, until the reference's TEC reaches the goal.

    TEC rises in steps of 8, so it may end above the goal. The frame is still pending afterwards.
    """
    while scene.tec < goal:
        missing = goal - scene.tec
        runs = min((missing + 7) // 8 - 1, 2 * LONGEST_RUN)
        scene.wait()
        break_delimiter(scene, frame, 8 * runs)


def probe_tec(scene: Scene, frame: str = PROBE_FRAME) -> None:
    """Shows TEC of an idle controller without pending frames: frames are sent until one has no suspend transmission."""
    scene.rest(2, "probe of TEC")
    tec = scene.tec
    missing = PASSIVE_LIMIT - tec
    last = tec if missing <= 0 else tec + (missing + 7) // 8 * 8
    scene.anchor(*[frame] * (last - PASSIVE_LIMIT + 2))
    raise_tec(scene, PASSIVE_LIMIT, frame)
    finish_tec_probe(scene, frame)


def finish_tec_probe(scene: Scene, frame: str) -> None:
    """Pending frames are sent, until one begins right after an intermission."""
    while True:
        scene.wait()
        scene.sent(frame)
        if scene.state()[0] == "active":
            break
    scene.wait()
    scene.sent(frame)
    scene.rest(2)
