"""The front without input or output: a value, and one function that takes it from event to event (docs/FRONT.md).

`step(front, event, clock)` gives the next value and the effects, which the shells round it carry out in their order. `steps` does that for
events that came together. Nothing here knows a clock, a socket, a file, a thread or a task.
"""
from hpb.front.core.state import Front, Phase, Setting, new_front
from hpb.front.core.step import step, steps

__all__ = ["Front", "Phase", "Setting", "new_front", "step", "steps"]
