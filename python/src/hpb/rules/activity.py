"""Activity, eligibility and waivers, by docs/RULES.md. Units are bidding units. Percentages are those of stages, 50 to 100."""
from dataclasses import dataclass


def activity_needed(percentage: int, eligibility: int) -> int:
    """The least activity that keeps an eligibility at a close: `ceil(percentage * eligibility / 100)`."""
    return -(-percentage * eligibility // 100)


def eligibility_left(percentage: int, activity: int) -> int:
    """The eligibility left after a close with too little activity."""
    return activity * 100 // percentage


@dataclass(frozen=True, slots=True)
class Settled:
    """A bidder's eligibility and waivers after a close, and whether the close took a waiver."""

    eligibility: int
    waivers: int
    took_waiver: bool


def settle(percentage: int, activity: int, eligibility: int, waivers: int, has_waived: bool) -> Settled:
    """The effect of a close on a bidder with this activity, eligibility and number of waivers. `has_waived`: it sent a waiver in
    this round.
    """
    if has_waived or activity * 100 >= percentage * eligibility:
        return Settled(eligibility, waivers, took_waiver=False)
    if waivers:
        return Settled(eligibility, waivers - 1, took_waiver=True)
    return Settled(eligibility_left(percentage, activity), 0, took_waiver=False)
