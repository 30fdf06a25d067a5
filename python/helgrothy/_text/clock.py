"""Times and shares as progress is shown in."""

from __future__ import annotations


def duration(seconds: float) -> str:
    """A time as 0.5 seconds or 3.2 hours."""
    for length, name in ((86_400, "days"), (3_600, "hours"), (60, "minutes")):
        if seconds >= 2 * length:
            return f"{seconds / length:.1f} {name}"
    return f"{seconds:.1f} seconds"


def clock(seconds: float) -> str:
    """A time as 0:05, 1:02:03 or 3 days 4 h."""
    whole = int(seconds)
    if whole >= 86_400:
        return f"{whole // 86_400} days {whole % 86_400 // 3600} h"
    hours, minutes = whole // 3600, whole % 3600 // 60
    return f"{hours}:{minutes:02d}:{whole % 60:02d}" if hours else f"{minutes}:{whole % 60:02d}"


def percent(share: float) -> str:
    """A share, rounded down: what isn't done isn't 100 %."""
    return f"{int(share * 1000) / 10:g} %"
