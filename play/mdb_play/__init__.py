"""Failovers as a test: a made-up replica set on real sockets that fails over by a plan, and judges what it saw of its client."""

from .plan import Plan, PlanError, parse
from .verdicts import Verdict, judge
from .world import World

__all__ = ["Plan", "PlanError", "Verdict", "World", "judge", "parse"]
__version__ = "0.1.0"
