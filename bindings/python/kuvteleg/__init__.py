"""Kuvteleg: which interval of which OpenADR 3.0 event governs a resource, and until when. The proved library in this process.

A `Resolver` takes edits and publishes; a `Reader` answers from one publication.
"""
from ._moments import Moment
from ._refusals import Refusal
from ._resolver import Published, Reader, Resolver, Segment, State
from ._values import Point, Value

__all__ = ["Moment", "Point", "Published", "Reader", "Refusal", "Resolver", "Segment", "State", "Value"]
