"""The rules of names, types and effects, in the order in which the earlier decides at one place."""
import enum

Rule = enum.IntEnum("Rule", "N1 N2 N3 N4 N5 N6 N7 N8 L6 L7 T1 T2 T3 T4 T5 E1 E2 E3 E4 E5")
