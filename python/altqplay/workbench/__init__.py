"""The workbench of altqplay: captures, plays and reports around the program. Nothing of it is proved."""

__version__ = "0.3"
