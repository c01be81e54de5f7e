"""Gridlet from Python: a sheet over the built program, whose replies become values of Python."""
from .addresses import Address, Range
from .errors import (
    BadInput, GridletError, ProgramFailed, ProgramNotFound, Refused, Spent)
from .reasons import Reason
from .sheet import Sheet
from .values import (
    Array, CellError, Edit, Explanation, Forecast, Note, Permit, SheetValue, Value, literal)

__version__ = "1.0.0"
__all__ = [
    "Address", "Array", "BadInput", "CellError", "Edit", "Explanation", "Forecast",
    "GridletError", "Note", "Permit", "ProgramFailed", "ProgramNotFound", "Range", "Reason",
    "Refused",
    "Sheet", "SheetValue", "Spent", "Value", "literal"]
