"""Pictures of what a bus log leaves on the glass, drawn from the library's answers.

    history     a log followed transfer by transfer, and what a group shows
    segments    where a mode puts a digit's segments, and the price that columns read as
    grid        a hexadecimal digit a column
    digits      seven segments in three lines of text
    compare     two logs' pictures and what differs
    svg         elements and digits as a drawing
    page        the glass after each transfer, as one HTML file
"""


class Failure(Exception):
    """What was asked for cannot be had, and why."""
