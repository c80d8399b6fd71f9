"""Answers to requests for the rows of an archive, as they come over a link."""

from .reports import report_lines
from .rows import row_line
from .stamps import day_of_text

LONGEST_REQUEST = 64  # bytes, without the line feed


def answers(rows, heard):
    """What is said to the lines that end within the bytes heard; a rest without a line feed is not answered."""
    lines = heard.split(b"\n")[:-1]
    return "".join(f"{text}\n" for line in lines for text in answer_lines(rows, line)).encode()


def answer_lines(rows, line):
    """The lines of the answer to one request."""
    if len(line) > LONGEST_REQUEST or not line.isascii():
        return ["error"]
    request = line.decode("ascii")
    if request == "count":
        return [f"count {len(rows)}"]
    if request == "last":
        return [row_line(rows[-1]) if rows else "none"]
    days = days_asked(request)
    if days is None:
        return ["error"]
    return [*report_lines(rows, *days), "end"]


def days_asked(request):
    """The kind of a report over days, with its first and last day, or None."""
    word, *texts = request.split(" ")
    days = [day_of_text(text) for text in texts]
    if None in days:
        return None
    if word == "rows" and len(days) == 2 and days[0] <= days[1]:
        return ("rows", *days)
    if word == "day" and len(days) == 1:
        return ("days", *days, *days)
    return None
