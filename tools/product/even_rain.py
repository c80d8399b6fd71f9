"""An archive of a station whose rain bucket was changed, with its rain counted alike on all days."""
from calendar import monthrange
from datetime import date

import rows as row_lines
from climate_tables import merged_fields


def evened(fields, bucket):
    """The summaries of a time that has one bucket, with its rain in even parts of an inch."""
    parts = row_lines.PARTS_OF_INCH[row_lines.EVEN] // row_lines.PARTS_OF_INCH[bucket]
    return {name: summary.times(parts) if row_lines.is_rain(name) else summary for name, summary in fields.items()}


class EvenRain:
    """An archive whose days and months have their rain in even parts of an inch. Its rows and climate lines have clicks."""

    def __init__(self, archive, buckets):
        self.archive, self.buckets = archive, buckets
        self.lines_of_rows, self.climate = archive.lines_of_rows, archive.climate

    def days(self, first, last):
        """The summaries of some days."""
        return {title: evened(fields, self.buckets.on(date.fromisoformat(title)))
                for title, fields in self.archive.days(first, last).items()}

    def month(self, title, fields):
        """The summaries of a month. If the bucket was changed within it, they are made of those of its days."""
        year, month = map(int, title.split('-'))
        first, last = date(year, month, 1), date(year, month, monthrange(year, month)[1])
        if any(first < day <= last for day, _ in self.buckets.changes):
            return merged_fields(list(self.days(first, last).values()))
        return evened(fields, self.buckets.on(first))

    def months(self):
        """The summaries of all months."""
        return {title: self.month(title, fields) for title, fields in self.archive.months().items()}


def even_rain(archive, buckets):
    """The archive, whose summaries count rain alike on all days."""
    return EvenRain(archive, buckets) if buckets.changes else archive
