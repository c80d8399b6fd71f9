#!/usr/bin/env python3
"""Makes a file of pages, as a Davis Vantage Pro2 console sends them, from a list of records.

    tools/checks/make_pages.py RECORDS PAGES

RECORDS is text with a record on each line: a date, a time, and the fields that have a value, in the raw
numbers of the console (docs/FORMATS.md has the fields and their units):

    2024-07-01 00:05 outTemp=650 outHumidity=48

A field that is not named is sent as the console sends it without that sensor. An empty line leaves a slot
of the page empty, and lines that begin with # are passed over. PAGES gets a page for each five records.
"""
import binascii
import struct
import sys

EMPTY_SLOT = b'\xff' * 52

# name, offset in the record, kind (h and H: two bytes, B: one byte, T: a byte that is 90 more), missing mark
FIELDS = [
    ('outTemp', 4, 'h', 32767), ('highOutTemp', 6, 'h', -32768), ('lowOutTemp', 8, 'h', 32767),
    ('rain', 10, 'H', 0), ('highRainRate', 12, 'H', 0), ('barometer', 14, 'H', 0),
    ('radiation', 16, 'H', 32767), ('windSamples', 18, 'H', 0), ('inTemp', 20, 'h', 32767),
    ('inHumidity', 22, 'B', 255), ('outHumidity', 23, 'B', 255), ('windSpeed', 24, 'B', 255),
    ('windGust', 25, 'B', 0), ('windGustDir', 26, 'B', 255), ('windDir', 27, 'B', 255),
    ('UV', 28, 'B', 255), ('ET', 29, 'B', 0), ('highRadiation', 30, 'H', 32767), ('highUV', 32, 'B', 255),
    ('forecastRule', 33, 'B', 193), ('leafTemp1', 34, 'T', 255), ('leafTemp2', 35, 'T', 255),
    ('leafWet1', 36, 'B', 255), ('leafWet2', 37, 'B', 255), ('soilTemp1', 38, 'T', 255),
    ('soilTemp2', 39, 'T', 255), ('soilTemp3', 40, 'T', 255), ('soilTemp4', 41, 'T', 255),
    ('extraHumid1', 43, 'B', 255), ('extraHumid2', 44, 'B', 255), ('extraTemp1', 45, 'T', 255),
    ('extraTemp2', 46, 'T', 255), ('extraTemp3', 47, 'T', 255), ('soilMoist1', 48, 'B', 255),
    ('soilMoist2', 49, 'B', 255), ('soilMoist3', 50, 'B', 255), ('soilMoist4', 51, 'B', 255),
]


def slot(line):
    """The 52 bytes of the record that a line says."""
    date, time, *named = line.split(' ')
    values = dict(pair.split('=') for pair in named)
    year, month, day = (int(part) for part in date.split('-'))
    hour, minute = (int(part) for part in time.split(':'))
    record = bytearray(52)
    struct.pack_into('<HH', record, 0, day + 32 * month + 512 * (year - 2000), 100 * hour + minute)
    for name, offset, kind, mark in FIELDS:
        value = values.pop(name, None)
        if kind == 'T':
            raw = mark if value is None else int(value) + 90
            struct.pack_into('B', record, offset, raw)
        else:
            struct.pack_into('<' + kind, record, offset, mark if value is None else int(value))
    if values:
        sys.exit(f'no such field: {" ".join(values)}')
    return bytes(record)


def page(sequence, slots):
    """A page of five slots with its check, which is CRC-CCITT, high byte first."""
    filled = slots + [EMPTY_SLOT] * (5 - len(slots))
    body = bytes([sequence % 256]) + b''.join(filled) + b'\xff' * 4
    return body + struct.pack('>H', binascii.crc_hqx(body, 0))


def main():
    if len(sys.argv) != 3:
        sys.exit(__doc__)
    with open(sys.argv[1], encoding='utf-8') as text:
        lines = [line.rstrip('\n') for line in text if not line.startswith('#')]
    slots = [slot(line) if line else EMPTY_SLOT for line in lines]
    with open(sys.argv[2], 'wb') as pages:
        for sequence, first in enumerate(range(0, len(slots), 5)):
            pages.write(page(sequence, slots[first:first + 5]))


if __name__ == '__main__':
    main()
