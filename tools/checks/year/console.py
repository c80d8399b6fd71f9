"""A console of scripted life: its clock is a number that is moved on, and records fall due as that clock passes them."""
import math
import socket
import struct
from contextlib import suppress
from datetime import timedelta, timezone
from threading import Thread
from zoneinfo import ZoneInfo

import fake_console
from fake_console import ACK, MEMORY_BYTES, PERIOD_PLACE, RECORD_BYTES, SUMMER_BY_HAND, words_of

RING = 2560  # records that a console holds
MINUTE = timedelta(minutes=1)
ZONE, STANDARD = ZoneInfo('Europe/Berlin'), timedelta(hours=1)
BUCKET_PLACE, BUCKET_BITS = 0x2B, 0x10  # a click is 0.2 mm
NO_TEMPERATURE, NO_BYTE = (32_767, -32_768, 32_767), 255
STUCK_TENTHS = 1999
HOT_DAY, WARM_HOUR = 200, 15


def swing(moment, days):
    """A number from -1 to 1 that comes back after so many days."""
    return math.sin(2 * math.pi * moment.timestamp() / 86_400 / days)


def weather_at(moment):
    """The weather of a moment: tenths of a degree F, percent, thousandths of inHg, mph and clicks."""
    of_day = math.cos(2 * math.pi * (moment.hour - WARM_HOUR + moment.minute / 60) / 24)
    of_year = math.cos(2 * math.pi * (moment.timetuple().tm_yday - HOT_DAY) / 365)
    odd = moment.minute * 7 % 11
    temperature = round(500 + 180 * of_year + 80 * of_day + 50 * swing(moment, 19)) + odd
    wind = max(0, round(6 + 5 * swing(moment, 13) + 3 * of_day) + odd % 3)
    is_wet = swing(moment, 5) + swing(moment, 0.7) > 1.4
    return {'temperature': temperature, 'humidity': round(70 - 15 * of_day) + odd % 3, 'wind': wind,
            'pressure': round(29_900 + 300 * swing(moment, 11)) + odd, 'rain': odd % 3 if is_wet else 0}


def record_of(stamp, moment, faults):
    """An archive record of revision B. Faults are of `temperature`, `hot`, `wind` and `rain`."""
    weather = weather_at(moment)
    body = bytearray(b'\xff' * RECORD_BYTES)
    tenths = (weather['temperature'],) * 3
    tenths = NO_TEMPERATURE if 'temperature' in faults else (STUCK_TENTHS,) * 3 if 'hot' in faults else tenths
    rain = 0 if 'rain' in faults else weather['rain']
    struct.pack_into('<HHhhhHHHHHhBBBBBB', body, 0, *words_of(stamp), *tenths, rain, 12 * rain, weather['pressure'], 0x7FFF, 100,
                     680 + moment.minute % 9, 45 + round(4 * swing(moment, 3)), weather['humidity'], weather['wind'], weather['wind'] + 3, 4, 4)
    body[29] = body[42] = 0  # evapotranspiration, revision
    if 'wind' in faults:
        struct.pack_into('<H', body, 18, 0)
        body[24:28] = bytes([NO_BYTE, 0, NO_BYTE, NO_BYTE])
    return bytes(body)


class Console(fake_console.Console):
    """A console with a clock that stands still until it is moved on."""

    def __init__(self, moment):
        self.kind, self.mood, self.memory = 16, None, bytearray(MEMORY_BYTES)
        self.moment = moment  # in UTC
        self.error = timedelta(0)
        self.records, self.faults, self.is_cut, self.has_logger = [], set(), False, True
        self.made = 0  # records that fell due, with and without a logger
        self.memory[SUMMER_BY_HAND], self.memory[PERIOD_PLACE], self.memory[BUCKET_PLACE] = 1, 5, BUCKET_BITS

    def period(self):
        """Its period in minutes."""
        return self.memory[PERIOD_PLACE]

    def keep_summer_time(self, does):
        """Has its clock follow summer time by itself, or not."""
        self.memory[SUMMER_BY_HAND] = 0 if does else 1

    def right(self):
        """What its clock would show without an error."""
        if self.memory[SUMMER_BY_HAND]:
            return self.moment + STANDARD
        return self.moment + self.moment.replace(tzinfo=timezone.utc).astimezone(ZONE).utcoffset()

    def shown(self):
        """What its clock shows."""
        return self.right() + self.error

    def show(self, stamp):
        """Sets its clock."""
        self.error = stamp - self.right()

    def pass_minutes(self, minutes):
        """Moves its clock on, minute by minute."""
        for _ in range(minutes):
            self.moment += MINUTE
            stamp = self.shown().replace(second=0)
            if (stamp.hour * 60 + stamp.minute) % self.period() == 0:
                self.made += 1
                if self.has_logger:
                    self.records.append((words_of(stamp), record_of(stamp, self.moment, self.faults)))
        del self.records[:-RING]

    def stand_still(self, minutes):
        """Lets time pass in which its clock stands still."""
        self.moment += minutes * MINUTE
        self.error -= minutes * MINUTE

    def newer(self, after):
        """The records from the first with words above these on."""
        first = next((place for place, (words, _) in enumerate(self.records) if words > after), len(self.records))
        return [record for _, record in self.records[first:]]

    def answer(self, caller, line):
        """Answers a command line."""
        word, *numbers = line.split(b' ')
        if word == b'SETPER':
            self.memory[PERIOD_PLACE] = int(numbers[0])
            self.records.clear()
            caller.sendall(ACK)
        else:
            super().answer(caller, line)


class Door:
    """A port of this machine at which a console answers one caller after another, while its line is not cut."""

    def __init__(self, console):
        self.console = console
        self.listening = socket.create_server(('127.0.0.1', 0))
        self.address = f'127.0.0.1:{self.listening.getsockname()[1]}'
        Thread(target=self.serve, daemon=True).start()

    def serve(self):
        """Answers callers until the script ends."""
        while True:
            caller, _ = self.listening.accept()
            with caller, suppress(ConnectionError):
                if not self.console.is_cut:
                    self.console.serve(caller)
