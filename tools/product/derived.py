"""Values that a page works out from those of a row: dew point, wind chill and heat index, in degrees Fahrenheit.

Sources:
- Dew point: the Magnus formula over water, WMO-No. 8, Guide to Instruments and Methods of Observation (2018), volume I, annex 4.B.
- Wind chill: the formula of 2001 of the National Weather Service and Environment Canada, defined for at most 50 degrees
  Fahrenheit and more than 3 mph (https://www.weather.gov/safety/cold-wind-chill-chart).
- Heat index: the regression of L. P. Rothfusz, NWS Technical Attachment SR 90-23 (1990), with its two adjustments, where the
  simpler formula that is tried before it gives at least 80 degrees (https://www.wpc.ncep.noaa.gov/html/heatindex_equation.shtml).
"""
import math

MAGNUS_FACTOR, MAGNUS_CELSIUS = 17.62, 243.12
CHILL_WARMEST, CHILL_CALMEST = 50, 3
HEAT_LEAST = 80
DRY, DAMP = 13, 85  # percent, below and above which the heat index is adjusted
DRY_WARMEST, DAMP_WARMEST = 112, 87
DEW_POINT, WIND_CHILL, HEAT_INDEX = 'dewPoint', 'windChill', 'heatIndex'


def dew_point(fahrenheit, humidity):
    """The temperature at which the air's vapour would condense; none in air without vapour."""
    if humidity <= 0:
        return None
    celsius = (fahrenheit - 32) / 1.8
    exponent = math.log(humidity / 100) + MAGNUS_FACTOR * celsius / (MAGNUS_CELSIUS + celsius)
    return MAGNUS_CELSIUS * exponent / (MAGNUS_FACTOR - exponent) * 1.8 + 32


def wind_chill(fahrenheit, mph):
    """What a cold wind feels like; none where it is too warm or too calm for the formula."""
    if fahrenheit > CHILL_WARMEST or mph <= CHILL_CALMEST:
        return None
    power = mph ** 0.16
    return 35.74 + 0.6215 * fahrenheit - 35.75 * power + 0.4275 * fahrenheit * power


def regression(warmth, damp):
    """The heat index by the regression, without its adjustments."""
    return (-42.379 + 2.04901523 * warmth + 10.14333127 * damp - 0.22475541 * warmth * damp - 0.00683783 * warmth ** 2
            - 0.05481717 * damp ** 2 + 0.00122874 * warmth ** 2 * damp + 0.00085282 * warmth * damp ** 2
            - 0.00000199 * warmth ** 2 * damp ** 2)


def heat_index(fahrenheit, humidity):
    """What damp heat feels like; none where it is too cool for the formula."""
    simple = (fahrenheit + 61 + (fahrenheit - 68) * 1.2 + humidity * 0.094) / 2
    if (simple + fahrenheit) / 2 < HEAT_LEAST:
        return None
    index = regression(fahrenheit, humidity)
    if humidity < DRY and HEAT_LEAST <= fahrenheit <= DRY_WARMEST:
        return index - (DRY - humidity) / 4 * math.sqrt((17 - abs(fahrenheit - 95)) / 17)
    if humidity > DAMP and HEAT_LEAST <= fahrenheit <= DAMP_WARMEST:
        return index + (humidity - DAMP) / 10 * (87 - fahrenheit) / 5
    return index


# Each derived value, with the fields that it is worked out from.
DERIVED = {DEW_POINT: (dew_point, 'outTemp', 'outHumidity'), WIND_CHILL: (wind_chill, 'outTemp', 'windSpeed'),
           HEAT_INDEX: (heat_index, 'outTemp', 'outHumidity')}


def derived_of(name, values):
    """A derived value of a row's values; none if one of them is missing, or the formula does not hold for them."""
    formula, *fields = DERIVED[name]
    return formula(*(values[field] for field in fields)) if all(field in values for field in fields) else None
