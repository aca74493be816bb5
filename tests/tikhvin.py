"""Writes the textbook's worked example (003, "Пример 3", a car park in Tikhvin) as an inventory
file, or its listing.

    python3 tests/tikhvin.py slots   > examples/tikhvin.slots
    python3 tests/tikhvin.py listing > examples/tikhvin.listing
    python3 tests/tikhvin.py parts

Every number is the textbook's, with the table or sentence of 003 that it is taken from. The listing
is worked out by slot_file.py. The textbook's Table 2.4 has the car park and the road apart, and the
year in three periods; `parts` prints our figures in its rows, each the figure of a file with that
group alone and with days in that period's months alone. docs/TIKHVIN.md lays the two side by side.
"""
import sys
from dataclasses import replace
from fractions import Fraction

sys.dont_write_bytecode = True

import cases
import files
import papers
import slot_file
from papers import Coefficients, Group
from papers import CAR, CO, DIESEL, HYDROCARBONS, LEAD, NO2, SO2, SOOT

# "По прил. 6 определяются следующие данные для города Тихвин", months I to XII
TEMPERATURES = (
    *("-10.5", "-9.3", "-4.7", "2.8", "9.7", "14.7"),
    *("16.6", "14.8", "9.5", "3.6", "-1.8", "-6.6"),
)

# "Холодный период, мес.: I, II, XII (90 дней ...)", "Переходный период, мес.: III, IV, X, XI (122
# дня ...)", "Теплый период, мес.: V, VI, VII, VIII, IX (153 дня ...)": every day of the year is
# worked. February has the 28 of "для II месяца (D_p = 28)"; 01 would allow 29.
DAYS = (31, 28, 31, 30, 31, 30, 31, 31, 30, 31, 30, 31)
PERIODS = {"cold": (1, 2, 12), "transitional": (3, 4, 10, 11), "warm": (5, 6, 7, 8, 9)}

# Table П4.1, diesel up to 1.2 litres, grams a minute: the columns Т and Х. (СП is for stands with
# heating, and the example's stand is БП.) The solution copies Х alone, and warms up with it in the
# warm period too; the field of 01 is "warm-up per minute in warm ... period", so it has Т. In our
# copy of 003 one of two neighbouring 0,06 of this line is lost, СП of CH or Т of NOx; 000's line
# for such a car ("Зарубежное", "До 1,2", "Диз.", "Тепл.") has 0,06 for NO2.
WARM_UP = {
    CO: ("0.14", "0.21"),
    HYDROCARBONS: ("0.06", "0.07"),
    NO2: ("0.06", "0.09"),  # NOx counted as NO2: 003, section 2, "в пересчете на диоксид азота"
    SOOT: ("0.002", "0.004"),
    SO2: ("0.032", "0.038"),
}

# Table П4.2, diesel up to 1.2 litres, grams a kilometre: Т and Х. The solution copies both.
RUN = {
    CO: ("0.8", "0.9"),
    HYDROCARBONS: ("0.1", "0.2"),
    NO2: ("0.80", "0.80"),
    SOOT: ("0.04", "0.06"),
    SO2: ("0.143", "0.178"),
}

# Table П4.3, diesel up to 1.2 litres, grams a minute. The solution copies it.
IDLE = {CO: "0.1", HYDROCARBONS: "0.04", NO2: "0.05", SOOT: "0.002", SO2: "0.032"}

# Notes 2 of tables П4.1 and П4.2: "В переходный период значения выбросов CO, CH, C, SO2 и Pb должны
# умножаться на коэффициент 0,9 от значений холодного периода года. Выбросы NOx принимаются равными
# выбросам в холодный период"
TRANSITIONAL = {CO: "0.9", HYDROCARBONS: "0.9", NO2: "1", SOOT: "0.9", SO2: "0.9"}


def whole(value, units):
    """A decimal in whole units of a field; none of the textbook's numbers needs rounding."""
    number = Fraction(value) * units
    assert number.denominator == 1, value
    return number.numerator


def ten_thousandths(grams):
    return whole(grams, 10_000)


def by_period(pollutant, grams):
    """Т and Х as 01's "warm, transitional, cold"."""
    warm, cold = grams
    transitional = Fraction(cold) * Fraction(TRANSITIONAL[pollutant])
    return tuple(ten_thousandths(k) for k in (warm, transitional, cold))


def coefficients(pollutant):
    """Lead has a dash in all three tables. 01 asks for a row of it, zero for diesel."""
    if pollutant == LEAD:
        return cases.NO_COEFFICIENTS
    return Coefficients(
        by_period(pollutant, WARM_UP[pollutant]),
        by_period(pollutant, RUN[pollutant]),
        ten_thousandths(IDLE[pollutant]),
    )


# The head of the example, in the order of its columns; appendix 5 has the same as its variant 18.
PARK = Group(
    category=CAR,  # tables П4.1 to П4.3 are of cars, "легковых автомобилей"
    fuel=DIESEL,  # "Тип двигателя": "Дизельн."
    heated=False,  # "Усл. хранен.": "БП", a stand without heating
    controlled=True,  # "Регулир. и контр. двигат.": "Да"
    out_nearest=whole("0.02", 1_000),  # "L1Б, L2Б, км"
    in_nearest=whole("0.02", 1_000),
    out_farthest=whole("0.7", 1_000),  # "L1Д, L2Д, км"; the solution misprints 0,07 and takes 0,7
    in_farthest=whole("0.7", 1_000),
    vehicles=40,  # "N_k"
    share=whole("0.9", 100),  # "α_в"
    leaving=18,  # "N'_k, N'_кр": one number for both
    neutraliser=100,  # none is spoken of
    warm_up_neutraliser=100,
    idle=10,  # "t_хх1 = t_хх2 = 1 мин", after formula (2.6)
    timed=0,  # "По табл. 2.2 определяется значение t_пр", for each month
    days=DAYS,
    temperatures=tuple(whole(t, 10) for t in TEMPERATURES),
    coefficients=tuple(coefficients(p) for p in papers.POLLUTANTS),
)


def without_warm_up(k):
    return replace(k, warm_up=(0, 0, 0))


# The example's scheme 2 has an inner road besides, formulas (2.11) and (2.13): run × L_p × N_кр ×
# D_p in the year, run × L_p × N'_кр / 3600 at the peak. 01 has no roads. A group that neither warms
# up nor idles gives the same: each passage is a way out of L_p, with no way in. The coefficients of
# the warm-up are zero, since its minutes can't be.
ROAD = replace(
    PARK,
    out_nearest=whole("1.2", 1_000),  # "L_p", km
    out_farthest=whole("1.2", 1_000),
    in_nearest=0,
    in_farthest=0,
    vehicles=20,  # "N_кр", cars that pass in a day: "среднее количество автомобилей ... в сутки"
    share=100,  # N_кр counts those that do pass
    leaving=18,  # "N'_k, N'_кр"
    idle=0,
    coefficients=tuple(without_warm_up(k) for k in PARK.coefficients),
)


def inventory(*groups):
    """The groups share the coefficient slots that are the same for both, which is lead's."""
    return files.build(groups, months=PARK.temperatures, may_share=files.always).data


# Our figures in the rows of Table 2.4

COLUMNS = (("CO", 337), ("CH", 2754), ("NOx", 301), ("C", 328), ("SO2", 330))
ANNUAL, PEAK = 0, 1


def only_in(group, months):
    """The group, working in some months alone; "whatever days are worked", its peak is the same."""
    days = (d if month in months else 0 for month, d in enumerate(group.days, start=1))
    return replace(group, days=tuple(days))


def row(label, data, which, decimals):
    answer = slot_file.answer(data)
    assert answer.number == 0, label
    figures = dict(zip(slot_file.CODES, answer.figures))
    numbers = [slot_file.fixed(figures[code][which], decimals) for _, code in COLUMNS]
    return " ".join([label, *numbers]) + "\n"


def parts():
    lines = [" ".join(["part", *(name for name, _ in COLUMNS)]) + "\n"]
    for name, group in (("park", PARK), ("road", ROAD)):
        for period, months in PERIODS.items():
            data = inventory(only_in(group, months))
            lines.append(row(f"{name}-{period}-t", data, ANNUAL, 6))
        lines.append(row(f"{name}-year-t", inventory(group), ANNUAL, 6))
        lines.append(row(f"{name}-peak-g/s", inventory(group), PEAK, 7))
    return "".join(lines).encode("ascii")


def main():
    data = inventory(PARK, ROAD)
    sides = {
        "slots": lambda: data,
        "listing": lambda: slot_file.printed(data),
        "parts": parts,
    }
    sys.stdout.buffer.write(sides[sys.argv[1]]())


if __name__ == "__main__":
    main()
