"""The source rules and the figures, worked out in exact fractions.

This is the separate calculation that the library is held to. It is written from the papers alone:
01, the scope paper of this project, with the changes of 02 (U1, locomotives, and U2, timed
warm-ups), and 000, SO 153-34.02.317-2003, whose tables and formulas they take over. Each function
names the sentence or the table that it renders. Fields have the names and the units of 01, "The
slot file", and of 02; nothing here is taken from the code, its definitions or its proofs. Where the
papers leave a name open (a refusal's substance code) this says so.
"""
from dataclasses import dataclass
from fractions import Fraction
from math import floor

ACCEPTED = 0
OUT_OF_RANGE = 9
MUST_BE_ZERO = 11
SHARES_NOT_WHOLE = 14


# What a rule answers.


@dataclass(frozen=True)
class Emission:
    """What a source gives to one substance: tonnes in a year, grams per second at the peak."""

    code: int
    tonnes: Fraction
    rate: Fraction


@dataclass(frozen=True)
class Answer:
    verdict: int
    slot: int
    emissions: tuple


def refused(number, emissions):
    """01, before "The slot file": "... answers 9, then 11 ..., with zero figures and slot 0".
    The papers name no code for a refusal's zero figures; the library's answer has the code 0."""
    return Answer(number, 0, (Emission(0, Fraction(0), Fraction(0)),) * emissions)


# Store rules: the fields of the records.


@dataclass(frozen=True)
class Handling:
    dust: int
    store: int
    material: int
    wind: int  # tenths of a metre per second
    moisture: int  # tenths of a percent
    grain: int  # millimetres
    openness: int
    amount: int  # kilograms per 20 minutes
    drop: int  # class


@dataclass(frozen=True)
class Standing:
    dust: int
    store: int
    material: int
    wind: int
    moisture: int
    grain: int
    openness: int
    amount: int  # square metres
    k6: int  # hundredths; 0 for missing


@dataclass(frozen=True)
class Aspiration:
    dust: int
    store: int
    concentration: int  # milligrams per cubic metre
    flow: int  # litres a second
    capture: int  # hundredths of a percent
    hours: int


# Store rules: the tables. The heads of the lines are in the units of 000.

# 01, "dust code, 1 for 0152, 2 for 2908, 3 for 2909"
DUST = {1: 152, 2: 2908, 3: 2909}

# 000 table 2: material, K1, K2, Q
MATERIALS = {
    1: ("limestone", "0.03", "0.01", "0.003"),
    2: ("lump lime", "0.04", "0.01", "0.005"),
    3: ("ground lime", "0.07", "0.01", "0.005"),
    4: ("sodium chloride", "0.04", "0.01", "0.005"),
    5: ("coal", "0.03", "0.02", "0.005"),
    6: ("slag", "0.05", "0.02", "0.002"),
    7: ("cement", "0.04", "0.03", "0.003"),
    8: ("sand", "0.05", "0.03", "0.002"),
    9: ("sandstone", "0.04", "0.01", "0.005"),
}

# 000 table 3: wind up to so many m/s
K3 = [("2", "1.0"), ("5", "1.2"), ("7", "1.4"), ("10", "1.7"), ("12", "2.0"), ("14", "2.3")]

# 000 table 4: the store is open on four sides, on three, on two partly, on two wholly, on one; a
# loading sleeve; closed on four sides
K4 = {1: "1.0", 2: "0.5", 3: "0.3", 4: "0.2", 5: "0.1", 6: "0.01", 7: "0.005"}

# 000 table 5: moisture up to so many percent, and above
K5 = [
    ("0.5", "1.0"),
    ("1.0", "0.9"),
    ("3.0", "0.8"),
    ("5.0", "0.7"),
    ("7.0", "0.6"),
    ("8.0", "0.4"),
    ("9.0", "0.2"),
    ("10.0", "0.1"),
]
K5_ABOVE = "0.01"

# 01, "K6 in hundredths ..., or 0 for missing, which counts as 130"; 000, "при отсутствии данных
# принимается равным 1,3"
K6_MISSING = 130

# 000 table 6: grain up to so many mm, and above
K7 = [
    ("1", "1.0"),
    ("3", "0.8"),
    ("5", "0.7"),
    ("10", "0.6"),
    ("50", "0.5"),
    ("100", "0.4"),
    ("500", "0.2"),
]
K7_ABOVE = "0.1"

# 000 table 7: B' for drops of 0.5, 1, 1.5, 2, 4, 6, 8 and 10 m, which are 01's classes 1 to 8
DROP = {1: "0.1", 2: "0.5", 3: "0.6", 4: "0.7", 5: "1.0", 6: "1.5", 7: "2.0", 8: "2.5"}


def up_to(lines, above, x):
    """The value of the first line that x is up to: 01, "up to" includes the bound."""
    for bound, value in lines:
        if x <= Fraction(bound):
            return Fraction(value)
    return Fraction(above)


def k1(material):
    return Fraction(MATERIALS[material][1])


def k2(material):
    return Fraction(MATERIALS[material][2])


def q(material):
    return Fraction(MATERIALS[material][3])


def k3(wind):
    """Above 14 m/s table 3 has no line, and 01 has wind only up to 140 tenths."""
    assert wind <= 140
    return up_to(K3, 0, Fraction(wind, 10))


def k4(openness):
    return Fraction(K4[openness])


def k5(moisture):
    return up_to(K5, K5_ABOVE, Fraction(moisture, 10))


def k6(hundredths):
    return Fraction(K6_MISSING if hundredths == 0 else hundredths, 100)


def k7(grain):
    return up_to(K7, K7_ABOVE, Fraction(grain))


def drop_factor(drop_class):
    return Fraction(DROP[drop_class])


# Store rules: the ranges of 01, "The slot file", "Store record".


def source_in_range(r):
    """"dust code, 1 for 0152, 2 for 2908, 3 for 2909 ... store number, 1 or more"."""
    return r.dust in (1, 2, 3) and r.store >= 1


def bulk_in_range(r):
    """"material, 1 to 9 ... wind, 0 to 140 ... moisture, 0 to 1,000 ... grain, any ... openness,
    1 to 7 ... amount, 0 to 1,000,000"."""
    return (
        source_in_range(r)
        and 1 <= r.material <= 9
        and 0 <= r.wind <= 140
        and 0 <= r.moisture <= 1_000
        and 1 <= r.openness <= 7
        and 0 <= r.amount <= 1_000_000
    )


def handling_in_range(r):
    """"Handling only: ... drop class, 1 to 8"."""
    return bulk_in_range(r) and 1 <= r.drop <= 8


def standing_in_range(r):
    """"Standing only: ... K6 in hundredths, 100 to 200, or 0 for missing"."""
    return bulk_in_range(r) and (r.k6 == 0 or 100 <= r.k6 <= 200)


def aspiration_in_range(r):
    """"dust C, 0 to 1,000,000 ... gas V, 0 to 1,000,000 ... capture, 0 to 10,000 ... hours, 0 to
    8,784"."""
    return (
        source_in_range(r)
        and 0 <= r.concentration <= 1_000_000
        and 0 <= r.flow <= 1_000_000
        and 0 <= r.capture <= 10_000
        and 0 <= r.hours <= 8_784
    )


# Store rules: the formulas.


def bulk_tonnes(rate):
    """"Annual tonnes of both: 31.536 × peak × 0.7"."""
    return Fraction("31.536") * rate * Fraction("0.7")


def handling(r):
    """"Handling peak: 10,000 × K1 K2 K3 K4 K5 K7 × tonnes × B' / 12"; the amount is in kg."""
    if not handling_in_range(r):
        return refused(OUT_OF_RANGE, 1)
    k = k1(r.material) * k2(r.material) * k3(r.wind) * k4(r.openness) * k5(r.moisture) * k7(r.grain)
    tonnes = Fraction(r.amount, 1_000)
    peak = 10_000 * k * tonnes * drop_factor(r.drop) / 12
    return Answer(ACCEPTED, 0, (Emission(DUST[r.dust], bulk_tonnes(peak), peak),))


def standing(r):
    """"Standing peak: K3 K4 K5 K6 K7 Q × area"."""
    if not standing_in_range(r):
        return refused(OUT_OF_RANGE, 1)
    k = k3(r.wind) * k4(r.openness) * k5(r.moisture) * k6(r.k6) * k7(r.grain)
    peak = k * q(r.material) * r.amount
    return Answer(ACCEPTED, 0, (Emission(DUST[r.dust], bulk_tonnes(peak), peak),))


def aspiration(r):
    """"Aspiration peak: C × V × (1 - capture). Annual tonnes: 0.0036 × peak × hours". 000 has C in
    g/m³ and a volume a second; 01's fields are mg/m³ and litres a second."""
    if not aspiration_in_range(r):
        return refused(OUT_OF_RANGE, 1)
    grams_per_m3 = Fraction(r.concentration, 1_000)
    m3_per_second = Fraction(r.flow, 1_000)
    peak = grams_per_m3 * m3_per_second * (1 - Fraction(r.capture, 100 * 100))
    return Answer(ACCEPTED, 0, (Emission(DUST[r.dust], Fraction("0.0036") * peak * r.hours, peak),))


# Vehicle rules: the fields.

CAR, TRUCK, BUS = 1, 2, 3
PETROL, DIESEL = 1, 2
CO, HYDROCARBONS, NO2, SOOT, SO2, LEAD = 1, 2, 3, 4, 5, 6
POLLUTANTS = (CO, HYDROCARBONS, NO2, SOOT, SO2, LEAD)
WARM, TRANSITIONAL, COLD = 0, 1, 2

# 01, "days worked per month, each at most that month's length, February 29"
MONTH_LENGTHS = (31, 29, 31, 30, 31, 30, 31, 31, 30, 31, 30, 31)


@dataclass(frozen=True)
class Coefficients:
    """Ten-thousandths of a gram: "warm-up per minute in warm, transitional, cold period; run per
    kilometre in the same three; idle per minute"."""

    warm_up: tuple
    run: tuple
    idle: int

    def all_seven(self):
        return self.warm_up + self.run + (self.idle,)


@dataclass(frozen=True)
class Group:
    category: int
    fuel: int
    controlled: bool
    heated: bool
    vehicles: int  # N
    leaving: int  # N'
    share: int  # a, percent
    neutraliser: int  # percent, run and idle
    warm_up_neutraliser: int  # percent, warm-up
    idle: int  # tenths of a minute
    timed: int  # 02: the warm-up, tenths of a minute; 0 for untimed
    out_nearest: int  # metres, and the three below
    out_farthest: int
    in_nearest: int
    in_farthest: int
    days: tuple
    temperatures: tuple  # tenths of a degree, January first
    coefficients: tuple  # of pollutants 1 to 6


# Vehicle rules: the tables.


def period(t):
    """"Period: above 5.0 warm, below -5.0 cold, else transitional"."""
    if t > 5:
        return WARM
    if t < -5:
        return COLD
    return TRANSITIONAL


# 000 table 9, the seven columns
MINUTES = {
    CAR: (3, 4, 10, 15, 15, 20, 20),
    TRUCK: (4, 6, 12, 20, 25, 30, 30),
    BUS: (4, 6, 12, 20, 25, 30, 30),
}


def table_9_column(t):
    """"above 5; 5 to -5; below -5 to -10; below -10 to -15; below -15 to -20; below -20 to -25;
    below -25": a bound belongs to the column that it ends."""
    if t > 5:
        return 0
    for column, end in enumerate((-5, -10, -15, -20, -25), start=1):
        if t >= end:
            return column
    return 6


def warm_up_minutes(group, t):
    """02, U2: "A timed value replaces the table and the heated stand's 1.5 minutes"; 003, note 2 of
    table 2.2, "может приниматься по фактическим замерам". Untimed: "A heated stand has 1.5 minutes
    ... all year"; else by 000 table 9."""
    if group.timed != 0:
        return Fraction(group.timed, 10)
    if group.heated:
        return Fraction("1.5")
    return Fraction(MINUTES[group.category][table_9_column(t)])


def coefficient_period(group, t):
    """"A heated stand has ... warm-period coefficients all year"; 02, U2: where it is timed, "the
    heated stand's warm coefficients stay"."""
    return WARM if group.heated else period(t)


# 000 table 10, "При проведении контроля"
CONTROL = {
    PETROL: {CO: "0.80", HYDROCARBONS: "0.90", NO2: "1.0", SO2: "0.95", LEAD: "0.95"},
    DIESEL: {CO: "0.90", HYDROCARBONS: "0.90", NO2: "1.0", SOOT: "0.80", SO2: "0.95"},
}


def control_factor(group, pollutant):
    """"It is 1 without control, and 1 for the two that 11 holds at zero"."""
    if not group.controlled:
        return Fraction(1)
    return Fraction(CONTROL[group.fuel].get(pollutant, "1"))


# 01, "CO is 0337, NO2 0301, soot 0328, SO2 0330, lead 0184"
CODES = {CO: 337, NO2: 301, SOOT: 328, SO2: 330, LEAD: 184}


def code(group, pollutant):
    """"Hydrocarbons count as 2704 for petrol and 2754 for diesel (house rule)"."""
    if pollutant == HYDROCARBONS:
        return {PETROL: 2704, DIESEL: 2754}[group.fuel]
    return CODES[pollutant]


# Vehicle rules: the ranges of 01, "The slot file", "Slot 0", "Group" and "Coefficients".


def timing_in_range(timed):
    """02, U2: "tenths of a minute, 1 to 250, or 0 for untimed"."""
    return timed == 0 or 1 <= timed <= 250


def group_in_range(g):
    percents = (g.share, g.neutraliser, g.warm_up_neutraliser)
    distances = (g.out_nearest, g.out_farthest, g.in_nearest, g.in_farthest)
    return (
        g.category in (CAR, TRUCK, BUS)
        and g.fuel in (PETROL, DIESEL)
        and 1 <= g.vehicles <= 10_000
        and 0 <= g.leaving <= g.vehicles
        and all(0 <= p <= 100 for p in percents)
        and 0 <= g.idle <= 250
        and timing_in_range(g.timed)
        and all(0 <= d <= 20_000 for d in distances)
        and all(0 <= d <= length for d, length in zip(g.days, MONTH_LENGTHS))
        and all(-600 <= t <= 600 for t in g.temperatures)
        and all(0 <= k <= 1_000_000 for c in g.coefficients for k in c.all_seven())
    )


def must_be_zero(g):
    """Question 11: "Is soot zero throughout for petrol, lead for diesel?"."""
    held = SOOT if g.fuel == PETROL else LEAD
    return any(k != 0 for k in g.coefficients[held - 1].all_seven())


# Vehicle rules: the formulas.


def run_and_idle(g, pollutant, t, nearest, farthest):
    """"run × half the sum of the two out distances × neutraliser + idle × idle time × control ×
    neutraliser ... The run term has no control factor". Grams."""
    c = g.coefficients[pollutant - 1]
    run = Fraction(c.run[coefficient_period(g, t)], 10_000)
    idle = Fraction(c.idle, 10_000)
    kilometres = Fraction(nearest + farthest, 2) / 1_000
    minutes = Fraction(g.idle, 10)
    neutraliser = Fraction(g.neutraliser, 100)
    return run * kilometres * neutraliser + idle * minutes * control_factor(g, pollutant) * neutraliser


def out(g, pollutant, t):
    """"Out = warm-up × minutes × control × warm-up neutraliser + run ... + idle ...". Grams."""
    c = g.coefficients[pollutant - 1]
    warm_up = Fraction(c.warm_up[coefficient_period(g, t)], 10_000)
    neutraliser = Fraction(g.warm_up_neutraliser, 100)
    warming = warm_up * warm_up_minutes(g, t) * control_factor(g, pollutant) * neutraliser
    return warming + run_and_idle(g, pollutant, t, g.out_nearest, g.out_farthest)


def back(g, pollutant, t):
    """"In = the last two terms with the in distances". Grams."""
    return run_and_idle(g, pollutant, t, g.in_nearest, g.in_farthest)


def annual_grams(g, pollutant):
    """"Annual grams: sum over months of (out + in) × a × N × days"."""
    total = Fraction(0)
    for tenths, days in zip(g.temperatures, g.days):
        t = Fraction(tenths, 10)
        trips = Fraction(g.share, 100) * g.vehicles * days
        total += (out(g, pollutant, t) + back(g, pollutant, t)) * trips
    return total


def peak_rate(g, pollutant):
    """"Peak: out × N' / 3600, in the month of lowest temperature, whatever days are worked in
    it"."""
    lowest = Fraction(min(g.temperatures), 10)
    return out(g, pollutant, lowest) * g.leaving / 3600


def group(g):
    """The six pollutants in their order. 9 is asked before 11."""
    if not group_in_range(g):
        return refused(OUT_OF_RANGE, 6)
    if must_be_zero(g):
        return refused(MUST_BE_ZERO, 6)
    emissions = tuple(
        Emission(code(g, p), annual_grams(g, p) / 1_000_000, peak_rate(g, p)) for p in POLLUTANTS
    )
    return Answer(ACCEPTED, 0, emissions)


# Locomotive rules, 02, U1: the fields.


@dataclass(frozen=True)
class Locomotive:
    model: int  # 02's "type"
    idle: int  # share of the time in thousandths, and the four below
    quarter: int
    half: int
    three_quarters: int
    full: int
    hours: int
    old: int  # 1 for over two years old, else 0
    zone: int  # 1 south of 44 degrees, 2 others, 3 north of 60 degrees

    def shares(self):
        return (self.idle, self.quarter, self.half, self.three_quarters, self.full)


# Locomotive rules: the tables.

# 000 table 21, kilograms an hour: idle, 25 %, 50 % and 75 % of the power Ne, the greatest power.
# 02 has its types "1 to 4 in the order of 000 Table 21"
KILOGRAMS = {
    1: {  # ТГМ6
        CO: ("0.84", "0.92", "1.36", "2.09", "4.13"),
        NO2: ("4.11", "9.86", "11.37", "13.04", "15.21"),
        SOOT: ("0.02", "0.06", "0.18", "0.29", "0.38"),
    },
    2: {  # ТГМ4
        CO: ("0.64", "0.75", "0.93", "1.28", "2.63"),
        NO2: ("1.50", "2.99", "5.24", "6.00", "7.02"),
        SOOT: ("0.01", "0.06", "0.17", "0.22", "0.23"),
    },
    3: {  # ТГМ3
        CO: ("0.54", "0.58", "0.91", "1.34", "2.66"),
        NO2: ("2.06", "4.01", "7.22", "8.24", "9.21"),
        SOOT: ("0.01", "0.03", "0.13", "0.15", "0.26"),
    },
    4: {  # ТУ4; ТГК2
        CO: ("0.17", "0.22", "0.28", "0.39", "0.78"),
        NO2: ("0.45", "0.88", "1.54", "1.75", "2.01"),
        SOOT: ("0.004", "0.02", "0.05", "0.06", "0.07"),
    },
}

# "CO, NO2 and soot join the sums"
LOCOMOTIVE_POLLUTANTS = (CO, NO2, SOOT)

# 000, K_тех: "1,2 - для тепловозов со сроком эксплуатации более 2 лет", else 1; 02, "1.2 if old"
AGE = {0: "1", 1: "1.2"}

# 000, K_кл, for the south, the other regions and the north; 02, "1.2, 1, 0.8 by zone"
CLIMATE = {1: "1.2", 2: "1", 3: "0.8"}

# 000, K_исп, "принимаемый равным 0,7 для промышленных тепловозов"
USE = "0.7"


# Locomotive rules: the ranges.


def locomotive_in_range(r):
    """"type, 1 to 4 ...; five 16-bit time shares of 0 to 1,000 thousandths ...; hours, 0 to 8,784;
    16 is 1 for over two years old, else 0; 17 zone, 1 ..., 2 ..., 3 ..."."""
    return (
        r.model in KILOGRAMS
        and all(0 <= share <= 1_000 for share in r.shares())
        and 0 <= r.hours <= 8_784
        and r.old in AGE
        and r.zone in CLIMATE
    )


def shares_are_whole(r):
    """Question 14: "14 when a locomotive's shares don't total 1,000"."""
    return sum(r.shares()) == 1_000


# Locomotive rules: the formulas.


def locomotive_tonnes(r, pollutant):
    """"Annual tonnes are the sum over the five modes of kg/h × share × hours × (1.2 if old, else 1)
    × (1.2, 1, 0.8 by zone) × 0.7 / 1000"."""
    total = Fraction(0)
    for kilograms, thousandths in zip(KILOGRAMS[r.model][pollutant], r.shares()):
        hours = Fraction(thousandths, 1_000) * r.hours
        factors = Fraction(AGE[r.old]) * Fraction(CLIMATE[r.zone]) * Fraction(USE)
        total += Fraction(kilograms) * hours * factors / 1_000
    return total


def locomotive_rate(r, pollutant):
    """"The peak is the greatest kg/h among modes with a nonzero share, over 3.6"."""
    modes = zip(KILOGRAMS[r.model][pollutant], r.shares())
    greatest = max(Fraction(kilograms) for kilograms, thousandths in modes if thousandths != 0)
    return greatest / Fraction("3.6")


def locomotive(r):
    """The three pollutants in their order. "14 ..., asked after its 9, by its source rule too"."""
    if not locomotive_in_range(r):
        return refused(OUT_OF_RANGE, 3)
    if not shares_are_whole(r):
        return refused(SHARES_NOT_WHOLE, 3)
    emissions = tuple(
        Emission(CODES[p], locomotive_tonnes(r, p), locomotive_rate(r, p))
        for p in LOCOMOTIVE_POLLUTANTS
    )
    return Answer(ACCEPTED, 0, emissions)


# Figures.

# 01, "Figures": "Annual: whole millionths of a tonne. Peak: whole ten-millionths of a gram per
# second"
ANNUAL_UNITS = 1_000_000
PEAK_UNITS = 10_000_000


def figure(units):
    """"The figure is the largest whole number of its units that isn't above the exact sum plus
    half a unit"."""
    return floor(units + Fraction(1, 2))


def annual_figure(tonnes):
    return figure(tonnes * ANNUAL_UNITS)


def peak_figure(rate):
    return figure(rate * PEAK_UNITS)
