"""The holidays of the states that the federal list hasn't, from the words of their statutes: their days, their statutes' names, and
which of them are in doubt. They are those of 2016 and later, for New York those of 2007 and later. The statutes' texts weren't at hand
when they were written. It needs Python 3.8 or later.
"""
from datetime import date, timedelta

from lib.year_days import (ELECTION_DAY, FRIDAY, GOOD_FRIDAY, MONDAY, SATURDAY, THANKSGIVING, TUESDAY, Holiday, after, easter, fixed,
                           friday_or_monday, last, monday_for_sunday, nth)


def juneteenth_of_utah(year):
    """19 June where that is a Monday; the Monday before it where it is a Tuesday to a Friday, and else the one after it."""
    day = date(year, 6, 19)
    return day - timedelta(day.weekday()) if day.weekday() < SATURDAY else day + timedelta(7 - day.weekday())


ASH_WEDNESDAY = after(-46, easter)
LINCOLN = Holiday("Lincoln's Birthday", fixed(2, 12), monday_for_sunday)
GENERAL_ELECTION = Holiday("General Election Day", ELECTION_DAY, every=2)
GOOD = Holiday("Good Friday", GOOD_FRIDAY)
DAY_AFTER_THANKSGIVING = after(1, THANKSGIVING)
FRIDAY_AFTER = Holiday("Day after Thanksgiving Day", DAY_AFTER_THANKSGIVING)
LINCOLN_ITSELF = Holiday("Lincoln's Birthday", fixed(2, 12))
LINCOLN_DAY = Holiday("Lincoln Day", fixed(2, 12), friday_or_monday)
LEE = Holiday("Birthday of Robert E. Lee", fixed(1, 19), monday_for_sunday)
DAVIS = Holiday("Birthday of Jefferson Davis", fixed(6, 3), monday_for_sunday)
FLAG_DAY = Holiday("Flag Day", fixed(6, 14), monday_for_sunday)
THREE_KINGS = Holiday("Three Kings' Day", fixed(1, 6))
PATRIOTS_DAY = Holiday("Patriots' Day", nth(3, MONDAY, 4))
DECEMBER_24, DECEMBER_26 = Holiday("24 December", fixed(12, 24)), Holiday("26 December", fixed(12, 26))

# of each state, in the order in which one gives a day its name that two have
STATES = {
    "alabama": [
        Holiday("Confederate Memorial Day", nth(4, MONDAY, 4)),
        Holiday("Birthday of Jefferson Davis", nth(1, MONDAY, 6)),
    ],
    "alaska": [
        Holiday("Seward's Day", last(MONDAY, 3)),
        Holiday("Alaska Day", fixed(10, 18), friday_or_monday),
    ],
    "arizona": [],
    "arkansas": [Holiday("Christmas Eve", fixed(12, 24), friday_or_monday)],
    "california": [
        LINCOLN,
        Holiday("Cesar Chavez Day", fixed(3, 31), monday_for_sunday),
        Holiday("Admission Day", fixed(9, 9), monday_for_sunday),
        Holiday("Native American Day", nth(4, FRIDAY, 9)),
        FRIDAY_AFTER,
    ],
    "colorado": [Holiday("Frances Xavier Cabrini Day", nth(1, MONDAY, 10), since=2020)],
    "connecticut": [LINCOLN_DAY, GOOD],
    "delaware": [GOOD, GENERAL_ELECTION, FRIDAY_AFTER],
    "district_of_columbia": [Holiday("Emancipation Day", fixed(4, 16), friday_or_monday)],
    "florida": [
        Holiday("Birthday of Martin Luther King, Jr.", fixed(1, 15), monday_for_sunday),
        LEE,
        LINCOLN,
        Holiday("Susan B. Anthony's Birthday", fixed(2, 15), monday_for_sunday),
        GOOD,
        Holiday("Pascua Florida Day", fixed(4, 2), monday_for_sunday),
        Holiday("Confederate Memorial Day", fixed(4, 26), monday_for_sunday),
        DAVIS,
        FLAG_DAY,
        GENERAL_ELECTION,
    ],
    "georgia": [],
    "guam": [
        Holiday("Guam History and Chamorro Heritage Day", nth(1, MONDAY, 3)),
        Holiday("Liberation Day", fixed(7, 21)),
        Holiday("All Souls' Day", fixed(11, 2)),
        Holiday("Our Lady of Camarin Day", fixed(12, 8)),
    ],
    "hawaii": [
        GOOD,
        Holiday("Prince Jonah Kuhio Kalanianaole Day", fixed(3, 26), friday_or_monday),
        Holiday("King Kamehameha I Day", fixed(6, 11), friday_or_monday),
        Holiday("Statehood Day", nth(3, FRIDAY, 8)),
        GENERAL_ELECTION,
    ],
    "idaho": [],
    "illinois": [LINCOLN, Holiday("Casimir Pulaski's Birthday", nth(1, MONDAY, 3)), GOOD, GENERAL_ELECTION],
    "indiana": [
        LINCOLN_DAY,
        GOOD,
        Holiday("Primary Election Day", after(1, nth(1, MONDAY, 5)), every=2, but=(2020,)),
        GENERAL_ELECTION,
    ],
    "iowa": [LINCOLN],
    "kansas": [LINCOLN_ITSELF],
    "kentucky": [LEE, Holiday("Franklin D. Roosevelt Day", fixed(1, 30), monday_for_sunday), LINCOLN, DAVIS],
    "louisiana": [
        Holiday("Battle of New Orleans", fixed(1, 8)),
        Holiday("Robert E. Lee Day", fixed(1, 19), until=2022),
        Holiday("Mardi Gras", after(-1, ASH_WEDNESDAY)),
        GOOD,
        Holiday("Confederate Memorial Day", fixed(6, 3), until=2022),
        Holiday("Huey P. Long Day", fixed(8, 30)),
        Holiday("All Saints' Day", fixed(11, 1)),
        FRIDAY_AFTER,
        DECEMBER_24,
        Holiday("31 December", fixed(12, 31)),
    ],
    "maine": [PATRIOTS_DAY],
    "maryland": [
        LINCOLN_ITSELF,
        Holiday("Maryland Day", fixed(3, 25)),
        GOOD,
        Holiday("Defenders' Day", fixed(9, 12)),
        GENERAL_ELECTION,
        Holiday("American Indian Heritage Day", DAY_AFTER_THANKSGIVING),
    ],
    "massachusetts": [PATRIOTS_DAY],
    "michigan": [LINCOLN],
    "minnesota": [FRIDAY_AFTER],
    "mississippi": [Holiday("Confederate Memorial Day", last(MONDAY, 4))],
    "missouri": [LINCOLN, Holiday("Truman Day", fixed(5, 8), monday_for_sunday)],
    "montana": [GENERAL_ELECTION],
    "nebraska": [Holiday("Arbor Day", last(FRIDAY, 4)), FRIDAY_AFTER],
    "nevada": [Holiday("Nevada Day", last(FRIDAY, 10)), Holiday("Family Day", DAY_AFTER_THANKSGIVING)],
    "new_hampshire": [GENERAL_ELECTION],
    "new_jersey": [
        LINCOLN,
        GOOD,
        Holiday("Juneteenth Day", nth(3, FRIDAY, 6), since=2021),
        Holiday("Election Day", ELECTION_DAY),
    ],
    "new_mexico": [],
    "new_york": [LINCOLN, Holiday("Election Day", ELECTION_DAY)],
    "north_carolina": [
        LEE,
        Holiday("Greek Independence Day", fixed(3, 25), monday_for_sunday),
        Holiday("Anniversary of the Signing of the Halifax Resolves", fixed(4, 12), monday_for_sunday),
        GOOD,
        Holiday("Confederate Memorial Day", fixed(5, 10), monday_for_sunday),
        Holiday("Anniversary of the Mecklenburg Declaration of Independence", fixed(5, 20), monday_for_sunday),
        GENERAL_ELECTION,
    ],
    "north_dakota": [GOOD],
    "northern_mariana_islands": [
        Holiday("Commonwealth Covenant Day", fixed(3, 24)),
        GOOD,
        Holiday("Citizenship Day", fixed(11, 4)),
        Holiday("Constitution Day", fixed(12, 8)),
    ],
    "ohio": [],
    "oklahoma": [],
    "oregon": [],
    "pennsylvania": [GOOD, FLAG_DAY, Holiday("Election Day", ELECTION_DAY)],
    "puerto_rico": [
        THREE_KINGS,
        Holiday("American Citizenship Day", fixed(3, 2), monday_for_sunday, since=2018),
        Holiday("Abolition of Slavery Day", fixed(3, 22), monday_for_sunday),
        GOOD,
        Holiday("Constitution Day", fixed(7, 25), monday_for_sunday),
        Holiday("Discovery of Puerto Rico Day", fixed(11, 19), monday_for_sunday),
    ],
    "rhode_island": [Holiday("Victory Day", nth(2, MONDAY, 8)), GENERAL_ELECTION],
    "south_carolina": [
        Holiday("Confederate Memorial Day", fixed(5, 10), friday_or_monday),
        FRIDAY_AFTER,
        DECEMBER_26,
    ],
    "south_dakota": [],
    "tennessee": [GOOD, GENERAL_ELECTION],
    "texas": [
        Holiday("Confederate Heroes Day", fixed(1, 19)),
        Holiday("Texas Independence Day", fixed(3, 2)),
        Holiday("San Jacinto Day", fixed(4, 21)),
        Holiday("Emancipation Day", fixed(6, 19), until=2020),
        Holiday("Lyndon Baines Johnson Day", fixed(8, 27)),
        FRIDAY_AFTER,
        DECEMBER_24,
        DECEMBER_26,
    ],
    "utah": [
        Holiday("Juneteenth National Freedom Day", juneteenth_of_utah, since=2022),
        Holiday("Pioneer Day", fixed(7, 24), friday_or_monday),
    ],
    "vermont": [
        Holiday("Town Meeting Day", nth(1, TUESDAY, 3)),
        Holiday("Bennington Battle Day", fixed(8, 16), friday_or_monday),
    ],
    "virgin_islands": [
        THREE_KINGS,
        Holiday("Transfer Day", fixed(3, 31)),
        Holiday("Holy Thursday", after(-3, easter)),
        GOOD,
        Holiday("Easter Monday", after(1, easter)),
        Holiday("Emancipation Day", fixed(7, 3)),
        Holiday("Liberty Day", fixed(11, 1)),
        Holiday("Christmas Second Day", fixed(12, 26)),
    ],
    "virginia": [
        Holiday("Lee-Jackson Day", after(-3, nth(3, MONDAY, 1)), until=2020),
        Holiday("Election Day", ELECTION_DAY, since=2020),
        FRIDAY_AFTER,
    ],
    "washington": [Holiday("Native American Heritage Day", DAY_AFTER_THANKSGIVING)],
    "west_virginia": [
        Holiday("Primary Election Day", nth(2, TUESDAY, 5), every=2, but=(2020,)),
        Holiday("West Virginia Day", fixed(6, 20), friday_or_monday),
        GENERAL_ELECTION,
        Holiday("Lincoln's Day", DAY_AFTER_THANKSGIVING),
    ],
    "wisconsin": [Holiday("Partisan Primary Day", nth(2, TUESDAY, 8), every=2), GENERAL_ELECTION],
    "wyoming": [],
}

# the statute of each state, as a written file cites it
STATUTES = {
    "alabama": "Ala. Code section 1-3-8",
    "alaska": "Alaska Stat. section 44.12.010 and those after it",
    "arizona": "Ariz. Rev. Stat. section 1-301",
    "arkansas": "Ark. Code section 1-5-101",
    "california": "Cal. Gov't Code sections 6700 and 6701, and Cal. Civ. Proc. Code section 135",
    "colorado": "Colo. Rev. Stat. section 24-11-101",
    "connecticut": "Conn. Gen. Stat. section 1-4",
    "delaware": "Del. Code tit. 1, section 501",
    "district_of_columbia": "D.C. Code section 28-2701",
    "florida": "Fla. Stat. section 683.01",
    "georgia": "O.C.G.A. section 1-4-1",
    "guam": "1 Guam Code Ann. section 1000",
    "hawaii": "Haw. Rev. Stat. sections 8-1 and 8-2",
    "idaho": "Idaho Code section 73-108",
    "illinois": "205 ILCS 630/17",
    "indiana": "Ind. Code section 1-1-9-1",
    "iowa": "Iowa Code sections 1C.1 and 4.1",
    "kansas": "Kan. Stat. section 35-107",
    "kentucky": "Ky. Rev. Stat. section 2.110",
    "louisiana": "La. Rev. Stat. section 1:55",
    "maine": "Me. Rev. Stat. tit. 4, section 1051",
    "maryland": "Md. Code, Gen. Prov. section 1-111",
    "massachusetts": "Mass. Gen. Laws ch. 4, section 7, cl. 18",
    "michigan": "Mich. Comp. Laws section 435.101",
    "minnesota": "Minn. Stat. section 645.44, subd. 5",
    "mississippi": "Miss. Code section 3-3-7",
    "missouri": "Mo. Rev. Stat. section 9.010",
    "montana": "Mont. Code section 1-1-216",
    "nebraska": "Neb. Rev. Stat. sections 25-2221 and 62-301",
    "nevada": "Nev. Rev. Stat. section 236.015",
    "new_hampshire": "N.H. Rev. Stat. section 288:1",
    "new_jersey": "N.J. Stat. Ann. section 36:1-1, and Pub. L. 2020, ch. 76",
    "new_mexico": "N.M. Stat. section 12-5-2",
    "new_york": "N.Y. Gen. Constr. Law section 24",
    "north_carolina": "N.C. Gen. Stat. section 103-4",
    "north_dakota": "N.D. Cent. Code section 1-03-01",
    "northern_mariana_islands": "1 N. Mar. I. Code section 311",
    "ohio": "Ohio Rev. Code section 1.14",
    "oklahoma": "Okla. Stat. tit. 25, section 82.1",
    "oregon": "Or. Rev. Stat. sections 187.010 and 187.020",
    "pennsylvania": "44 Pa. Stat. section 11",
    "puerto_rico": "P.R. Act No. 111-2014",
    "rhode_island": "R.I. Gen. Laws section 25-1-1",
    "south_carolina": "S.C. Code section 53-5-10",
    "south_dakota": "S.D. Codified Laws section 1-5-1",
    "tennessee": "Tenn. Code section 15-1-101",
    "texas": "Tex. Gov't Code section 662.003(b)",
    "utah": "Utah Code section 63G-1-301",
    "vermont": "Vt. Stat. tit. 1, section 371",
    "virgin_islands": "1 V.I. Code section 171",
    "virginia": "Va. Code section 2.2-3300",
    "washington": "Wash. Rev. Code section 1.16.050",
    "west_virginia": "W. Va. Code section 2-2-1",
    "wisconsin": "Wis. Stat. section 995.20",
    "wyoming": "Wyo. Stat. section 8-4-101",
}

# the days of which it is in doubt whether the state declares them holidays, by their names
DOUBTFUL = {
    "arkansas": ("Christmas Eve",),
    "california": ("Admission Day", "Day after Thanksgiving Day"),
    "connecticut": ("Good Friday",),
    "illinois": ("Good Friday",),
    "indiana": ("Lincoln Day",),
    "iowa": ("Lincoln's Birthday",),
    "kansas": ("Lincoln's Birthday",),
    "kentucky": ("Birthday of Robert E. Lee", "Franklin D. Roosevelt Day", "Lincoln's Birthday", "Birthday of Jefferson Davis"),
    "louisiana": ("Battle of New Orleans", "Robert E. Lee Day", "Mardi Gras", "Confederate Memorial Day", "Huey P. Long Day",
                  "Day after Thanksgiving Day", "24 December", "31 December"),
    "maryland": ("Lincoln's Birthday", "Maryland Day", "Good Friday", "Defenders' Day"),
    "michigan": ("Lincoln's Birthday",),
    "minnesota": ("Day after Thanksgiving Day",),
    "new_hampshire": ("General Election Day",),
    "new_jersey": ("Lincoln's Birthday",),
    "north_carolina": tuple(holiday.name for holiday in STATES["north_carolina"]),
    "pennsylvania": ("Flag Day",),
    "puerto_rico": ("American Citizenship Day",),
    "south_carolina": ("Day after Thanksgiving Day", "26 December"),
    "tennessee": ("General Election Day",),
    "texas": ("24 December", "26 December"),
    "wisconsin": ("Partisan Primary Day", "General Election Day"),
}
