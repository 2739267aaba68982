"""The codes of a schedule in words. They are the codes of the CIF End User Specification. A code that isn't here is shown as it is."""

# The kind of a train, by its train status. The kind of a passenger train comes from its category.
STATUSES = {"B": "bus", "5": "bus", "S": "ship", "4": "ship", "F": "freight", "2": "freight", "T": "trip", "3": "trip", "P": "passenger", "1": "passenger"}
# Each category: the kind of its trains, and what else it says.
CATEGORIES = {
    "OL": ("passenger", "London Underground or metro"), "OU": ("passenger", "unadvertised ordinary"), "OO": ("passenger", "ordinary"), "OS": ("passenger", "staff"),
    "OW": ("passenger", "mixed"),
    "XC": ("passenger", "Channel Tunnel"), "XD": ("passenger", "sleeper, Europe"), "XI": ("passenger", "international"), "XR": ("passenger", "motorail"),
    "XU": ("passenger", "unadvertised express"), "XX": ("passenger", "express"), "XZ": ("passenger", "sleeper, domestic"),
    "BR": ("bus", "replacement because of engineering work"), "BS": ("bus", "in the working timetable"), "SS": ("ship", ""),
    "EE": ("empty", "coaching stock"), "EL": ("empty", "London Underground or metro stock"), "ES": ("empty", "coaching stock and staff"),
    "JJ": ("parcels", "postal"), "PM": ("parcels", "controlled by the Post Office"), "PP": ("parcels", ""), "PV": ("parcels", "empty vans"),
    "DD": ("departmental", ""), "DH": ("departmental", "civil engineer"), "DI": ("departmental", "mechanical and electrical engineer"), "DQ": ("departmental", "stores"),
    "DT": ("departmental", "test"), "DY": ("departmental", "signal and telecommunications engineer"),
    "ZB": ("light locomotive", "with brake van"), "ZZ": ("light locomotive", ""),
    "J2": ("freight", "automotive components"), "H2": ("freight", "automotive vehicles"), "J3": ("freight", "edible products"), "J4": ("freight", "industrial minerals"),
    "J5": ("freight", "chemicals"), "J6": ("freight", "building materials"), "J8": ("freight", "general merchandise"), "H8": ("freight", "European"),
    "J9": ("freight", "containers under contract"), "H9": ("freight", "other containers"),
    "A0": ("freight", "coal, distributive"), "E0": ("freight", "coal for electricity"), "B0": ("freight", "other coal, and nuclear"), "B1": ("freight", "metals"),
    "B4": ("freight", "aggregates"), "B5": ("freight", "domestic and industrial waste"), "B6": ("freight", "building materials"), "B7": ("freight", "petroleum products"),
    "H0": ("freight", "Channel Tunnel, mixed"), "H1": ("freight", "Channel Tunnel, intermodal"), "H3": ("freight", "Channel Tunnel, automotive"),
    "H4": ("freight", "Channel Tunnel, contract services"), "H5": ("freight", "Channel Tunnel, haulmark"), "H6": ("freight", "Channel Tunnel, joint venture"),
}
POWERS = {
    "D": "diesel", "DEM": "diesel electric multiple unit", "DMU": "diesel multiple unit", "E": "electric", "ED": "electro-diesel", "EML": "electric multiple unit with a locomotive",
    "EMU": "electric multiple unit", "HST": "high speed train",
}
# The powers whose timing load is a number of tonnes, and those whose timing load is a class.
LOCOMOTIVES, UNITS = ("D", "E", "ED"), ("EMU", "DMU", "DEM")
# Timing loads of multiple units that aren't the number of a class.
LOADS = {
    "DMU": {
        "69": "class 172", "A": "class 141 to 144", "E": "class 158, 168, 170 or 175", "N": "class 165/0", "S": "class 150, 153, 155 or 156", "T": "class 165/1 or 166",
        "V": "class 220 or 221", "X": "class 159", "D1": "power car and trailer", "D2": "two power cars and trailer", "D3": "two power cars",
    },
    "EMU": {"AT": "accelerated timings", "E": "class 458", "0": "class 380", "506": "class 350/1"},
}
LOADS["DEM"] = LOADS["DMU"]
CHARACTERISTICS = {
    "B": "vacuum braked", "C": "timed at 100 mph", "D": "driver only", "E": "mark 4 coaches", "G": "guard required", "M": "timed at 110 mph", "P": "push and pull", "Q": "runs as required",
    "R": "air conditioned, with announcements", "S": "steam heated", "Y": "runs to terminals or yards as required", "Z": "may have traffic to gauge SB1C, and isn’t to be diverted without authority",
}
CLASSES = {"B": "first and standard", "S": "standard only"}
SLEEPERS = {"B": "first and standard", "F": "first only", "S": "standard only"}
RESERVATIONS = {"A": "compulsory", "R": "recommended", "S": "possible from any station", "E": "essential for bicycles"}
CATERING = {
    "C": "buffet", "F": "restaurant for first class", "H": "hot food", "M": "meal included for first class", "P": "reservations for wheelchairs only", "R": "restaurant", "T": "trolley",
}
BRANDINGS = {"E": "Eurostar", "U": "Alphaline"}
BANK_HOLIDAYS = {
    "X": "doesn’t run on specified bank holiday Mondays", "E": "doesn’t run on specified Edinburgh holidays", "G": "doesn’t run on specified Glasgow holidays",
}
# What a train does at a location. What is empty is plain from the page: that the train begins, ends, or takes up and sets down passengers.
ACTIVITIES = {
    "T": "", "TB": "", "TF": "", "U": "pick up only", "D": "set down only", "N": "not advertised", "R": "request stop", "S": "railway staff only",
    "-T": "attaches and detaches", "-U": "attaches", "-D": "detaches", "AE": "attaches or detaches an assisting locomotive", "L": "changes locomotives", "BL": "banking locomotive",
    "RR": "locomotive runs round", "RM": "reverses", "OR": "locomotive on the rear", "PR": "is propelled", "C": "crew change", "OP": "operational stop",
    "A": "waits for other trains to pass", "X": "passes another train at a crossing point", "E": "is examined", "W": "coaches are watered", "TW": "tablet, staff or token",
    "K": "passengers are counted", "KC": "tickets are collected and examined", "KE": "tickets are examined", "KF": "first class tickets are examined",
    "KS": "some tickets are examined", "TS": "details for TOPS", "G": "data for the public timetable", "H": "column of the working timetable", "HH": "third column of the working timetable",
}
