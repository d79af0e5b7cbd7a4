"""Writes the trial's input to a file, and the output that is expected of it to FILE.stdout.

cases.py FILE         the examples and the standard values of document 01, and six sheets of document 02
cases.py FILE CASES   the cases that the reference implementation made
"""
import sys

EXAMPLE = b"""P,1,1000
P,2,400
S,1,1,16,1000,-,-,10000,0
H,1,2,10000,56100
E,0,2,500,400000
B,2,100,1900000,250000
G,1,2,300
"""
REPORT = b"""R,1,2131800,0,0,2131800,0,1492260,0,2131.800,0.000
R,2,561000,200000,0,1390540,225000,1390540,225000,3476.350,562.500
T,3107800,3107800,0,0
"""
NOTHING = b"""R,1,0,0,0,0,0,0,0,0.000,0.000
R,2,0,0,0,0,0,0,0,0.000,0.000
T,0,0,0,0
"""
# Document 02, ticket 2: 1,000 kg at 850,000 mg/kg are 3,114,400 g; with shares of 0, 1, 5,000, 9,999 and 10,000 in process 1 to 5.
SHARES = b"".join(b"P,%d,1000\n" % n for n in range(1, 6)) + b"".join(
    b"S,%d,3,0,1000,850000,0,10000,%d\n" % case for case in enumerate((0, 1, 5000, 9999, 10000), start=1)
)
SHARES_REPORT = b"""R,1,3114400,0,0,3114400,0,3114400,0,3114.400,0.000
R,2,3114089,0,0,3114089,0,3114089,0,3114.089,0.000
R,3,1557200,0,0,1557200,0,1557200,0,1557.200,0.000
R,4,311,0,0,311,0,311,0,0.311,0.000
R,5,0,0,0,0,0,0,0,0.000,0.000
T,7786000,7786000,0,0
"""
# Document 02, ticket 4: 100 kg of precursor 7 in process 1. Rank 1 governs though it is stated after the use: 1,900,000 and 250,000 mg/kg
# are 190,000 g and 25,000 g. 300 of 1,000 kg go to process 2, so 57,000 g and 7,500 g of them; it uses 1 kg of precursor 9 three times,
# each rounded alone: 500 mg is 1 g and 499 mg is 0 g. Precursor 8 is not used. Pools of 2: 57,003 g and 7,500 g over 400 kg.
RANKS = b"""P,1,1000
P,2,400
K,7,3,2500000,400000
N,1,7,100
K,7,1,1900000,250000
K,7,2,2000000,300000
K,8,1,5000,5000
N,2,9,1
N,2,9,1
K,9,2,500,499
N,2,9,1
G,1,2,300
"""
RANKS_REPORT = b"""R,1,0,0,0,190000,25000,133000,17500,190.000,25.000
R,2,0,0,0,57003,7500,57003,7500,142.507,18.750
T,215003,215003,0,0
"""
# Document 01, "Source streams": kJ/kg and mg/MJ of each fuel, mg/kg of each carbonate, as it prints them.
FUELS = [
    (42300, 73300),
    (44300, 69300),
    (43800, 71900),
    (43000, 74100),
    (40400, 77400),
    (47300, 63100),
    (32500, 97500),
    (26700, 98300),
    (28200, 94600),
    (25800, 94600),
    (18900, 96100),
    (11900, 101000),
    (28200, 107000),
    (38700, 44400),
    (2470, 260000),
    (48000, 56100),
]
CARBONATES = [440000, 522000, 415000, 223000, 596000, 318000, 298000, 524000, 380000]


def table(method, rest, grams):
    """A sheet with a process and a stream for each code, and its report, with these grams code by code."""
    codes = range(1, len(grams) + 1)
    lines = [b"P,%d,1\n" % n for n in codes] + [b"S,%d,%d,%d,%s\n" % (n, method, n, rest) for n in codes]
    rows = [b"R,%d,%d,0,0,%d,0,%d,0,%d.000,0.000\n" % (n, g, g, g, g) for n, g in zip(codes, grams)]
    return b"".join(lines), 0, 0, b"".join(rows) + b"T,%d,%d,0,0\n" % (sum(grams), sum(grams))


# The example report, the table of refusals, those of ticket 4 with one of a line below a use without figures, a case of ticket 2 and
# one of ticket 4, K lines alone, and the standard values: a sheet, its number and line, its report. 1,000 kg at 1,000 mg/MJ weigh
# the net calorific value in grams, 1,000 kg at 1,000 kJ/kg the emission factor, 1,000 kg of a carbonate its factor.
EXAMPLES = [
    (EXAMPLE, 0, 0, REPORT),
    (b"x" * 65537, 1, 0, b""),
    (b"P,1,5\n" + b"E,0,1,1,0\n" * 4096, 2, 4097, b""),
    (b"P,1,5", 3, 1, b""),
    (b"\n", 4, 1, b""),
    (b"P,1\n", 5, 1, b""),
    (b"P,1,05\n", 6, 1, b""),
    (b"P,1,0\n", 7, 1, b""),
    (b"P,2,5\n", 8, 1, b""),
    (b"P,1,5\nW,1,2,9\n", 9, 2, b""),
    (b"P,1,5\nW,1,1,9\n", 10, 2, b""),
    (b"P,1,5\nS,1,1,0,1,-,1,1,0\n", 11, 2, b""),
    (b"P,1,5\nP,2,5\nG,1,2,1\nG,1,2,1\n", 12, 4, b""),
    (b"P,1,5\nP,2,5\nG,1,2,6\n", 13, 3, b""),
    (b"", 14, 0, b""),
    (b"K,7,1,5,5\nK,7,2,5,5\nK,7,1,6,6\n", 17, 3, b""),
    (b"P,1,5\nN,1,7,1\nN,1,8,1\nN,1,9,1\nK,7,3,5,5\n", 18, 3, b""),
    (b"P,1,5\nN,1,7,1\nW,1,1,9\n", 10, 3, b""),
    (b"P,1,1\nP,2,1\nG,1,2,1\n", 0, 0, NOTHING),
    (SHARES, 0, 0, SHARES_REPORT),
    (RANKS, 0, 0, RANKS_REPORT),
    (b"K,7,1,5,5\nK,7,3,5,5\n", 0, 0, b"T,0,0,0,0\n"),
    table(1, b"1000,-,1000,10000,0", [value for value, _ in FUELS]),
    table(1, b"1000,1000,-,10000,0", [factor for _, factor in FUELS]),
    table(2, b"1000,-,0,10000,0", CARBONATES),
]


def made(path):
    """The cases of a file, without those of refusal 16, which the reckoner does not decide."""
    data = open(path, "rb").read()
    at = 0
    while at < len(data):
        size, _, number, line, length = (int(data[k : k + 8]) for k in range(at, at + 40, 8))
        sheet = data[at + 40 : at + 40 + size]
        at += 40 + size
        report = data[at : at + length]
        at += length
        if number != 16:
            yield sheet, number, line, report


def expected(sheet, number, line, report):
    if number == 0:
        return report
    offending = sheet.split(b"\n")[line - 1] if line else b""
    return b"%d,%d,%s\n" % (number, line, offending)


def main():
    cases = list(made(sys.argv[2])) if len(sys.argv) > 2 else EXAMPLES
    with open(sys.argv[1], "wb") as given, open(sys.argv[1] + ".stdout", "wb") as wanted:
        for case in cases:
            given.write(b"%08d" % len(case[0]) + case[0])
            wanted.write(expected(*case) + b"--\n")
    print(len(cases), "cases")


main()
