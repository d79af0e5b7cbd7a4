"""Prints the report of a works whose records are rows of a database.

For refused records it prints the refusal on standard error, and the offending record; the exit status is then 1.
"""

import sqlite3
import sys

import wiltoresh

# The works of document 01. A null in net_calorific_value or emission_factor is the standard value of the code.
TABLES = """
    create table process (number integer, output_kg integer);
    insert into process values (1, 1000), (2, 400);

    create table burning (
        process integer, fuel integer, kg integer, net_calorific_value integer, emission_factor integer
    );
    insert into burning values (1, 16, 1000, null, null);

    create table heat (giver integer, taker integer, megajoules integer, factor integer);
    insert into heat values (1, 2, 10000, 56100);

    create table electricity (giver integer, taker integer, kilowatt_hours integer, factor integer);
    insert into electricity values (0, 2, 500, 400000);

    create table bought_precursor (process integer, kg integer, direct integer, indirect integer);
    insert into bought_precursor values (2, 100, 1900000, 250000);

    create table own_good (giver integer, taker integer, kg integer);
    insert into own_good values (1, 2, 300);
"""

# The processes come first, by rising number. Burning is method 1; here all of it oxidises, and nothing is biomass.
QUERIES = [
    (wiltoresh.Process, "select number, output_kg from process order by number"),
    (
        wiltoresh.SourceStream,
        "select process, 1, fuel, kg, net_calorific_value, emission_factor, 10000, 0 from burning",
    ),
    (wiltoresh.MeasurableHeat, "select giver, taker, megajoules, factor from heat"),
    (wiltoresh.Electricity, "select giver, taker, kilowatt_hours, factor from electricity"),
    (wiltoresh.BoughtPrecursor, "select process, kg, direct, indirect from bought_precursor"),
    (wiltoresh.OwnGood, "select giver, taker, kg from own_good"),
]


def main() -> int:
    database = sqlite3.connect(":memory:")
    database.executescript(TABLES)
    records = [kind(*row) for kind, query in QUERIES for row in database.execute(query)]
    try:
        sheet = wiltoresh.write(records)
    except wiltoresh.Refusal as refusal:
        print(refusal, file=sys.stderr)
        if refusal.line:
            print(records[refusal.line - 1], file=sys.stderr)
        return 1
    sys.stdout.buffer.write(wiltoresh.report(sheet))
    return 0


if __name__ == "__main__":
    sys.exit(main())
