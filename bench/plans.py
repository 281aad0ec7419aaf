#!/usr/bin/env python3
"""Shows what is said of plans that are refused: plans.py PROGRAM, or plans.py FOLDER to write the plans alone.

Each plan has one mistake that somebody made who wrote a first plan. What standard error says of it is printed below its
name. Whether it is enough to mend the plan by is for a reader to say. The status is 1 where a plan isn't refused."""
import os
import subprocess
import sys
import tempfile

STREAM = '[stream]\nname = "payments"\n'
COLUMNS = 'columns = ["ts", "card:text", "merchant:text", "mid:id", "amount:int", "declined:flag"]\n'
GOOD = "SELECT count(*) FROM payments OVER SLIDING 5 minutes"


def plan(query=GOOD, stream=STREAM, columns=COLUMNS, behind=""):
    return f"queries = [\n  '''{query}''',\n]\n\n{stream}{columns}{behind}"


def columns(text):
    return plan(columns=f"columns = {text}\n")


def settings(text):
    return plan(behind=f"\n[settings]\n{text}\n")


def defaults(text):
    return plan(behind=f"\n[stream.defaults]\n{text}\n")


def select(text):
    return plan(f"SELECT {text} FROM payments OVER INFINITE")


def where(text):
    return plan(f"SELECT count(*) FROM payments WHERE {text} OVER INFINITE")


def over(text):
    return plan(f"SELECT count(*) FROM payments {text}")


PLANS = {
    # queries, tables and keys
    "queries below the stream": STREAM + COLUMNS + f"queries = ['{GOOD}']\n",
    "queries below the settings": STREAM + COLUMNS + f"[settings]\ncommit = 10\nqueries = ['{GOOD}']\n",
    "an array that isn't closed": plan().replace("]", "", 1),
    "a comma missing between queries": f"queries = ['{GOOD}' '{GOOD}']\n" + STREAM + COLUMNS,
    "a key twice": plan() + 'name = "p"\n',
    "a string without quotes": plan().replace('"payments"', "payments", 1),
    "no queries": STREAM + COLUMNS,
    "an empty list of queries": "queries = []\n" + STREAM + COLUMNS,
    "queries as one string": f"queries = '{GOOD}'\n" + STREAM + COLUMNS,
    "query for queries": plan().replace("queries", "query", 1),
    "tables [[query]]": STREAM + COLUMNS + f"[[query]]\ntext = '{GOOD}'\n",
    "no stream": f"queries = ['{GOOD}']\n",
    "Stream in capitals": plan().replace("[stream]", "[Stream]"),
    "no name": plan(stream="[stream]\n"),
    "no columns": plan(columns=""),
    "colums": plan().replace("columns", "colums"),
    "a further key of the stream": plan(behind='time = "ts"\n'),
    "defaults at the top": plan(behind='[defaults]\nmid = "0"\n'),
    "an empty file": "",
    "JSON": '{"queries": []}\n',
    "YAML": "queries:\n  - x\n",
    "Latin-1": "",
    "UTF-16": "",
    # columns
    "columns as a table": columns('{ts = "time"}'),
    "the time with a kind": columns('["ts:int", "card:text"]'),
    "a column without a kind": columns('["ts", "card"]'),
    "the kind decimal": columns('["ts", "amount:decimal"]'),
    "the kind string": columns('["ts", "card:string"]'),
    "a space behind the colon": columns('["ts", "card: text"]'),
    "a kind in capitals": columns('["ts", "card:TEXT"]'),
    "two columns of one name": columns('["ts", "card:text", "card:id"]'),
    "a column of the time's name": columns('["ts", "ts:int"]'),
    "a column named group": columns('["ts", "group:text"]'),
    "a column named card-id": columns('["ts", "card-id:text"]'),
    "a column named 2nd": columns('["ts", "2nd:text"]'),
    "33 further columns": columns('["ts", ' + ", ".join(f'"c{i}:int"' for i in range(33)) + "]"),
    "a stream named by a sign": plan(stream='[stream]\nname = "card-payments"\n'),
    # defaults
    "a default of no column": defaults('country = "FR"'),
    "a default that is no string": defaults("amount = 0"),
    "a default of a wrong value": defaults('amount = "none"'),
    "a default TRUE of a flag": defaults('declined = "TRUE"'),
    "a default of the time": defaults('ts = "0"'),
    # settings
    "comit": settings("comit = 10"),
    "commit 0": settings("commit = 0"),
    "commit as a string": settings('commit = "10"'),
    "commit 1.5": settings("commit = 1.5"),
    "cache times chunk": settings("cache = 1024\nchunk = 4096"),
    "chunk alone too great": settings("chunk = 4096"),
    "header as a string": settings('header = "true"'),
    "header True": settings("header = True"),
    "grace with a unit": settings('grace = "2s"'),
    "grace below 0": settings("grace = -1"),
    "events 0": settings("events = 0"),
    "settings that are no table": "settings = 3\n" + plan(),
    # what is selected
    "a column alone": select("card"),
    "a star": select("*"),
    "count of a column": select("count(amount)"),
    "count of nothing": select("count()"),
    "count of distinct": select("count(distinct merchant)"),
    "count_distinct": select("count_distinct(merchant)"),
    "stddev": select("stddev(amount)"),
    "sum of a text": select("sum(card)"),
    "sum of an id": select("sum(mid)"),
    "first of a text": select("first(card)"),
    "min of a text": select("min(card)"),
    "last of a flag": select("last(declined)"),
    "max of the time": select("max(ts)"),
    "a column in another case": select("sum(Amount)"),
    "a column misspelt": select("sum(amunt)"),
    "arithmetic": select("sum(amount) / 100"),
    "an alias": select("count(*) AS n"),
    "no comma between answers": select("count(*) sum(amount)"),
    "a comma at the end": select("count(*),"),
    "a comment": select("count(*) -- all"),
    "distinct of two": select("countDistinct(card, merchant)"),
    "17 answers": select(", ".join(["count(*)"] * 17)),
    "an empty query": plan(""),
    "another stream": plan("SELECT count(*) FROM pay OVER INFINITE"),
    "no FROM": plan("SELECT count(*) OVER INFINITE"),
    # conditions
    "a text against an int": where("amount > 'a'"),
    "a number against a text": where("card = 1"),
    "a decimal literal": where("amount > 12.99"),
    "a literal with a plus": where("amount > +5"),
    "1_000": where("amount > 1_000"),
    "1e6": where("amount > 1e6"),
    "a literal out of range": where("amount > 9999999999999"),
    "an id below 0": where("mid = -1"),
    "BETWEEN": where("amount BETWEEN 1 AND 2"),
    "IN": where("card IN ('a', 'b')"),
    "LIKE": where("card LIKE 'a%'"),
    "a literal on the left": where("5 < amount"),
    "a bare flag": where("declined"),
    "a flag against 1": where("declined = 1"),
    "a flag below TRUE": where("declined < TRUE"),
    "the time in a condition": where("ts > 5"),
    "a column against a column": where("amount > mid"),
    "double quotes": where('card = "a"'),
    "==": where("amount == 3"),
    "<>": where("amount <> 3"),
    "&&": where("amount > 3 && declined = TRUE"),
    "IS NULL": where("card IS NULL"),
    "a parenthesis that isn't closed": where("(amount > 3"),
    "a string that isn't closed": where("card = 'a"),
    "NOT =": where("amount NOT = 3"),
    "smart quotes": where("card = \u2018a\u2019"),
    # keys and windows
    "grouped by the time": over("GROUP BY ts OVER INFINITE"),
    "grouped by no column": over("GROUP BY country OVER INFINITE"),
    "grouped in parentheses": over("GROUP BY (card) OVER INFINITE"),
    "9 columns grouped": over("GROUP BY " + ", ".join(["card"] * 9) + " OVER INFINITE"),
    "no OVER": over("GROUP BY card"),
    "no unit": over("OVER SLIDING 5"),
    "min for minutes": over("OVER SLIDING 5 min"),
    "weeks": over("OVER SLIDING 2 weeks"),
    "a month": over("OVER SLIDING 1 month"),
    "5m": over("OVER SLIDING 5m"),
    "a length of 0": over("OVER SLIDING 0 ms"),
    "a length below 0": over("OVER SLIDING -5 minutes"),
    "a length of 1.5": over("OVER SLIDING 1.5 hours"),
    "a length too great": over("OVER SLIDING 99999999 days"),
    "INTERVAL": over("OVER SLIDING INTERVAL 5 minutes"),
    "OVER TUMBLING": over("OVER TUMBLING 5 minutes"),
    "OVER 5 minutes": over("OVER 5 minutes"),
    "PARTITION BY": over("OVER (PARTITION BY card)"),
    "DELAYED without BY": over("OVER SLIDING 5 minutes DELAYED 1 minute"),
    "a semicolon": over("OVER INFINITE;"),
    "GROUP BY before WHERE": over("GROUP BY card WHERE amount > 3 OVER INFINITE"),
    "HAVING": over("GROUP BY card HAVING amount > 3"),
    "ORDER BY": over("OVER INFINITE ORDER BY card"),
    "the second query wrong": plan(f"{GOOD}''', '''SELECT card FROM payments OVER INFINITE"),
    "65 queries": plan("''', '''".join([GOOD] * 65)),
    "a query over three lines": plan("SELECT count(*)\nFROM payments\nWHERE country = 'FR'\nOVER INFINITE"),
}


def bytes_of(name):
    if name == "Latin-1":
        return where("card = 'é'").encode("latin-1")
    if name == "UTF-16":
        return plan().encode("utf-16")
    return PLANS[name].encode()


def main():
    where_to = sys.argv[1]
    only_write = os.path.isdir(where_to)
    folder = where_to if only_write else tempfile.mkdtemp()
    taken = 0
    for name in PLANS:
        path = os.path.join(folder, name.replace(" ", "_").replace("/", "_") + ".toml")
        with open(path, "wb") as file:
            file.write(bytes_of(name))
        if only_write:
            continue
        done = subprocess.run([where_to, "check", path], capture_output=True, text=True, errors="replace", check=False)
        print(f"== {name}\n{done.stderr.replace(path, 'plan.toml')}", end="")
        if done.returncode != 3:
            print(f"status {done.returncode}")
            taken += 1
    print(f"{len(PLANS)} plans, {taken} not refused")
    return taken > 0


sys.exit(main())
