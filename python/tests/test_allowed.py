"""Test designs with values that never come together, and with tests that exist."""

import itertools
import random
import time
import unittest
from unittest import mock

from folders import InFolder
from test_commands import run, run_until

from helgrothy import OutOfTime, Problem, ProgramFailed, TableFault, make
from helgrothy.make._designs import allowed
from helgrothy.make._designs.design import read_factors, read_rules
from helgrothy.make._designs.fewest import Best
from helgrothy.make._designs.shorten import Shorter

FACTORS = """\
system linux mac
browser firefox safari edge
database postgresql mysql
"""
RULES = "- system=linux browser=safari\n- system=linux browser=edge\n+ system=mac browser=edge database=mysql\n"

# Twenty factors and twenty bans.
MANY = """\
os ubuntu22 ubuntu24 debian12 rhel9 windows mac
arch amd64 arm64
python 3.9 3.10 3.11 3.12 3.13
database postgres mysql sqlite oracle
dbversion old current next
cache redis memcached none
queue rabbit kafka sqs none
auth ldap oauth saml local
tls 1.2 1.3 off
ipv v4 v6 dual
locale en de ja ar
timezone utc berlin kolkata
browser chrome firefox safari edge
screen phone tablet desktop
theme light dark
logging json text off
deploy docker k8s systemd bare
storage s3 nfs local
region eu us ap
mode debug release
"""
MANY_BANS = """\
- os=windows deploy=systemd
- os=mac deploy=systemd
- os=mac deploy=k8s
- os=windows storage=nfs
- browser=safari os=windows
- browser=safari os=ubuntu22
- browser=safari os=ubuntu24
- browser=safari os=debian12
- browser=safari os=rhel9
- database=oracle arch=arm64
- database=sqlite deploy=k8s
- os=mac database=oracle
- python=3.9 os=ubuntu24
- queue=sqs region=ap storage=nfs
- tls=off auth=saml
- tls=off auth=oauth
- screen=phone browser=edge
- mode=release logging=off
- deploy=bare cache=redis queue=kafka
- os=windows arch=arm64
"""

BAD = (
    ("- system=linux", "line 4: a forbidden combination has two values at least"),
    ("+", "line 4: a test that exists has values, FACTOR=VALUE"),
    ("- linux safari", "line 4: linux: no FACTOR=VALUE"),
    ("- system=linux bowser=safari", "line 4: bowser=safari: no factor bowser (is it browser?)"),
    ("- system=linux browser=safary", "line 4: browser=safary: browser has no such value (is it safari?)"),
    ("- system=linux system=mac", "line 4: system=mac: system has a value in this line already"),
    ("- system=mac browser=edge\n+ browser=edge database=mysql system=mac", "line 5: this test has what line 4 forbids"),
)


def rows_of(problem, numbers):
    picture = problem.draw([problem.options[number] for number in numbers])
    return [[picture.cells[r, c].label for c in range(len(picture.columns))] for r in range(len(picture.rows))]


def check(test, text, strength, work=20_000):
    """A design of a table is one: by all tests there can be."""
    factors = read_factors(text)
    rules = read_rules(text, factors)
    values = [factor.values for factor in factors]
    with mock.patch.object(allowed, "_MOST_LOOKS", work):
        found = make.tests.few(text, strength)
    bans = [{(f, values[f][v]) for f, v in ban.items()} for ban in rules.bans]
    may = [row for row in itertools.product(*values) if not any(ban <= set(enumerate(row)) for ban in bans)]
    rows = rows_of(found.problem, found.numbers)
    test.assertEqual(found.problem.check([[found.problem.options[number] for number in found.numbers]]), [True])
    test.assertEqual(len(rows), found.tests)
    for row, given in zip(rows, rules.given):
        test.assertTrue(all(row[f] == values[f][v] for f, v in given.items()))
    for row in rows[len(rules.given) :]:
        test.assertIn(tuple(row), may)
    for chosen in itertools.combinations(range(len(factors)), strength):
        wanted = {tuple(row[f] for f in chosen) for row in may}
        test.assertLessEqual(wanted, {tuple(row[f] for f in chosen) for row in rows})
        test.assertLessEqual(len(wanted), found.least)
    return found


class Designs(InFolder):
    def test_random_tables(self):
        rng = random.Random(3)
        for _ in range(20):
            factors = {f"f{n}": [f"v{k}" for k in range(rng.randint(2, 4))] for n in range(rng.randint(3, 5))}
            text = "".join(f"{name} {' '.join(values)}\n" for name, values in factors.items())
            for _ in range(rng.randint(1, 4)):
                names = rng.sample(sorted(factors), rng.choice([2, 2, 3]))
                text += "- " + " ".join(f"{name}={rng.choice(factors[name])}" for name in names) + "\n"
            if read_rules(text, read_factors(text)).bans:
                check(self, text, rng.choice([2, 2, 3]))

    def test_known(self):
        found = check(self, FACTORS + RULES, 2)
        # Linux with firefox and both databases, and mac with firefox, and with the others and both databases.
        self.assertEqual((found.tests, found.least), (7, 6))
        self.assertEqual(check(self, FACTORS + "+ system=mac\n", 3).tests, 12 + 1)

    def test_command(self):
        path = self.file("factors", FACTORS + RULES)
        with mock.patch.object(allowed, "_MOST_LOOKS", 5_000):
            status, text, messages = run("tests", path, "--least")
            self.assertEqual(run("tests", path, "--least"), (status, text, messages))
        lines = [line.split() for line in text.splitlines()]
        self.assertEqual((status, lines[1]), (2, ["1", "mac", "edge", "mysql"]))
        self.assertNotIn(["linux", "safari"], [line[1:3] for line in lines])
        known = "helgrothy: 7 tests, the fewest that were found; whether 6 are enough isn't known"
        self.assertEqual(messages, f"{known}; --seconds S looks longer\n")
        done = run("tests", path, "--tests", "6")
        self.assertEqual(done, (2, "", "helgrothy: the table has lines that begin with - or +: --least takes them, --tests doesn't\n"))
        for lines, wanted in BAD:
            done = run("tests", self.file("bad", f"{FACTORS}{lines}\n"), "--least")
            self.assertEqual(done, (2, "", f"helgrothy: {wanted}\n"))

    def test_many_bans(self):
        """At most 33 tests by a tenth of the work (32 by all of it), and each pair that may be is in one of them."""
        with mock.patch.object(allowed, "_MOST_LOOKS", 35_000):
            found = make.tests.few(MANY + MANY_BANS)
        rows = rows_of(found.problem, found.numbers)
        self.assertLessEqual(len(rows), 33)
        factors = {name: values for name, *values in map(str.split, MANY.splitlines())}
        names = list(factors)
        bans = [dict(word.split("=") for word in line.split()[1:]) for line in MANY_BANS.splitlines()]

        def may_be(test):
            if any(ban.items() <= test.items() for ban in bans):
                return False
            # A value that is in no ban goes with all.
            name = next((name for ban in bans for name in ban if name not in test), None)
            return name is None or any(may_be({**test, name: value}) for value in factors[name])

        self.assertTrue(all(may_be(dict(zip(names, row))) for row in rows))
        pairs = {((a, x), (b, y)) for a, b in itertools.combinations(names, 2) for x in factors[a] for y in factors[b]}
        held = {pair for row in rows for pair in itertools.combinations(zip(names, row), 2)}
        self.assertEqual([pair for pair in pairs - held if may_be(dict(pair))], [])

    def test_the_best_is_shown_when_time_is_over(self):
        """Also where the time ends amid the search, and where it takes longer to show the design than there is time."""
        slow = Best.few

        def few(best):
            time.sleep(1.2)
            return slow(best)

        path = self.file("many", MANY + MANY_BANS)
        with mock.patch.object(Best, "few", few):
            status, text, messages = run_until("fewest that were found", "tests", path, "--least")
        self.assertEqual(status, 2)
        self.assertRegex(messages, r"\Ahelgrothy: [0-9]+ tests, the fewest that were found in [0-9.]+ seconds; whether 29 to [0-9]+ are enough isn't known\n\Z")
        self.assertEqual(text.count("\n"), 1 + int(messages.split()[1]))
        with mock.patch.object(Shorter, "fewer", side_effect=OutOfTime("over")):
            for text in (MANY, MANY + MANY_BANS):
                self.assertLess(make.tests.few(text).tests, 50)

    def test_what_is_no_design_is_not_shown(self):
        """dlxcheck judges the tests that were found."""
        with mock.patch.object(Problem, "check", return_value=[False]), self.assertRaises(ProgramFailed):
            make.tests.few(FACTORS + RULES)

    def test_nothing_may_be(self):
        with self.assertRaisesRegex(ValueError, "no test may be: each has values that never come together"):
            make.tests.few("a 1 2\nb 1\n- a=1 b=1\n- a=2 b=1\n")
        with self.assertRaisesRegex(TableFault, "forbids"):
            factors = "a 1 2\nb 1 2\n"
            read_rules(f"{factors}- a=1 b=1\n+ a=1 b=1\n", read_factors(factors))


if __name__ == "__main__":
    unittest.main()
