"""What a rider's newest rental tells, and a rider who rides by one that is not the newest: no request makes such a
city, and the rules of docs/FORMATS.md, section 11, allow its file.

A desk asks the newest rental of a rider alone where every open rental is its rider's newest; in this file it may not.
So what is refused, and what is allowed once the older rental is closed, is that of docs/OPERATOR.md, and not of a city
in which the newest rental tells.
"""

from pathlib import Path

import shared
from shared import SOUND, Server, answer, changed, get, post, rows_of

CITY = """
office set-system metro en Metro 24/7 feeds@example.org Etc/UTC EUR http://127.0.0.1:8080 30
office add-plan basic Basic 100 false One_euro 0:0:0:-
office add-type city City bicycle human 0 basic
office add-station a1 Harbour 41.890169 12.492269 4
office add-bike 7 city
office add-bike 8 city
office add-bike 9 city
office add-truck 3 20
office open-order 3 * a1 city 3
office load 3 1 7
office load 3 1 8
office load 3 1 9
office unload 3 1 7 to 1
office unload 3 1 8 to 2
office unload 3 1 9 to 3
office add-rider 17
office top-up 17 2500
office add-rider 18
office top-up 18 2500
rider:17 start 17 a1 1
rider:18 start 18 a1 2
dock:a1 end 8 a1 2
"""

# Rental 2 becomes one of rider 17, who still rides by rental 1.
OLDER_IS_OPEN = (
    "UPDATE rentals SET rider = 17 WHERE rental = 2; UPDATE entries SET rider = 17 WHERE rental = 2; "
    "UPDATE riders_4 SET balance = 2400 WHERE rider = 17; UPDATE riders_4 SET balance = 2500 WHERE rider = 18"
)


class City:
    """Requests to a city in a file, each a second after the one before and under a key of its own."""

    def __init__(self, program, name):
        self.program, self.file, self.asked = program, Path(program.folder, name), 0

    def ask(self, *lines):
        """The answers to these requests, each a caller and a command, in one run of the program."""
        given = []
        for line in lines:
            caller, command = line.split(" ", 1)
            self.asked += 1
            given.append(
                f"{1700000000 + self.asked}\t{caller}\tk{self.asked}\t"
                f"{command.replace(' ', chr(9)).replace('_', ' ')}\n"
            )
        status, answers, said = self.program.run("lines", self.file.name, given="".join(given).encode())
        assert (status, said) == (0, b""), (status, said)
        return answers.decode().replace("\t", " ").splitlines()


def odd_city(program):
    """The city whose rider 17 rides by rental 1, beside the newer rental 2, which is closed."""
    city = City(program, "city.db")
    answers = city.ask(*CITY.strip().split("\n"))
    assert answers[-3:] == ["rental 1 7", "rental 2 8", "fare 100 2400"], answers
    changed(city.file, OLDER_IS_OPEN)
    assert rows_of("SELECT rental, rider, finish IS NULL FROM rentals", city.file) == [(1, 17, 1), (2, 17, 0)]
    assert program.run("check", city.file.name) == SOUND
    return city


def test_a_rider_of_an_older_rental_may_not_start(program):
    city = odd_city(program)
    before = rows_of("SELECT * FROM rentals", city.file)
    # A start of somebody else comes first, so that the desk has asked before.
    answers = city.ask(
        "rider:18 start 18 a1 3", "rider:17 start 17 a1 2", "rider:17 start 17 a1 2", "dock:a1 end 9 a1 3"
    )
    assert answers == ["rental 3 9", "refused 20 rider_is_riding", "refused 20 rider_is_riding", "fare 100 2400"], (
        answers
    )
    answers = city.ask("rider:17 start 17 a1 2")
    assert answers == ["refused 20 rider_is_riding"], answers
    assert rows_of("SELECT * FROM rentals WHERE rental < 3", city.file) == before


def test_once_the_older_rental_is_closed_the_rider_starts(program):
    city = odd_city(program)
    answers = city.ask(
        "rider:17 start 17 a1 2",
        "dock:a1 end 7 a1 1",
        "rider:17 start 17 a1 1",
        "rider:17 start 17 a1 2",
        "dock:a1 end 7 a1 1",
    )
    assert answers == [
        "refused 20 rider_is_riding", "fare 100 2300", "rental 3 7", "refused 20 rider_is_riding", "fare 100 2200"
    ], answers
    # Now the newest tells, and a start asks for it alone.
    answers = city.ask("rider:17 start 17 a1 2", "rider:17 start 17 a1 1", "office recover 4", "rider:17 start 17 a1 1")
    assert answers[:2] == ["rental 4 8", "refused 20 rider_is_riding"], answers
    assert answers[3] == "rental 5 7", answers
    assert program.run("check", city.file.name) == SOUND


def test_a_rider_of_the_newest_rental_may_not_start(program):
    city = City(program, "plain.db")
    city.ask(*CITY.strip().split("\n"))
    answers = city.ask(
        "rider:17 start 17 a1 2",
        "rider:18 start 18 a1 2",
        "rider:18 start 18 a1 3",
        "dock:a1 end 7 a1 1",
        "rider:17 start 17 a1 1",
    )
    assert answers == [
        "refused 20 rider_is_riding", "rental 3 8", "refused 20 rider_is_riding", "fare 100 2400", "rental 4 7"
    ], answers


def row(rider, balance, rental):
    """The answer of a rider's row."""
    return answer(200, f'{{"rider":{rider},"state":"open","balance_cents":{balance},"rental":{rental}}}')


def test_the_row_of_a_rider_of_an_older_rental(program):
    """It tells the open rental, also when it is asked again."""
    odd_city(program)
    with Server(program, 4) as server:
        for _ in range(2):
            assert server.ask(get("/riders/17")) == row(17, 2400, 1)
            assert server.ask(get("/riders/18")) == row(18, 2500, 0)


# Closed rentals of rider 17 at 1 hundredth each. A sound file holds them as it holds those of requests.
FEW, MANY = 200, 4000
RIDES = """
WITH RECURSIVE counted (n) AS (SELECT 1 UNION ALL SELECT n + 1 FROM counted WHERE n < {0})
INSERT INTO rentals (rental, rider, bike, plan_id, from_station, start, to_station, finish, fare, refunded)
SELECT n, 17, 7, 'basic', 'a1', 1699999200, 'a1', 1699999200, 1, 0 FROM counted;
INSERT INTO entries (entry, kind, rider, rental, amount, at)
SELECT rental + (SELECT max(entry) FROM entries), 2, 17, rental, 1, 1699999200 FROM rentals;
UPDATE riders_4 SET balance = balance - {0} WHERE rider = 17
"""


def processor(child):
    """The nanoseconds of processor that a program took up to now."""
    return int(Path(f"/proc/{child.pid}/schedstat").read_text().split()[0])


def costs_beside(program, rides):
    """What rows of a rider without rentals, a start of that rider, and rows of rider 17 cost beside so many rentals of
    rider 17. The first row reads each rental once."""
    file, times = f"rides{rides}.db", 20
    shared.accepted(program, [*shared.CITY, "add-rider\t18", "top-up\t18\t2500"], file=file, key="f")
    changed(Path(program.folder, file), RIDES.format(rides))
    assert program.run("check", file) == SOUND
    with Server(program, file=file) as server:

        def cost(asked):
            """What these requests cost, each with what it is to be answered."""
            before = processor(server.child)
            for request, wanted in asked:
                found = server.ask(request)
                assert found == wanted, found
            return processor(server.child) - before

        first = get("/riders/17"), row(17, 2500 - rides, 0)
        cost([first])
        plain = cost([(get("/riders/18"), row(18, 2500, 0))] * times)
        start = answer(200, f'{{"result":"ok","rental":{rides + 1},"bike":7}}')
        begun = cost([(post("/riders/18/start", '{"key":"s1","station":"a1","dock":1}'), start)])
        own = cost([first] * times)
    return {"rows of a rider without rentals": plain, "a start": begun, "rows of a rider of many": own}


def test_rows_and_starts_cost_no_more_beside_many_rentals(program):
    """A rider's row and start don't grow with the rentals of the city, nor with the rider's own."""
    few, many = costs_beside(program, FEW), costs_beside(program, MANY)
    for name, cost in many.items():
        most = (6 if name == "a start" else 3) * few[name]
        assert cost < most, f"{name}: {cost} ns of a processor beside {MANY} rentals, and {few[name]} beside {FEW}"
    own, plain = (many[it] for it in ("rows of a rider of many", "rows of a rider without rentals"))
    assert own < 3 * plain, f"rows took {own} ns of a processor, and {plain} of a rider without rentals"
