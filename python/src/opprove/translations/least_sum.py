"""The least sum of columns that is a target: a dual simplex method over sparse rows

Of columns with numbers at keys and with costs, `least` finds multiples that add up to the target with the least sum of cost times
|multiple|. At the start no column is taken. In each step a key at which the target isn't met, or a column whose multiple has the wrong
sign, leaves the basis, and the column whose price reaches its cost first enters. Numbers are floats: what is found is to be added up.
"""
from __future__ import annotations

from typing import Dict, List, Mapping, Optional, Sequence, Set

TINY, LARGE = 1e-7, 10**9  # numbers that count as 0, and that are too large for floats


class Effort:
    """How much may still be done, in numbers that are looked at: the same on each machine."""

    def __init__(self, left: int) -> None:
        self.left = left

    def spend(self, amount: int) -> None:
        self.left -= amount


class Tableau:
    """Rows of basic variables over the columns that aren't basic. At first a row's variable is artificial: what is missing at its key."""

    def __init__(self, columns: Sequence[Mapping[str, int]], costs: Sequence[float], target: Mapping[str, int]) -> None:
        keys = {key: number for number, key in enumerate(dict.fromkeys([*target, *(key for column in columns for key in column)]))}
        self.costs = costs
        self.rows: List[Dict[int, float]] = [{} for _ in keys]
        self.holding: List[Set[int]] = [set() for _ in columns]  # the rows of each column
        self.values = [float(target.get(key, 0)) for key in keys]
        self.basic = [-1] * len(keys)  # the column of each row
        self.signs = [0] * len(keys)  # that its multiple is to have
        self.prices = [0.0] * len(columns)  # each between its cost and minus that
        for number, column in enumerate(columns):
            for key, value in column.items():
                self.rows[keys[key]][number] = float(value)
                self.holding[number].add(keys[key])
        self.wrong = {row for row, value in enumerate(self.values) if value}

    def leaving(self) -> int:
        """The row that is the most wrong."""
        return max(self.wrong, key=lambda row: (abs(self.values[row]), -row))

    def step(self, row: int, effort: Effort) -> bool:
        """Makes a row right, or says that nothing can."""
        direction, column = 1.0 if self.values[row] > 0 else -1.0, self.basic[row]
        most, entering = (2 * self.costs[column] if column >= 0 else float("inf")), -1
        for other, number in self.rows[row].items():
            rate = direction * number
            bound = ((self.costs[other] if rate > 0 else -self.costs[other]) - self.prices[other]) / rate
            if bound < most:
                most, entering = max(bound, 0.0), other
        if most == float("inf"):
            return False
        for other, number in self.rows[row].items():
            self.prices[other] += direction * most * number
        if entering < 0:
            self.signs[row] = -self.signs[row]
            self.note(row)
            return True
        if column >= 0:
            self.prices[column] = self.signs[row] * self.costs[column] + direction * most
        effort.spend(len(self.rows[row]) * (1 + len(self.holding[entering])))
        self.pivot(row, entering)
        return True

    def pivot(self, row: int, entering: int) -> None:
        """Has a column enter the basis in the place of the variable of a row."""
        old, number = self.rows[row], self.rows[row].pop(entering)
        made = {other: value / number for other, value in old.items()}
        if self.basic[row] >= 0:
            made[self.basic[row]] = 1 / number
        self.rows[row], self.basic[row] = made, entering
        self.values[row] /= number
        self.signs[row] = 1 if self.prices[entering] > 0 else -1
        for other in made:
            self.holding[other].add(row)
        for place in self.holding[entering] - {row}:
            self.take_off(place, self.rows[place].pop(entering), row)
        self.holding[entering] = set()
        self.note(row)

    def take_off(self, place: int, factor: float, other: int) -> None:
        """Takes so many times another row off one."""
        row = self.rows[place]
        for column, number in self.rows[other].items():
            value = row.get(column, 0.0) - factor * number
            if abs(value) > TINY:
                row[column] = value
                self.holding[column].add(place)
            elif column in row:
                del row[column]
                self.holding[column].discard(place)
        self.values[place] -= factor * self.values[other]
        self.note(place)

    def note(self, row: int) -> None:
        """Keeps whether a row is wrong: an artificial variable that isn't 0, or a multiple of the wrong sign."""
        value = self.values[row]
        is_wrong = abs(value) > TINY if self.basic[row] < 0 else self.signs[row] * value < -TINY
        (self.wrong.add if is_wrong else self.wrong.discard)(row)


def least(
    columns: Sequence[Mapping[str, int]], costs: Sequence[float], target: Mapping[str, int], effort: Effort
) -> Optional[Dict[int, float]]:
    """The multiples of columns, or nothing where there are none, numbers are large, or the effort ends first."""
    if any(abs(value) > LARGE for one in [target, *columns] for value in one.values()):
        return None
    tableau = Tableau(columns, costs, target)
    while tableau.wrong:
        if effort.left <= 0 or not tableau.step(tableau.leaving(), effort):
            return None
    return {column: tableau.values[row] for row, column in enumerate(tableau.basic) if column >= 0 and abs(tableau.values[row]) > TINY}
