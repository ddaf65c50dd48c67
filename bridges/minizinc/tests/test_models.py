"""Whole models with known answers, through MiniZinc."""

import unittest

from .minizinc import solve

COMPLETE = "=========="

# The first models of MiniZinc's tutorial.
AUSTRALIA = """
    var 1..3: wa; var 1..3: nt; var 1..3: sa; var 1..3: q; var 1..3: nsw; var 1..3: v; var 1..3: t;
    constraint wa != nt /\\ wa != sa /\\ nt != sa /\\ nt != q /\\ sa != q /\\ sa != nsw /\\ sa != v /\\ q != nsw /\\ nsw != v;
    solve satisfy;"""
CAKES = """
    var 0..100: b; var 0..100: c;
    constraint 250*b + 200*c <= 4000 /\\ 2*b <= 6 /\\ 75*b + 150*c <= 2000 /\\ 100*b + 150*c <= 500 /\\ 75*c <= 500;
    solve maximize 400*b + 450*c;"""
MONEY = """
    include "alldifferent.mzn";
    var 1..9: S; var 0..9: E; var 0..9: N; var 0..9: D; var 1..9: M; var 0..9: O; var 0..9: R; var 0..9: Y;
    constraint 1000*S + 100*E + 10*N + D + 1000*M + 100*O + 10*R + E = 10000*M + 1000*O + 100*N + 10*E + Y;
    constraint alldifferent([S,E,N,D,M,O,R,Y]);
    solve satisfy;"""
FURNITURE = """
    include "cumulative.mzn";
    array[1..4] of int: d = [30, 10, 15, 15];
    array[1..4] of var 0..60: s; var 0..60: end;
    constraint cumulative(s, d, [3, 1, 3, 2], 4) /\\ cumulative(s, d, [2, 1, 2, 2], 3);
    constraint forall(i in 1..4)(s[i] + d[i] <= end);
    solve minimize end;"""
QUEENS = """
    include "alldifferent.mzn";
    array[1..6] of var 1..6: q;
    constraint alldifferent(q) /\\ alldifferent(i in 1..6)(q[i] + i) /\\ alldifferent(i in 1..6)(q[i] - i);
    solve satisfy;"""
MAGIC_SEQUENCE = """
    include "global_cardinality.mzn";
    array[0..6] of var 0..7: x;
    constraint global_cardinality(x, array1d(0..6, [i | i in 0..6]), x);
    solve satisfy;"""
GOLOMB = """
    include "alldifferent.mzn";
    array[1..5] of var 0..25: m;
    constraint m[1] = 0 /\\ forall(i in 1..4)(m[i] < m[i+1]) /\\ alldifferent(i, j in 1..5 where i < j)(m[j] - m[i]);
    solve minimize m[5];"""
ZEBRA = """
    include "alldifferent.mzn"; include "inverse.mzn";
    enum N = {English, Spanish, Ukrainian, Norwegian, Japanese}; enum D = {coffee, tea, milk, juice, water};
    enum C = {red, green, ivory, yellow, blue}; enum P = {dog, snails, fox, horse, zebra};
    enum S = {OldGold, Kools, Chesterfield, LuckyStrike, Parliament};
    array[N] of var 1..5: n; array[D] of var 1..5: d; array[C] of var 1..5: c; array[P] of var 1..5: p;
    array[S] of var 1..5: s; array[1..5] of var N: who;
    constraint alldifferent(n) /\\ alldifferent(d) /\\ alldifferent(c) /\\ alldifferent(p) /\\ alldifferent(s);
    constraint inverse(n, who) /\\ n[English] = c[red] /\\ n[Spanish] = p[dog] /\\ d[coffee] = c[green];
    constraint n[Ukrainian] = d[tea] /\\ c[green] = c[ivory] + 1 /\\ s[OldGold] = p[snails] /\\ s[Kools] = c[yellow];
    constraint d[milk] = 3 /\\ n[Norwegian] = 1 /\\ abs(s[Chesterfield] - p[fox]) = 1 /\\ abs(s[Kools] - p[horse]) = 1;
    constraint s[LuckyStrike] = d[juice] /\\ n[Japanese] = s[Parliament] /\\ abs(n[Norwegian] - c[blue]) = 1;
    var N: drinks_water; var N: owns_zebra;
    constraint drinks_water = who[d[water]] /\\ owns_zebra = who[p[zebra]];
    solve satisfy;"""
# Six by six by Fisher and Thompson: the shortest makespan is 55.
JOB_SHOP = """
    include "disjunctive.mzn";
    array[1..6, 1..6] of int: m = [|3,1,2,4,6,5|2,3,5,6,1,4|3,4,6,1,2,5|2,1,3,4,5,6|3,2,5,6,1,4|2,4,6,1,5,3|];
    array[1..6, 1..6] of int: d = [|1,3,6,7,3,6|8,5,10,10,10,4|5,4,8,9,1,7|5,5,5,3,8,9|9,3,5,4,3,1|3,3,9,10,4,1|];
    array[1..6, 1..6] of var 0..100: s; var 0..100: end;
    constraint forall(j in 1..6, k in 1..5)(s[j, k] + d[j, k] <= s[j, k+1]);
    constraint forall(j in 1..6)(s[j, 6] + d[j, 6] <= end);
    constraint forall(i in 1..6)(
        disjunctive([s[j, k] | j, k in 1..6 where m[j, k] = i], [d[j, k] | j, k in 1..6 where m[j, k] = i]));
    solve minimize end;"""
# Squares of sides 1 to 5 fit into 12 by 5, and into no rectangle of less area than that.
SQUARES = """
    include "diffn.mzn";
    array[1..5] of var 0..14: x; array[1..5] of var 0..14: y; var 5..15: w; var 5..15: h;
    constraint diffn(x, y, [1,2,3,4,5], [1,2,3,4,5]) /\\ w >= h;
    constraint forall(i in 1..5)(x[i] + i <= w /\\ y[i] + i <= h);
    solve minimize w * h;"""
# Around a grid of 4 by 4 points by steps of length 1 there is a tour, and none is shorter than 16.
TOUR = """
    include "circuit.mzn";
    array[1..16] of var 1..16: next;
    array[1..16, 1..16] of int: d = array2d(1..16, 1..16, [
        abs((i - 1) mod 4 - (j - 1) mod 4) + abs((i - 1) div 4 - (j - 1) div 4) | i, j in 1..16]);
    constraint circuit(next);
    solve minimize sum(i in 1..16)(d[i, next[i]]);"""
# Ones stand in pairs between zeros: as many words of length 9 as there are ways to set 1 and 3 in a row, 19.
PAIRS = """
    include "regular.mzn";
    array[1..9] of var 1..2: x;
    constraint regular(x, 3, 2, [|1, 2|0, 3|1, 0|], 1, {1, 3});
    solve satisfy;"""
PIGEONS = """
    include "bin_packing.mzn";
    array[1..7] of var 1..6: hole;
    constraint bin_packing(1, hole, [1 | i in 1..7]);
    solve satisfy;"""
LANGFORD = """
    include "alldifferent.mzn";
    array[1..2, 1..4] of var 1..8: p;
    constraint alldifferent(array1d(p)) /\\ forall(k in 1..4)(p[2, k] = p[1, k] + k + 1);
    solve satisfy;"""


class Models(unittest.TestCase):
    """Answers that stand in books, or follow by counting."""

    def best(self, model: str, objective: int) -> dict:
        """The last solution of a model, after checking that it has the best objective and is said to be best."""
        run = solve(model, "--output-objective")
        self.assertEqual(run.last_line(), COMPLETE, run.errors)
        solution = run.solutions()[-1]
        self.assertEqual(solution["_objective"], objective)
        return solution

    def count(self, model: str, count: int) -> list[dict]:
        """All solutions, after checking how many there are, and that none comes twice."""
        run = solve(model, "-a")
        self.assertEqual(run.last_line(), COMPLETE, run.errors)
        solutions = run.solutions()
        self.assertEqual(len(solutions), count)
        self.assertEqual(len(set(map(str, solutions))), count)
        return solutions

    def test_australia(self) -> None:
        """Six colourings of the mainland by three colours, times three for Tasmania."""
        self.count(AUSTRALIA, 18)

    def test_cakes(self) -> None:
        """Two banana cakes and two chocolate cakes, for 1700."""
        solution = self.best(CAKES, 1700)
        self.assertEqual((solution["b"], solution["c"]), (2, 2))

    def test_money(self) -> None:
        """9567 + 1085 = 10652, and nothing else."""
        (solution,) = self.count(MONEY, 1)
        self.assertEqual([solution[letter] for letter in "SENDMORY"], [9, 5, 6, 7, 1, 0, 8, 2])

    def test_furniture(self) -> None:
        """The furniture is moved in an hour."""
        self.best(FURNITURE, 60)

    def test_queens(self) -> None:
        """Six queens stand in four ways."""
        self.count(QUEENS, 4)

    def test_magic_sequence(self) -> None:
        """Of length 7 there is one."""
        (solution,) = self.count(MAGIC_SEQUENCE, 1)
        self.assertEqual(solution["x"], [3, 2, 1, 1, 0, 0, 0])

    def test_golomb(self) -> None:
        """The shortest ruler with five marks has length 11."""
        self.best(GOLOMB, 11)

    def test_zebra(self) -> None:
        """The Norwegian drinks water, and the Japanese owns the zebra."""
        (solution,) = self.count(ZEBRA, 1)
        self.assertEqual((solution["drinks_water"], solution["owns_zebra"]), ({"e": "Norwegian"}, {"e": "Japanese"}))

    def test_job_shop(self) -> None:
        """The shortest makespan is 55."""
        self.best(JOB_SHOP, 55)

    def test_squares(self) -> None:
        """Five squares fit into an area of 60."""
        self.best(SQUARES, 60)

    def test_tour(self) -> None:
        """The tour of a grid is as long as it has points."""
        self.best(TOUR, 16)

    def test_pairs(self) -> None:
        """Words are counted."""
        self.count(PAIRS, pairs_of_length(9))

    def test_pigeons(self) -> None:
        """Seven pigeons do not fit into six holes."""
        self.assertEqual(solve(PIGEONS).last_line(), "=====UNSATISFIABLE=====")

    def test_langford(self) -> None:
        """Four pairs stand in one way and its mirror image."""
        self.count(LANGFORD, 2)


def pairs_of_length(length: int) -> int:
    """How many words of zeros and of pairs of ones there are, where a pair is followed by a zero or ends the word."""
    words = [1, 1]
    while len(words) <= length:
        words.append(words[-1] + (words[-3] if len(words) > 2 else 1))
    return words[length]


if __name__ == "__main__":
    unittest.main()
