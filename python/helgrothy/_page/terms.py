"""What the page calls the kinds and their fields, and how it explains them.

On the command line a field is a name, an option or a file; on the page it is a label, and its text is typed.
"""

from __future__ import annotations

# By the names of the kinds.
TITLES: dict[str, str] = {
    "sudoku": "Sudoku",
    "queens": "Queens on a board",
    "langford": "Langford's pairs",
    "polyominoes": "Polyominoes in a region",
    "polyforms": "Polyhexes or polyiamonds in a region",
    "polycubes": "Polycubes in a box",
    "words": "Crossword",
    "wordsearch": "Word search",
    "nonogram": "Nonogram",
    "kakuro": "Kakuro",
    "roster": "Roster of shifts",
    "roundrobin": "Round robin",
    "tests": "Tests of combinations",
    "timetable": "Timetable of lessons or exams",
}

# By the names of the kinds and of their fields: a label and a help.
FIELDS: dict[str, dict[str, tuple[str, str]]] = {
    "sudoku": {
        "clues": (
            "Clues",
            "Row by row, a dot or 0 for an empty place: 81 for nine rows, or 16 to 625 for 4 to 25 rows. With regions "
            "or cages there may be none.",
        ),
        "regions": ("Regions instead of boxes", "A picture with a letter for each place."),
        "cages": (
            "Cages with sums",
            "A line for each cage, its sum and its places, such as 12 r1c1 r1c2. Or a picture with a letter for each "
            "place, a blank line, and the sums, such as a=12 b=7.",
        ),
        "diagonals": ("Each of the two long diagonals has each digit too", ""),
    },
    "queens": {
        "board": (
            "Board",
            "The number of rows. Or a picture of coloured regions, a letter for each square: then one queen in each "
            "row, column and region, and none next to another.",
        ),
    },
    "langford": {"pairs": ("How many pairs", "Between the two numbers k stand k other numbers.")},
    "polyominoes": {
        "pieces": (
            "Pieces",
            "pentominoes or tetrominoes. Or pictures with blank lines between them, each drawn by its letter.",
        ),
        "region": ("Region", "Rows and columns, such as 6x10. Or a picture in which # and blanks are holes."),
        "no_turns": ("Pieces may be turned", ""),
        "no_mirrors": ("Pieces may be mirrored", ""),
        "some": ("Pieces may be left over", ""),
    },
    "polyforms": {
        "pieces": (
            "Pieces",
            "tetrahexes, hexiamonds, trihexes, pentahexes, tetriamonds, pentiamonds or heptiamonds. Or pictures with "
            "blank lines between them, each drawn by its letter.",
        ),
        "region": (
            "Region",
            "Rows and columns of a parallelogram, such as 4x7. Or a picture in which # and blanks are holes.",
        ),
        "grid": ("Grid of pieces of your own", "hex: a blank between two, each row half a cell aside. Or triangle."),
        "one_sided": ("Mirror images are pieces of their own", ""),
        "copies": ("How often pieces are there", "Where it isn't once, such as I=2,O=0."),
        "no_turns": ("Pieces may be turned", ""),
        "no_mirrors": ("Pieces may be mirrored", ""),
        "some": ("Pieces may be left over", ""),
    },
    "polycubes": {
        "pieces": (
            "Pieces",
            "soma, tetracubes, pentacubes, tetrominoes or pentominoes. Or pictures with blank lines between them, each "
            "drawn by its letter, its layers side by side and dots where it has no cube.",
        ),
        "box": (
            "Box",
            "Layers, rows and columns, such as 3x3x3. Or a picture of the layers side by side, in which # is a hole.",
        ),
        "mirrors": ("Pieces may be mirrored", ""),
        "some": ("Pieces may be left over", ""),
    },
    "words": {
        "grid": ("Grid", "# is a black square, a letter a given one, and a dot is to be filled."),
        "list": ("Words", "With blanks or line ends between them."),
    },
    "wordsearch": {
        "list": ("Words", "With blanks or line ends between them."),
        "grid": (
            "Grid",
            "Rows and columns, such as 8x8. Or a picture: # is a hole, a letter a given one, and a dot is free. If it "
            "is empty, a square.",
        ),
        "forwards": ("No word runs to the left or straight up", ""),
        "fill": ("Letters in the free squares", "A number, the same one for the same letters; if it is empty, none."),
    },
    "nonogram": {
        "clues": (
            "Clues",
            "A line for each row, a blank line, and a line for each column: the lengths of its runs, 0 for none, ? "
            "where they aren't given.",
        ),
    },
    "kakuro": {
        "grid": (
            "Grid",
            "Cells with blanks between them: a dot is a white cell, a digit a given one, # a black one, and 17\\24 a "
            "black one with the sum 17 below it and 24 to its right.",
        ),
    },
    "roster": {
        "table": (
            "Table",
            "A line of days after a minus, a line for each shift with the people that it takes on each day, a blank "
            "line, and a line for each person: how many shifts, and what is not for them (-tue, -late, -tue/late) or "
            "what it costs (tue=3, late=3, tue/late=3).",
        ),
        "in_a_row": ("The most days in a row for a person", ""),
        "days_off": ("How many days off together, once at least", ""),
        "rest": ("On the next day no shift that stands higher in the table", ""),
    },
    "roundrobin": {
        "teams": (
            "Teams",
            "A line for each team: its name, and what has to be so: home:3 or away:3 for the third round, not:bob@3 "
            "for no game against bob then, shares:bob if the two have one place, where both are never at home.",
        ),
        "in_a_row": ("The most rounds in a row at home, or away", ""),
        "double": ("Each two teams meet twice, once at each one's home", ""),
    },
    "tests": {
        "factors": (
            "Factors",
            "A line for each factor, its name and its values. Or only how many values each has, such as 3,3,2.",
        ),
        "tests": ("How many tests", ""),
        "strength": ("How many factors together", "The values of any so many factors come together: 2 if it is empty."),
    },
    "timetable": {
        "table": (
            "Table",
            "Lines with commas: day,NAME,HOURS and room,NAME,,PLACES,SEATS and lesson,NAME,PEOPLE,PLACES,SEATS,TIMES "
            "and person,NAME,LESSONS,PLACES,LIMIT. A place is a day, an hour, a slot such as mon-9, or a room; a minus "
            "before it forbids it, and mon=3 is what it costs there.",
        ),
        "daily": ("The most lessons a day for a person", ""),
    },
}
