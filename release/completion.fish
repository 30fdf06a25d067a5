# Completion of the words of programs and commands in fish. Made by scripts/completion: changes belong there.

# Each command finds this file by a name of its own, and one reading is enough for all of them.
set -q __helgrothy_commands; and return

# Whether the words before the one that is typed lead to a command and, where one is given, to a place of its words.
function __helgrothy_is -a command place
    set -l words (commandline -opc)
    set -l path (string replace -r '.*/' '' -- $words[1])
    set -l at 1
    set -l is_value 0
    for given in $words[2..-1]
        if test $is_value = 1
            set is_value 0
        else if contains -- "$path $given" $__helgrothy_valued
            set is_value 1
        else if string match -q -- '-?*' $given
            continue
        else if contains -- "$path $given" $__helgrothy_commands
            set path "$path $given"
            set at 1
        else
            set at (math $at + 1)
        end
    end
    test "$path" = "$command"; or return 1
    switch "$place"
        case ''
            return 0
        case '*+'
            test $at -ge (string trim -c + -- $place)
        case '*'
            test $at = $place
    end
end

set -g __helgrothy_commands \
    'dlx1' \
    'dlx2' \
    'dlx3' \
    'dlxcheck' \
    'dlx-span' \
    'dlx-join' \
    'dlx-count' \
    'dlx-none' \
    'helgrothy' \
    'helgrothy make' \
    'helgrothy make sudoku' \
    'helgrothy make queens' \
    'helgrothy make langford' \
    'helgrothy make polyominoes' \
    'helgrothy make polyforms' \
    'helgrothy make polycubes' \
    'helgrothy make words' \
    'helgrothy make wordsearch' \
    'helgrothy make nonogram' \
    'helgrothy make kakuro' \
    'helgrothy make roster' \
    'helgrothy make roundrobin' \
    'helgrothy make tests' \
    'helgrothy make timetable' \
    'helgrothy solve' \
    'helgrothy draw' \
    'helgrothy lint' \
    'helgrothy export' \
    'helgrothy why' \
    'helgrothy count' \
    'helgrothy page' \
    'helgrothy search' \
    'helgrothy hint' \
    'helgrothy hint sudoku' \
    'helgrothy hint queens' \
    'helgrothy hint langford' \
    'helgrothy hint polyominoes' \
    'helgrothy hint polyforms' \
    'helgrothy hint polycubes' \
    'helgrothy hint words' \
    'helgrothy hint wordsearch' \
    'helgrothy hint nonogram' \
    'helgrothy hint kakuro' \
    'helgrothy hint roster' \
    'helgrothy hint roundrobin' \
    'helgrothy hint tests' \
    'helgrothy hint timetable' \
    'helgrothy minimal' \
    'helgrothy minimal sudoku' \
    'helgrothy minimal nonogram' \
    'helgrothy minimal kakuro' \
    'helgrothy sudoku' \
    'helgrothy queens' \
    'helgrothy langford' \
    'helgrothy polyominoes' \
    'helgrothy polyforms' \
    'helgrothy polycubes' \
    'helgrothy words' \
    'helgrothy wordsearch' \
    'helgrothy nonogram' \
    'helgrothy kakuro' \
    'helgrothy roster' \
    'helgrothy roundrobin' \
    'helgrothy tests' \
    'helgrothy timetable'

set -g __helgrothy_valued \
    'helgrothy make sudoku --regions' \
    'helgrothy make sudoku --cages' \
    'helgrothy make polyforms --grid' \
    'helgrothy make polyforms --copies' \
    'helgrothy make wordsearch --fill' \
    'helgrothy make roster --in-a-row' \
    'helgrothy make roster --days-off' \
    'helgrothy make roundrobin --in-a-row' \
    'helgrothy make tests --tests' \
    'helgrothy make tests --strength' \
    'helgrothy make timetable --daily' \
    'helgrothy solve --number' \
    'helgrothy solve --limit' \
    'helgrothy solve --seed' \
    'helgrothy solve --seconds' \
    'helgrothy solve --with' \
    'helgrothy solve --without' \
    'helgrothy solve --shuffle' \
    'helgrothy solve --cost' \
    'helgrothy solve --cell' \
    'helgrothy solve --grid' \
    'helgrothy solve --row' \
    'helgrothy solve --column' \
    'helgrothy solve --label' \
    'helgrothy draw --number' \
    'helgrothy draw --cell' \
    'helgrothy draw --grid' \
    'helgrothy draw --row' \
    'helgrothy draw --column' \
    'helgrothy draw --label' \
    'helgrothy lint --for' \
    'helgrothy export --cost' \
    'helgrothy why --seconds' \
    'helgrothy count --megabytes' \
    'helgrothy count --seconds' \
    'helgrothy page --port' \
    'helgrothy search --jobs' \
    'helgrothy search --dask' \
    'helgrothy search --seconds' \
    'helgrothy search --folder' \
    'helgrothy search --for' \
    'helgrothy search --status' \
    'helgrothy search --result' \
    'helgrothy search --rows' \
    'helgrothy hint --with' \
    'helgrothy hint --without' \
    'helgrothy hint --seconds' \
    'helgrothy hint sudoku --regions' \
    'helgrothy hint sudoku --cages' \
    'helgrothy hint sudoku --with' \
    'helgrothy hint sudoku --without' \
    'helgrothy hint sudoku --seconds' \
    'helgrothy hint queens --with' \
    'helgrothy hint queens --without' \
    'helgrothy hint queens --seconds' \
    'helgrothy hint langford --with' \
    'helgrothy hint langford --without' \
    'helgrothy hint langford --seconds' \
    'helgrothy hint polyominoes --with' \
    'helgrothy hint polyominoes --without' \
    'helgrothy hint polyominoes --seconds' \
    'helgrothy hint polyforms --grid' \
    'helgrothy hint polyforms --copies' \
    'helgrothy hint polyforms --with' \
    'helgrothy hint polyforms --without' \
    'helgrothy hint polyforms --seconds' \
    'helgrothy hint polycubes --with' \
    'helgrothy hint polycubes --without' \
    'helgrothy hint polycubes --seconds' \
    'helgrothy hint words --with' \
    'helgrothy hint words --without' \
    'helgrothy hint words --seconds' \
    'helgrothy hint wordsearch --fill' \
    'helgrothy hint wordsearch --with' \
    'helgrothy hint wordsearch --without' \
    'helgrothy hint wordsearch --seconds' \
    'helgrothy hint nonogram --with' \
    'helgrothy hint nonogram --without' \
    'helgrothy hint nonogram --seconds' \
    'helgrothy hint kakuro --with' \
    'helgrothy hint kakuro --without' \
    'helgrothy hint kakuro --seconds' \
    'helgrothy hint roster --in-a-row' \
    'helgrothy hint roster --days-off' \
    'helgrothy hint roster --with' \
    'helgrothy hint roster --without' \
    'helgrothy hint roster --seconds' \
    'helgrothy hint roundrobin --in-a-row' \
    'helgrothy hint roundrobin --with' \
    'helgrothy hint roundrobin --without' \
    'helgrothy hint roundrobin --seconds' \
    'helgrothy hint tests --tests' \
    'helgrothy hint tests --strength' \
    'helgrothy hint tests --with' \
    'helgrothy hint tests --without' \
    'helgrothy hint tests --seconds' \
    'helgrothy hint timetable --daily' \
    'helgrothy hint timetable --with' \
    'helgrothy hint timetable --without' \
    'helgrothy hint timetable --seconds' \
    'helgrothy minimal --with' \
    'helgrothy minimal --seed' \
    'helgrothy minimal --seconds' \
    'helgrothy minimal sudoku --regions' \
    'helgrothy minimal sudoku --cages' \
    'helgrothy minimal sudoku --with' \
    'helgrothy minimal sudoku --seed' \
    'helgrothy minimal sudoku --seconds' \
    'helgrothy minimal nonogram --with' \
    'helgrothy minimal nonogram --seed' \
    'helgrothy minimal nonogram --seconds' \
    'helgrothy minimal kakuro --with' \
    'helgrothy minimal kakuro --seed' \
    'helgrothy minimal kakuro --seconds' \
    'helgrothy sudoku --regions' \
    'helgrothy sudoku --cages' \
    'helgrothy sudoku --number' \
    'helgrothy sudoku --limit' \
    'helgrothy sudoku --seed' \
    'helgrothy sudoku --seconds' \
    'helgrothy sudoku --with' \
    'helgrothy sudoku --without' \
    'helgrothy sudoku --shuffle' \
    'helgrothy sudoku --cost' \
    'helgrothy queens --number' \
    'helgrothy queens --limit' \
    'helgrothy queens --seed' \
    'helgrothy queens --seconds' \
    'helgrothy queens --with' \
    'helgrothy queens --without' \
    'helgrothy queens --shuffle' \
    'helgrothy queens --cost' \
    'helgrothy langford --number' \
    'helgrothy langford --limit' \
    'helgrothy langford --seed' \
    'helgrothy langford --seconds' \
    'helgrothy langford --with' \
    'helgrothy langford --without' \
    'helgrothy langford --shuffle' \
    'helgrothy langford --cost' \
    'helgrothy polyominoes --number' \
    'helgrothy polyominoes --limit' \
    'helgrothy polyominoes --seed' \
    'helgrothy polyominoes --seconds' \
    'helgrothy polyominoes --with' \
    'helgrothy polyominoes --without' \
    'helgrothy polyominoes --shuffle' \
    'helgrothy polyominoes --cost' \
    'helgrothy polyforms --grid' \
    'helgrothy polyforms --copies' \
    'helgrothy polyforms --number' \
    'helgrothy polyforms --limit' \
    'helgrothy polyforms --seed' \
    'helgrothy polyforms --seconds' \
    'helgrothy polyforms --with' \
    'helgrothy polyforms --without' \
    'helgrothy polyforms --shuffle' \
    'helgrothy polyforms --cost' \
    'helgrothy polycubes --number' \
    'helgrothy polycubes --limit' \
    'helgrothy polycubes --seed' \
    'helgrothy polycubes --seconds' \
    'helgrothy polycubes --with' \
    'helgrothy polycubes --without' \
    'helgrothy polycubes --shuffle' \
    'helgrothy polycubes --cost' \
    'helgrothy words --number' \
    'helgrothy words --limit' \
    'helgrothy words --seed' \
    'helgrothy words --seconds' \
    'helgrothy words --with' \
    'helgrothy words --without' \
    'helgrothy words --shuffle' \
    'helgrothy words --cost' \
    'helgrothy wordsearch --fill' \
    'helgrothy wordsearch --number' \
    'helgrothy wordsearch --limit' \
    'helgrothy wordsearch --seed' \
    'helgrothy wordsearch --seconds' \
    'helgrothy wordsearch --with' \
    'helgrothy wordsearch --without' \
    'helgrothy wordsearch --shuffle' \
    'helgrothy wordsearch --cost' \
    'helgrothy nonogram --number' \
    'helgrothy nonogram --limit' \
    'helgrothy nonogram --seed' \
    'helgrothy nonogram --seconds' \
    'helgrothy nonogram --with' \
    'helgrothy nonogram --without' \
    'helgrothy nonogram --shuffle' \
    'helgrothy nonogram --cost' \
    'helgrothy kakuro --number' \
    'helgrothy kakuro --limit' \
    'helgrothy kakuro --seed' \
    'helgrothy kakuro --seconds' \
    'helgrothy kakuro --with' \
    'helgrothy kakuro --without' \
    'helgrothy kakuro --shuffle' \
    'helgrothy kakuro --cost' \
    'helgrothy roster --in-a-row' \
    'helgrothy roster --days-off' \
    'helgrothy roster --number' \
    'helgrothy roster --limit' \
    'helgrothy roster --seed' \
    'helgrothy roster --seconds' \
    'helgrothy roster --with' \
    'helgrothy roster --without' \
    'helgrothy roster --shuffle' \
    'helgrothy roster --cost' \
    'helgrothy roundrobin --in-a-row' \
    'helgrothy roundrobin --number' \
    'helgrothy roundrobin --limit' \
    'helgrothy roundrobin --seed' \
    'helgrothy roundrobin --seconds' \
    'helgrothy roundrobin --with' \
    'helgrothy roundrobin --without' \
    'helgrothy roundrobin --shuffle' \
    'helgrothy roundrobin --cost' \
    'helgrothy tests --tests' \
    'helgrothy tests --strength' \
    'helgrothy tests --number' \
    'helgrothy tests --limit' \
    'helgrothy tests --seed' \
    'helgrothy tests --seconds' \
    'helgrothy tests --with' \
    'helgrothy tests --without' \
    'helgrothy tests --shuffle' \
    'helgrothy tests --cost' \
    'helgrothy timetable --daily' \
    'helgrothy timetable --number' \
    'helgrothy timetable --limit' \
    'helgrothy timetable --seed' \
    'helgrothy timetable --seconds' \
    'helgrothy timetable --with' \
    'helgrothy timetable --without' \
    'helgrothy timetable --shuffle' \
    'helgrothy timetable --cost'

complete -c dlx1 -f
complete -c dlx2 -f
complete -c dlx3 -f
complete -c dlxcheck -f
complete -c dlx-span -f
complete -c dlx-join -f
complete -c dlx-count -f
complete -c dlx-none -f
complete -c helgrothy -f
complete -c helgrothy -n '__helgrothy_is \'helgrothy\'' -s h -l help -d 'show this help message and exit'
complete -c helgrothy -n '__helgrothy_is \'helgrothy\'' -l version -d 'show program\'s version number and exit'
complete -c helgrothy -n '__helgrothy_is \'helgrothy\' 1' -a make -d 'write a problem'
complete -c helgrothy -n '__helgrothy_is \'helgrothy\' 1' -a solve -d 'solve a problem and draw what is found'
complete -c helgrothy -n '__helgrothy_is \'helgrothy\' 1' -a draw -d 'draw a listing, or another solver\'s answer'
complete -c helgrothy -n '__helgrothy_is \'helgrothy\' 1' -a lint -d 'report all faults and slips of a problem'
complete -c helgrothy -n '__helgrothy_is \'helgrothy\' 1' -a export -d 'write a problem for another solver'
complete -c helgrothy -n '__helgrothy_is \'helgrothy\' 1' -a why -d 'report which items conflict where there is no solution'
complete -c helgrothy -n '__helgrothy_is \'helgrothy\' 1' -a count -d 'count the solutions of a problem'
complete -c helgrothy -n '__helgrothy_is \'helgrothy\' 1' -a page -d 'a local page to type a problem in'
complete -c helgrothy -n '__helgrothy_is \'helgrothy\' 1' -a search -d 'count or list all solutions, by all processors or many machines'
complete -c helgrothy -n '__helgrothy_is \'helgrothy\' 1' -a hint -d 'report a step that is forced, and why'
complete -c helgrothy -n '__helgrothy_is \'helgrothy\' 1' -a minimal -d 'drop what is given while there is one solution'
complete -c helgrothy -n '__helgrothy_is \'helgrothy\' 1' -a sudoku -d 'make and solve a Sudoku from its clues'
complete -c helgrothy -n '__helgrothy_is \'helgrothy\' 1' -a queens -d 'make and solve queens on a board, or in coloured regions'
complete -c helgrothy -n '__helgrothy_is \'helgrothy\' 1' -a langford -d 'make and solve Langford\'s pairs'
complete -c helgrothy -n '__helgrothy_is \'helgrothy\' 1' -a polyominoes -d 'make and solve pieces of squares that fill a region'
complete -c helgrothy -n '__helgrothy_is \'helgrothy\' 1' -a polyforms -d 'make and solve pieces of hexagons or triangles that fill a region'
complete -c helgrothy -n '__helgrothy_is \'helgrothy\' 1' -a polycubes -d 'make and solve pieces of cubes that fill a box'
complete -c helgrothy -n '__helgrothy_is \'helgrothy\' 1' -a words -d 'make and solve words across and down in a grid'
complete -c helgrothy -n '__helgrothy_is \'helgrothy\' 1' -a wordsearch -d 'make and solve words of a list hidden in a grid of letters'
complete -c helgrothy -n '__helgrothy_is \'helgrothy\' 1' -a nonogram -d 'make and solve a nonogram from its clues'
complete -c helgrothy -n '__helgrothy_is \'helgrothy\' 1' -a kakuro -d 'make and solve a Kakuro from its grid'
complete -c helgrothy -n '__helgrothy_is \'helgrothy\' 1' -a roster -d 'make and solve shifts of people on days'
complete -c helgrothy -n '__helgrothy_is \'helgrothy\' 1' -a roundrobin -d 'make and solve a round robin at home and away'
complete -c helgrothy -n '__helgrothy_is \'helgrothy\' 1' -a tests -d 'make and solve tests in which values of factors come together'
complete -c helgrothy -n '__helgrothy_is \'helgrothy\' 1' -a timetable -d 'make and solve lessons or exams in slots and rooms'
complete -c helgrothy -n '__helgrothy_is \'helgrothy make\'' -s h -l help -d 'show this help message and exit'
complete -c helgrothy -n '__helgrothy_is \'helgrothy make\' 1' -a sudoku -d 'a Sudoku from its clues'
complete -c helgrothy -n '__helgrothy_is \'helgrothy make\' 1' -a queens -d 'queens on a board, or in coloured regions'
complete -c helgrothy -n '__helgrothy_is \'helgrothy make\' 1' -a langford -d 'Langford\'s pairs'
complete -c helgrothy -n '__helgrothy_is \'helgrothy make\' 1' -a polyominoes -d 'pieces of squares that fill a region'
complete -c helgrothy -n '__helgrothy_is \'helgrothy make\' 1' -a polyforms -d 'pieces of hexagons or triangles that fill a region'
complete -c helgrothy -n '__helgrothy_is \'helgrothy make\' 1' -a polycubes -d 'pieces of cubes that fill a box'
complete -c helgrothy -n '__helgrothy_is \'helgrothy make\' 1' -a words -d 'words across and down in a grid'
complete -c helgrothy -n '__helgrothy_is \'helgrothy make\' 1' -a wordsearch -d 'words of a list hidden in a grid of letters'
complete -c helgrothy -n '__helgrothy_is \'helgrothy make\' 1' -a nonogram -d 'a nonogram from its clues'
complete -c helgrothy -n '__helgrothy_is \'helgrothy make\' 1' -a kakuro -d 'a Kakuro from its grid'
complete -c helgrothy -n '__helgrothy_is \'helgrothy make\' 1' -a roster -d 'shifts of people on days'
complete -c helgrothy -n '__helgrothy_is \'helgrothy make\' 1' -a roundrobin -d 'a round robin at home and away'
complete -c helgrothy -n '__helgrothy_is \'helgrothy make\' 1' -a tests -d 'tests in which values of factors come together'
complete -c helgrothy -n '__helgrothy_is \'helgrothy make\' 1' -a timetable -d 'lessons or exams in slots and rooms'
complete -c helgrothy -n '__helgrothy_is \'helgrothy make sudoku\'' -s h -l help -d 'show this help message and exit'
complete -c helgrothy -n '__helgrothy_is \'helgrothy make sudoku\'' -l regions -r -F -d 'a file with a picture of the regions, a letter for each place'
complete -c helgrothy -n '__helgrothy_is \'helgrothy make sudoku\'' -l cages -r -F -d 'a file with a line for each cage, its sum and its places (12 r1c1 r1c2); or with a picture, a letter for each place, and after a blank line the sums (a=12 b=7)'
complete -c helgrothy -n '__helgrothy_is \'helgrothy make sudoku\'' -l diagonals -d 'each of the two long diagonals has each digit too'
complete -c helgrothy -n '__helgrothy_is \'helgrothy make queens\'' -s h -l help -d 'show this help message and exit'
complete -c helgrothy -n '__helgrothy_is \'helgrothy make langford\'' -s h -l help -d 'show this help message and exit'
complete -c helgrothy -n '__helgrothy_is \'helgrothy make polyominoes\'' -s h -l help -d 'show this help message and exit'
complete -c helgrothy -n '__helgrothy_is \'helgrothy make polyominoes\'' -l no-turns -d 'pieces may not be turned'
complete -c helgrothy -n '__helgrothy_is \'helgrothy make polyominoes\'' -l no-mirrors -d 'pieces may not be mirrored'
complete -c helgrothy -n '__helgrothy_is \'helgrothy make polyominoes\'' -l some -d 'pieces may be left over'
complete -c helgrothy -n '__helgrothy_is \'helgrothy make polyforms\'' -s h -l help -d 'show this help message and exit'
complete -c helgrothy -n '__helgrothy_is \'helgrothy make polyforms\'' -l grid -r -f -a 'hex triangle' -d 'what pieces of your own are drawn in'
complete -c helgrothy -n '__helgrothy_is \'helgrothy make polyforms\'' -l one-sided -d 'of a set: no piece is turned over, and a mirror image is a piece of its own, with a small letter'
complete -c helgrothy -n '__helgrothy_is \'helgrothy make polyforms\'' -l copies -r -f -d 'how often pieces are there, where not once: I=2,O=0'
complete -c helgrothy -n '__helgrothy_is \'helgrothy make polyforms\'' -l no-turns -d 'pieces may not be turned'
complete -c helgrothy -n '__helgrothy_is \'helgrothy make polyforms\'' -l no-mirrors -d 'pieces may not be mirrored'
complete -c helgrothy -n '__helgrothy_is \'helgrothy make polyforms\'' -l some -d 'pieces may be left over'
complete -c helgrothy -n '__helgrothy_is \'helgrothy make polycubes\'' -s h -l help -d 'show this help message and exit'
complete -c helgrothy -n '__helgrothy_is \'helgrothy make polycubes\'' -l mirrors -d 'mirror images of pieces may be used too'
complete -c helgrothy -n '__helgrothy_is \'helgrothy make polycubes\'' -l some -d 'pieces may be left over'
complete -c helgrothy -n '__helgrothy_is \'helgrothy make words\'' -s h -l help -d 'show this help message and exit'
complete -c helgrothy -n '__helgrothy_is \'helgrothy make wordsearch\'' -s h -l help -d 'show this help message and exit'
complete -c helgrothy -n '__helgrothy_is \'helgrothy make wordsearch\'' -l forwards -d 'no word is written to the left or straight up'
complete -c helgrothy -n '__helgrothy_is \'helgrothy make wordsearch\'' -l fill -r -f -d 'letters in the free squares too, the same for the same number'
complete -c helgrothy -n '__helgrothy_is \'helgrothy make nonogram\'' -s h -l help -d 'show this help message and exit'
complete -c helgrothy -n '__helgrothy_is \'helgrothy make kakuro\'' -s h -l help -d 'show this help message and exit'
complete -c helgrothy -n '__helgrothy_is \'helgrothy make roster\'' -s h -l help -d 'show this help message and exit'
complete -c helgrothy -n '__helgrothy_is \'helgrothy make roster\'' -l rest -d 'no shift on the next day that stands higher in the table'
complete -c helgrothy -n '__helgrothy_is \'helgrothy make roster\'' -l in-a-row -r -f -d 'nobody works more than N days in a row'
complete -c helgrothy -n '__helgrothy_is \'helgrothy make roster\'' -l days-off -r -f -d 'everybody has N days off together, once at least'
complete -c helgrothy -n '__helgrothy_is \'helgrothy make roundrobin\'' -s h -l help -d 'show this help message and exit'
complete -c helgrothy -n '__helgrothy_is \'helgrothy make roundrobin\'' -l double -d 'each two teams meet twice, once at each one\'s home'
complete -c helgrothy -n '__helgrothy_is \'helgrothy make roundrobin\'' -l in-a-row -r -f -d 'no team is more than N rounds in a row at home, or away'
complete -c helgrothy -n '__helgrothy_is \'helgrothy make tests\'' -s h -l help -d 'show this help message and exit'
complete -c helgrothy -n '__helgrothy_is \'helgrothy make tests\'' -l tests -r -f -d 'so many tests'
complete -c helgrothy -n '__helgrothy_is \'helgrothy make tests\'' -l strength -r -f -d 'the values of any T factors come together (default: 2)'
complete -c helgrothy -n '__helgrothy_is \'helgrothy make timetable\'' -s h -l help -d 'show this help message and exit'
complete -c helgrothy -n '__helgrothy_is \'helgrothy make timetable\'' -l daily -r -f -d 'nobody has more than N lessons a day'
complete -c helgrothy -n '__helgrothy_is \'helgrothy solve\'' -s h -l help -d 'show this help message and exit'
complete -c helgrothy -n '__helgrothy_is \'helgrothy solve\'' -l number -r -f -d 'the K-th solution instead of the first'
complete -c helgrothy -n '__helgrothy_is \'helgrothy solve\'' -l random -d 'one of all solutions, each as likely as any other'
complete -c helgrothy -n '__helgrothy_is \'helgrothy solve\'' -l limit -r -f -d 'the first N solutions'
complete -c helgrothy -n '__helgrothy_is \'helgrothy solve\'' -l all -d 'all solutions'
complete -c helgrothy -n '__helgrothy_is \'helgrothy solve\'' -l count -d 'only how many solutions there are'
complete -c helgrothy -n '__helgrothy_is \'helgrothy solve\'' -l chances -d 'in how many percent of all solutions each cell has what, or, without a picture, each option is chosen'
complete -c helgrothy -n '__helgrothy_is \'helgrothy solve\'' -l unique -d 'whether there is exactly one solution; if not, two'
complete -c helgrothy -n '__helgrothy_is \'helgrothy solve\'' -l svg -d 'a picture as SVG, of one solution'
complete -c helgrothy -n '__helgrothy_is \'helgrothy solve\'' -l html -d 'a page for a browser: the solutions, their pictures, and the search\'s way'
complete -c helgrothy -n '__helgrothy_is \'helgrothy solve\'' -l json -d 'a line of JSON for each solution: its number, and the rows of the table that is drawn; where none is, the numbers of its options, their items, and the colours'
complete -c helgrothy -n '__helgrothy_is \'helgrothy solve\'' -l csv -d 'the table that is drawn as CSV; where none is, a line for each choice'
complete -c helgrothy -n '__helgrothy_is \'helgrothy solve\'' -l options -d 'of --json and --csv: the options, also where a table is drawn'
complete -c helgrothy -n '__helgrothy_is \'helgrothy solve\'' -l seed -r -f -d 'of --random: the same solution for the same number'
complete -c helgrothy -n '__helgrothy_is \'helgrothy solve\'' -l seconds -r -f -d 'give up after S seconds'
complete -c helgrothy -n '__helgrothy_is \'helgrothy solve\'' -l with -r -f -d 'only solutions with the option that has these items, as many as it takes to be clear; may be repeated'
complete -c helgrothy -n '__helgrothy_is \'helgrothy solve\'' -l without -r -f -d 'only solutions without the options that have all of these items, or patterns of them; may be repeated'
complete -c helgrothy -n '__helgrothy_is \'helgrothy solve\'' -l shuffle -r -f -d 'solutions in a random order of the options, the same for the same number'
complete -c helgrothy -n '__helgrothy_is \'helgrothy solve\'' -l up-to-symmetry -d 'one solution of those that are images of each other by turns and mirrors of the board or box'
complete -c helgrothy -n '__helgrothy_is \'helgrothy solve\'' -l cost -r -F -d 'the solution of least cost, from a file: lines of names of items (or patterns) and a number, which each option that has them costs, or a number for each option; clasp, highs, cbc and glpsol are asked too, where they are on the path'
complete -c helgrothy -n '__helgrothy_is \'helgrothy solve\'' -l all-costs -d 'of --cost and wishes: each line that costs something, not only the ten that cost most'
complete -c helgrothy -n '__helgrothy_is \'helgrothy solve\'' -l cell -r -f -d 'a regular expression that finds the cells, as whole words, in an option\'s line; its first two groups (or those named row and column) are row and column, a number or a single letter, and a third one its label'
complete -c helgrothy -n '__helgrothy_is \'helgrothy solve\'' -l grid -r -f -a 'square hex triangle' -d 'of --cell: square (default); hex, with axial coordinates; or triangle, which point up where row and column add up to an even number, or are half 0 (u) or 1 (d) of a rhombus, by a third group'
complete -c helgrothy -n '__helgrothy_is \'helgrothy solve\'' -l row -r -f -d 'a regular expression that finds the name of a row in the words of an option: the picture is a table of these names, in the order of the file'
complete -c helgrothy -n '__helgrothy_is \'helgrothy solve\'' -l column -r -f -d 'a regular expression that finds the name of a column in the words of an option: the picture is a table of these names, in the order of the file'
complete -c helgrothy -n '__helgrothy_is \'helgrothy solve\'' -l label -r -f -d 'a regular expression that finds the label in an option\'s line'
complete -c helgrothy -n '__helgrothy_is \'helgrothy draw\'' -s h -l help -d 'show this help message and exit'
complete -c helgrothy -n '__helgrothy_is \'helgrothy draw\'' -l number -r -f -d 'the solution of this number alone'
complete -c helgrothy -n '__helgrothy_is \'helgrothy draw\'' -l svg -d 'a picture as SVG, of the first solution or that of --number'
complete -c helgrothy -n '__helgrothy_is \'helgrothy draw\'' -l html -d 'a page for a browser: the solutions, their pictures, and the search\'s way'
complete -c helgrothy -n '__helgrothy_is \'helgrothy draw\'' -l json -d 'a line of JSON for each solution: its number, and the rows of the table that is drawn; where none is, the numbers of its options, their items, and the colours'
complete -c helgrothy -n '__helgrothy_is \'helgrothy draw\'' -l csv -d 'the table that is drawn as CSV; where none is, a line for each choice'
complete -c helgrothy -n '__helgrothy_is \'helgrothy draw\'' -l options -d 'of --json and --csv: the options, also where a table is drawn'
complete -c helgrothy -n '__helgrothy_is \'helgrothy draw\'' -l listing -d 'an answer as a listing, for dlxcheck to judge'
complete -c helgrothy -n '__helgrothy_is \'helgrothy draw\'' -l cell -r -f -d 'a regular expression that finds the cells, as whole words, in an option\'s line; its first two groups (or those named row and column) are row and column, a number or a single letter, and a third one its label'
complete -c helgrothy -n '__helgrothy_is \'helgrothy draw\'' -l grid -r -f -a 'square hex triangle' -d 'of --cell: square (default); hex, with axial coordinates; or triangle, which point up where row and column add up to an even number, or are half 0 (u) or 1 (d) of a rhombus, by a third group'
complete -c helgrothy -n '__helgrothy_is \'helgrothy draw\'' -l row -r -f -d 'a regular expression that finds the name of a row in the words of an option: the picture is a table of these names, in the order of the file'
complete -c helgrothy -n '__helgrothy_is \'helgrothy draw\'' -l column -r -f -d 'a regular expression that finds the name of a column in the words of an option: the picture is a table of these names, in the order of the file'
complete -c helgrothy -n '__helgrothy_is \'helgrothy draw\'' -l label -r -f -d 'a regular expression that finds the label in an option\'s line'
complete -c helgrothy -n '__helgrothy_is \'helgrothy lint\'' -s h -l help -d 'show this help message and exit'
complete -c helgrothy -n '__helgrothy_is \'helgrothy lint\'' -l for -r -f -a 'dlx1 dlx2 dlx3' -d 'default: dlx3'
complete -c helgrothy -n '__helgrothy_is \'helgrothy export\'' -s h -l help -d 'show this help message and exit'
complete -c helgrothy -n '__helgrothy_is \'helgrothy export\'' -l cost -r -F -d 'of asp, opb and lp: what options cost, from a file as `solve --cost` takes'
complete -c helgrothy -n '__helgrothy_is \'helgrothy why\'' -s h -l help -d 'show this help message and exit'
complete -c helgrothy -n '__helgrothy_is \'helgrothy why\'' -l seconds -r -f -d 'the time (default: 10)'
complete -c helgrothy -n '__helgrothy_is \'helgrothy count\'' -s h -l help -d 'show this help message and exit'
complete -c helgrothy -n '__helgrothy_is \'helgrothy count\'' -l json -d 'a line of JSON: the number, and the program that counted'
complete -c helgrothy -n '__helgrothy_is \'helgrothy count\'' -l megabytes -r -f -d 'the memory of dlx-count (default: 512)'
complete -c helgrothy -n '__helgrothy_is \'helgrothy count\'' -l seconds -r -f -d 'give up after S seconds'
complete -c helgrothy -n '__helgrothy_is \'helgrothy page\'' -s h -l help -d 'show this help message and exit'
complete -c helgrothy -n '__helgrothy_is \'helgrothy page\'' -l port -r -f -d 'the port (default: one that is free)'
complete -c helgrothy -n '__helgrothy_is \'helgrothy search\'' -s h -l help -d 'show this help message and exit'
complete -c helgrothy -n '__helgrothy_is \'helgrothy search\'' -l list -d 'list the solutions'
complete -c helgrothy -n '__helgrothy_is \'helgrothy search\'' -l jobs -r -f -d 'so many processors (default: all)'
complete -c helgrothy -n '__helgrothy_is \'helgrothy search\'' -l dask -r -f -d 'the workers of Dask, by its address or file'
complete -c helgrothy -n '__helgrothy_is \'helgrothy search\'' -l seconds -r -f -d 'stop after S seconds, with status 6'
complete -c helgrothy -n '__helgrothy_is \'helgrothy search\'' -l folder -r -f -a '(__fish_complete_directories)' -d 'keep what is done here (default: PROBLEM.search, removed at the end)'
complete -c helgrothy -n '__helgrothy_is \'helgrothy search\'' -l for -r -f -a 'dlx1 dlx2 dlx3' -d 'the program (default: the first that takes such a text)'
complete -c helgrothy -n '__helgrothy_is \'helgrothy search\'' -l status -r -f -a '(__fish_complete_directories)' -d 'report how far the search of this folder is, and about how long the rest takes'
complete -c helgrothy -n '__helgrothy_is \'helgrothy search\'' -l result -r -f -a '(__fish_complete_directories)' -d 'print what the search of this folder has found, its number of solutions or, with --list, the solutions; nothing, with status 6, while something is left'
complete -c helgrothy -n '__helgrothy_is \'helgrothy search\'' -l rows -r -f -d 'print up to N rows at which a search of PROBLEM may be cut, for queues that run programs and nothing else: dlx-span searches between two of them, and dlx-join puts the texts together'
complete -c helgrothy -n '__helgrothy_is \'helgrothy hint\'' -s h -l help -d 'show this help message and exit'
complete -c helgrothy -n '__helgrothy_is \'helgrothy hint\'' -l with -r -f -d 'only solutions with the option that has these items, as many as it takes to be clear; may be repeated'
complete -c helgrothy -n '__helgrothy_is \'helgrothy hint\'' -l without -r -f -d 'only solutions without the options that have all of these items, or patterns of them; may be repeated'
complete -c helgrothy -n '__helgrothy_is \'helgrothy hint\'' -l seconds -r -f -d 'the time (default: 5)'
complete -c helgrothy -n '__helgrothy_is \'helgrothy hint\' 1' -a sudoku -d 'a Sudoku from its clues'
complete -c helgrothy -n '__helgrothy_is \'helgrothy hint\' 1' -a queens -d 'queens on a board, or in coloured regions'
complete -c helgrothy -n '__helgrothy_is \'helgrothy hint\' 1' -a langford -d 'Langford\'s pairs'
complete -c helgrothy -n '__helgrothy_is \'helgrothy hint\' 1' -a polyominoes -d 'pieces of squares that fill a region'
complete -c helgrothy -n '__helgrothy_is \'helgrothy hint\' 1' -a polyforms -d 'pieces of hexagons or triangles that fill a region'
complete -c helgrothy -n '__helgrothy_is \'helgrothy hint\' 1' -a polycubes -d 'pieces of cubes that fill a box'
complete -c helgrothy -n '__helgrothy_is \'helgrothy hint\' 1' -a words -d 'words across and down in a grid'
complete -c helgrothy -n '__helgrothy_is \'helgrothy hint\' 1' -a wordsearch -d 'words of a list hidden in a grid of letters'
complete -c helgrothy -n '__helgrothy_is \'helgrothy hint\' 1' -a nonogram -d 'a nonogram from its clues'
complete -c helgrothy -n '__helgrothy_is \'helgrothy hint\' 1' -a kakuro -d 'a Kakuro from its grid'
complete -c helgrothy -n '__helgrothy_is \'helgrothy hint\' 1' -a roster -d 'shifts of people on days'
complete -c helgrothy -n '__helgrothy_is \'helgrothy hint\' 1' -a roundrobin -d 'a round robin at home and away'
complete -c helgrothy -n '__helgrothy_is \'helgrothy hint\' 1' -a tests -d 'tests in which values of factors come together'
complete -c helgrothy -n '__helgrothy_is \'helgrothy hint\' 1' -a timetable -d 'lessons or exams in slots and rooms'
complete -c helgrothy -n '__helgrothy_is \'helgrothy hint sudoku\'' -s h -l help -d 'show this help message and exit'
complete -c helgrothy -n '__helgrothy_is \'helgrothy hint sudoku\'' -l regions -r -F -d 'a file with a picture of the regions, a letter for each place'
complete -c helgrothy -n '__helgrothy_is \'helgrothy hint sudoku\'' -l cages -r -F -d 'a file with a line for each cage, its sum and its places (12 r1c1 r1c2); or with a picture, a letter for each place, and after a blank line the sums (a=12 b=7)'
complete -c helgrothy -n '__helgrothy_is \'helgrothy hint sudoku\'' -l diagonals -d 'each of the two long diagonals has each digit too'
complete -c helgrothy -n '__helgrothy_is \'helgrothy hint sudoku\'' -l with -r -f -d 'only solutions with the option that has these items, as many as it takes to be clear; may be repeated'
complete -c helgrothy -n '__helgrothy_is \'helgrothy hint sudoku\'' -l without -r -f -d 'only solutions without the options that have all of these items, or patterns of them; may be repeated'
complete -c helgrothy -n '__helgrothy_is \'helgrothy hint sudoku\'' -l seconds -r -f -d 'the time (default: 5)'
complete -c helgrothy -n '__helgrothy_is \'helgrothy hint queens\'' -s h -l help -d 'show this help message and exit'
complete -c helgrothy -n '__helgrothy_is \'helgrothy hint queens\'' -l with -r -f -d 'only solutions with the option that has these items, as many as it takes to be clear; may be repeated'
complete -c helgrothy -n '__helgrothy_is \'helgrothy hint queens\'' -l without -r -f -d 'only solutions without the options that have all of these items, or patterns of them; may be repeated'
complete -c helgrothy -n '__helgrothy_is \'helgrothy hint queens\'' -l seconds -r -f -d 'the time (default: 5)'
complete -c helgrothy -n '__helgrothy_is \'helgrothy hint langford\'' -s h -l help -d 'show this help message and exit'
complete -c helgrothy -n '__helgrothy_is \'helgrothy hint langford\'' -l with -r -f -d 'only solutions with the option that has these items, as many as it takes to be clear; may be repeated'
complete -c helgrothy -n '__helgrothy_is \'helgrothy hint langford\'' -l without -r -f -d 'only solutions without the options that have all of these items, or patterns of them; may be repeated'
complete -c helgrothy -n '__helgrothy_is \'helgrothy hint langford\'' -l seconds -r -f -d 'the time (default: 5)'
complete -c helgrothy -n '__helgrothy_is \'helgrothy hint polyominoes\'' -s h -l help -d 'show this help message and exit'
complete -c helgrothy -n '__helgrothy_is \'helgrothy hint polyominoes\'' -l no-turns -d 'pieces may not be turned'
complete -c helgrothy -n '__helgrothy_is \'helgrothy hint polyominoes\'' -l no-mirrors -d 'pieces may not be mirrored'
complete -c helgrothy -n '__helgrothy_is \'helgrothy hint polyominoes\'' -l some -d 'pieces may be left over'
complete -c helgrothy -n '__helgrothy_is \'helgrothy hint polyominoes\'' -l with -r -f -d 'only solutions with the option that has these items, as many as it takes to be clear; may be repeated'
complete -c helgrothy -n '__helgrothy_is \'helgrothy hint polyominoes\'' -l without -r -f -d 'only solutions without the options that have all of these items, or patterns of them; may be repeated'
complete -c helgrothy -n '__helgrothy_is \'helgrothy hint polyominoes\'' -l seconds -r -f -d 'the time (default: 5)'
complete -c helgrothy -n '__helgrothy_is \'helgrothy hint polyforms\'' -s h -l help -d 'show this help message and exit'
complete -c helgrothy -n '__helgrothy_is \'helgrothy hint polyforms\'' -l grid -r -f -a 'hex triangle' -d 'what pieces of your own are drawn in'
complete -c helgrothy -n '__helgrothy_is \'helgrothy hint polyforms\'' -l one-sided -d 'of a set: no piece is turned over, and a mirror image is a piece of its own, with a small letter'
complete -c helgrothy -n '__helgrothy_is \'helgrothy hint polyforms\'' -l copies -r -f -d 'how often pieces are there, where not once: I=2,O=0'
complete -c helgrothy -n '__helgrothy_is \'helgrothy hint polyforms\'' -l no-turns -d 'pieces may not be turned'
complete -c helgrothy -n '__helgrothy_is \'helgrothy hint polyforms\'' -l no-mirrors -d 'pieces may not be mirrored'
complete -c helgrothy -n '__helgrothy_is \'helgrothy hint polyforms\'' -l some -d 'pieces may be left over'
complete -c helgrothy -n '__helgrothy_is \'helgrothy hint polyforms\'' -l with -r -f -d 'only solutions with the option that has these items, as many as it takes to be clear; may be repeated'
complete -c helgrothy -n '__helgrothy_is \'helgrothy hint polyforms\'' -l without -r -f -d 'only solutions without the options that have all of these items, or patterns of them; may be repeated'
complete -c helgrothy -n '__helgrothy_is \'helgrothy hint polyforms\'' -l seconds -r -f -d 'the time (default: 5)'
complete -c helgrothy -n '__helgrothy_is \'helgrothy hint polycubes\'' -s h -l help -d 'show this help message and exit'
complete -c helgrothy -n '__helgrothy_is \'helgrothy hint polycubes\'' -l mirrors -d 'mirror images of pieces may be used too'
complete -c helgrothy -n '__helgrothy_is \'helgrothy hint polycubes\'' -l some -d 'pieces may be left over'
complete -c helgrothy -n '__helgrothy_is \'helgrothy hint polycubes\'' -l with -r -f -d 'only solutions with the option that has these items, as many as it takes to be clear; may be repeated'
complete -c helgrothy -n '__helgrothy_is \'helgrothy hint polycubes\'' -l without -r -f -d 'only solutions without the options that have all of these items, or patterns of them; may be repeated'
complete -c helgrothy -n '__helgrothy_is \'helgrothy hint polycubes\'' -l seconds -r -f -d 'the time (default: 5)'
complete -c helgrothy -n '__helgrothy_is \'helgrothy hint words\'' -s h -l help -d 'show this help message and exit'
complete -c helgrothy -n '__helgrothy_is \'helgrothy hint words\'' -l with -r -f -d 'only solutions with the option that has these items, as many as it takes to be clear; may be repeated'
complete -c helgrothy -n '__helgrothy_is \'helgrothy hint words\'' -l without -r -f -d 'only solutions without the options that have all of these items, or patterns of them; may be repeated'
complete -c helgrothy -n '__helgrothy_is \'helgrothy hint words\'' -l seconds -r -f -d 'the time (default: 5)'
complete -c helgrothy -n '__helgrothy_is \'helgrothy hint wordsearch\'' -s h -l help -d 'show this help message and exit'
complete -c helgrothy -n '__helgrothy_is \'helgrothy hint wordsearch\'' -l forwards -d 'no word is written to the left or straight up'
complete -c helgrothy -n '__helgrothy_is \'helgrothy hint wordsearch\'' -l fill -r -f -d 'letters in the free squares too, the same for the same number'
complete -c helgrothy -n '__helgrothy_is \'helgrothy hint wordsearch\'' -l with -r -f -d 'only solutions with the option that has these items, as many as it takes to be clear; may be repeated'
complete -c helgrothy -n '__helgrothy_is \'helgrothy hint wordsearch\'' -l without -r -f -d 'only solutions without the options that have all of these items, or patterns of them; may be repeated'
complete -c helgrothy -n '__helgrothy_is \'helgrothy hint wordsearch\'' -l seconds -r -f -d 'the time (default: 5)'
complete -c helgrothy -n '__helgrothy_is \'helgrothy hint nonogram\'' -s h -l help -d 'show this help message and exit'
complete -c helgrothy -n '__helgrothy_is \'helgrothy hint nonogram\'' -l with -r -f -d 'only solutions with the option that has these items, as many as it takes to be clear; may be repeated'
complete -c helgrothy -n '__helgrothy_is \'helgrothy hint nonogram\'' -l without -r -f -d 'only solutions without the options that have all of these items, or patterns of them; may be repeated'
complete -c helgrothy -n '__helgrothy_is \'helgrothy hint nonogram\'' -l seconds -r -f -d 'the time (default: 5)'
complete -c helgrothy -n '__helgrothy_is \'helgrothy hint kakuro\'' -s h -l help -d 'show this help message and exit'
complete -c helgrothy -n '__helgrothy_is \'helgrothy hint kakuro\'' -l with -r -f -d 'only solutions with the option that has these items, as many as it takes to be clear; may be repeated'
complete -c helgrothy -n '__helgrothy_is \'helgrothy hint kakuro\'' -l without -r -f -d 'only solutions without the options that have all of these items, or patterns of them; may be repeated'
complete -c helgrothy -n '__helgrothy_is \'helgrothy hint kakuro\'' -l seconds -r -f -d 'the time (default: 5)'
complete -c helgrothy -n '__helgrothy_is \'helgrothy hint roster\'' -s h -l help -d 'show this help message and exit'
complete -c helgrothy -n '__helgrothy_is \'helgrothy hint roster\'' -l rest -d 'no shift on the next day that stands higher in the table'
complete -c helgrothy -n '__helgrothy_is \'helgrothy hint roster\'' -l in-a-row -r -f -d 'nobody works more than N days in a row'
complete -c helgrothy -n '__helgrothy_is \'helgrothy hint roster\'' -l days-off -r -f -d 'everybody has N days off together, once at least'
complete -c helgrothy -n '__helgrothy_is \'helgrothy hint roster\'' -l with -r -f -d 'only solutions with the option that has these items, as many as it takes to be clear; may be repeated'
complete -c helgrothy -n '__helgrothy_is \'helgrothy hint roster\'' -l without -r -f -d 'only solutions without the options that have all of these items, or patterns of them; may be repeated'
complete -c helgrothy -n '__helgrothy_is \'helgrothy hint roster\'' -l seconds -r -f -d 'the time (default: 5)'
complete -c helgrothy -n '__helgrothy_is \'helgrothy hint roundrobin\'' -s h -l help -d 'show this help message and exit'
complete -c helgrothy -n '__helgrothy_is \'helgrothy hint roundrobin\'' -l double -d 'each two teams meet twice, once at each one\'s home'
complete -c helgrothy -n '__helgrothy_is \'helgrothy hint roundrobin\'' -l in-a-row -r -f -d 'no team is more than N rounds in a row at home, or away'
complete -c helgrothy -n '__helgrothy_is \'helgrothy hint roundrobin\'' -l with -r -f -d 'only solutions with the option that has these items, as many as it takes to be clear; may be repeated'
complete -c helgrothy -n '__helgrothy_is \'helgrothy hint roundrobin\'' -l without -r -f -d 'only solutions without the options that have all of these items, or patterns of them; may be repeated'
complete -c helgrothy -n '__helgrothy_is \'helgrothy hint roundrobin\'' -l seconds -r -f -d 'the time (default: 5)'
complete -c helgrothy -n '__helgrothy_is \'helgrothy hint tests\'' -s h -l help -d 'show this help message and exit'
complete -c helgrothy -n '__helgrothy_is \'helgrothy hint tests\'' -l tests -r -f -d 'so many tests'
complete -c helgrothy -n '__helgrothy_is \'helgrothy hint tests\'' -l strength -r -f -d 'the values of any T factors come together (default: 2)'
complete -c helgrothy -n '__helgrothy_is \'helgrothy hint tests\'' -l with -r -f -d 'only solutions with the option that has these items, as many as it takes to be clear; may be repeated'
complete -c helgrothy -n '__helgrothy_is \'helgrothy hint tests\'' -l without -r -f -d 'only solutions without the options that have all of these items, or patterns of them; may be repeated'
complete -c helgrothy -n '__helgrothy_is \'helgrothy hint tests\'' -l seconds -r -f -d 'the time (default: 5)'
complete -c helgrothy -n '__helgrothy_is \'helgrothy hint timetable\'' -s h -l help -d 'show this help message and exit'
complete -c helgrothy -n '__helgrothy_is \'helgrothy hint timetable\'' -l daily -r -f -d 'nobody has more than N lessons a day'
complete -c helgrothy -n '__helgrothy_is \'helgrothy hint timetable\'' -l with -r -f -d 'only solutions with the option that has these items, as many as it takes to be clear; may be repeated'
complete -c helgrothy -n '__helgrothy_is \'helgrothy hint timetable\'' -l without -r -f -d 'only solutions without the options that have all of these items, or patterns of them; may be repeated'
complete -c helgrothy -n '__helgrothy_is \'helgrothy hint timetable\'' -l seconds -r -f -d 'the time (default: 5)'
complete -c helgrothy -n '__helgrothy_is \'helgrothy minimal\'' -s h -l help -d 'show this help message and exit'
complete -c helgrothy -n '__helgrothy_is \'helgrothy minimal\'' -l with -r -f -d 'of a problem: the option with these items is given; may be repeated (default: all of a random solution)'
complete -c helgrothy -n '__helgrothy_is \'helgrothy minimal\'' -l seed -r -f -d 'the random order (default: 0)'
complete -c helgrothy -n '__helgrothy_is \'helgrothy minimal\'' -l seconds -r -f -d 'the time (default: 30)'
complete -c helgrothy -n '__helgrothy_is \'helgrothy minimal\' 1' -a sudoku -d 'a Sudoku from its clues'
complete -c helgrothy -n '__helgrothy_is \'helgrothy minimal\' 1' -a nonogram -d 'a nonogram from its clues'
complete -c helgrothy -n '__helgrothy_is \'helgrothy minimal\' 1' -a kakuro -d 'a Kakuro from its grid'
complete -c helgrothy -n '__helgrothy_is \'helgrothy minimal sudoku\'' -s h -l help -d 'show this help message and exit'
complete -c helgrothy -n '__helgrothy_is \'helgrothy minimal sudoku\'' -l regions -r -F -d 'a file with a picture of the regions, a letter for each place'
complete -c helgrothy -n '__helgrothy_is \'helgrothy minimal sudoku\'' -l cages -r -F -d 'a file with a line for each cage, its sum and its places (12 r1c1 r1c2); or with a picture, a letter for each place, and after a blank line the sums (a=12 b=7)'
complete -c helgrothy -n '__helgrothy_is \'helgrothy minimal sudoku\'' -l diagonals -d 'each of the two long diagonals has each digit too'
complete -c helgrothy -n '__helgrothy_is \'helgrothy minimal sudoku\'' -l with -r -f -d 'of a problem: the option with these items is given; may be repeated (default: all of a random solution)'
complete -c helgrothy -n '__helgrothy_is \'helgrothy minimal sudoku\'' -l seed -r -f -d 'the random order (default: 0)'
complete -c helgrothy -n '__helgrothy_is \'helgrothy minimal sudoku\'' -l seconds -r -f -d 'the time (default: 30)'
complete -c helgrothy -n '__helgrothy_is \'helgrothy minimal nonogram\'' -s h -l help -d 'show this help message and exit'
complete -c helgrothy -n '__helgrothy_is \'helgrothy minimal nonogram\'' -l with -r -f -d 'of a problem: the option with these items is given; may be repeated (default: all of a random solution)'
complete -c helgrothy -n '__helgrothy_is \'helgrothy minimal nonogram\'' -l seed -r -f -d 'the random order (default: 0)'
complete -c helgrothy -n '__helgrothy_is \'helgrothy minimal nonogram\'' -l seconds -r -f -d 'the time (default: 30)'
complete -c helgrothy -n '__helgrothy_is \'helgrothy minimal kakuro\'' -s h -l help -d 'show this help message and exit'
complete -c helgrothy -n '__helgrothy_is \'helgrothy minimal kakuro\'' -l with -r -f -d 'of a problem: the option with these items is given; may be repeated (default: all of a random solution)'
complete -c helgrothy -n '__helgrothy_is \'helgrothy minimal kakuro\'' -l seed -r -f -d 'the random order (default: 0)'
complete -c helgrothy -n '__helgrothy_is \'helgrothy minimal kakuro\'' -l seconds -r -f -d 'the time (default: 30)'
complete -c helgrothy -n '__helgrothy_is \'helgrothy sudoku\'' -s h -l help -d 'show this help message and exit'
complete -c helgrothy -n '__helgrothy_is \'helgrothy sudoku\'' -l regions -r -F -d 'a file with a picture of the regions, a letter for each place'
complete -c helgrothy -n '__helgrothy_is \'helgrothy sudoku\'' -l cages -r -F -d 'a file with a line for each cage, its sum and its places (12 r1c1 r1c2); or with a picture, a letter for each place, and after a blank line the sums (a=12 b=7)'
complete -c helgrothy -n '__helgrothy_is \'helgrothy sudoku\'' -l diagonals -d 'each of the two long diagonals has each digit too'
complete -c helgrothy -n '__helgrothy_is \'helgrothy sudoku\'' -l number -r -f -d 'the K-th solution instead of the first'
complete -c helgrothy -n '__helgrothy_is \'helgrothy sudoku\'' -l random -d 'one of all solutions, each as likely as any other'
complete -c helgrothy -n '__helgrothy_is \'helgrothy sudoku\'' -l limit -r -f -d 'the first N solutions'
complete -c helgrothy -n '__helgrothy_is \'helgrothy sudoku\'' -l all -d 'all solutions'
complete -c helgrothy -n '__helgrothy_is \'helgrothy sudoku\'' -l count -d 'only how many solutions there are'
complete -c helgrothy -n '__helgrothy_is \'helgrothy sudoku\'' -l chances -d 'in how many percent of all solutions each cell has what, or, without a picture, each option is chosen'
complete -c helgrothy -n '__helgrothy_is \'helgrothy sudoku\'' -l unique -d 'whether there is exactly one solution; if not, two'
complete -c helgrothy -n '__helgrothy_is \'helgrothy sudoku\'' -l svg -d 'a picture as SVG, of one solution'
complete -c helgrothy -n '__helgrothy_is \'helgrothy sudoku\'' -l html -d 'a page for a browser: the solutions, their pictures, and the search\'s way'
complete -c helgrothy -n '__helgrothy_is \'helgrothy sudoku\'' -l json -d 'a line of JSON for each solution: its number, and the rows of the table that is drawn; where none is, the numbers of its options, their items, and the colours'
complete -c helgrothy -n '__helgrothy_is \'helgrothy sudoku\'' -l csv -d 'the table that is drawn as CSV; where none is, a line for each choice'
complete -c helgrothy -n '__helgrothy_is \'helgrothy sudoku\'' -l options -d 'of --json and --csv: the options, also where a table is drawn'
complete -c helgrothy -n '__helgrothy_is \'helgrothy sudoku\'' -l seed -r -f -d 'of --random: the same solution for the same number'
complete -c helgrothy -n '__helgrothy_is \'helgrothy sudoku\'' -l seconds -r -f -d 'give up after S seconds'
complete -c helgrothy -n '__helgrothy_is \'helgrothy sudoku\'' -l with -r -f -d 'only solutions with the option that has these items, as many as it takes to be clear; may be repeated'
complete -c helgrothy -n '__helgrothy_is \'helgrothy sudoku\'' -l without -r -f -d 'only solutions without the options that have all of these items, or patterns of them; may be repeated'
complete -c helgrothy -n '__helgrothy_is \'helgrothy sudoku\'' -l shuffle -r -f -d 'solutions in a random order of the options, the same for the same number'
complete -c helgrothy -n '__helgrothy_is \'helgrothy sudoku\'' -l up-to-symmetry -d 'one solution of those that are images of each other by turns and mirrors of the board or box'
complete -c helgrothy -n '__helgrothy_is \'helgrothy sudoku\'' -l cost -r -F -d 'the solution of least cost, from a file: lines of names of items (or patterns) and a number, which each option that has them costs, or a number for each option; clasp, highs, cbc and glpsol are asked too, where they are on the path'
complete -c helgrothy -n '__helgrothy_is \'helgrothy sudoku\'' -l all-costs -d 'of --cost and wishes: each line that costs something, not only the ten that cost most'
complete -c helgrothy -n '__helgrothy_is \'helgrothy queens\'' -s h -l help -d 'show this help message and exit'
complete -c helgrothy -n '__helgrothy_is \'helgrothy queens\'' -l number -r -f -d 'the K-th solution instead of the first'
complete -c helgrothy -n '__helgrothy_is \'helgrothy queens\'' -l random -d 'one of all solutions, each as likely as any other'
complete -c helgrothy -n '__helgrothy_is \'helgrothy queens\'' -l limit -r -f -d 'the first N solutions'
complete -c helgrothy -n '__helgrothy_is \'helgrothy queens\'' -l all -d 'all solutions'
complete -c helgrothy -n '__helgrothy_is \'helgrothy queens\'' -l count -d 'only how many solutions there are'
complete -c helgrothy -n '__helgrothy_is \'helgrothy queens\'' -l chances -d 'in how many percent of all solutions each cell has what, or, without a picture, each option is chosen'
complete -c helgrothy -n '__helgrothy_is \'helgrothy queens\'' -l unique -d 'whether there is exactly one solution; if not, two'
complete -c helgrothy -n '__helgrothy_is \'helgrothy queens\'' -l svg -d 'a picture as SVG, of one solution'
complete -c helgrothy -n '__helgrothy_is \'helgrothy queens\'' -l html -d 'a page for a browser: the solutions, their pictures, and the search\'s way'
complete -c helgrothy -n '__helgrothy_is \'helgrothy queens\'' -l json -d 'a line of JSON for each solution: its number, and the rows of the table that is drawn; where none is, the numbers of its options, their items, and the colours'
complete -c helgrothy -n '__helgrothy_is \'helgrothy queens\'' -l csv -d 'the table that is drawn as CSV; where none is, a line for each choice'
complete -c helgrothy -n '__helgrothy_is \'helgrothy queens\'' -l options -d 'of --json and --csv: the options, also where a table is drawn'
complete -c helgrothy -n '__helgrothy_is \'helgrothy queens\'' -l seed -r -f -d 'of --random: the same solution for the same number'
complete -c helgrothy -n '__helgrothy_is \'helgrothy queens\'' -l seconds -r -f -d 'give up after S seconds'
complete -c helgrothy -n '__helgrothy_is \'helgrothy queens\'' -l with -r -f -d 'only solutions with the option that has these items, as many as it takes to be clear; may be repeated'
complete -c helgrothy -n '__helgrothy_is \'helgrothy queens\'' -l without -r -f -d 'only solutions without the options that have all of these items, or patterns of them; may be repeated'
complete -c helgrothy -n '__helgrothy_is \'helgrothy queens\'' -l shuffle -r -f -d 'solutions in a random order of the options, the same for the same number'
complete -c helgrothy -n '__helgrothy_is \'helgrothy queens\'' -l up-to-symmetry -d 'one solution of those that are images of each other by turns and mirrors of the board or box'
complete -c helgrothy -n '__helgrothy_is \'helgrothy queens\'' -l cost -r -F -d 'the solution of least cost, from a file: lines of names of items (or patterns) and a number, which each option that has them costs, or a number for each option; clasp, highs, cbc and glpsol are asked too, where they are on the path'
complete -c helgrothy -n '__helgrothy_is \'helgrothy queens\'' -l all-costs -d 'of --cost and wishes: each line that costs something, not only the ten that cost most'
complete -c helgrothy -n '__helgrothy_is \'helgrothy langford\'' -s h -l help -d 'show this help message and exit'
complete -c helgrothy -n '__helgrothy_is \'helgrothy langford\'' -l number -r -f -d 'the K-th solution instead of the first'
complete -c helgrothy -n '__helgrothy_is \'helgrothy langford\'' -l random -d 'one of all solutions, each as likely as any other'
complete -c helgrothy -n '__helgrothy_is \'helgrothy langford\'' -l limit -r -f -d 'the first N solutions'
complete -c helgrothy -n '__helgrothy_is \'helgrothy langford\'' -l all -d 'all solutions'
complete -c helgrothy -n '__helgrothy_is \'helgrothy langford\'' -l count -d 'only how many solutions there are'
complete -c helgrothy -n '__helgrothy_is \'helgrothy langford\'' -l chances -d 'in how many percent of all solutions each cell has what, or, without a picture, each option is chosen'
complete -c helgrothy -n '__helgrothy_is \'helgrothy langford\'' -l unique -d 'whether there is exactly one solution; if not, two'
complete -c helgrothy -n '__helgrothy_is \'helgrothy langford\'' -l svg -d 'a picture as SVG, of one solution'
complete -c helgrothy -n '__helgrothy_is \'helgrothy langford\'' -l html -d 'a page for a browser: the solutions, their pictures, and the search\'s way'
complete -c helgrothy -n '__helgrothy_is \'helgrothy langford\'' -l json -d 'a line of JSON for each solution: its number, and the rows of the table that is drawn; where none is, the numbers of its options, their items, and the colours'
complete -c helgrothy -n '__helgrothy_is \'helgrothy langford\'' -l csv -d 'the table that is drawn as CSV; where none is, a line for each choice'
complete -c helgrothy -n '__helgrothy_is \'helgrothy langford\'' -l options -d 'of --json and --csv: the options, also where a table is drawn'
complete -c helgrothy -n '__helgrothy_is \'helgrothy langford\'' -l seed -r -f -d 'of --random: the same solution for the same number'
complete -c helgrothy -n '__helgrothy_is \'helgrothy langford\'' -l seconds -r -f -d 'give up after S seconds'
complete -c helgrothy -n '__helgrothy_is \'helgrothy langford\'' -l with -r -f -d 'only solutions with the option that has these items, as many as it takes to be clear; may be repeated'
complete -c helgrothy -n '__helgrothy_is \'helgrothy langford\'' -l without -r -f -d 'only solutions without the options that have all of these items, or patterns of them; may be repeated'
complete -c helgrothy -n '__helgrothy_is \'helgrothy langford\'' -l shuffle -r -f -d 'solutions in a random order of the options, the same for the same number'
complete -c helgrothy -n '__helgrothy_is \'helgrothy langford\'' -l up-to-symmetry -d 'one solution of those that are images of each other by turns and mirrors of the board or box'
complete -c helgrothy -n '__helgrothy_is \'helgrothy langford\'' -l cost -r -F -d 'the solution of least cost, from a file: lines of names of items (or patterns) and a number, which each option that has them costs, or a number for each option; clasp, highs, cbc and glpsol are asked too, where they are on the path'
complete -c helgrothy -n '__helgrothy_is \'helgrothy langford\'' -l all-costs -d 'of --cost and wishes: each line that costs something, not only the ten that cost most'
complete -c helgrothy -n '__helgrothy_is \'helgrothy polyominoes\'' -s h -l help -d 'show this help message and exit'
complete -c helgrothy -n '__helgrothy_is \'helgrothy polyominoes\'' -l no-turns -d 'pieces may not be turned'
complete -c helgrothy -n '__helgrothy_is \'helgrothy polyominoes\'' -l no-mirrors -d 'pieces may not be mirrored'
complete -c helgrothy -n '__helgrothy_is \'helgrothy polyominoes\'' -l some -d 'pieces may be left over'
complete -c helgrothy -n '__helgrothy_is \'helgrothy polyominoes\'' -l number -r -f -d 'the K-th solution instead of the first'
complete -c helgrothy -n '__helgrothy_is \'helgrothy polyominoes\'' -l random -d 'one of all solutions, each as likely as any other'
complete -c helgrothy -n '__helgrothy_is \'helgrothy polyominoes\'' -l limit -r -f -d 'the first N solutions'
complete -c helgrothy -n '__helgrothy_is \'helgrothy polyominoes\'' -l all -d 'all solutions'
complete -c helgrothy -n '__helgrothy_is \'helgrothy polyominoes\'' -l count -d 'only how many solutions there are'
complete -c helgrothy -n '__helgrothy_is \'helgrothy polyominoes\'' -l chances -d 'in how many percent of all solutions each cell has what, or, without a picture, each option is chosen'
complete -c helgrothy -n '__helgrothy_is \'helgrothy polyominoes\'' -l unique -d 'whether there is exactly one solution; if not, two'
complete -c helgrothy -n '__helgrothy_is \'helgrothy polyominoes\'' -l svg -d 'a picture as SVG, of one solution'
complete -c helgrothy -n '__helgrothy_is \'helgrothy polyominoes\'' -l html -d 'a page for a browser: the solutions, their pictures, and the search\'s way'
complete -c helgrothy -n '__helgrothy_is \'helgrothy polyominoes\'' -l json -d 'a line of JSON for each solution: its number, and the rows of the table that is drawn; where none is, the numbers of its options, their items, and the colours'
complete -c helgrothy -n '__helgrothy_is \'helgrothy polyominoes\'' -l csv -d 'the table that is drawn as CSV; where none is, a line for each choice'
complete -c helgrothy -n '__helgrothy_is \'helgrothy polyominoes\'' -l options -d 'of --json and --csv: the options, also where a table is drawn'
complete -c helgrothy -n '__helgrothy_is \'helgrothy polyominoes\'' -l seed -r -f -d 'of --random: the same solution for the same number'
complete -c helgrothy -n '__helgrothy_is \'helgrothy polyominoes\'' -l seconds -r -f -d 'give up after S seconds'
complete -c helgrothy -n '__helgrothy_is \'helgrothy polyominoes\'' -l with -r -f -d 'only solutions with the option that has these items, as many as it takes to be clear; may be repeated'
complete -c helgrothy -n '__helgrothy_is \'helgrothy polyominoes\'' -l without -r -f -d 'only solutions without the options that have all of these items, or patterns of them; may be repeated'
complete -c helgrothy -n '__helgrothy_is \'helgrothy polyominoes\'' -l shuffle -r -f -d 'solutions in a random order of the options, the same for the same number'
complete -c helgrothy -n '__helgrothy_is \'helgrothy polyominoes\'' -l up-to-symmetry -d 'one solution of those that are images of each other by turns and mirrors of the board or box'
complete -c helgrothy -n '__helgrothy_is \'helgrothy polyominoes\'' -l cost -r -F -d 'the solution of least cost, from a file: lines of names of items (or patterns) and a number, which each option that has them costs, or a number for each option; clasp, highs, cbc and glpsol are asked too, where they are on the path'
complete -c helgrothy -n '__helgrothy_is \'helgrothy polyominoes\'' -l all-costs -d 'of --cost and wishes: each line that costs something, not only the ten that cost most'
complete -c helgrothy -n '__helgrothy_is \'helgrothy polyforms\'' -s h -l help -d 'show this help message and exit'
complete -c helgrothy -n '__helgrothy_is \'helgrothy polyforms\'' -l grid -r -f -a 'hex triangle' -d 'what pieces of your own are drawn in'
complete -c helgrothy -n '__helgrothy_is \'helgrothy polyforms\'' -l one-sided -d 'of a set: no piece is turned over, and a mirror image is a piece of its own, with a small letter'
complete -c helgrothy -n '__helgrothy_is \'helgrothy polyforms\'' -l copies -r -f -d 'how often pieces are there, where not once: I=2,O=0'
complete -c helgrothy -n '__helgrothy_is \'helgrothy polyforms\'' -l no-turns -d 'pieces may not be turned'
complete -c helgrothy -n '__helgrothy_is \'helgrothy polyforms\'' -l no-mirrors -d 'pieces may not be mirrored'
complete -c helgrothy -n '__helgrothy_is \'helgrothy polyforms\'' -l some -d 'pieces may be left over'
complete -c helgrothy -n '__helgrothy_is \'helgrothy polyforms\'' -l number -r -f -d 'the K-th solution instead of the first'
complete -c helgrothy -n '__helgrothy_is \'helgrothy polyforms\'' -l random -d 'one of all solutions, each as likely as any other'
complete -c helgrothy -n '__helgrothy_is \'helgrothy polyforms\'' -l limit -r -f -d 'the first N solutions'
complete -c helgrothy -n '__helgrothy_is \'helgrothy polyforms\'' -l all -d 'all solutions'
complete -c helgrothy -n '__helgrothy_is \'helgrothy polyforms\'' -l count -d 'only how many solutions there are'
complete -c helgrothy -n '__helgrothy_is \'helgrothy polyforms\'' -l chances -d 'in how many percent of all solutions each cell has what, or, without a picture, each option is chosen'
complete -c helgrothy -n '__helgrothy_is \'helgrothy polyforms\'' -l unique -d 'whether there is exactly one solution; if not, two'
complete -c helgrothy -n '__helgrothy_is \'helgrothy polyforms\'' -l svg -d 'a picture as SVG, of one solution'
complete -c helgrothy -n '__helgrothy_is \'helgrothy polyforms\'' -l html -d 'a page for a browser: the solutions, their pictures, and the search\'s way'
complete -c helgrothy -n '__helgrothy_is \'helgrothy polyforms\'' -l json -d 'a line of JSON for each solution: its number, and the rows of the table that is drawn; where none is, the numbers of its options, their items, and the colours'
complete -c helgrothy -n '__helgrothy_is \'helgrothy polyforms\'' -l csv -d 'the table that is drawn as CSV; where none is, a line for each choice'
complete -c helgrothy -n '__helgrothy_is \'helgrothy polyforms\'' -l options -d 'of --json and --csv: the options, also where a table is drawn'
complete -c helgrothy -n '__helgrothy_is \'helgrothy polyforms\'' -l seed -r -f -d 'of --random: the same solution for the same number'
complete -c helgrothy -n '__helgrothy_is \'helgrothy polyforms\'' -l seconds -r -f -d 'give up after S seconds'
complete -c helgrothy -n '__helgrothy_is \'helgrothy polyforms\'' -l with -r -f -d 'only solutions with the option that has these items, as many as it takes to be clear; may be repeated'
complete -c helgrothy -n '__helgrothy_is \'helgrothy polyforms\'' -l without -r -f -d 'only solutions without the options that have all of these items, or patterns of them; may be repeated'
complete -c helgrothy -n '__helgrothy_is \'helgrothy polyforms\'' -l shuffle -r -f -d 'solutions in a random order of the options, the same for the same number'
complete -c helgrothy -n '__helgrothy_is \'helgrothy polyforms\'' -l up-to-symmetry -d 'one solution of those that are images of each other by turns and mirrors of the board or box'
complete -c helgrothy -n '__helgrothy_is \'helgrothy polyforms\'' -l cost -r -F -d 'the solution of least cost, from a file: lines of names of items (or patterns) and a number, which each option that has them costs, or a number for each option; clasp, highs, cbc and glpsol are asked too, where they are on the path'
complete -c helgrothy -n '__helgrothy_is \'helgrothy polyforms\'' -l all-costs -d 'of --cost and wishes: each line that costs something, not only the ten that cost most'
complete -c helgrothy -n '__helgrothy_is \'helgrothy polycubes\'' -s h -l help -d 'show this help message and exit'
complete -c helgrothy -n '__helgrothy_is \'helgrothy polycubes\'' -l mirrors -d 'mirror images of pieces may be used too'
complete -c helgrothy -n '__helgrothy_is \'helgrothy polycubes\'' -l some -d 'pieces may be left over'
complete -c helgrothy -n '__helgrothy_is \'helgrothy polycubes\'' -l number -r -f -d 'the K-th solution instead of the first'
complete -c helgrothy -n '__helgrothy_is \'helgrothy polycubes\'' -l random -d 'one of all solutions, each as likely as any other'
complete -c helgrothy -n '__helgrothy_is \'helgrothy polycubes\'' -l limit -r -f -d 'the first N solutions'
complete -c helgrothy -n '__helgrothy_is \'helgrothy polycubes\'' -l all -d 'all solutions'
complete -c helgrothy -n '__helgrothy_is \'helgrothy polycubes\'' -l count -d 'only how many solutions there are'
complete -c helgrothy -n '__helgrothy_is \'helgrothy polycubes\'' -l chances -d 'in how many percent of all solutions each cell has what, or, without a picture, each option is chosen'
complete -c helgrothy -n '__helgrothy_is \'helgrothy polycubes\'' -l unique -d 'whether there is exactly one solution; if not, two'
complete -c helgrothy -n '__helgrothy_is \'helgrothy polycubes\'' -l svg -d 'a picture as SVG, of one solution'
complete -c helgrothy -n '__helgrothy_is \'helgrothy polycubes\'' -l html -d 'a page for a browser: the solutions, their pictures, and the search\'s way'
complete -c helgrothy -n '__helgrothy_is \'helgrothy polycubes\'' -l json -d 'a line of JSON for each solution: its number, and the rows of the table that is drawn; where none is, the numbers of its options, their items, and the colours'
complete -c helgrothy -n '__helgrothy_is \'helgrothy polycubes\'' -l csv -d 'the table that is drawn as CSV; where none is, a line for each choice'
complete -c helgrothy -n '__helgrothy_is \'helgrothy polycubes\'' -l options -d 'of --json and --csv: the options, also where a table is drawn'
complete -c helgrothy -n '__helgrothy_is \'helgrothy polycubes\'' -l seed -r -f -d 'of --random: the same solution for the same number'
complete -c helgrothy -n '__helgrothy_is \'helgrothy polycubes\'' -l seconds -r -f -d 'give up after S seconds'
complete -c helgrothy -n '__helgrothy_is \'helgrothy polycubes\'' -l with -r -f -d 'only solutions with the option that has these items, as many as it takes to be clear; may be repeated'
complete -c helgrothy -n '__helgrothy_is \'helgrothy polycubes\'' -l without -r -f -d 'only solutions without the options that have all of these items, or patterns of them; may be repeated'
complete -c helgrothy -n '__helgrothy_is \'helgrothy polycubes\'' -l shuffle -r -f -d 'solutions in a random order of the options, the same for the same number'
complete -c helgrothy -n '__helgrothy_is \'helgrothy polycubes\'' -l up-to-symmetry -d 'one solution of those that are images of each other by turns and mirrors of the board or box'
complete -c helgrothy -n '__helgrothy_is \'helgrothy polycubes\'' -l cost -r -F -d 'the solution of least cost, from a file: lines of names of items (or patterns) and a number, which each option that has them costs, or a number for each option; clasp, highs, cbc and glpsol are asked too, where they are on the path'
complete -c helgrothy -n '__helgrothy_is \'helgrothy polycubes\'' -l all-costs -d 'of --cost and wishes: each line that costs something, not only the ten that cost most'
complete -c helgrothy -n '__helgrothy_is \'helgrothy words\'' -s h -l help -d 'show this help message and exit'
complete -c helgrothy -n '__helgrothy_is \'helgrothy words\'' -l number -r -f -d 'the K-th solution instead of the first'
complete -c helgrothy -n '__helgrothy_is \'helgrothy words\'' -l random -d 'one of all solutions, each as likely as any other'
complete -c helgrothy -n '__helgrothy_is \'helgrothy words\'' -l limit -r -f -d 'the first N solutions'
complete -c helgrothy -n '__helgrothy_is \'helgrothy words\'' -l all -d 'all solutions'
complete -c helgrothy -n '__helgrothy_is \'helgrothy words\'' -l count -d 'only how many solutions there are'
complete -c helgrothy -n '__helgrothy_is \'helgrothy words\'' -l chances -d 'in how many percent of all solutions each cell has what, or, without a picture, each option is chosen'
complete -c helgrothy -n '__helgrothy_is \'helgrothy words\'' -l unique -d 'whether there is exactly one solution; if not, two'
complete -c helgrothy -n '__helgrothy_is \'helgrothy words\'' -l svg -d 'a picture as SVG, of one solution'
complete -c helgrothy -n '__helgrothy_is \'helgrothy words\'' -l html -d 'a page for a browser: the solutions, their pictures, and the search\'s way'
complete -c helgrothy -n '__helgrothy_is \'helgrothy words\'' -l json -d 'a line of JSON for each solution: its number, and the rows of the table that is drawn; where none is, the numbers of its options, their items, and the colours'
complete -c helgrothy -n '__helgrothy_is \'helgrothy words\'' -l csv -d 'the table that is drawn as CSV; where none is, a line for each choice'
complete -c helgrothy -n '__helgrothy_is \'helgrothy words\'' -l options -d 'of --json and --csv: the options, also where a table is drawn'
complete -c helgrothy -n '__helgrothy_is \'helgrothy words\'' -l seed -r -f -d 'of --random: the same solution for the same number'
complete -c helgrothy -n '__helgrothy_is \'helgrothy words\'' -l seconds -r -f -d 'give up after S seconds'
complete -c helgrothy -n '__helgrothy_is \'helgrothy words\'' -l with -r -f -d 'only solutions with the option that has these items, as many as it takes to be clear; may be repeated'
complete -c helgrothy -n '__helgrothy_is \'helgrothy words\'' -l without -r -f -d 'only solutions without the options that have all of these items, or patterns of them; may be repeated'
complete -c helgrothy -n '__helgrothy_is \'helgrothy words\'' -l shuffle -r -f -d 'solutions in a random order of the options, the same for the same number'
complete -c helgrothy -n '__helgrothy_is \'helgrothy words\'' -l up-to-symmetry -d 'one solution of those that are images of each other by turns and mirrors of the board or box'
complete -c helgrothy -n '__helgrothy_is \'helgrothy words\'' -l cost -r -F -d 'the solution of least cost, from a file: lines of names of items (or patterns) and a number, which each option that has them costs, or a number for each option; clasp, highs, cbc and glpsol are asked too, where they are on the path'
complete -c helgrothy -n '__helgrothy_is \'helgrothy words\'' -l all-costs -d 'of --cost and wishes: each line that costs something, not only the ten that cost most'
complete -c helgrothy -n '__helgrothy_is \'helgrothy wordsearch\'' -s h -l help -d 'show this help message and exit'
complete -c helgrothy -n '__helgrothy_is \'helgrothy wordsearch\'' -l forwards -d 'no word is written to the left or straight up'
complete -c helgrothy -n '__helgrothy_is \'helgrothy wordsearch\'' -l fill -r -f -d 'letters in the free squares too, the same for the same number'
complete -c helgrothy -n '__helgrothy_is \'helgrothy wordsearch\'' -l number -r -f -d 'the K-th solution instead of the first'
complete -c helgrothy -n '__helgrothy_is \'helgrothy wordsearch\'' -l random -d 'one of all solutions, each as likely as any other'
complete -c helgrothy -n '__helgrothy_is \'helgrothy wordsearch\'' -l limit -r -f -d 'the first N solutions'
complete -c helgrothy -n '__helgrothy_is \'helgrothy wordsearch\'' -l all -d 'all solutions'
complete -c helgrothy -n '__helgrothy_is \'helgrothy wordsearch\'' -l count -d 'only how many solutions there are'
complete -c helgrothy -n '__helgrothy_is \'helgrothy wordsearch\'' -l chances -d 'in how many percent of all solutions each cell has what, or, without a picture, each option is chosen'
complete -c helgrothy -n '__helgrothy_is \'helgrothy wordsearch\'' -l unique -d 'whether there is exactly one solution; if not, two'
complete -c helgrothy -n '__helgrothy_is \'helgrothy wordsearch\'' -l svg -d 'a picture as SVG, of one solution'
complete -c helgrothy -n '__helgrothy_is \'helgrothy wordsearch\'' -l html -d 'a page for a browser: the solutions, their pictures, and the search\'s way'
complete -c helgrothy -n '__helgrothy_is \'helgrothy wordsearch\'' -l json -d 'a line of JSON for each solution: its number, and the rows of the table that is drawn; where none is, the numbers of its options, their items, and the colours'
complete -c helgrothy -n '__helgrothy_is \'helgrothy wordsearch\'' -l csv -d 'the table that is drawn as CSV; where none is, a line for each choice'
complete -c helgrothy -n '__helgrothy_is \'helgrothy wordsearch\'' -l options -d 'of --json and --csv: the options, also where a table is drawn'
complete -c helgrothy -n '__helgrothy_is \'helgrothy wordsearch\'' -l seed -r -f -d 'of --random: the same solution for the same number'
complete -c helgrothy -n '__helgrothy_is \'helgrothy wordsearch\'' -l seconds -r -f -d 'give up after S seconds'
complete -c helgrothy -n '__helgrothy_is \'helgrothy wordsearch\'' -l with -r -f -d 'only solutions with the option that has these items, as many as it takes to be clear; may be repeated'
complete -c helgrothy -n '__helgrothy_is \'helgrothy wordsearch\'' -l without -r -f -d 'only solutions without the options that have all of these items, or patterns of them; may be repeated'
complete -c helgrothy -n '__helgrothy_is \'helgrothy wordsearch\'' -l shuffle -r -f -d 'solutions in a random order of the options, the same for the same number'
complete -c helgrothy -n '__helgrothy_is \'helgrothy wordsearch\'' -l up-to-symmetry -d 'one solution of those that are images of each other by turns and mirrors of the board or box'
complete -c helgrothy -n '__helgrothy_is \'helgrothy wordsearch\'' -l cost -r -F -d 'the solution of least cost, from a file: lines of names of items (or patterns) and a number, which each option that has them costs, or a number for each option; clasp, highs, cbc and glpsol are asked too, where they are on the path'
complete -c helgrothy -n '__helgrothy_is \'helgrothy wordsearch\'' -l all-costs -d 'of --cost and wishes: each line that costs something, not only the ten that cost most'
complete -c helgrothy -n '__helgrothy_is \'helgrothy nonogram\'' -s h -l help -d 'show this help message and exit'
complete -c helgrothy -n '__helgrothy_is \'helgrothy nonogram\'' -l number -r -f -d 'the K-th solution instead of the first'
complete -c helgrothy -n '__helgrothy_is \'helgrothy nonogram\'' -l random -d 'one of all solutions, each as likely as any other'
complete -c helgrothy -n '__helgrothy_is \'helgrothy nonogram\'' -l limit -r -f -d 'the first N solutions'
complete -c helgrothy -n '__helgrothy_is \'helgrothy nonogram\'' -l all -d 'all solutions'
complete -c helgrothy -n '__helgrothy_is \'helgrothy nonogram\'' -l count -d 'only how many solutions there are'
complete -c helgrothy -n '__helgrothy_is \'helgrothy nonogram\'' -l chances -d 'in how many percent of all solutions each cell has what, or, without a picture, each option is chosen'
complete -c helgrothy -n '__helgrothy_is \'helgrothy nonogram\'' -l unique -d 'whether there is exactly one solution; if not, two'
complete -c helgrothy -n '__helgrothy_is \'helgrothy nonogram\'' -l svg -d 'a picture as SVG, of one solution'
complete -c helgrothy -n '__helgrothy_is \'helgrothy nonogram\'' -l html -d 'a page for a browser: the solutions, their pictures, and the search\'s way'
complete -c helgrothy -n '__helgrothy_is \'helgrothy nonogram\'' -l json -d 'a line of JSON for each solution: its number, and the rows of the table that is drawn; where none is, the numbers of its options, their items, and the colours'
complete -c helgrothy -n '__helgrothy_is \'helgrothy nonogram\'' -l csv -d 'the table that is drawn as CSV; where none is, a line for each choice'
complete -c helgrothy -n '__helgrothy_is \'helgrothy nonogram\'' -l options -d 'of --json and --csv: the options, also where a table is drawn'
complete -c helgrothy -n '__helgrothy_is \'helgrothy nonogram\'' -l seed -r -f -d 'of --random: the same solution for the same number'
complete -c helgrothy -n '__helgrothy_is \'helgrothy nonogram\'' -l seconds -r -f -d 'give up after S seconds'
complete -c helgrothy -n '__helgrothy_is \'helgrothy nonogram\'' -l with -r -f -d 'only solutions with the option that has these items, as many as it takes to be clear; may be repeated'
complete -c helgrothy -n '__helgrothy_is \'helgrothy nonogram\'' -l without -r -f -d 'only solutions without the options that have all of these items, or patterns of them; may be repeated'
complete -c helgrothy -n '__helgrothy_is \'helgrothy nonogram\'' -l shuffle -r -f -d 'solutions in a random order of the options, the same for the same number'
complete -c helgrothy -n '__helgrothy_is \'helgrothy nonogram\'' -l up-to-symmetry -d 'one solution of those that are images of each other by turns and mirrors of the board or box'
complete -c helgrothy -n '__helgrothy_is \'helgrothy nonogram\'' -l cost -r -F -d 'the solution of least cost, from a file: lines of names of items (or patterns) and a number, which each option that has them costs, or a number for each option; clasp, highs, cbc and glpsol are asked too, where they are on the path'
complete -c helgrothy -n '__helgrothy_is \'helgrothy nonogram\'' -l all-costs -d 'of --cost and wishes: each line that costs something, not only the ten that cost most'
complete -c helgrothy -n '__helgrothy_is \'helgrothy kakuro\'' -s h -l help -d 'show this help message and exit'
complete -c helgrothy -n '__helgrothy_is \'helgrothy kakuro\'' -l number -r -f -d 'the K-th solution instead of the first'
complete -c helgrothy -n '__helgrothy_is \'helgrothy kakuro\'' -l random -d 'one of all solutions, each as likely as any other'
complete -c helgrothy -n '__helgrothy_is \'helgrothy kakuro\'' -l limit -r -f -d 'the first N solutions'
complete -c helgrothy -n '__helgrothy_is \'helgrothy kakuro\'' -l all -d 'all solutions'
complete -c helgrothy -n '__helgrothy_is \'helgrothy kakuro\'' -l count -d 'only how many solutions there are'
complete -c helgrothy -n '__helgrothy_is \'helgrothy kakuro\'' -l chances -d 'in how many percent of all solutions each cell has what, or, without a picture, each option is chosen'
complete -c helgrothy -n '__helgrothy_is \'helgrothy kakuro\'' -l unique -d 'whether there is exactly one solution; if not, two'
complete -c helgrothy -n '__helgrothy_is \'helgrothy kakuro\'' -l svg -d 'a picture as SVG, of one solution'
complete -c helgrothy -n '__helgrothy_is \'helgrothy kakuro\'' -l html -d 'a page for a browser: the solutions, their pictures, and the search\'s way'
complete -c helgrothy -n '__helgrothy_is \'helgrothy kakuro\'' -l json -d 'a line of JSON for each solution: its number, and the rows of the table that is drawn; where none is, the numbers of its options, their items, and the colours'
complete -c helgrothy -n '__helgrothy_is \'helgrothy kakuro\'' -l csv -d 'the table that is drawn as CSV; where none is, a line for each choice'
complete -c helgrothy -n '__helgrothy_is \'helgrothy kakuro\'' -l options -d 'of --json and --csv: the options, also where a table is drawn'
complete -c helgrothy -n '__helgrothy_is \'helgrothy kakuro\'' -l seed -r -f -d 'of --random: the same solution for the same number'
complete -c helgrothy -n '__helgrothy_is \'helgrothy kakuro\'' -l seconds -r -f -d 'give up after S seconds'
complete -c helgrothy -n '__helgrothy_is \'helgrothy kakuro\'' -l with -r -f -d 'only solutions with the option that has these items, as many as it takes to be clear; may be repeated'
complete -c helgrothy -n '__helgrothy_is \'helgrothy kakuro\'' -l without -r -f -d 'only solutions without the options that have all of these items, or patterns of them; may be repeated'
complete -c helgrothy -n '__helgrothy_is \'helgrothy kakuro\'' -l shuffle -r -f -d 'solutions in a random order of the options, the same for the same number'
complete -c helgrothy -n '__helgrothy_is \'helgrothy kakuro\'' -l up-to-symmetry -d 'one solution of those that are images of each other by turns and mirrors of the board or box'
complete -c helgrothy -n '__helgrothy_is \'helgrothy kakuro\'' -l cost -r -F -d 'the solution of least cost, from a file: lines of names of items (or patterns) and a number, which each option that has them costs, or a number for each option; clasp, highs, cbc and glpsol are asked too, where they are on the path'
complete -c helgrothy -n '__helgrothy_is \'helgrothy kakuro\'' -l all-costs -d 'of --cost and wishes: each line that costs something, not only the ten that cost most'
complete -c helgrothy -n '__helgrothy_is \'helgrothy roster\'' -s h -l help -d 'show this help message and exit'
complete -c helgrothy -n '__helgrothy_is \'helgrothy roster\'' -l rest -d 'no shift on the next day that stands higher in the table'
complete -c helgrothy -n '__helgrothy_is \'helgrothy roster\'' -l in-a-row -r -f -d 'nobody works more than N days in a row'
complete -c helgrothy -n '__helgrothy_is \'helgrothy roster\'' -l days-off -r -f -d 'everybody has N days off together, once at least'
complete -c helgrothy -n '__helgrothy_is \'helgrothy roster\'' -l number -r -f -d 'the K-th solution instead of the first'
complete -c helgrothy -n '__helgrothy_is \'helgrothy roster\'' -l random -d 'one of all solutions, each as likely as any other'
complete -c helgrothy -n '__helgrothy_is \'helgrothy roster\'' -l limit -r -f -d 'the first N solutions'
complete -c helgrothy -n '__helgrothy_is \'helgrothy roster\'' -l all -d 'all solutions'
complete -c helgrothy -n '__helgrothy_is \'helgrothy roster\'' -l count -d 'only how many solutions there are'
complete -c helgrothy -n '__helgrothy_is \'helgrothy roster\'' -l chances -d 'in how many percent of all solutions each cell has what, or, without a picture, each option is chosen'
complete -c helgrothy -n '__helgrothy_is \'helgrothy roster\'' -l unique -d 'whether there is exactly one solution; if not, two'
complete -c helgrothy -n '__helgrothy_is \'helgrothy roster\'' -l svg -d 'a picture as SVG, of one solution'
complete -c helgrothy -n '__helgrothy_is \'helgrothy roster\'' -l html -d 'a page for a browser: the solutions, their pictures, and the search\'s way'
complete -c helgrothy -n '__helgrothy_is \'helgrothy roster\'' -l json -d 'a line of JSON for each solution: its number, and the rows of the table that is drawn; where none is, the numbers of its options, their items, and the colours'
complete -c helgrothy -n '__helgrothy_is \'helgrothy roster\'' -l csv -d 'the table that is drawn as CSV; where none is, a line for each choice'
complete -c helgrothy -n '__helgrothy_is \'helgrothy roster\'' -l options -d 'of --json and --csv: the options, also where a table is drawn'
complete -c helgrothy -n '__helgrothy_is \'helgrothy roster\'' -l seed -r -f -d 'of --random: the same solution for the same number'
complete -c helgrothy -n '__helgrothy_is \'helgrothy roster\'' -l seconds -r -f -d 'give up after S seconds'
complete -c helgrothy -n '__helgrothy_is \'helgrothy roster\'' -l with -r -f -d 'only solutions with the option that has these items, as many as it takes to be clear; may be repeated'
complete -c helgrothy -n '__helgrothy_is \'helgrothy roster\'' -l without -r -f -d 'only solutions without the options that have all of these items, or patterns of them; may be repeated'
complete -c helgrothy -n '__helgrothy_is \'helgrothy roster\'' -l shuffle -r -f -d 'solutions in a random order of the options, the same for the same number'
complete -c helgrothy -n '__helgrothy_is \'helgrothy roster\'' -l up-to-symmetry -d 'one solution of those that are images of each other by turns and mirrors of the board or box'
complete -c helgrothy -n '__helgrothy_is \'helgrothy roster\'' -l cost -r -F -d 'the solution of least cost, from a file: lines of names of items (or patterns) and a number, which each option that has them costs, or a number for each option; clasp, highs, cbc and glpsol are asked too, where they are on the path'
complete -c helgrothy -n '__helgrothy_is \'helgrothy roster\'' -l all-costs -d 'of --cost and wishes: each line that costs something, not only the ten that cost most'
complete -c helgrothy -n '__helgrothy_is \'helgrothy roundrobin\'' -s h -l help -d 'show this help message and exit'
complete -c helgrothy -n '__helgrothy_is \'helgrothy roundrobin\'' -l double -d 'each two teams meet twice, once at each one\'s home'
complete -c helgrothy -n '__helgrothy_is \'helgrothy roundrobin\'' -l in-a-row -r -f -d 'no team is more than N rounds in a row at home, or away'
complete -c helgrothy -n '__helgrothy_is \'helgrothy roundrobin\'' -l number -r -f -d 'the K-th solution instead of the first'
complete -c helgrothy -n '__helgrothy_is \'helgrothy roundrobin\'' -l random -d 'one of all solutions, each as likely as any other'
complete -c helgrothy -n '__helgrothy_is \'helgrothy roundrobin\'' -l limit -r -f -d 'the first N solutions'
complete -c helgrothy -n '__helgrothy_is \'helgrothy roundrobin\'' -l all -d 'all solutions'
complete -c helgrothy -n '__helgrothy_is \'helgrothy roundrobin\'' -l count -d 'only how many solutions there are'
complete -c helgrothy -n '__helgrothy_is \'helgrothy roundrobin\'' -l chances -d 'in how many percent of all solutions each cell has what, or, without a picture, each option is chosen'
complete -c helgrothy -n '__helgrothy_is \'helgrothy roundrobin\'' -l unique -d 'whether there is exactly one solution; if not, two'
complete -c helgrothy -n '__helgrothy_is \'helgrothy roundrobin\'' -l svg -d 'a picture as SVG, of one solution'
complete -c helgrothy -n '__helgrothy_is \'helgrothy roundrobin\'' -l html -d 'a page for a browser: the solutions, their pictures, and the search\'s way'
complete -c helgrothy -n '__helgrothy_is \'helgrothy roundrobin\'' -l json -d 'a line of JSON for each solution: its number, and the rows of the table that is drawn; where none is, the numbers of its options, their items, and the colours'
complete -c helgrothy -n '__helgrothy_is \'helgrothy roundrobin\'' -l csv -d 'the table that is drawn as CSV; where none is, a line for each choice'
complete -c helgrothy -n '__helgrothy_is \'helgrothy roundrobin\'' -l options -d 'of --json and --csv: the options, also where a table is drawn'
complete -c helgrothy -n '__helgrothy_is \'helgrothy roundrobin\'' -l seed -r -f -d 'of --random: the same solution for the same number'
complete -c helgrothy -n '__helgrothy_is \'helgrothy roundrobin\'' -l seconds -r -f -d 'give up after S seconds'
complete -c helgrothy -n '__helgrothy_is \'helgrothy roundrobin\'' -l with -r -f -d 'only solutions with the option that has these items, as many as it takes to be clear; may be repeated'
complete -c helgrothy -n '__helgrothy_is \'helgrothy roundrobin\'' -l without -r -f -d 'only solutions without the options that have all of these items, or patterns of them; may be repeated'
complete -c helgrothy -n '__helgrothy_is \'helgrothy roundrobin\'' -l shuffle -r -f -d 'solutions in a random order of the options, the same for the same number'
complete -c helgrothy -n '__helgrothy_is \'helgrothy roundrobin\'' -l up-to-symmetry -d 'one solution of those that are images of each other by turns and mirrors of the board or box'
complete -c helgrothy -n '__helgrothy_is \'helgrothy roundrobin\'' -l cost -r -F -d 'the solution of least cost, from a file: lines of names of items (or patterns) and a number, which each option that has them costs, or a number for each option; clasp, highs, cbc and glpsol are asked too, where they are on the path'
complete -c helgrothy -n '__helgrothy_is \'helgrothy roundrobin\'' -l all-costs -d 'of --cost and wishes: each line that costs something, not only the ten that cost most'
complete -c helgrothy -n '__helgrothy_is \'helgrothy tests\'' -s h -l help -d 'show this help message and exit'
complete -c helgrothy -n '__helgrothy_is \'helgrothy tests\'' -l tests -r -f -d 'so many tests'
complete -c helgrothy -n '__helgrothy_is \'helgrothy tests\'' -l strength -r -f -d 'the values of any T factors come together (default: 2)'
complete -c helgrothy -n '__helgrothy_is \'helgrothy tests\'' -l least -d 'as few tests as are found, in some ten seconds of a processor or else in the time of --seconds'
complete -c helgrothy -n '__helgrothy_is \'helgrothy tests\'' -l number -r -f -d 'the K-th solution instead of the first'
complete -c helgrothy -n '__helgrothy_is \'helgrothy tests\'' -l random -d 'one of all solutions, each as likely as any other'
complete -c helgrothy -n '__helgrothy_is \'helgrothy tests\'' -l limit -r -f -d 'the first N solutions'
complete -c helgrothy -n '__helgrothy_is \'helgrothy tests\'' -l all -d 'all solutions'
complete -c helgrothy -n '__helgrothy_is \'helgrothy tests\'' -l count -d 'only how many solutions there are'
complete -c helgrothy -n '__helgrothy_is \'helgrothy tests\'' -l chances -d 'in how many percent of all solutions each cell has what, or, without a picture, each option is chosen'
complete -c helgrothy -n '__helgrothy_is \'helgrothy tests\'' -l unique -d 'whether there is exactly one solution; if not, two'
complete -c helgrothy -n '__helgrothy_is \'helgrothy tests\'' -l svg -d 'a picture as SVG, of one solution'
complete -c helgrothy -n '__helgrothy_is \'helgrothy tests\'' -l html -d 'a page for a browser: the solutions, their pictures, and the search\'s way'
complete -c helgrothy -n '__helgrothy_is \'helgrothy tests\'' -l json -d 'a line of JSON for each solution: its number, and the rows of the table that is drawn; where none is, the numbers of its options, their items, and the colours'
complete -c helgrothy -n '__helgrothy_is \'helgrothy tests\'' -l csv -d 'the table that is drawn as CSV; where none is, a line for each choice'
complete -c helgrothy -n '__helgrothy_is \'helgrothy tests\'' -l options -d 'of --json and --csv: the options, also where a table is drawn'
complete -c helgrothy -n '__helgrothy_is \'helgrothy tests\'' -l seed -r -f -d 'of --random: the same solution for the same number'
complete -c helgrothy -n '__helgrothy_is \'helgrothy tests\'' -l seconds -r -f -d 'give up after S seconds'
complete -c helgrothy -n '__helgrothy_is \'helgrothy tests\'' -l with -r -f -d 'only solutions with the option that has these items, as many as it takes to be clear; may be repeated'
complete -c helgrothy -n '__helgrothy_is \'helgrothy tests\'' -l without -r -f -d 'only solutions without the options that have all of these items, or patterns of them; may be repeated'
complete -c helgrothy -n '__helgrothy_is \'helgrothy tests\'' -l shuffle -r -f -d 'solutions in a random order of the options, the same for the same number'
complete -c helgrothy -n '__helgrothy_is \'helgrothy tests\'' -l up-to-symmetry -d 'one solution of those that are images of each other by turns and mirrors of the board or box'
complete -c helgrothy -n '__helgrothy_is \'helgrothy tests\'' -l cost -r -F -d 'the solution of least cost, from a file: lines of names of items (or patterns) and a number, which each option that has them costs, or a number for each option; clasp, highs, cbc and glpsol are asked too, where they are on the path'
complete -c helgrothy -n '__helgrothy_is \'helgrothy tests\'' -l all-costs -d 'of --cost and wishes: each line that costs something, not only the ten that cost most'
complete -c helgrothy -n '__helgrothy_is \'helgrothy timetable\'' -s h -l help -d 'show this help message and exit'
complete -c helgrothy -n '__helgrothy_is \'helgrothy timetable\'' -l daily -r -f -d 'nobody has more than N lessons a day'
complete -c helgrothy -n '__helgrothy_is \'helgrothy timetable\'' -l number -r -f -d 'the K-th solution instead of the first'
complete -c helgrothy -n '__helgrothy_is \'helgrothy timetable\'' -l random -d 'one of all solutions, each as likely as any other'
complete -c helgrothy -n '__helgrothy_is \'helgrothy timetable\'' -l limit -r -f -d 'the first N solutions'
complete -c helgrothy -n '__helgrothy_is \'helgrothy timetable\'' -l all -d 'all solutions'
complete -c helgrothy -n '__helgrothy_is \'helgrothy timetable\'' -l count -d 'only how many solutions there are'
complete -c helgrothy -n '__helgrothy_is \'helgrothy timetable\'' -l chances -d 'in how many percent of all solutions each cell has what, or, without a picture, each option is chosen'
complete -c helgrothy -n '__helgrothy_is \'helgrothy timetable\'' -l unique -d 'whether there is exactly one solution; if not, two'
complete -c helgrothy -n '__helgrothy_is \'helgrothy timetable\'' -l svg -d 'a picture as SVG, of one solution'
complete -c helgrothy -n '__helgrothy_is \'helgrothy timetable\'' -l html -d 'a page for a browser: the solutions, their pictures, and the search\'s way'
complete -c helgrothy -n '__helgrothy_is \'helgrothy timetable\'' -l json -d 'a line of JSON for each solution: its number, and the rows of the table that is drawn; where none is, the numbers of its options, their items, and the colours'
complete -c helgrothy -n '__helgrothy_is \'helgrothy timetable\'' -l csv -d 'the table that is drawn as CSV; where none is, a line for each choice'
complete -c helgrothy -n '__helgrothy_is \'helgrothy timetable\'' -l options -d 'of --json and --csv: the options, also where a table is drawn'
complete -c helgrothy -n '__helgrothy_is \'helgrothy timetable\'' -l seed -r -f -d 'of --random: the same solution for the same number'
complete -c helgrothy -n '__helgrothy_is \'helgrothy timetable\'' -l seconds -r -f -d 'give up after S seconds'
complete -c helgrothy -n '__helgrothy_is \'helgrothy timetable\'' -l with -r -f -d 'only solutions with the option that has these items, as many as it takes to be clear; may be repeated'
complete -c helgrothy -n '__helgrothy_is \'helgrothy timetable\'' -l without -r -f -d 'only solutions without the options that have all of these items, or patterns of them; may be repeated'
complete -c helgrothy -n '__helgrothy_is \'helgrothy timetable\'' -l shuffle -r -f -d 'solutions in a random order of the options, the same for the same number'
complete -c helgrothy -n '__helgrothy_is \'helgrothy timetable\'' -l up-to-symmetry -d 'one solution of those that are images of each other by turns and mirrors of the board or box'
complete -c helgrothy -n '__helgrothy_is \'helgrothy timetable\'' -l cost -r -F -d 'the solution of least cost, from a file: lines of names of items (or patterns) and a number, which each option that has them costs, or a number for each option; clasp, highs, cbc and glpsol are asked too, where they are on the path'
complete -c helgrothy -n '__helgrothy_is \'helgrothy timetable\'' -l all-costs -d 'of --cost and wishes: each line that costs something, not only the ten that cost most'
complete -c dlx1 -n '__helgrothy_is \'dlx1\' 1+' -f -a 'm1 m1000 t1 t2'
complete -c dlx2 -n '__helgrothy_is \'dlx2\' 1+' -f -a 'm1 m1000 t1 t2'
complete -c dlx3 -n '__helgrothy_is \'dlx3\' 1+' -f -a 'm1 m1000 t1 t2'
complete -c dlxcheck -n '__helgrothy_is \'dlxcheck\' 1' -f -a '(__fish_complete_suffix .dlx)'
complete -c dlxcheck -n '__helgrothy_is \'dlxcheck\' 2' -f -a '1 2 3'
complete -c dlx-span -n '__helgrothy_is \'dlx-span\' 1' -f -a '1 2 3'
complete -c dlx-span -n '__helgrothy_is \'dlx-span\' 2' -f -a 'm0 m1'
complete -c dlx-join -n '__helgrothy_is \'dlx-join\' 1' -f -a 'm0 m1'
complete -c dlx-join -n '__helgrothy_is \'dlx-join\' 2+' -F
complete -c dlx-count -n '__helgrothy_is \'dlx-count\' 1' -f -a '1 2 3'
complete -c dlx-count -n '__helgrothy_is \'dlx-count\' 2' -f -a 'b512 n1 o'
complete -c dlx-count -n '__helgrothy_is \'dlx-count\' 3' -f -a 'n1 o'
complete -c dlx-none -n '__helgrothy_is \'dlx-none\' 1' -f -a '1 2 3'
complete -c dlx-none -n '__helgrothy_is \'dlx-none\' 2' -f -a '(__fish_complete_suffix .dlx)'
complete -c dlx-none -n '__helgrothy_is \'dlx-none\' 3' -F
complete -c dlx-none -n '__helgrothy_is \'dlx-none\' 4' -f -a 'w'
complete -c helgrothy -n '__helgrothy_is \'helgrothy make sudoku\' 1' -F
complete -c helgrothy -n '__helgrothy_is \'helgrothy make queens\' 1' -F
complete -c helgrothy -n '__helgrothy_is \'helgrothy make polyominoes\' 1' -F -a 'pentominoes tetrominoes'
complete -c helgrothy -n '__helgrothy_is \'helgrothy make polyominoes\' 2' -F
complete -c helgrothy -n '__helgrothy_is \'helgrothy make polyforms\' 1' -F -a 'heptiamonds hexiamonds pentahexes pentiamonds tetrahexes tetriamonds trihexes'
complete -c helgrothy -n '__helgrothy_is \'helgrothy make polyforms\' 2' -F
complete -c helgrothy -n '__helgrothy_is \'helgrothy make polycubes\' 1' -F -a 'pentacubes pentominoes soma tetracubes tetrominoes'
complete -c helgrothy -n '__helgrothy_is \'helgrothy make polycubes\' 2' -F
complete -c helgrothy -n '__helgrothy_is \'helgrothy make words\' 1' -F
complete -c helgrothy -n '__helgrothy_is \'helgrothy make words\' 2' -F
complete -c helgrothy -n '__helgrothy_is \'helgrothy make wordsearch\' 1' -F
complete -c helgrothy -n '__helgrothy_is \'helgrothy make wordsearch\' 2' -F
complete -c helgrothy -n '__helgrothy_is \'helgrothy make nonogram\' 1' -F
complete -c helgrothy -n '__helgrothy_is \'helgrothy make kakuro\' 1' -F
complete -c helgrothy -n '__helgrothy_is \'helgrothy make roster\' 1' -F
complete -c helgrothy -n '__helgrothy_is \'helgrothy make roundrobin\' 1' -F
complete -c helgrothy -n '__helgrothy_is \'helgrothy make tests\' 1' -F
complete -c helgrothy -n '__helgrothy_is \'helgrothy make timetable\' 1' -F
complete -c helgrothy -n '__helgrothy_is \'helgrothy solve\' 1' -f -a '(__fish_complete_suffix .dlx)'
complete -c helgrothy -n '__helgrothy_is \'helgrothy draw\' 1' -f -a '(__fish_complete_suffix .dlx)'
complete -c helgrothy -n '__helgrothy_is \'helgrothy lint\' 1' -f -a '(__fish_complete_suffix .dlx)'
complete -c helgrothy -n '__helgrothy_is \'helgrothy export\' 1' -f -a 'asp cnf lp opb'
complete -c helgrothy -n '__helgrothy_is \'helgrothy export\' 2' -f -a '(__fish_complete_suffix .dlx)'
complete -c helgrothy -n '__helgrothy_is \'helgrothy why\' 1' -f -a '(__fish_complete_suffix .dlx)'
complete -c helgrothy -n '__helgrothy_is \'helgrothy count\' 1' -f -a '(__fish_complete_suffix .dlx)'
complete -c helgrothy -n '__helgrothy_is \'helgrothy search\' 1' -f -a '(__fish_complete_suffix .dlx)'
complete -c helgrothy -n '__helgrothy_is \'helgrothy hint sudoku\' 1' -F
complete -c helgrothy -n '__helgrothy_is \'helgrothy hint queens\' 1' -F
complete -c helgrothy -n '__helgrothy_is \'helgrothy hint polyominoes\' 1' -F -a 'pentominoes tetrominoes'
complete -c helgrothy -n '__helgrothy_is \'helgrothy hint polyominoes\' 2' -F
complete -c helgrothy -n '__helgrothy_is \'helgrothy hint polyforms\' 1' -F -a 'heptiamonds hexiamonds pentahexes pentiamonds tetrahexes tetriamonds trihexes'
complete -c helgrothy -n '__helgrothy_is \'helgrothy hint polyforms\' 2' -F
complete -c helgrothy -n '__helgrothy_is \'helgrothy hint polycubes\' 1' -F -a 'pentacubes pentominoes soma tetracubes tetrominoes'
complete -c helgrothy -n '__helgrothy_is \'helgrothy hint polycubes\' 2' -F
complete -c helgrothy -n '__helgrothy_is \'helgrothy hint words\' 1' -F
complete -c helgrothy -n '__helgrothy_is \'helgrothy hint words\' 2' -F
complete -c helgrothy -n '__helgrothy_is \'helgrothy hint wordsearch\' 1' -F
complete -c helgrothy -n '__helgrothy_is \'helgrothy hint wordsearch\' 2' -F
complete -c helgrothy -n '__helgrothy_is \'helgrothy hint nonogram\' 1' -F
complete -c helgrothy -n '__helgrothy_is \'helgrothy hint kakuro\' 1' -F
complete -c helgrothy -n '__helgrothy_is \'helgrothy hint roster\' 1' -F
complete -c helgrothy -n '__helgrothy_is \'helgrothy hint roundrobin\' 1' -F
complete -c helgrothy -n '__helgrothy_is \'helgrothy hint tests\' 1' -F
complete -c helgrothy -n '__helgrothy_is \'helgrothy hint timetable\' 1' -F
complete -c helgrothy -n '__helgrothy_is \'helgrothy minimal sudoku\' 1' -F
complete -c helgrothy -n '__helgrothy_is \'helgrothy minimal nonogram\' 1' -F
complete -c helgrothy -n '__helgrothy_is \'helgrothy minimal kakuro\' 1' -F
complete -c helgrothy -n '__helgrothy_is \'helgrothy sudoku\' 1' -F
complete -c helgrothy -n '__helgrothy_is \'helgrothy queens\' 1' -F
complete -c helgrothy -n '__helgrothy_is \'helgrothy polyominoes\' 1' -F -a 'pentominoes tetrominoes'
complete -c helgrothy -n '__helgrothy_is \'helgrothy polyominoes\' 2' -F
complete -c helgrothy -n '__helgrothy_is \'helgrothy polyforms\' 1' -F -a 'heptiamonds hexiamonds pentahexes pentiamonds tetrahexes tetriamonds trihexes'
complete -c helgrothy -n '__helgrothy_is \'helgrothy polyforms\' 2' -F
complete -c helgrothy -n '__helgrothy_is \'helgrothy polycubes\' 1' -F -a 'pentacubes pentominoes soma tetracubes tetrominoes'
complete -c helgrothy -n '__helgrothy_is \'helgrothy polycubes\' 2' -F
complete -c helgrothy -n '__helgrothy_is \'helgrothy words\' 1' -F
complete -c helgrothy -n '__helgrothy_is \'helgrothy words\' 2' -F
complete -c helgrothy -n '__helgrothy_is \'helgrothy wordsearch\' 1' -F
complete -c helgrothy -n '__helgrothy_is \'helgrothy wordsearch\' 2' -F
complete -c helgrothy -n '__helgrothy_is \'helgrothy nonogram\' 1' -F
complete -c helgrothy -n '__helgrothy_is \'helgrothy kakuro\' 1' -F
complete -c helgrothy -n '__helgrothy_is \'helgrothy roster\' 1' -F
complete -c helgrothy -n '__helgrothy_is \'helgrothy roundrobin\' 1' -F
complete -c helgrothy -n '__helgrothy_is \'helgrothy tests\' 1' -F
complete -c helgrothy -n '__helgrothy_is \'helgrothy timetable\' 1' -F
