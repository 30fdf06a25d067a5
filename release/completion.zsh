#compdef dlx1 dlx2 dlx3 dlxcheck dlx-span dlx-join dlx-count dlx-none helgrothy
# Completion of the words of programs and commands in zsh. Made by scripts/completion: changes belong there.

# Completes a word as what it may be: words, behind `file` those or a file, `problem` or `folder`.
_helgrothy_complete() {
    case $1 in
        problem) _files -g '*.dlx' ;;
        folder) _files -/ ;;
        file*) (( ${#${=1}} > 1 )) && compadd -- ${${=1}[2,-1]}; _files ;;
        'words '*) compadd -- ${${=1}[2,-1]} ;;
        *) return 1 ;;
    esac
}

_helgrothy() {
    local path_=${words[1]:t} value given
    local -a options commands
    local -i place=1 at
    for ((at = 2; at < CURRENT; at++)); do
        given=${words[at]}
        if _helgrothy_value "$path_ $given"; then
            if ((++at >= CURRENT)); then
                _helgrothy_complete "$value"
                return
            fi
        elif [[ $given != -?* ]]; then
            if _helgrothy_options "$path_ $given"; then
                path_+=" $given" place=1
            else
                ((place++))
            fi
        fi
    done
    _helgrothy_options "$path_"
    _helgrothy_place "$path_" "$place"
    if [[ $PREFIX == -* ]]; then
        if [[ $PREFIX == --*=* ]] && _helgrothy_value "$path_ ${PREFIX%%=*}"; then
            compset -P '*='
            _helgrothy_complete "$value"
            return
        fi
        _describe -o option options
    elif ((place == 1 && $#commands)); then
        _describe command commands
    else
        _helgrothy_complete "$value" || _describe -o option options
    fi
}

# The options and commands of a command, if there is such a one.
_helgrothy_options() {
    case $1 in
        'dlx1')
            options=()
            commands=() ;;
        'dlx2')
            options=()
            commands=() ;;
        'dlx3')
            options=()
            commands=() ;;
        'dlxcheck')
            options=()
            commands=() ;;
        'dlx-span')
            options=()
            commands=() ;;
        'dlx-join')
            options=()
            commands=() ;;
        'dlx-count')
            options=()
            commands=() ;;
        'dlx-none')
            options=()
            commands=() ;;
        'helgrothy')
            options=('--help:show this help message and exit' '--version:show program'\''s version number and exit')
            commands=('make:write a problem' 'solve:solve a problem and draw what is found' 'draw:draw a listing, or another solver'\''s answer' 'lint:report all faults and slips of a problem' 'export:write a problem for another solver' 'why:report which items conflict where there is no solution' 'count:count the solutions of a problem' 'page:a local page to type a problem in' 'search:count or list all solutions, by all processors or many machines' 'hint:report a step that is forced, and why' 'minimal:drop what is given while there is one solution' 'sudoku:make and solve a Sudoku from its clues' 'queens:make and solve queens on a board, or in coloured regions' 'langford:make and solve Langford'\''s pairs' 'polyominoes:make and solve pieces of squares that fill a region' 'polyforms:make and solve pieces of hexagons or triangles that fill a region' 'polycubes:make and solve pieces of cubes that fill a box' 'words:make and solve words across and down in a grid' 'wordsearch:make and solve words of a list hidden in a grid of letters' 'nonogram:make and solve a nonogram from its clues' 'kakuro:make and solve a Kakuro from its grid' 'roster:make and solve shifts of people on days' 'roundrobin:make and solve a round robin at home and away' 'tests:make and solve tests in which values of factors come together' 'timetable:make and solve lessons or exams in slots and rooms') ;;
        'helgrothy make')
            options=('--help:show this help message and exit')
            commands=('sudoku:a Sudoku from its clues' 'queens:queens on a board, or in coloured regions' 'langford:Langford'\''s pairs' 'polyominoes:pieces of squares that fill a region' 'polyforms:pieces of hexagons or triangles that fill a region' 'polycubes:pieces of cubes that fill a box' 'words:words across and down in a grid' 'wordsearch:words of a list hidden in a grid of letters' 'nonogram:a nonogram from its clues' 'kakuro:a Kakuro from its grid' 'roster:shifts of people on days' 'roundrobin:a round robin at home and away' 'tests:tests in which values of factors come together' 'timetable:lessons or exams in slots and rooms') ;;
        'helgrothy make sudoku')
            options=('--help:show this help message and exit' '--regions:a file with a picture of the regions, a letter for each place' '--cages:a file with a line for each cage, its sum and its places (12 r1c1 r1c2); or with a picture, a letter for each place, and after a blank line the sums (a=12 b=7)' '--diagonals:each of the two long diagonals has each digit too')
            commands=() ;;
        'helgrothy make queens')
            options=('--help:show this help message and exit')
            commands=() ;;
        'helgrothy make langford')
            options=('--help:show this help message and exit')
            commands=() ;;
        'helgrothy make polyominoes')
            options=('--help:show this help message and exit' '--no-turns:pieces may not be turned' '--no-mirrors:pieces may not be mirrored' '--some:pieces may be left over')
            commands=() ;;
        'helgrothy make polyforms')
            options=('--help:show this help message and exit' '--grid:what pieces of your own are drawn in' '--one-sided:of a set: no piece is turned over, and a mirror image is a piece of its own, with a small letter' '--copies:how often pieces are there, where not once: I=2,O=0' '--no-turns:pieces may not be turned' '--no-mirrors:pieces may not be mirrored' '--some:pieces may be left over')
            commands=() ;;
        'helgrothy make polycubes')
            options=('--help:show this help message and exit' '--mirrors:mirror images of pieces may be used too' '--some:pieces may be left over')
            commands=() ;;
        'helgrothy make words')
            options=('--help:show this help message and exit')
            commands=() ;;
        'helgrothy make wordsearch')
            options=('--help:show this help message and exit' '--forwards:no word is written to the left or straight up' '--fill:letters in the free squares too, the same for the same number')
            commands=() ;;
        'helgrothy make nonogram')
            options=('--help:show this help message and exit')
            commands=() ;;
        'helgrothy make kakuro')
            options=('--help:show this help message and exit')
            commands=() ;;
        'helgrothy make roster')
            options=('--help:show this help message and exit' '--rest:no shift on the next day that stands higher in the table' '--in-a-row:nobody works more than N days in a row' '--days-off:everybody has N days off together, once at least')
            commands=() ;;
        'helgrothy make roundrobin')
            options=('--help:show this help message and exit' '--double:each two teams meet twice, once at each one'\''s home' '--in-a-row:no team is more than N rounds in a row at home, or away')
            commands=() ;;
        'helgrothy make tests')
            options=('--help:show this help message and exit' '--tests:so many tests' '--strength:the values of any T factors come together (default: 2)')
            commands=() ;;
        'helgrothy make timetable')
            options=('--help:show this help message and exit' '--daily:nobody has more than N lessons a day')
            commands=() ;;
        'helgrothy solve')
            options=('--help:show this help message and exit' '--number:the K-th solution instead of the first' '--random:one of all solutions, each as likely as any other' '--limit:the first N solutions' '--all:all solutions' '--count:only how many solutions there are' '--chances:in how many percent of all solutions each cell has what, or, without a picture, each option is chosen' '--unique:whether there is exactly one solution; if not, two' '--svg:a picture as SVG, of one solution' '--html:a page for a browser: the solutions, their pictures, and the search'\''s way' '--json:a line of JSON for each solution: its number, and the rows of the table that is drawn; where none is, the numbers of its options, their items, and the colours' '--csv:the table that is drawn as CSV; where none is, a line for each choice' '--options:of --json and --csv: the options, also where a table is drawn' '--seed:of --random: the same solution for the same number' '--seconds:give up after S seconds' '--with:only solutions with the option that has these items, as many as it takes to be clear; may be repeated' '--without:only solutions without the options that have all of these items, or patterns of them; may be repeated' '--shuffle:solutions in a random order of the options, the same for the same number' '--up-to-symmetry:one solution of those that are images of each other by turns and mirrors of the board or box' '--cost:the solution of least cost, from a file: lines of names of items (or patterns) and a number, which each option that has them costs, or a number for each option; clasp, highs, cbc and glpsol are asked too, where they are on the path' '--all-costs:of --cost and wishes: each line that costs something, not only the ten that cost most' '--cell:a regular expression that finds the cells, as whole words, in an option'\''s line; its first two groups (or those named row and column) are row and column, a number or a single letter, and a third one its label' '--grid:of --cell: square (default); hex, with axial coordinates; or triangle, which point up where row and column add up to an even number, or are half 0 (u) or 1 (d) of a rhombus, by a third group' '--row:a regular expression that finds the name of a row in the words of an option: the picture is a table of these names, in the order of the file' '--column:a regular expression that finds the name of a column in the words of an option: the picture is a table of these names, in the order of the file' '--label:a regular expression that finds the label in an option'\''s line')
            commands=() ;;
        'helgrothy draw')
            options=('--help:show this help message and exit' '--number:the solution of this number alone' '--svg:a picture as SVG, of the first solution or that of --number' '--html:a page for a browser: the solutions, their pictures, and the search'\''s way' '--json:a line of JSON for each solution: its number, and the rows of the table that is drawn; where none is, the numbers of its options, their items, and the colours' '--csv:the table that is drawn as CSV; where none is, a line for each choice' '--options:of --json and --csv: the options, also where a table is drawn' '--listing:an answer as a listing, for dlxcheck to judge' '--cell:a regular expression that finds the cells, as whole words, in an option'\''s line; its first two groups (or those named row and column) are row and column, a number or a single letter, and a third one its label' '--grid:of --cell: square (default); hex, with axial coordinates; or triangle, which point up where row and column add up to an even number, or are half 0 (u) or 1 (d) of a rhombus, by a third group' '--row:a regular expression that finds the name of a row in the words of an option: the picture is a table of these names, in the order of the file' '--column:a regular expression that finds the name of a column in the words of an option: the picture is a table of these names, in the order of the file' '--label:a regular expression that finds the label in an option'\''s line')
            commands=() ;;
        'helgrothy lint')
            options=('--help:show this help message and exit' '--for:default: dlx3')
            commands=() ;;
        'helgrothy export')
            options=('--help:show this help message and exit' '--cost:of asp, opb and lp: what options cost, from a file as `solve --cost` takes')
            commands=() ;;
        'helgrothy why')
            options=('--help:show this help message and exit' '--seconds:the time (default: 10)')
            commands=() ;;
        'helgrothy count')
            options=('--help:show this help message and exit' '--json:a line of JSON: the number, and the program that counted' '--megabytes:the memory of dlx-count (default: 512)' '--seconds:give up after S seconds')
            commands=() ;;
        'helgrothy page')
            options=('--help:show this help message and exit' '--port:the port (default: one that is free)')
            commands=() ;;
        'helgrothy search')
            options=('--help:show this help message and exit' '--list:list the solutions' '--jobs:so many processors (default: all)' '--dask:the workers of Dask, by its address or file' '--seconds:stop after S seconds, with status 6' '--folder:keep what is done here (default: PROBLEM.search, removed at the end)' '--for:the program (default: the first that takes such a text)' '--status:report how far the search of this folder is, and about how long the rest takes' '--result:print what the search of this folder has found, its number of solutions or, with --list, the solutions; nothing, with status 6, while something is left' '--rows:print up to N rows at which a search of PROBLEM may be cut, for queues that run programs and nothing else: dlx-span searches between two of them, and dlx-join puts the texts together')
            commands=() ;;
        'helgrothy hint')
            options=('--help:show this help message and exit' '--with:only solutions with the option that has these items, as many as it takes to be clear; may be repeated' '--without:only solutions without the options that have all of these items, or patterns of them; may be repeated' '--seconds:the time (default: 5)')
            commands=('sudoku:a Sudoku from its clues' 'queens:queens on a board, or in coloured regions' 'langford:Langford'\''s pairs' 'polyominoes:pieces of squares that fill a region' 'polyforms:pieces of hexagons or triangles that fill a region' 'polycubes:pieces of cubes that fill a box' 'words:words across and down in a grid' 'wordsearch:words of a list hidden in a grid of letters' 'nonogram:a nonogram from its clues' 'kakuro:a Kakuro from its grid' 'roster:shifts of people on days' 'roundrobin:a round robin at home and away' 'tests:tests in which values of factors come together' 'timetable:lessons or exams in slots and rooms') ;;
        'helgrothy hint sudoku')
            options=('--help:show this help message and exit' '--regions:a file with a picture of the regions, a letter for each place' '--cages:a file with a line for each cage, its sum and its places (12 r1c1 r1c2); or with a picture, a letter for each place, and after a blank line the sums (a=12 b=7)' '--diagonals:each of the two long diagonals has each digit too' '--with:only solutions with the option that has these items, as many as it takes to be clear; may be repeated' '--without:only solutions without the options that have all of these items, or patterns of them; may be repeated' '--seconds:the time (default: 5)')
            commands=() ;;
        'helgrothy hint queens')
            options=('--help:show this help message and exit' '--with:only solutions with the option that has these items, as many as it takes to be clear; may be repeated' '--without:only solutions without the options that have all of these items, or patterns of them; may be repeated' '--seconds:the time (default: 5)')
            commands=() ;;
        'helgrothy hint langford')
            options=('--help:show this help message and exit' '--with:only solutions with the option that has these items, as many as it takes to be clear; may be repeated' '--without:only solutions without the options that have all of these items, or patterns of them; may be repeated' '--seconds:the time (default: 5)')
            commands=() ;;
        'helgrothy hint polyominoes')
            options=('--help:show this help message and exit' '--no-turns:pieces may not be turned' '--no-mirrors:pieces may not be mirrored' '--some:pieces may be left over' '--with:only solutions with the option that has these items, as many as it takes to be clear; may be repeated' '--without:only solutions without the options that have all of these items, or patterns of them; may be repeated' '--seconds:the time (default: 5)')
            commands=() ;;
        'helgrothy hint polyforms')
            options=('--help:show this help message and exit' '--grid:what pieces of your own are drawn in' '--one-sided:of a set: no piece is turned over, and a mirror image is a piece of its own, with a small letter' '--copies:how often pieces are there, where not once: I=2,O=0' '--no-turns:pieces may not be turned' '--no-mirrors:pieces may not be mirrored' '--some:pieces may be left over' '--with:only solutions with the option that has these items, as many as it takes to be clear; may be repeated' '--without:only solutions without the options that have all of these items, or patterns of them; may be repeated' '--seconds:the time (default: 5)')
            commands=() ;;
        'helgrothy hint polycubes')
            options=('--help:show this help message and exit' '--mirrors:mirror images of pieces may be used too' '--some:pieces may be left over' '--with:only solutions with the option that has these items, as many as it takes to be clear; may be repeated' '--without:only solutions without the options that have all of these items, or patterns of them; may be repeated' '--seconds:the time (default: 5)')
            commands=() ;;
        'helgrothy hint words')
            options=('--help:show this help message and exit' '--with:only solutions with the option that has these items, as many as it takes to be clear; may be repeated' '--without:only solutions without the options that have all of these items, or patterns of them; may be repeated' '--seconds:the time (default: 5)')
            commands=() ;;
        'helgrothy hint wordsearch')
            options=('--help:show this help message and exit' '--forwards:no word is written to the left or straight up' '--fill:letters in the free squares too, the same for the same number' '--with:only solutions with the option that has these items, as many as it takes to be clear; may be repeated' '--without:only solutions without the options that have all of these items, or patterns of them; may be repeated' '--seconds:the time (default: 5)')
            commands=() ;;
        'helgrothy hint nonogram')
            options=('--help:show this help message and exit' '--with:only solutions with the option that has these items, as many as it takes to be clear; may be repeated' '--without:only solutions without the options that have all of these items, or patterns of them; may be repeated' '--seconds:the time (default: 5)')
            commands=() ;;
        'helgrothy hint kakuro')
            options=('--help:show this help message and exit' '--with:only solutions with the option that has these items, as many as it takes to be clear; may be repeated' '--without:only solutions without the options that have all of these items, or patterns of them; may be repeated' '--seconds:the time (default: 5)')
            commands=() ;;
        'helgrothy hint roster')
            options=('--help:show this help message and exit' '--rest:no shift on the next day that stands higher in the table' '--in-a-row:nobody works more than N days in a row' '--days-off:everybody has N days off together, once at least' '--with:only solutions with the option that has these items, as many as it takes to be clear; may be repeated' '--without:only solutions without the options that have all of these items, or patterns of them; may be repeated' '--seconds:the time (default: 5)')
            commands=() ;;
        'helgrothy hint roundrobin')
            options=('--help:show this help message and exit' '--double:each two teams meet twice, once at each one'\''s home' '--in-a-row:no team is more than N rounds in a row at home, or away' '--with:only solutions with the option that has these items, as many as it takes to be clear; may be repeated' '--without:only solutions without the options that have all of these items, or patterns of them; may be repeated' '--seconds:the time (default: 5)')
            commands=() ;;
        'helgrothy hint tests')
            options=('--help:show this help message and exit' '--tests:so many tests' '--strength:the values of any T factors come together (default: 2)' '--with:only solutions with the option that has these items, as many as it takes to be clear; may be repeated' '--without:only solutions without the options that have all of these items, or patterns of them; may be repeated' '--seconds:the time (default: 5)')
            commands=() ;;
        'helgrothy hint timetable')
            options=('--help:show this help message and exit' '--daily:nobody has more than N lessons a day' '--with:only solutions with the option that has these items, as many as it takes to be clear; may be repeated' '--without:only solutions without the options that have all of these items, or patterns of them; may be repeated' '--seconds:the time (default: 5)')
            commands=() ;;
        'helgrothy minimal')
            options=('--help:show this help message and exit' '--with:of a problem: the option with these items is given; may be repeated (default: all of a random solution)' '--seed:the random order (default: 0)' '--seconds:the time (default: 30)')
            commands=('sudoku:a Sudoku from its clues' 'nonogram:a nonogram from its clues' 'kakuro:a Kakuro from its grid') ;;
        'helgrothy minimal sudoku')
            options=('--help:show this help message and exit' '--regions:a file with a picture of the regions, a letter for each place' '--cages:a file with a line for each cage, its sum and its places (12 r1c1 r1c2); or with a picture, a letter for each place, and after a blank line the sums (a=12 b=7)' '--diagonals:each of the two long diagonals has each digit too' '--with:of a problem: the option with these items is given; may be repeated (default: all of a random solution)' '--seed:the random order (default: 0)' '--seconds:the time (default: 30)')
            commands=() ;;
        'helgrothy minimal nonogram')
            options=('--help:show this help message and exit' '--with:of a problem: the option with these items is given; may be repeated (default: all of a random solution)' '--seed:the random order (default: 0)' '--seconds:the time (default: 30)')
            commands=() ;;
        'helgrothy minimal kakuro')
            options=('--help:show this help message and exit' '--with:of a problem: the option with these items is given; may be repeated (default: all of a random solution)' '--seed:the random order (default: 0)' '--seconds:the time (default: 30)')
            commands=() ;;
        'helgrothy sudoku')
            options=('--help:show this help message and exit' '--regions:a file with a picture of the regions, a letter for each place' '--cages:a file with a line for each cage, its sum and its places (12 r1c1 r1c2); or with a picture, a letter for each place, and after a blank line the sums (a=12 b=7)' '--diagonals:each of the two long diagonals has each digit too' '--number:the K-th solution instead of the first' '--random:one of all solutions, each as likely as any other' '--limit:the first N solutions' '--all:all solutions' '--count:only how many solutions there are' '--chances:in how many percent of all solutions each cell has what, or, without a picture, each option is chosen' '--unique:whether there is exactly one solution; if not, two' '--svg:a picture as SVG, of one solution' '--html:a page for a browser: the solutions, their pictures, and the search'\''s way' '--json:a line of JSON for each solution: its number, and the rows of the table that is drawn; where none is, the numbers of its options, their items, and the colours' '--csv:the table that is drawn as CSV; where none is, a line for each choice' '--options:of --json and --csv: the options, also where a table is drawn' '--seed:of --random: the same solution for the same number' '--seconds:give up after S seconds' '--with:only solutions with the option that has these items, as many as it takes to be clear; may be repeated' '--without:only solutions without the options that have all of these items, or patterns of them; may be repeated' '--shuffle:solutions in a random order of the options, the same for the same number' '--up-to-symmetry:one solution of those that are images of each other by turns and mirrors of the board or box' '--cost:the solution of least cost, from a file: lines of names of items (or patterns) and a number, which each option that has them costs, or a number for each option; clasp, highs, cbc and glpsol are asked too, where they are on the path' '--all-costs:of --cost and wishes: each line that costs something, not only the ten that cost most')
            commands=() ;;
        'helgrothy queens')
            options=('--help:show this help message and exit' '--number:the K-th solution instead of the first' '--random:one of all solutions, each as likely as any other' '--limit:the first N solutions' '--all:all solutions' '--count:only how many solutions there are' '--chances:in how many percent of all solutions each cell has what, or, without a picture, each option is chosen' '--unique:whether there is exactly one solution; if not, two' '--svg:a picture as SVG, of one solution' '--html:a page for a browser: the solutions, their pictures, and the search'\''s way' '--json:a line of JSON for each solution: its number, and the rows of the table that is drawn; where none is, the numbers of its options, their items, and the colours' '--csv:the table that is drawn as CSV; where none is, a line for each choice' '--options:of --json and --csv: the options, also where a table is drawn' '--seed:of --random: the same solution for the same number' '--seconds:give up after S seconds' '--with:only solutions with the option that has these items, as many as it takes to be clear; may be repeated' '--without:only solutions without the options that have all of these items, or patterns of them; may be repeated' '--shuffle:solutions in a random order of the options, the same for the same number' '--up-to-symmetry:one solution of those that are images of each other by turns and mirrors of the board or box' '--cost:the solution of least cost, from a file: lines of names of items (or patterns) and a number, which each option that has them costs, or a number for each option; clasp, highs, cbc and glpsol are asked too, where they are on the path' '--all-costs:of --cost and wishes: each line that costs something, not only the ten that cost most')
            commands=() ;;
        'helgrothy langford')
            options=('--help:show this help message and exit' '--number:the K-th solution instead of the first' '--random:one of all solutions, each as likely as any other' '--limit:the first N solutions' '--all:all solutions' '--count:only how many solutions there are' '--chances:in how many percent of all solutions each cell has what, or, without a picture, each option is chosen' '--unique:whether there is exactly one solution; if not, two' '--svg:a picture as SVG, of one solution' '--html:a page for a browser: the solutions, their pictures, and the search'\''s way' '--json:a line of JSON for each solution: its number, and the rows of the table that is drawn; where none is, the numbers of its options, their items, and the colours' '--csv:the table that is drawn as CSV; where none is, a line for each choice' '--options:of --json and --csv: the options, also where a table is drawn' '--seed:of --random: the same solution for the same number' '--seconds:give up after S seconds' '--with:only solutions with the option that has these items, as many as it takes to be clear; may be repeated' '--without:only solutions without the options that have all of these items, or patterns of them; may be repeated' '--shuffle:solutions in a random order of the options, the same for the same number' '--up-to-symmetry:one solution of those that are images of each other by turns and mirrors of the board or box' '--cost:the solution of least cost, from a file: lines of names of items (or patterns) and a number, which each option that has them costs, or a number for each option; clasp, highs, cbc and glpsol are asked too, where they are on the path' '--all-costs:of --cost and wishes: each line that costs something, not only the ten that cost most')
            commands=() ;;
        'helgrothy polyominoes')
            options=('--help:show this help message and exit' '--no-turns:pieces may not be turned' '--no-mirrors:pieces may not be mirrored' '--some:pieces may be left over' '--number:the K-th solution instead of the first' '--random:one of all solutions, each as likely as any other' '--limit:the first N solutions' '--all:all solutions' '--count:only how many solutions there are' '--chances:in how many percent of all solutions each cell has what, or, without a picture, each option is chosen' '--unique:whether there is exactly one solution; if not, two' '--svg:a picture as SVG, of one solution' '--html:a page for a browser: the solutions, their pictures, and the search'\''s way' '--json:a line of JSON for each solution: its number, and the rows of the table that is drawn; where none is, the numbers of its options, their items, and the colours' '--csv:the table that is drawn as CSV; where none is, a line for each choice' '--options:of --json and --csv: the options, also where a table is drawn' '--seed:of --random: the same solution for the same number' '--seconds:give up after S seconds' '--with:only solutions with the option that has these items, as many as it takes to be clear; may be repeated' '--without:only solutions without the options that have all of these items, or patterns of them; may be repeated' '--shuffle:solutions in a random order of the options, the same for the same number' '--up-to-symmetry:one solution of those that are images of each other by turns and mirrors of the board or box' '--cost:the solution of least cost, from a file: lines of names of items (or patterns) and a number, which each option that has them costs, or a number for each option; clasp, highs, cbc and glpsol are asked too, where they are on the path' '--all-costs:of --cost and wishes: each line that costs something, not only the ten that cost most')
            commands=() ;;
        'helgrothy polyforms')
            options=('--help:show this help message and exit' '--grid:what pieces of your own are drawn in' '--one-sided:of a set: no piece is turned over, and a mirror image is a piece of its own, with a small letter' '--copies:how often pieces are there, where not once: I=2,O=0' '--no-turns:pieces may not be turned' '--no-mirrors:pieces may not be mirrored' '--some:pieces may be left over' '--number:the K-th solution instead of the first' '--random:one of all solutions, each as likely as any other' '--limit:the first N solutions' '--all:all solutions' '--count:only how many solutions there are' '--chances:in how many percent of all solutions each cell has what, or, without a picture, each option is chosen' '--unique:whether there is exactly one solution; if not, two' '--svg:a picture as SVG, of one solution' '--html:a page for a browser: the solutions, their pictures, and the search'\''s way' '--json:a line of JSON for each solution: its number, and the rows of the table that is drawn; where none is, the numbers of its options, their items, and the colours' '--csv:the table that is drawn as CSV; where none is, a line for each choice' '--options:of --json and --csv: the options, also where a table is drawn' '--seed:of --random: the same solution for the same number' '--seconds:give up after S seconds' '--with:only solutions with the option that has these items, as many as it takes to be clear; may be repeated' '--without:only solutions without the options that have all of these items, or patterns of them; may be repeated' '--shuffle:solutions in a random order of the options, the same for the same number' '--up-to-symmetry:one solution of those that are images of each other by turns and mirrors of the board or box' '--cost:the solution of least cost, from a file: lines of names of items (or patterns) and a number, which each option that has them costs, or a number for each option; clasp, highs, cbc and glpsol are asked too, where they are on the path' '--all-costs:of --cost and wishes: each line that costs something, not only the ten that cost most')
            commands=() ;;
        'helgrothy polycubes')
            options=('--help:show this help message and exit' '--mirrors:mirror images of pieces may be used too' '--some:pieces may be left over' '--number:the K-th solution instead of the first' '--random:one of all solutions, each as likely as any other' '--limit:the first N solutions' '--all:all solutions' '--count:only how many solutions there are' '--chances:in how many percent of all solutions each cell has what, or, without a picture, each option is chosen' '--unique:whether there is exactly one solution; if not, two' '--svg:a picture as SVG, of one solution' '--html:a page for a browser: the solutions, their pictures, and the search'\''s way' '--json:a line of JSON for each solution: its number, and the rows of the table that is drawn; where none is, the numbers of its options, their items, and the colours' '--csv:the table that is drawn as CSV; where none is, a line for each choice' '--options:of --json and --csv: the options, also where a table is drawn' '--seed:of --random: the same solution for the same number' '--seconds:give up after S seconds' '--with:only solutions with the option that has these items, as many as it takes to be clear; may be repeated' '--without:only solutions without the options that have all of these items, or patterns of them; may be repeated' '--shuffle:solutions in a random order of the options, the same for the same number' '--up-to-symmetry:one solution of those that are images of each other by turns and mirrors of the board or box' '--cost:the solution of least cost, from a file: lines of names of items (or patterns) and a number, which each option that has them costs, or a number for each option; clasp, highs, cbc and glpsol are asked too, where they are on the path' '--all-costs:of --cost and wishes: each line that costs something, not only the ten that cost most')
            commands=() ;;
        'helgrothy words')
            options=('--help:show this help message and exit' '--number:the K-th solution instead of the first' '--random:one of all solutions, each as likely as any other' '--limit:the first N solutions' '--all:all solutions' '--count:only how many solutions there are' '--chances:in how many percent of all solutions each cell has what, or, without a picture, each option is chosen' '--unique:whether there is exactly one solution; if not, two' '--svg:a picture as SVG, of one solution' '--html:a page for a browser: the solutions, their pictures, and the search'\''s way' '--json:a line of JSON for each solution: its number, and the rows of the table that is drawn; where none is, the numbers of its options, their items, and the colours' '--csv:the table that is drawn as CSV; where none is, a line for each choice' '--options:of --json and --csv: the options, also where a table is drawn' '--seed:of --random: the same solution for the same number' '--seconds:give up after S seconds' '--with:only solutions with the option that has these items, as many as it takes to be clear; may be repeated' '--without:only solutions without the options that have all of these items, or patterns of them; may be repeated' '--shuffle:solutions in a random order of the options, the same for the same number' '--up-to-symmetry:one solution of those that are images of each other by turns and mirrors of the board or box' '--cost:the solution of least cost, from a file: lines of names of items (or patterns) and a number, which each option that has them costs, or a number for each option; clasp, highs, cbc and glpsol are asked too, where they are on the path' '--all-costs:of --cost and wishes: each line that costs something, not only the ten that cost most')
            commands=() ;;
        'helgrothy wordsearch')
            options=('--help:show this help message and exit' '--forwards:no word is written to the left or straight up' '--fill:letters in the free squares too, the same for the same number' '--number:the K-th solution instead of the first' '--random:one of all solutions, each as likely as any other' '--limit:the first N solutions' '--all:all solutions' '--count:only how many solutions there are' '--chances:in how many percent of all solutions each cell has what, or, without a picture, each option is chosen' '--unique:whether there is exactly one solution; if not, two' '--svg:a picture as SVG, of one solution' '--html:a page for a browser: the solutions, their pictures, and the search'\''s way' '--json:a line of JSON for each solution: its number, and the rows of the table that is drawn; where none is, the numbers of its options, their items, and the colours' '--csv:the table that is drawn as CSV; where none is, a line for each choice' '--options:of --json and --csv: the options, also where a table is drawn' '--seed:of --random: the same solution for the same number' '--seconds:give up after S seconds' '--with:only solutions with the option that has these items, as many as it takes to be clear; may be repeated' '--without:only solutions without the options that have all of these items, or patterns of them; may be repeated' '--shuffle:solutions in a random order of the options, the same for the same number' '--up-to-symmetry:one solution of those that are images of each other by turns and mirrors of the board or box' '--cost:the solution of least cost, from a file: lines of names of items (or patterns) and a number, which each option that has them costs, or a number for each option; clasp, highs, cbc and glpsol are asked too, where they are on the path' '--all-costs:of --cost and wishes: each line that costs something, not only the ten that cost most')
            commands=() ;;
        'helgrothy nonogram')
            options=('--help:show this help message and exit' '--number:the K-th solution instead of the first' '--random:one of all solutions, each as likely as any other' '--limit:the first N solutions' '--all:all solutions' '--count:only how many solutions there are' '--chances:in how many percent of all solutions each cell has what, or, without a picture, each option is chosen' '--unique:whether there is exactly one solution; if not, two' '--svg:a picture as SVG, of one solution' '--html:a page for a browser: the solutions, their pictures, and the search'\''s way' '--json:a line of JSON for each solution: its number, and the rows of the table that is drawn; where none is, the numbers of its options, their items, and the colours' '--csv:the table that is drawn as CSV; where none is, a line for each choice' '--options:of --json and --csv: the options, also where a table is drawn' '--seed:of --random: the same solution for the same number' '--seconds:give up after S seconds' '--with:only solutions with the option that has these items, as many as it takes to be clear; may be repeated' '--without:only solutions without the options that have all of these items, or patterns of them; may be repeated' '--shuffle:solutions in a random order of the options, the same for the same number' '--up-to-symmetry:one solution of those that are images of each other by turns and mirrors of the board or box' '--cost:the solution of least cost, from a file: lines of names of items (or patterns) and a number, which each option that has them costs, or a number for each option; clasp, highs, cbc and glpsol are asked too, where they are on the path' '--all-costs:of --cost and wishes: each line that costs something, not only the ten that cost most')
            commands=() ;;
        'helgrothy kakuro')
            options=('--help:show this help message and exit' '--number:the K-th solution instead of the first' '--random:one of all solutions, each as likely as any other' '--limit:the first N solutions' '--all:all solutions' '--count:only how many solutions there are' '--chances:in how many percent of all solutions each cell has what, or, without a picture, each option is chosen' '--unique:whether there is exactly one solution; if not, two' '--svg:a picture as SVG, of one solution' '--html:a page for a browser: the solutions, their pictures, and the search'\''s way' '--json:a line of JSON for each solution: its number, and the rows of the table that is drawn; where none is, the numbers of its options, their items, and the colours' '--csv:the table that is drawn as CSV; where none is, a line for each choice' '--options:of --json and --csv: the options, also where a table is drawn' '--seed:of --random: the same solution for the same number' '--seconds:give up after S seconds' '--with:only solutions with the option that has these items, as many as it takes to be clear; may be repeated' '--without:only solutions without the options that have all of these items, or patterns of them; may be repeated' '--shuffle:solutions in a random order of the options, the same for the same number' '--up-to-symmetry:one solution of those that are images of each other by turns and mirrors of the board or box' '--cost:the solution of least cost, from a file: lines of names of items (or patterns) and a number, which each option that has them costs, or a number for each option; clasp, highs, cbc and glpsol are asked too, where they are on the path' '--all-costs:of --cost and wishes: each line that costs something, not only the ten that cost most')
            commands=() ;;
        'helgrothy roster')
            options=('--help:show this help message and exit' '--rest:no shift on the next day that stands higher in the table' '--in-a-row:nobody works more than N days in a row' '--days-off:everybody has N days off together, once at least' '--number:the K-th solution instead of the first' '--random:one of all solutions, each as likely as any other' '--limit:the first N solutions' '--all:all solutions' '--count:only how many solutions there are' '--chances:in how many percent of all solutions each cell has what, or, without a picture, each option is chosen' '--unique:whether there is exactly one solution; if not, two' '--svg:a picture as SVG, of one solution' '--html:a page for a browser: the solutions, their pictures, and the search'\''s way' '--json:a line of JSON for each solution: its number, and the rows of the table that is drawn; where none is, the numbers of its options, their items, and the colours' '--csv:the table that is drawn as CSV; where none is, a line for each choice' '--options:of --json and --csv: the options, also where a table is drawn' '--seed:of --random: the same solution for the same number' '--seconds:give up after S seconds' '--with:only solutions with the option that has these items, as many as it takes to be clear; may be repeated' '--without:only solutions without the options that have all of these items, or patterns of them; may be repeated' '--shuffle:solutions in a random order of the options, the same for the same number' '--up-to-symmetry:one solution of those that are images of each other by turns and mirrors of the board or box' '--cost:the solution of least cost, from a file: lines of names of items (or patterns) and a number, which each option that has them costs, or a number for each option; clasp, highs, cbc and glpsol are asked too, where they are on the path' '--all-costs:of --cost and wishes: each line that costs something, not only the ten that cost most')
            commands=() ;;
        'helgrothy roundrobin')
            options=('--help:show this help message and exit' '--double:each two teams meet twice, once at each one'\''s home' '--in-a-row:no team is more than N rounds in a row at home, or away' '--number:the K-th solution instead of the first' '--random:one of all solutions, each as likely as any other' '--limit:the first N solutions' '--all:all solutions' '--count:only how many solutions there are' '--chances:in how many percent of all solutions each cell has what, or, without a picture, each option is chosen' '--unique:whether there is exactly one solution; if not, two' '--svg:a picture as SVG, of one solution' '--html:a page for a browser: the solutions, their pictures, and the search'\''s way' '--json:a line of JSON for each solution: its number, and the rows of the table that is drawn; where none is, the numbers of its options, their items, and the colours' '--csv:the table that is drawn as CSV; where none is, a line for each choice' '--options:of --json and --csv: the options, also where a table is drawn' '--seed:of --random: the same solution for the same number' '--seconds:give up after S seconds' '--with:only solutions with the option that has these items, as many as it takes to be clear; may be repeated' '--without:only solutions without the options that have all of these items, or patterns of them; may be repeated' '--shuffle:solutions in a random order of the options, the same for the same number' '--up-to-symmetry:one solution of those that are images of each other by turns and mirrors of the board or box' '--cost:the solution of least cost, from a file: lines of names of items (or patterns) and a number, which each option that has them costs, or a number for each option; clasp, highs, cbc and glpsol are asked too, where they are on the path' '--all-costs:of --cost and wishes: each line that costs something, not only the ten that cost most')
            commands=() ;;
        'helgrothy tests')
            options=('--help:show this help message and exit' '--tests:so many tests' '--strength:the values of any T factors come together (default: 2)' '--least:as few tests as are found, in some ten seconds of a processor or else in the time of --seconds' '--number:the K-th solution instead of the first' '--random:one of all solutions, each as likely as any other' '--limit:the first N solutions' '--all:all solutions' '--count:only how many solutions there are' '--chances:in how many percent of all solutions each cell has what, or, without a picture, each option is chosen' '--unique:whether there is exactly one solution; if not, two' '--svg:a picture as SVG, of one solution' '--html:a page for a browser: the solutions, their pictures, and the search'\''s way' '--json:a line of JSON for each solution: its number, and the rows of the table that is drawn; where none is, the numbers of its options, their items, and the colours' '--csv:the table that is drawn as CSV; where none is, a line for each choice' '--options:of --json and --csv: the options, also where a table is drawn' '--seed:of --random: the same solution for the same number' '--seconds:give up after S seconds' '--with:only solutions with the option that has these items, as many as it takes to be clear; may be repeated' '--without:only solutions without the options that have all of these items, or patterns of them; may be repeated' '--shuffle:solutions in a random order of the options, the same for the same number' '--up-to-symmetry:one solution of those that are images of each other by turns and mirrors of the board or box' '--cost:the solution of least cost, from a file: lines of names of items (or patterns) and a number, which each option that has them costs, or a number for each option; clasp, highs, cbc and glpsol are asked too, where they are on the path' '--all-costs:of --cost and wishes: each line that costs something, not only the ten that cost most')
            commands=() ;;
        'helgrothy timetable')
            options=('--help:show this help message and exit' '--daily:nobody has more than N lessons a day' '--number:the K-th solution instead of the first' '--random:one of all solutions, each as likely as any other' '--limit:the first N solutions' '--all:all solutions' '--count:only how many solutions there are' '--chances:in how many percent of all solutions each cell has what, or, without a picture, each option is chosen' '--unique:whether there is exactly one solution; if not, two' '--svg:a picture as SVG, of one solution' '--html:a page for a browser: the solutions, their pictures, and the search'\''s way' '--json:a line of JSON for each solution: its number, and the rows of the table that is drawn; where none is, the numbers of its options, their items, and the colours' '--csv:the table that is drawn as CSV; where none is, a line for each choice' '--options:of --json and --csv: the options, also where a table is drawn' '--seed:of --random: the same solution for the same number' '--seconds:give up after S seconds' '--with:only solutions with the option that has these items, as many as it takes to be clear; may be repeated' '--without:only solutions without the options that have all of these items, or patterns of them; may be repeated' '--shuffle:solutions in a random order of the options, the same for the same number' '--up-to-symmetry:one solution of those that are images of each other by turns and mirrors of the board or box' '--cost:the solution of least cost, from a file: lines of names of items (or patterns) and a number, which each option that has them costs, or a number for each option; clasp, highs, cbc and glpsol are asked too, where they are on the path' '--all-costs:of --cost and wishes: each line that costs something, not only the ten that cost most')
            commands=() ;;
        *) return 1 ;;
    esac
}

# What an option of a command takes.
_helgrothy_value() {
    value=
    case $1 in
        'helgrothy make sudoku --regions' | 'helgrothy make sudoku --cages' | 'helgrothy solve --cost' | 'helgrothy export --cost' | 'helgrothy hint sudoku --regions' | 'helgrothy hint sudoku --cages' | 'helgrothy minimal sudoku --regions' | 'helgrothy minimal sudoku --cages' | 'helgrothy sudoku --regions' | 'helgrothy sudoku --cages' | 'helgrothy sudoku --cost' | 'helgrothy queens --cost' | 'helgrothy langford --cost' | 'helgrothy polyominoes --cost' | 'helgrothy polyforms --cost' | 'helgrothy polycubes --cost' | 'helgrothy words --cost' | 'helgrothy wordsearch --cost' | 'helgrothy nonogram --cost' | 'helgrothy kakuro --cost' | 'helgrothy roster --cost' | 'helgrothy roundrobin --cost' | 'helgrothy tests --cost' | 'helgrothy timetable --cost')
            value='file' ;;
        'helgrothy make polyforms --grid' | 'helgrothy hint polyforms --grid' | 'helgrothy polyforms --grid')
            value='words hex triangle' ;;
        'helgrothy make polyforms --copies' | 'helgrothy make wordsearch --fill' | 'helgrothy make roster --in-a-row' | 'helgrothy make roster --days-off' | 'helgrothy make roundrobin --in-a-row' | 'helgrothy make tests --tests' | 'helgrothy make tests --strength' | 'helgrothy make timetable --daily' | 'helgrothy solve --number' | 'helgrothy solve --limit' | 'helgrothy solve --seed' | 'helgrothy solve --seconds' | 'helgrothy solve --with' | 'helgrothy solve --without' | 'helgrothy solve --shuffle' | 'helgrothy solve --cell' | 'helgrothy solve --row' | 'helgrothy solve --column' | 'helgrothy solve --label' | 'helgrothy draw --number' | 'helgrothy draw --cell' | 'helgrothy draw --row' | 'helgrothy draw --column' | 'helgrothy draw --label' | 'helgrothy why --seconds' | 'helgrothy count --megabytes' | 'helgrothy count --seconds' | 'helgrothy page --port' | 'helgrothy search --jobs' | 'helgrothy search --dask' | 'helgrothy search --seconds' | 'helgrothy search --rows' | 'helgrothy hint --with' | 'helgrothy hint --without' | 'helgrothy hint --seconds' | 'helgrothy hint sudoku --with' | 'helgrothy hint sudoku --without' | 'helgrothy hint sudoku --seconds' | 'helgrothy hint queens --with' | 'helgrothy hint queens --without' | 'helgrothy hint queens --seconds' | 'helgrothy hint langford --with' | 'helgrothy hint langford --without' | 'helgrothy hint langford --seconds' | 'helgrothy hint polyominoes --with' | 'helgrothy hint polyominoes --without' | 'helgrothy hint polyominoes --seconds' | 'helgrothy hint polyforms --copies' | 'helgrothy hint polyforms --with' | 'helgrothy hint polyforms --without' | 'helgrothy hint polyforms --seconds' | 'helgrothy hint polycubes --with' | 'helgrothy hint polycubes --without' | 'helgrothy hint polycubes --seconds' | 'helgrothy hint words --with' | 'helgrothy hint words --without' | 'helgrothy hint words --seconds' | 'helgrothy hint wordsearch --fill' | 'helgrothy hint wordsearch --with' | 'helgrothy hint wordsearch --without' | 'helgrothy hint wordsearch --seconds' | 'helgrothy hint nonogram --with' | 'helgrothy hint nonogram --without' | 'helgrothy hint nonogram --seconds' | 'helgrothy hint kakuro --with' | 'helgrothy hint kakuro --without' | 'helgrothy hint kakuro --seconds' | 'helgrothy hint roster --in-a-row' | 'helgrothy hint roster --days-off' | 'helgrothy hint roster --with' | 'helgrothy hint roster --without' | 'helgrothy hint roster --seconds' | 'helgrothy hint roundrobin --in-a-row' | 'helgrothy hint roundrobin --with' | 'helgrothy hint roundrobin --without' | 'helgrothy hint roundrobin --seconds' | 'helgrothy hint tests --tests' | 'helgrothy hint tests --strength' | 'helgrothy hint tests --with' | 'helgrothy hint tests --without' | 'helgrothy hint tests --seconds' | 'helgrothy hint timetable --daily' | 'helgrothy hint timetable --with' | 'helgrothy hint timetable --without' | 'helgrothy hint timetable --seconds' | 'helgrothy minimal --with' | 'helgrothy minimal --seed' | 'helgrothy minimal --seconds' | 'helgrothy minimal sudoku --with' | 'helgrothy minimal sudoku --seed' | 'helgrothy minimal sudoku --seconds' | 'helgrothy minimal nonogram --with' | 'helgrothy minimal nonogram --seed' | 'helgrothy minimal nonogram --seconds' | 'helgrothy minimal kakuro --with' | 'helgrothy minimal kakuro --seed' | 'helgrothy minimal kakuro --seconds' | 'helgrothy sudoku --number' | 'helgrothy sudoku --limit' | 'helgrothy sudoku --seed' | 'helgrothy sudoku --seconds' | 'helgrothy sudoku --with' | 'helgrothy sudoku --without' | 'helgrothy sudoku --shuffle' | 'helgrothy queens --number' | 'helgrothy queens --limit' | 'helgrothy queens --seed' | 'helgrothy queens --seconds' | 'helgrothy queens --with' | 'helgrothy queens --without' | 'helgrothy queens --shuffle' | 'helgrothy langford --number' | 'helgrothy langford --limit' | 'helgrothy langford --seed' | 'helgrothy langford --seconds' | 'helgrothy langford --with' | 'helgrothy langford --without' | 'helgrothy langford --shuffle' | 'helgrothy polyominoes --number' | 'helgrothy polyominoes --limit' | 'helgrothy polyominoes --seed' | 'helgrothy polyominoes --seconds' | 'helgrothy polyominoes --with' | 'helgrothy polyominoes --without' | 'helgrothy polyominoes --shuffle' | 'helgrothy polyforms --copies' | 'helgrothy polyforms --number' | 'helgrothy polyforms --limit' | 'helgrothy polyforms --seed' | 'helgrothy polyforms --seconds' | 'helgrothy polyforms --with' | 'helgrothy polyforms --without' | 'helgrothy polyforms --shuffle' | 'helgrothy polycubes --number' | 'helgrothy polycubes --limit' | 'helgrothy polycubes --seed' | 'helgrothy polycubes --seconds' | 'helgrothy polycubes --with' | 'helgrothy polycubes --without' | 'helgrothy polycubes --shuffle' | 'helgrothy words --number' | 'helgrothy words --limit' | 'helgrothy words --seed' | 'helgrothy words --seconds' | 'helgrothy words --with' | 'helgrothy words --without' | 'helgrothy words --shuffle' | 'helgrothy wordsearch --fill' | 'helgrothy wordsearch --number' | 'helgrothy wordsearch --limit' | 'helgrothy wordsearch --seed' | 'helgrothy wordsearch --seconds' | 'helgrothy wordsearch --with' | 'helgrothy wordsearch --without' | 'helgrothy wordsearch --shuffle' | 'helgrothy nonogram --number' | 'helgrothy nonogram --limit' | 'helgrothy nonogram --seed' | 'helgrothy nonogram --seconds' | 'helgrothy nonogram --with' | 'helgrothy nonogram --without' | 'helgrothy nonogram --shuffle' | 'helgrothy kakuro --number' | 'helgrothy kakuro --limit' | 'helgrothy kakuro --seed' | 'helgrothy kakuro --seconds' | 'helgrothy kakuro --with' | 'helgrothy kakuro --without' | 'helgrothy kakuro --shuffle' | 'helgrothy roster --in-a-row' | 'helgrothy roster --days-off' | 'helgrothy roster --number' | 'helgrothy roster --limit' | 'helgrothy roster --seed' | 'helgrothy roster --seconds' | 'helgrothy roster --with' | 'helgrothy roster --without' | 'helgrothy roster --shuffle' | 'helgrothy roundrobin --in-a-row' | 'helgrothy roundrobin --number' | 'helgrothy roundrobin --limit' | 'helgrothy roundrobin --seed' | 'helgrothy roundrobin --seconds' | 'helgrothy roundrobin --with' | 'helgrothy roundrobin --without' | 'helgrothy roundrobin --shuffle' | 'helgrothy tests --tests' | 'helgrothy tests --strength' | 'helgrothy tests --number' | 'helgrothy tests --limit' | 'helgrothy tests --seed' | 'helgrothy tests --seconds' | 'helgrothy tests --with' | 'helgrothy tests --without' | 'helgrothy tests --shuffle' | 'helgrothy timetable --daily' | 'helgrothy timetable --number' | 'helgrothy timetable --limit' | 'helgrothy timetable --seed' | 'helgrothy timetable --seconds' | 'helgrothy timetable --with' | 'helgrothy timetable --without' | 'helgrothy timetable --shuffle')
            value='words' ;;
        'helgrothy solve --grid' | 'helgrothy draw --grid')
            value='words square hex triangle' ;;
        'helgrothy lint --for' | 'helgrothy search --for')
            value='words dlx1 dlx2 dlx3' ;;
        'helgrothy search --folder' | 'helgrothy search --status' | 'helgrothy search --result')
            value='folder' ;;
        *) return 1 ;;
    esac
}

# What may stand in a place of a command's words.
_helgrothy_place() {
    value=
    case $1:$2 in
        'dlxcheck:1' | 'dlx-none:2' | 'helgrothy solve:1' | 'helgrothy draw:1' | 'helgrothy lint:1' | 'helgrothy export:2' | 'helgrothy why:1' | 'helgrothy count:1' | 'helgrothy search:1')
            value='problem' ;;
        'dlxcheck:2' | 'dlx-span:1' | 'dlx-count:1' | 'dlx-none:1')
            value='words 1 2 3' ;;
        'dlx-span:2' | 'dlx-join:1')
            value='words m0 m1' ;;
        'dlx-count:2')
            value='words b512 n1 o' ;;
        'dlx-count:3')
            value='words n1 o' ;;
        'dlx-none:4')
            value='words w' ;;
        'helgrothy:1')
            value='words make solve draw lint export why count page search hint minimal sudoku queens langford polyominoes polyforms polycubes words wordsearch nonogram kakuro roster roundrobin tests timetable' ;;
        'helgrothy make:1' | 'helgrothy hint:1')
            value='words sudoku queens langford polyominoes polyforms polycubes words wordsearch nonogram kakuro roster roundrobin tests timetable' ;;
        'helgrothy make polyominoes:1' | 'helgrothy hint polyominoes:1' | 'helgrothy polyominoes:1')
            value='file pentominoes tetrominoes' ;;
        'helgrothy make polyforms:1' | 'helgrothy hint polyforms:1' | 'helgrothy polyforms:1')
            value='file heptiamonds hexiamonds pentahexes pentiamonds tetrahexes tetriamonds trihexes' ;;
        'helgrothy make polycubes:1' | 'helgrothy hint polycubes:1' | 'helgrothy polycubes:1')
            value='file pentacubes pentominoes soma tetracubes tetrominoes' ;;
        'helgrothy export:1')
            value='words asp cnf lp opb' ;;
        'helgrothy minimal:1')
            value='words sudoku nonogram kakuro' ;;
        'dlx1:'* | 'dlx2:'* | 'dlx3:'*)
            value='words m1 m1000 t1 t2' ;;
        'dlx-join:'* | 'dlx-none:3' | 'helgrothy make sudoku:1' | 'helgrothy make queens:1' | 'helgrothy make polyominoes:2' | 'helgrothy make polyforms:2' | 'helgrothy make polycubes:2' | 'helgrothy make words:1' | 'helgrothy make words:2' | 'helgrothy make wordsearch:1' | 'helgrothy make wordsearch:2' | 'helgrothy make nonogram:1' | 'helgrothy make kakuro:1' | 'helgrothy make roster:1' | 'helgrothy make roundrobin:1' | 'helgrothy make tests:1' | 'helgrothy make timetable:1' | 'helgrothy hint sudoku:1' | 'helgrothy hint queens:1' | 'helgrothy hint polyominoes:2' | 'helgrothy hint polyforms:2' | 'helgrothy hint polycubes:2' | 'helgrothy hint words:1' | 'helgrothy hint words:2' | 'helgrothy hint wordsearch:1' | 'helgrothy hint wordsearch:2' | 'helgrothy hint nonogram:1' | 'helgrothy hint kakuro:1' | 'helgrothy hint roster:1' | 'helgrothy hint roundrobin:1' | 'helgrothy hint tests:1' | 'helgrothy hint timetable:1' | 'helgrothy minimal sudoku:1' | 'helgrothy minimal nonogram:1' | 'helgrothy minimal kakuro:1' | 'helgrothy sudoku:1' | 'helgrothy queens:1' | 'helgrothy polyominoes:2' | 'helgrothy polyforms:2' | 'helgrothy polycubes:2' | 'helgrothy words:1' | 'helgrothy words:2' | 'helgrothy wordsearch:1' | 'helgrothy wordsearch:2' | 'helgrothy nonogram:1' | 'helgrothy kakuro:1' | 'helgrothy roster:1' | 'helgrothy roundrobin:1' | 'helgrothy tests:1' | 'helgrothy timetable:1')
            value='file' ;;
    esac
}

_helgrothy "$@"
