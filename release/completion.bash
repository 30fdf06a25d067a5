# Completion of the words of programs and commands in bash, 4.3 or later, which needs nothing else. Made by scripts/completion: changes belong there.

# Files that end with .dlx, and folders on the way to them; where there are none of these, any file.
_dlx_problem() {
    compopt -o filenames
    mapfile -t COMPREPLY < <(compgen -f -X '!*.dlx' -- "$1"; compgen -d -- "$1")
    [[ ${COMPREPLY[*]} ]] || mapfile -t COMPREPLY < <(compgen -f -- "$1")
}

# Completes a word as what it may be: words, behind `file` those or a file, `problem` or `folder`.
_dlx_complete() {
    case $1 in
        problem) _dlx_problem "$2" ;;
        folder) compopt -o filenames; mapfile -t COMPREPLY < <(compgen -d -- "$2") ;;
        file) compopt -o default ;;
        file*) compopt -o filenames; mapfile -t COMPREPLY < <(compgen -W "${1#* }" -- "$2"; compgen -f -- "$2") ;;
        words*) mapfile -t COMPREPLY < <(compgen -W "${1#words}" -- "$2") ;;
    esac
}

_dlx() {
    local word=$2 path=${COMP_WORDS[0]##*/} place=1 at given value options
    COMPREPLY=()
    case $3 in
        '<') _dlx_complete problem "$word"; return ;;
        *[\<\>]) compopt -o default; return ;;
    esac
    for ((at = 1; at < COMP_CWORD; at++)); do
        given=${COMP_WORDS[at]}
        if [[ $given == *[\<\>] ]]; then
            ((at++))
        elif _dlx_value "$path $given"; then
            [[ ${COMP_WORDS[at + 1]} == = ]] && ((at++))
            if ((++at >= COMP_CWORD)); then
                _dlx_complete "$value" "${word#=}"
                return
            fi
        elif [[ $given != -?* ]]; then
            if _dlx_options "$path $given"; then
                path+=" $given" place=1
            else
                ((place++))
            fi
        fi
    done
    _dlx_place "$path" "$place"
    if [[ $word == -* || -z $value ]]; then
        _dlx_options "$path"
        value="words $options"
    fi
    _dlx_complete "$value" "$word"
}

# The options of a command, which is none where there is no such command.
_dlx_options() {
    options=
    case $1 in
        'dlx1' | 'dlx2' | 'dlx3' | 'dlxcheck' | 'dlx-span' | 'dlx-join' | 'dlx-count' | 'dlx-none')
            options='' ;;
        'helgrothy')
            options='--help --version' ;;
        'helgrothy make' | 'helgrothy make queens' | 'helgrothy make langford' | 'helgrothy make words' | 'helgrothy make nonogram' | 'helgrothy make kakuro')
            options='--help' ;;
        'helgrothy make sudoku')
            options='--help --regions --cages --diagonals' ;;
        'helgrothy make polyominoes')
            options='--help --no-turns --no-mirrors --some' ;;
        'helgrothy make polyforms')
            options='--help --grid --one-sided --copies --no-turns --no-mirrors --some' ;;
        'helgrothy make polycubes')
            options='--help --mirrors --some' ;;
        'helgrothy make wordsearch')
            options='--help --forwards --fill' ;;
        'helgrothy make roster')
            options='--help --rest --in-a-row --days-off' ;;
        'helgrothy make roundrobin')
            options='--help --double --in-a-row' ;;
        'helgrothy make tests')
            options='--help --tests --strength' ;;
        'helgrothy make timetable')
            options='--help --daily' ;;
        'helgrothy solve')
            options='--help --number --random --limit --all --count --chances --unique --svg --html --json --csv --options --seed --seconds --with --without --shuffle --up-to-symmetry --cost --all-costs --cell --grid --row --column --label' ;;
        'helgrothy draw')
            options='--help --number --svg --html --json --csv --options --listing --cell --grid --row --column --label' ;;
        'helgrothy lint')
            options='--help --for' ;;
        'helgrothy export')
            options='--help --cost' ;;
        'helgrothy why')
            options='--help --seconds' ;;
        'helgrothy count')
            options='--help --json --megabytes --seconds' ;;
        'helgrothy page')
            options='--help --port' ;;
        'helgrothy search')
            options='--help --list --jobs --dask --seconds --folder --for --status --result --rows' ;;
        'helgrothy hint' | 'helgrothy hint queens' | 'helgrothy hint langford' | 'helgrothy hint words' | 'helgrothy hint nonogram' | 'helgrothy hint kakuro')
            options='--help --with --without --seconds' ;;
        'helgrothy hint sudoku')
            options='--help --regions --cages --diagonals --with --without --seconds' ;;
        'helgrothy hint polyominoes')
            options='--help --no-turns --no-mirrors --some --with --without --seconds' ;;
        'helgrothy hint polyforms')
            options='--help --grid --one-sided --copies --no-turns --no-mirrors --some --with --without --seconds' ;;
        'helgrothy hint polycubes')
            options='--help --mirrors --some --with --without --seconds' ;;
        'helgrothy hint wordsearch')
            options='--help --forwards --fill --with --without --seconds' ;;
        'helgrothy hint roster')
            options='--help --rest --in-a-row --days-off --with --without --seconds' ;;
        'helgrothy hint roundrobin')
            options='--help --double --in-a-row --with --without --seconds' ;;
        'helgrothy hint tests')
            options='--help --tests --strength --with --without --seconds' ;;
        'helgrothy hint timetable')
            options='--help --daily --with --without --seconds' ;;
        'helgrothy minimal' | 'helgrothy minimal nonogram' | 'helgrothy minimal kakuro')
            options='--help --with --seed --seconds' ;;
        'helgrothy minimal sudoku')
            options='--help --regions --cages --diagonals --with --seed --seconds' ;;
        'helgrothy sudoku')
            options='--help --regions --cages --diagonals --number --random --limit --all --count --chances --unique --svg --html --json --csv --options --seed --seconds --with --without --shuffle --up-to-symmetry --cost --all-costs' ;;
        'helgrothy queens' | 'helgrothy langford' | 'helgrothy words' | 'helgrothy nonogram' | 'helgrothy kakuro')
            options='--help --number --random --limit --all --count --chances --unique --svg --html --json --csv --options --seed --seconds --with --without --shuffle --up-to-symmetry --cost --all-costs' ;;
        'helgrothy polyominoes')
            options='--help --no-turns --no-mirrors --some --number --random --limit --all --count --chances --unique --svg --html --json --csv --options --seed --seconds --with --without --shuffle --up-to-symmetry --cost --all-costs' ;;
        'helgrothy polyforms')
            options='--help --grid --one-sided --copies --no-turns --no-mirrors --some --number --random --limit --all --count --chances --unique --svg --html --json --csv --options --seed --seconds --with --without --shuffle --up-to-symmetry --cost --all-costs' ;;
        'helgrothy polycubes')
            options='--help --mirrors --some --number --random --limit --all --count --chances --unique --svg --html --json --csv --options --seed --seconds --with --without --shuffle --up-to-symmetry --cost --all-costs' ;;
        'helgrothy wordsearch')
            options='--help --forwards --fill --number --random --limit --all --count --chances --unique --svg --html --json --csv --options --seed --seconds --with --without --shuffle --up-to-symmetry --cost --all-costs' ;;
        'helgrothy roster')
            options='--help --rest --in-a-row --days-off --number --random --limit --all --count --chances --unique --svg --html --json --csv --options --seed --seconds --with --without --shuffle --up-to-symmetry --cost --all-costs' ;;
        'helgrothy roundrobin')
            options='--help --double --in-a-row --number --random --limit --all --count --chances --unique --svg --html --json --csv --options --seed --seconds --with --without --shuffle --up-to-symmetry --cost --all-costs' ;;
        'helgrothy tests')
            options='--help --tests --strength --least --number --random --limit --all --count --chances --unique --svg --html --json --csv --options --seed --seconds --with --without --shuffle --up-to-symmetry --cost --all-costs' ;;
        'helgrothy timetable')
            options='--help --daily --number --random --limit --all --count --chances --unique --svg --html --json --csv --options --seed --seconds --with --without --shuffle --up-to-symmetry --cost --all-costs' ;;
        *) return 1 ;;
    esac
}

# What an option of a command takes.
_dlx_value() {
    value=
    case $1 in
        'helgrothy make sudoku --regions' | 'helgrothy make sudoku --cages' | 'helgrothy solve --cost' | 'helgrothy export --cost' | 'helgrothy hint sudoku --regions' | 'helgrothy hint sudoku --cages' | 'helgrothy minimal sudoku --regions' | 'helgrothy minimal sudoku --cages' | 'helgrothy sudoku --regions' | 'helgrothy sudoku --cages' | 'helgrothy sudoku --cost' | 'helgrothy queens --cost' | 'helgrothy langford --cost' | 'helgrothy polyominoes --cost' | 'helgrothy polyforms --cost' | 'helgrothy polycubes --cost' | 'helgrothy words --cost' | 'helgrothy wordsearch --cost' | 'helgrothy nonogram --cost' | 'helgrothy kakuro --cost' | 'helgrothy roster --cost' | 'helgrothy roundrobin --cost' | 'helgrothy tests --cost' | 'helgrothy timetable --cost')
            value='file' ;;
        'helgrothy make polyforms --grid' | 'helgrothy hint polyforms --grid' | 'helgrothy polyforms --grid')
            value='words hex triangle' ;;
        'helgrothy make polyforms --copies' | 'helgrothy make wordsearch --fill' | 'helgrothy make roster --in-a-row' | 'helgrothy make roster --days-off' | 'helgrothy make roundrobin --in-a-row' | 'helgrothy make tests --tests' | 'helgrothy make tests --strength' | 'helgrothy make timetable --daily' | 'helgrothy solve --number' | 'helgrothy solve --limit' | 'helgrothy solve --seed' | 'helgrothy solve --seconds' | 'helgrothy solve --with' | 'helgrothy solve --without' | 'helgrothy solve --shuffle' | 'helgrothy solve --cell' | 'helgrothy solve --row' | 'helgrothy solve --column' | 'helgrothy solve --label' | 'helgrothy draw --number' | 'helgrothy draw --cell' | 'helgrothy draw --row' | 'helgrothy draw --column' | 'helgrothy draw --label' | 'helgrothy why --seconds' | 'helgrothy count --megabytes' | 'helgrothy count --seconds' | 'helgrothy page --port' | 'helgrothy search --jobs' | 'helgrothy search --dask' | 'helgrothy search --seconds' | 'helgrothy search --rows' | 'helgrothy hint --with' | 'helgrothy hint --without' | 'helgrothy hint --seconds' | 'helgrothy hint sudoku --with' | 'helgrothy hint sudoku --without' | 'helgrothy hint sudoku --seconds' | 'helgrothy hint queens --with' | 'helgrothy hint queens --without' | 'helgrothy hint queens --seconds' | 'helgrothy hint langford --with' | 'helgrothy hint langford --without' | 'helgrothy hint langford --seconds' | 'helgrothy hint polyominoes --with' | 'helgrothy hint polyominoes --without' | 'helgrothy hint polyominoes --seconds' | 'helgrothy hint polyforms --copies' | 'helgrothy hint polyforms --with' | 'helgrothy hint polyforms --without' | 'helgrothy hint polyforms --seconds' | 'helgrothy hint polycubes --with' | 'helgrothy hint polycubes --without' | 'helgrothy hint polycubes --seconds' | 'helgrothy hint words --with' | 'helgrothy hint words --without' | 'helgrothy hint words --seconds' | 'helgrothy hint wordsearch --fill' | 'helgrothy hint wordsearch --with' | 'helgrothy hint wordsearch --without' | 'helgrothy hint wordsearch --seconds' | 'helgrothy hint nonogram --with' | 'helgrothy hint nonogram --without' | 'helgrothy hint nonogram --seconds' | 'helgrothy hint kakuro --with' | 'helgrothy hint kakuro --without' | 'helgrothy hint kakuro --seconds' | 'helgrothy hint roster --in-a-row' | 'helgrothy hint roster --days-off' | 'helgrothy hint roster --with' | 'helgrothy hint roster --without' | 'helgrothy hint roster --seconds' | 'helgrothy hint roundrobin --in-a-row' | 'helgrothy hint roundrobin --with' | 'helgrothy hint roundrobin --without' | 'helgrothy hint roundrobin --seconds' | 'helgrothy hint tests --tests' | 'helgrothy hint tests --strength' | 'helgrothy hint tests --with' | 'helgrothy hint tests --without' | 'helgrothy hint tests --seconds' | 'helgrothy hint timetable --daily' | 'helgrothy hint timetable --with' | 'helgrothy hint timetable --without' | 'helgrothy hint timetable --seconds' | 'helgrothy minimal --with' | 'helgrothy minimal --seed' | 'helgrothy minimal --seconds' | 'helgrothy minimal sudoku --with' | 'helgrothy minimal sudoku --seed' | 'helgrothy minimal sudoku --seconds' | 'helgrothy minimal nonogram --with' | 'helgrothy minimal nonogram --seed' | 'helgrothy minimal nonogram --seconds' | 'helgrothy minimal kakuro --with' | 'helgrothy minimal kakuro --seed' | 'helgrothy minimal kakuro --seconds' | 'helgrothy sudoku --number' | 'helgrothy sudoku --limit' | 'helgrothy sudoku --seed' | 'helgrothy sudoku --seconds' | 'helgrothy sudoku --with' | 'helgrothy sudoku --without' | 'helgrothy sudoku --shuffle' | 'helgrothy queens --number' | 'helgrothy queens --limit' | 'helgrothy queens --seed' | 'helgrothy queens --seconds' | 'helgrothy queens --with' | 'helgrothy queens --without' | 'helgrothy queens --shuffle' | 'helgrothy langford --number' | 'helgrothy langford --limit' | 'helgrothy langford --seed' | 'helgrothy langford --seconds' | 'helgrothy langford --with' | 'helgrothy langford --without' | 'helgrothy langford --shuffle' | 'helgrothy polyominoes --number' | 'helgrothy polyominoes --limit' | 'helgrothy polyominoes --seed' | 'helgrothy polyominoes --seconds' | 'helgrothy polyominoes --with' | 'helgrothy polyominoes --without' | 'helgrothy polyominoes --shuffle' | 'helgrothy polyforms --copies' | 'helgrothy polyforms --number' | 'helgrothy polyforms --limit' | 'helgrothy polyforms --seed' | 'helgrothy polyforms --seconds' | 'helgrothy polyforms --with' | 'helgrothy polyforms --without' | 'helgrothy polyforms --shuffle' | 'helgrothy polycubes --number' | 'helgrothy polycubes --limit' | 'helgrothy polycubes --seed' | 'helgrothy polycubes --seconds' | 'helgrothy polycubes --with' | 'helgrothy polycubes --without' | 'helgrothy polycubes --shuffle' | 'helgrothy words --number' | 'helgrothy words --limit' | 'helgrothy words --seed' | 'helgrothy words --seconds' | 'helgrothy words --with' | 'helgrothy words --without' | 'helgrothy words --shuffle' | 'helgrothy wordsearch --fill' | 'helgrothy wordsearch --number' | 'helgrothy wordsearch --limit' | 'helgrothy wordsearch --seed' | 'helgrothy wordsearch --seconds' | 'helgrothy wordsearch --with' | 'helgrothy wordsearch --without' | 'helgrothy wordsearch --shuffle' | 'helgrothy nonogram --number' | 'helgrothy nonogram --limit' | 'helgrothy nonogram --seed' | 'helgrothy nonogram --seconds' | 'helgrothy nonogram --with' | 'helgrothy nonogram --without' | 'helgrothy nonogram --shuffle' | 'helgrothy kakuro --number' | 'helgrothy kakuro --limit' | 'helgrothy kakuro --seed' | 'helgrothy kakuro --seconds' | 'helgrothy kakuro --with' | 'helgrothy kakuro --without' | 'helgrothy kakuro --shuffle' | 'helgrothy roster --in-a-row' | 'helgrothy roster --days-off' | 'helgrothy roster --number' | 'helgrothy roster --limit' | 'helgrothy roster --seed' | 'helgrothy roster --seconds' | 'helgrothy roster --with' | 'helgrothy roster --without' | 'helgrothy roster --shuffle' | 'helgrothy roundrobin --in-a-row' | 'helgrothy roundrobin --number' | 'helgrothy roundrobin --limit' | 'helgrothy roundrobin --seed' | 'helgrothy roundrobin --seconds' | 'helgrothy roundrobin --with' | 'helgrothy roundrobin --without' | 'helgrothy roundrobin --shuffle' | 'helgrothy tests --tests' | 'helgrothy tests --strength' | 'helgrothy tests --number' | 'helgrothy tests --limit' | 'helgrothy tests --seed' | 'helgrothy tests --seconds' | 'helgrothy tests --with' | 'helgrothy tests --without' | 'helgrothy tests --shuffle' | 'helgrothy timetable --daily' | 'helgrothy timetable --number' | 'helgrothy timetable --limit' | 'helgrothy timetable --seed' | 'helgrothy timetable --seconds' | 'helgrothy timetable --with' | 'helgrothy timetable --without' | 'helgrothy timetable --shuffle')
            value='words' ;;
        'helgrothy solve --grid' | 'helgrothy draw --grid')
            value='words square hex triangle' ;;
        'helgrothy lint --for' | 'helgrothy search --for')
            value='words dlx1 dlx2 dlx3' ;;
        'helgrothy search --folder' | 'helgrothy search --status' | 'helgrothy search --result')
            value='folder' ;;
        *) return 1 ;;
    esac
}

# What may stand in a place of a command's words.
_dlx_place() {
    value=
    case $1:$2 in
        'dlxcheck:1' | 'dlx-none:2' | 'helgrothy solve:1' | 'helgrothy draw:1' | 'helgrothy lint:1' | 'helgrothy export:2' | 'helgrothy why:1' | 'helgrothy count:1' | 'helgrothy search:1')
            value='problem' ;;
        'dlxcheck:2' | 'dlx-span:1' | 'dlx-count:1' | 'dlx-none:1')
            value='words 1 2 3' ;;
        'dlx-span:2' | 'dlx-join:1')
            value='words m0 m1' ;;
        'dlx-count:2')
            value='words b512 n1 o' ;;
        'dlx-count:3')
            value='words n1 o' ;;
        'dlx-none:4')
            value='words w' ;;
        'helgrothy:1')
            value='words make solve draw lint export why count page search hint minimal sudoku queens langford polyominoes polyforms polycubes words wordsearch nonogram kakuro roster roundrobin tests timetable' ;;
        'helgrothy make:1' | 'helgrothy hint:1')
            value='words sudoku queens langford polyominoes polyforms polycubes words wordsearch nonogram kakuro roster roundrobin tests timetable' ;;
        'helgrothy make polyominoes:1' | 'helgrothy hint polyominoes:1' | 'helgrothy polyominoes:1')
            value='file pentominoes tetrominoes' ;;
        'helgrothy make polyforms:1' | 'helgrothy hint polyforms:1' | 'helgrothy polyforms:1')
            value='file heptiamonds hexiamonds pentahexes pentiamonds tetrahexes tetriamonds trihexes' ;;
        'helgrothy make polycubes:1' | 'helgrothy hint polycubes:1' | 'helgrothy polycubes:1')
            value='file pentacubes pentominoes soma tetracubes tetrominoes' ;;
        'helgrothy export:1')
            value='words asp cnf lp opb' ;;
        'helgrothy minimal:1')
            value='words sudoku nonogram kakuro' ;;
        'dlx1:'* | 'dlx2:'* | 'dlx3:'*)
            value='words m1 m1000 t1 t2' ;;
        'dlx-join:'* | 'dlx-none:3' | 'helgrothy make sudoku:1' | 'helgrothy make queens:1' | 'helgrothy make polyominoes:2' | 'helgrothy make polyforms:2' | 'helgrothy make polycubes:2' | 'helgrothy make words:1' | 'helgrothy make words:2' | 'helgrothy make wordsearch:1' | 'helgrothy make wordsearch:2' | 'helgrothy make nonogram:1' | 'helgrothy make kakuro:1' | 'helgrothy make roster:1' | 'helgrothy make roundrobin:1' | 'helgrothy make tests:1' | 'helgrothy make timetable:1' | 'helgrothy hint sudoku:1' | 'helgrothy hint queens:1' | 'helgrothy hint polyominoes:2' | 'helgrothy hint polyforms:2' | 'helgrothy hint polycubes:2' | 'helgrothy hint words:1' | 'helgrothy hint words:2' | 'helgrothy hint wordsearch:1' | 'helgrothy hint wordsearch:2' | 'helgrothy hint nonogram:1' | 'helgrothy hint kakuro:1' | 'helgrothy hint roster:1' | 'helgrothy hint roundrobin:1' | 'helgrothy hint tests:1' | 'helgrothy hint timetable:1' | 'helgrothy minimal sudoku:1' | 'helgrothy minimal nonogram:1' | 'helgrothy minimal kakuro:1' | 'helgrothy sudoku:1' | 'helgrothy queens:1' | 'helgrothy polyominoes:2' | 'helgrothy polyforms:2' | 'helgrothy polycubes:2' | 'helgrothy words:1' | 'helgrothy words:2' | 'helgrothy wordsearch:1' | 'helgrothy wordsearch:2' | 'helgrothy nonogram:1' | 'helgrothy kakuro:1' | 'helgrothy roster:1' | 'helgrothy roundrobin:1' | 'helgrothy tests:1' | 'helgrothy timetable:1')
            value='file' ;;
    esac
}

complete -F _dlx dlx1 dlx2 dlx3 dlxcheck dlx-span dlx-join dlx-count dlx-none helgrothy
