# The commands of quadq and their options, for bash.
_quadq() {
    local word=${COMP_WORDS[COMP_CWORD]} words=
    if [ "$COMP_CWORD" -eq 1 ]; then
        words="tidy graph refine remesh check bench crease size coarse blocks map fit layout grids"
    else
        case ${COMP_WORDS[1]} in
            refine) words="--by" ;;
            remesh) words="--scale --floor --weight" ;;
            bench) words="--size" ;;
            crease) words="--scale --floor --weight" ;;
            size) words="--edge --floor" ;;
            coarse) words="--scale --floor --weight" ;;
            blocks) words="--by" ;;
            fit) words="--keep --patches --aim --floor --weight --spacing" ;;
            layout) words="--keep --patches" ;;
            grids) words="--keep --patches --by" ;;
        esac
        # The values of the option in front.
        case ${COMP_WORDS[COMP_CWORD - 1]} in
            --floor) words="1 2 3"; case ${COMP_WORDS[1]} in remesh | fit) words="$words auto" ;; esac ;;
            --weight) words="plain length" ;;
            --keep) words="none lines" ;;
            --patches) words="traced merged conforming" ;;
            --aim) words="scale: edge: lines" ;;
            --spacing) words="even wished" ;;
            --*) words= ;;
        esac
    fi
    mapfile -t COMPREPLY < <(compgen -W "$words" -- "$word")
}
complete -F _quadq quadq
