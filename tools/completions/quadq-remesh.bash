# The options of quadq-remesh, for bash. Made by tools/front_pages from its parser.
_quadq_remesh() {
    local word=${COMP_WORDS[COMP_CWORD]}
    # The values of the option in front.
    case ${COMP_WORDS[COMP_CWORD - 1]} in
        --scale) return ;;
        --faces) return ;;
        --edge) return ;;
        --lods) return ;;
        --within) return ;;
        --size) return ;;
        --mode) mapfile -t COMPREPLY < <(compgen -W "shape scale even" -- "$word"); return ;;
        --density) return ;;
        --region) return ;;
        --floor) mapfile -t COMPREPLY < <(compgen -W "1 2 3 auto" -- "$word"); return ;;
        --weight) mapfile -t COMPREPLY < <(compgen -W "plain length" -- "$word"); return ;;
        --sharp) return ;;
        --mirror) mapfile -t COMPREPLY < <(compgen -W "x y z" -- "$word"); return ;;
        --symmetry) mapfile -t COMPREPLY < <(compgen -W "x y z auto off" -- "$word"); return ;;
        --relax) return ;;
        --keep) return ;;
        --report) return ;;
        --up) mapfile -t COMPREPLY < <(compgen -W "y z" -- "$word"); return ;;
        --format) mapfile -t COMPREPLY < <(compgen -W "gmsh22 gmsh" -- "$word"); return ;;
        --out) return ;;
        --table) return ;;
        --log) return ;;
        --pattern) return ;;
        --timeout) return ;;
        --jobs) return ;;
    esac
    case $word in
        -*) mapfile -t COMPREPLY < <(compgen -W "-h --help --scale --faces --edge --lods --within --size --mode --even --density --region --floor --weight --sharp --materials --groups --seams --normals --lines --no-corners --free-groups --coarse --subdivide --mirror --symmetry --round --relax --keep --report --up --carry --format --out --table --log --resume --recursive --pattern --timeout --jobs --quiet --version" -- "$word") ;;
    esac
}
complete -o bashdefault -o default -F _quadq_remesh quadq-remesh
